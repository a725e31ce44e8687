/* What the files of the extension module share: a collection, its nodes, keys and readings.
 *
 * A collection has two tables of the library, both of words: one of ints from -2^63 to 2^63 - 1, and one of Python's hashes, for
 * all other keys. A pair is a node. The value in a table is the address of the first node of a chain: the nodes of one word,
 * more than one only if several keys have the same hash. A node holds its key, so the object that was put is returned.
 *
 * Releasing, comparing or printing a foreign object may run Python code, and that code may change the collection. So each
 * function here first updates the tables and the nodes, and then releases objects; it holds a reference to whatever it uses
 * afterwards. */
#ifndef BUCKET_COLLECTION_H
#define BUCKET_COLLECTION_H

#define PY_SSIZE_T_CLEAN
#include <Python.h>
#include <structmember.h>

#include <bucket.h>

/* A pair. In a set `value` is NULL. `next` is the next node of the chain or, for a node in no table, the next one to be
 * released. */
typedef struct Node {
    PyObject *key;
    PyObject *value;
    struct Node *next;
} Node;

/* A pair of a cache, and its neighbours in LRU order. */
typedef struct Used {
    Node node;
    struct Used *before;
    struct Used *after;
} Used;

/* The state of a module: one for each interpreter, or more if the module is imported again. Its collections share it, since at
 * the end of the interpreter the garbage collector may free the module first; the types are NULL then. */
typedef struct State {
    Py_ssize_t holders; /* how many collections there are, and the module */
    PyTypeObject *map, *set, *cache;
    PyTypeObject *keys, *values, *items, *iterator;
    PyObject *make_map;   /* the module's _map_of */
    PyObject *make_set;   /* the module's _set_of */
    PyObject *make_cache; /* the module's _cache_of */
    PyObject *cache_info; /* the named tuple of cache_info() */
    bucket_seed seed;
    bool is_drawn;    /* the seed is random, and each table gets another one */
    Py_ssize_t nodes; /* how many there are */
    int depth;        /* how many calls of nodes_drop are running */
    Node *waiting;    /* what the outermost one has yet to release */
} State;

enum { WORDS, HASHED, KINDS };

/* A map, a set or a cache. */
typedef struct Table {
    PyObject_HEAD
    State *state;
    bucket_handle handles[KINDS]; /* a closed one has no pair yet */
    size_t lens[KINDS];           /* how many pairs each has */
    uint64_t version;             /* changes with each call that adds or removes a pair */
    bucket_place spot;            /* where the last popitem found a pair */
    bool is_cache;
    PyObject *weakrefs;
} Table;

typedef struct Cache {
    Table table;
    Used order; /* its `after` was touched longest ago, its `before` last */
    size_t maxsize;
    uint64_t hits, misses;
} Cache;

/* ---- keys.c ---- */

/* How a key is stored in a table. */
typedef struct Key {
    int kind;
    uint64_t word;
    /* For HASHED: the object, which the caller holds, and the one of int, str and bytes that is its type or a base of it. */
    PyObject *object;
    PyTypeObject *base;
} Key;

typedef enum { KEY_ERROR = -1, KEY_NONE, KEY_OK } KeyCode;

/* KEY_OK; KEY_NONE: the object is not a key, so no pair has it; KEY_ERROR: an exception is set. */
KeyCode key_of(Key *key, PyObject *object);
/* The key of a pair. No other code runs, and it doesn't fail. */
void key_of_node(Key *key, const Node *node);
/* Whether an object that was put, and has the word of a key of HASHED, is the same key. No other code runs. */
bool key_equals(const Key *key, PyObject *object);
/* Raises the exception that says why an object is not a key. Returns -1. */
int key_refused(PyObject *object);
/* Raises KeyError. */
void key_missing(PyObject *object);

/* ---- table.c ---- */

static inline size_t table_len(const Table *table) {
    return table->lens[WORDS] + table->lens[HASHED];
}

/* How many slots the library has taken. */
static inline size_t table_capacity(const Table *table) {
    return bucket_capacity(&table->handles[WORDS]) + bucket_capacity(&table->handles[HASHED]);
}

/* Allocates a node for a pair, or returns NULL with MemoryError. It holds both objects. */
Node *node_new(const Table *table, PyObject *key, PyObject *value);
/* Frees nodes that are in no table, linked by `next`, and releases their objects: this may run any Python code. */
void nodes_drop(State *state, Node *nodes);

/* Raises the exception for a code that reports a failure. Returns -1. */
int code_refused(uint32_t code);

/* 1, and the node of a key; 0: the key is absent, and `node` is the last one of its chain, or NULL if there is none; -1: an
 * exception is set. No pair is touched. */
int table_find(const Table *table, const Key *key, Node **node);
/* Removes the node of a key: 1. 0: the key is absent; -1: an exception is set. */
int table_take(Table *table, const Key *key, Node **node);
/* Like table_find and table_take, for an object that may not be a key. In a cache the pair is touched if `touches`. */
int table_look(Table *table, PyObject *object, bool touches, Node **node);
int table_remove(Table *table, PyObject *object, Node **node);
/* Opens the table of words, or that of hashes: a code of the library's. */
uint32_t table_open(Table *table, int kind);
/* Puts a value under a key, and `node` is its pair. 1: the key was present, and `earlier` gets its earlier value, which the
 * caller releases; 0: it was absent; -1: an exception is set, and nothing has changed. No pair is touched. */
int table_put_at(Table *table, const Key *at, PyObject *key, PyObject *value, Node **node, PyObject **earlier);
/* Puts a value under a key, also in a cache. 0 or -1. */
int table_put(Table *table, PyObject *key, PyObject *value);
/* Removes any node: 1; in a cache the one touched longest ago. 0: there is none; -1: an exception is set. */
int table_take_some(Table *table, Node **node);
/* Removes all nodes, and returns them linked by `next`. */
Node *table_take_all(Table *table);
/* Exchanges what two collections of one type hold. */
void table_exchange(Table *left, Table *right);

/* ---- room.c ---- */

/* How many keys of each kind an object yields, as far as that is known in advance. */
typedef struct Coming {
    size_t lens[KINDS];
    bool is_sure; /* they are keys, and each occurs once */
} Coming;

/* Known for a collection or its view, a dict, set, list or tuple; 0 for another object, and for few keys. The keys are the
 * object's items, or the first parts of pairs. No other code runs, and no exception is set. */
Coming coming_of(const State *state, PyObject *object, bool are_pairs);
/* Makes room for the coming pairs, in addition to those present, and in a cache for as many as it may have. 0; -1: MemoryError,
 * and nothing has changed. If their number isn't certain, room is made for the first pairs only, and may not suffice. */
int table_make_room(Table *table, Coming *coming);
/* Frees room that is mostly unused, after all pairs have come. */
void table_give_back(Table *table, const Coming *coming);

/* ---- reading.c ---- */

enum { PIECE = 64 };

/* The progress of a reading of all nodes. */
typedef struct Reading {
    Table *table;
    uint64_t version;
    int kind;
    bucket_place place;
    size_t at, count;
    Node **all; /* of a cache that others may touch meanwhile */
    Node *rest; /* of the chain that is being read */
    uint64_t firsts[PIECE];
} Reading;

/* Begins a reading during which no other code runs: reading_next returns each node once, then NULL. */
void reading_begin(Reading *reading, Table *table);
/* Begins a reading during which other code may run. 0; -1: MemoryError. reading_end ends it. A cache is read in LRU order. */
int reading_begin_shared(Reading *reading, Table *table);
void reading_end(Reading *reading);
Node *reading_next(Reading *reading);
/* The next node of a shared reading; NULL at the end, or with RuntimeError after a pair was added or removed. */
Node *reading_step(Reading *reading);

/* ---- kinds.c ---- */

State *state_of_module(PyObject *module);
/* The seed of a table to be opened. */
bucket_seed next_seed(State *state);
/* Releases a state, which the last holder frees. */
void state_leave(State *state);
/* The module's state, found by one of its types or a subclass; NULL for any other type. No exception is set. */
State *state_of_type(PyTypeObject *type);
State *state_of(PyObject *left, PyObject *right);
/* An empty collection of a type. */
Table *table_new(State *state, PyTypeObject *type);
bool is_map(const State *state, PyObject *object);
bool is_set(const State *state, PyObject *object);
bool is_cache(const State *state, PyObject *object);
PyObject *collection_new(PyTypeObject *type, PyObject *args, PyObject *kwargs);
void collection_dealloc(PyObject *self);
int collection_traverse(PyObject *self, visitproc visit, void *arg);
int collection_clear(PyObject *self);
Py_ssize_t collection_len(PyObject *self);
int collection_contains(PyObject *self, PyObject *key);
PyObject *collection_iter(PyObject *self);
PyObject *collection_sizeof(PyObject *self, PyObject *unused);
/* The attributes of a collection, as a pickle stores them; a new reference, Py_None if there are none. */
PyObject *collection_attributes(PyObject *self);

/* ---- pairs.c: what maps and caches share ---- */

PyObject *pairs_subscript(PyObject *self, PyObject *key);
int pairs_ass_subscript(PyObject *self, PyObject *key, PyObject *value);
PyObject *pairs_get(PyObject *self, PyObject *const *args, Py_ssize_t count);
PyObject *pairs_setdefault(PyObject *self, PyObject *const *args, Py_ssize_t count);
PyObject *pairs_pop(PyObject *self, PyObject *const *args, Py_ssize_t count);
PyObject *pairs_popitem(PyObject *self, PyObject *unused);
PyObject *pairs_update(PyObject *self, PyObject *args, PyObject *kwargs);
PyObject *pairs_keys(PyObject *self, PyObject *unused);
PyObject *pairs_values(PyObject *self, PyObject *unused);
PyObject *pairs_items(PyObject *self, PyObject *unused);
PyObject *pairs_compare(PyObject *self, PyObject *other, int op);
PyObject *pair_of(PyObject *key, PyObject *value);

/* ---- merging.c ---- */

/* Inserts the pairs of a mapping, or of an iterable of pairs. 0; -1: an exception is set, and the pairs before it are inserted. */
int table_merge(Table *table, PyObject *other);
/* A new dict of a collection's pairs. */
PyObject *dict_of(Table *table);
/* Whether an object is a dict, or a map or a cache of the module. */
bool has_pairs(const State *state, PyObject *object);

/* ---- iterating.c ---- */

typedef enum { GIVES_KEYS, GIVES_VALUES, GIVES_ITEMS } Gives;
PyObject *iterator_new(Table *table, Gives gives);
extern PyType_Spec iterator_spec;

/* ---- views.c ---- */

PyObject *view_new(Table *table, PyTypeObject *type);
/* What a view shows. */
const Table *table_of_view(PyObject *view);
bool is_set_like(const State *state, PyObject *object);
extern PyType_Spec keys_spec, values_spec, items_spec;

/* What sets and views of keys and of pairs share. */
PyObject *set_like_compare(PyObject *self, PyObject *other, int op);
PyObject *set_like_isdisjoint(PyObject *self, PyObject *other);
/* Whether each item of one is in the other: 1, 0, -1. */
int are_all_in(PyObject *items, PyObject *other);

/* ---- map.c, set.c, cache.c ---- */

extern PyType_Spec map_spec, set_spec, cache_spec;

/* Puts the keys of an iterable into a set. 0 or -1. */
int set_add_all(Table *set, PyObject *keys);

/* Like table_find, but a present pair is touched. */
int cache_touch(Cache *cache, const Key *key, Node **node);
/* Puts a pair, which is then the last one touched. `gone` gets the evicted node, which the caller drops, or NULL. 0; -1: an
 * exception is set, and nothing has changed. */
int cache_put(Cache *cache, PyObject *key, PyObject *value, Node **gone);
void order_begin(Cache *cache);
void order_leave(Used *used);
PyObject *cache_made(PyObject *module, PyObject *args);
PyObject *map_made(PyObject *module, PyObject *args);
PyObject *set_made(PyObject *module, PyObject *args);

/* ---- algebra.c ---- */

PyObject *set_or(PyObject *left, PyObject *right);
PyObject *set_and(PyObject *left, PyObject *right);
PyObject *set_minus(PyObject *left, PyObject *right);
PyObject *set_xor(PyObject *left, PyObject *right);
PyObject *set_or_into(PyObject *self, PyObject *other);
PyObject *set_and_into(PyObject *self, PyObject *other);
PyObject *set_minus_into(PyObject *self, PyObject *other);
PyObject *set_xor_into(PyObject *self, PyObject *other);
PyObject *set_union(PyObject *self, PyObject *others);
PyObject *set_intersection(PyObject *self, PyObject *others);
PyObject *set_difference(PyObject *self, PyObject *others);
PyObject *set_symmetric_difference(PyObject *self, PyObject *other);
PyObject *set_update(PyObject *self, PyObject *others);
PyObject *set_intersection_update(PyObject *self, PyObject *others);
PyObject *set_difference_update(PyObject *self, PyObject *others);
PyObject *set_symmetric_difference_update(PyObject *self, PyObject *other);

#endif
