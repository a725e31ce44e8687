/* A collection's two tables and its nodes. */
#include "collection.h"

/* ---- Nodes ---- */

enum { DEEPEST = 50 };

Node *node_new(const Table *table, PyObject *key, PyObject *value) {
    Node *node = PyMem_Malloc(table->is_cache ? sizeof(Used) : sizeof(Node));
    if (node == NULL) {
        PyErr_NoMemory();
        return NULL;
    }
    table->state->nodes++;
    node->key = Py_NewRef(key);
    node->value = Py_XNewRef(value);
    node->next = NULL;
    return node;
}

static void drop_each(State *state, Node *nodes) {
    while (nodes != NULL) {
        Node *node = nodes;
        PyObject *key = node->key, *value = node->value;
        nodes = node->next;
        PyMem_Free(node);
        state->nodes--;
        Py_DECREF(key);
        Py_XDECREF(value);
    }
}

/* For deeply nested collections: from some depth on, the outermost call releases the objects, which bounds the stack. */
void nodes_drop(State *state, Node *nodes) {
    if (nodes == NULL) {
        return;
    }
    if (state->depth >= DEEPEST) {
        Node *last = nodes;
        while (last->next != NULL) {
            last = last->next;
        }
        last->next = state->waiting;
        state->waiting = nodes;
        return;
    }
    state->depth++;
    drop_each(state, nodes);
    while (state->depth == 1 && state->waiting != NULL) {
        nodes = state->waiting;
        state->waiting = NULL;
        drop_each(state, nodes);
    }
    state->depth--;
}

/* ---- Calls of the library ---- */

int code_refused(uint32_t code) {
    if (code == BUCKET_NO_MEMORY) {
        PyErr_NoMemory();
    } else {
        PyErr_Format(PyExc_RuntimeError, "the library returned the code %u", (unsigned)code);
    }
    return -1;
}

/* Interprets a look-up of the library by its code and the first node of the chain. A table that isn't open has no pair. */
static int node_found(uint32_t code, uint64_t first, const Key *key, Node **node) {
    *node = NULL;
    if (code != BUCKET_OK) {
        return code == BUCKET_ABSENT || code == BUCKET_CLOSED ? 0 : code_refused(code);
    }
    *node = (Node *)(uintptr_t)first;
    if (key->kind == WORDS) {
        return 1;
    }
    while ((*node)->key != key->object && !key_equals(key, (*node)->key)) {
        if ((*node)->next == NULL) {
            return 0;
        }
        *node = (*node)->next;
    }
    return 1;
}

int table_find(const Table *table, const Key *key, Node **node) {
    uint64_t first = 0;
    uint32_t code = bucket_map_get(&table->handles[key->kind], key->word, &first);
    return node_found(code, first, key, node);
}

/* A cache and a map made with the same bytes have different seeds. Otherwise, if a cache took a large map's pairs in the order
 * of the map's hashes, those that it has at once would collide in a few buckets. */
uint32_t table_open(Table *table, int kind) {
    bucket_seed seed = next_seed(table->state);
    seed.key1 = table->is_cache ? ~seed.key1 : seed.key1;
    return bucket_map_new(&table->handles[kind], 0, seed);
}

/* Inserts a node whose key is absent, after the last one of its chain if there is one. 0; -1: MemoryError, and nothing has
 * changed. */
static int insert(Table *table, const Key *key, Node *node, Node *last) {
    bucket_handle *handle = &table->handles[key->kind];
    uint64_t first = (uint64_t)(uintptr_t)node;
    if (last != NULL) {
        last->next = node;
    } else {
        uint32_t code = bucket_map_insert(handle, key->word, first);
        if (code == BUCKET_CLOSED) {
            code = table_open(table, key->kind);
            code = code == BUCKET_OK ? bucket_map_insert(handle, key->word, first) : code;
        }
        if (code != BUCKET_OK) {
            return code_refused(code);
        }
    }
    table->lens[key->kind]++;
    table->version++;
    return 0;
}

/* Removes the only node of a word. */
static int take_only(Table *table, const Key *key, Node **node) {
    uint64_t first = 0;
    uint32_t code = bucket_map_remove(&table->handles[key->kind], key->word, &first);
    return node_found(code, first, key, node);
}

/* Removes the first of several nodes of a chain: the second one replaces it in the table, which allocates nothing. 1 or -1. */
static int take_first(Table *table, const Key *key, const Node *first) {
    uint64_t second = (uint64_t)(uintptr_t)first->next, earlier = 0;
    uint32_t code = bucket_map_upsert(&table->handles[key->kind], key->word, second, &earlier);
    return code == BUCKET_PRESENT ? 1 : code_refused(code);
}

/* Removes the node of a key of HASHED, wherever it is in its chain. 1, 0, -1. */
static int take_hashed(Table *table, const Key *key, Node **node) {
    uint64_t first = 0;
    uint32_t code = bucket_map_get(&table->handles[key->kind], key->word, &first);
    int is_there = node_found(code, first, key, node);
    if (is_there != 1) {
        return is_there;
    }
    Node *before = (Node *)(uintptr_t)first;
    if (before == *node) {
        return before->next == NULL ? take_only(table, key, node) : take_first(table, key, before);
    }
    while (before->next != *node) {
        before = before->next;
    }
    before->next = (*node)->next;
    return 1;
}

int table_take(Table *table, const Key *key, Node **node) {
    int is_there = key->kind == WORDS ? take_only(table, key, node) : take_hashed(table, key, node);
    if (is_there == 1) {
        table->lens[key->kind]--;
        table->version++;
        if (table->is_cache) {
            order_leave((Used *)*node);
        }
        (*node)->next = NULL;
    }
    return is_there;
}

/* ---- By an object ---- */

int table_look(Table *table, PyObject *object, bool touches, Node **node) {
    Key key;
    KeyCode code = key_of(&key, object);
    if (code == KEY_ERROR) {
        return -1;
    }
    if (table->is_cache && touches) {
        Cache *cache = (Cache *)table;
        int is_there = code == KEY_NONE ? 0 : cache_touch(cache, &key, node);
        cache->hits += is_there == 1;
        cache->misses += is_there == 0;
        return is_there;
    }
    return code == KEY_NONE ? 0 : table_find(table, &key, node);
}

int table_remove(Table *table, PyObject *object, Node **node) {
    Key key;
    KeyCode code = key_of(&key, object);
    return code == KEY_OK ? table_take(table, &key, node) : code == KEY_NONE ? 0 : -1;
}

int table_put_at(Table *table, const Key *at, PyObject *key, PyObject *value, Node **node, PyObject **earlier) {
    int is_there = table_find(table, at, node);
    if (is_there == 1) {
        *earlier = (*node)->value;
        (*node)->value = Py_XNewRef(value);
    }
    if (is_there != 0) {
        return is_there;
    }
    Node *last = *node;
    *node = node_new(table, key, value);
    if (*node == NULL) {
        return -1;
    }
    if (insert(table, at, *node, last) < 0) {
        nodes_drop(table->state, *node);
        return -1;
    }
    return 0;
}

int table_put(Table *table, PyObject *key, PyObject *value) {
    Node *node;
    if (table->is_cache) {
        int code = cache_put((Cache *)table, key, value, &node);
        nodes_drop(table->state, code == 0 ? node : NULL);
        return code;
    }
    Key at;
    KeyCode code = key_of(&at, key);
    if (code != KEY_OK) {
        return code == KEY_NONE ? key_refused(key) : -1;
    }
    PyObject *earlier = NULL;
    int is_there = table_put_at(table, &at, key, value, &node, &earlier);
    Py_XDECREF(earlier);
    return is_there < 0 ? -1 : 0;
}

/* ---- All, or some ---- */

/* Any node of a map or a set, or NULL. The reading continues where the last call stopped, stays at a chain of several nodes, and
 * starts again after the end. So all calls of a loop together cost as much as one reading. */
static Node *some_node(Table *table) {
    int kind = table->lens[WORDS] > 0 ? WORDS : HASHED;
    for (int tries = 0; tries < 2 && table->lens[kind] > 0; tries++) {
        bucket_place spot = table->spot;
        uint64_t first = 0;
        size_t count = 0;
        if (bucket_values(&table->handles[kind], &table->spot, &first, 1, &count) == BUCKET_OK && count == 1) {
            Node *node = (Node *)(uintptr_t)first;
            if (node->next != NULL) {
                table->spot = spot;
            }
            return node;
        }
        table->spot = (bucket_place)BUCKET_START;
    }
    return NULL;
}

int table_take_some(Table *table, Node **node) {
    if (table_len(table) == 0) {
        return 0;
    }
    Node *chosen = table->is_cache ? &((Cache *)table)->order.after->node : some_node(table);
    if (chosen == NULL) {
        PyErr_SetString(PyExc_RuntimeError, "a collection's table has lost its pairs");
        return -1;
    }
    Key key;
    key_of_node(&key, chosen);
    return table_take(table, &key, node);
}

Node *table_take_all(Table *table) {
    Reading reading;
    Node *nodes = NULL, *node;
    reading_begin(&reading, table);
    while ((node = reading_next(&reading)) != NULL) {
        node->next = nodes;
        nodes = node;
    }
    for (int kind = WORDS; kind < KINDS; kind++) {
        bucket_free(&table->handles[kind]);
        table->lens[kind] = 0;
    }
    table->spot = (bucket_place)BUCKET_START;
    table->version++;
    if (table->is_cache) {
        order_begin((Cache *)table);
    }
    return nodes;
}

void table_exchange(Table *left, Table *right) {
    for (int kind = WORDS; kind < KINDS; kind++) {
        bucket_handle handle = left->handles[kind];
        left->handles[kind] = right->handles[kind];
        right->handles[kind] = handle;
        size_t len = left->lens[kind];
        left->lens[kind] = right->lens[kind];
        right->lens[kind] = len;
    }
    left->spot = right->spot = (bucket_place)BUCKET_START;
    left->version++;
    right->version++;
}
