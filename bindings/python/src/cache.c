/* The type Cache: a mapping of at most `maxsize` pairs, which evicts the pair that was touched longest ago.
 *
 * Its tables are those of a map. In addition all nodes are in a ring ordered by their last touch, which determines the pair to
 * evict. */
#include "collection.h"

/* ---- The LRU order ---- */

void order_begin(Cache *cache) {
    cache->order.before = cache->order.after = &cache->order;
}

void order_leave(Used *used) {
    used->before->after = used->after;
    used->after->before = used->before;
}

static void order_append(Cache *cache, Used *used) {
    used->before = cache->order.before;
    used->after = &cache->order;
    used->before->after = used;
    cache->order.before = used;
}

int cache_touch(Cache *cache, const Key *key, Node **node) {
    int is_there = table_find(&cache->table, key, node);
    if (is_there == 1) {
        order_leave((Used *)*node);
        order_append(cache, (Used *)*node);
    }
    return is_there;
}

/* The new pair is inserted before the other one is evicted: if its allocation fails, none has been evicted. */
int cache_put(Cache *cache, PyObject *key, PyObject *value, Node **gone) {
    Table *table = &cache->table;
    Key at;
    Node *node;
    KeyCode code = key_of(&at, key);
    *gone = NULL;
    if (code != KEY_OK) {
        return code == KEY_NONE ? key_refused(key) : -1;
    }
    if (cache->maxsize == 0) {
        return 0;
    }
    PyObject *earlier = NULL;
    int is_there = table_put_at(table, &at, key, value, &node, &earlier);
    if (is_there < 0) {
        return -1;
    }
    if (is_there == 1) {
        order_leave((Used *)node);
    }
    order_append(cache, (Used *)node);
    int has_gone = table_len(table) > cache->maxsize ? table_take_some(table, gone) : 0;
    Py_XDECREF(earlier);
    return has_gone < 0 ? -1 : 0;
}

/* ---- The type ---- */

static int cache_init(PyObject *self, PyObject *args, PyObject *kwargs) {
    static char *names[] = {"maxsize", NULL};
    Py_ssize_t maxsize = 128;
    if (!PyArg_ParseTupleAndKeywords(args, kwargs, "|n:Cache", names, &maxsize)) {
        return -1;
    }
    if (maxsize < 0) {
        PyErr_SetString(PyExc_ValueError, "maxsize must not be negative");
        return -1;
    }
    Cache *cache = (Cache *)self;
    cache->maxsize = (size_t)maxsize;
    cache->hits = cache->misses = 0;
    return collection_clear(self);
}

static PyObject *cache_new(PyTypeObject *type, PyObject *args, PyObject *kwargs) {
    Cache *cache = (Cache *)collection_new(type, args, kwargs);
    if (cache != NULL) {
        cache->maxsize = 128;
    }
    return (PyObject *)cache;
}

static PyObject *cache_clear(PyObject *self, PyObject *unused) {
    (void)unused;
    ((Cache *)self)->hits = ((Cache *)self)->misses = 0;
    collection_clear(self);
    Py_RETURN_NONE;
}

static PyObject *cache_peek(PyObject *self, PyObject *const *args, Py_ssize_t count) {
    Node *node;
    if (count < 1 || count > 2) {
        PyErr_Format(PyExc_TypeError, "peek takes from 1 to 2 arguments, not %zd", count);
        return NULL;
    }
    int is_there = table_look((Table *)self, args[0], false, &node);
    return is_there == 1 ? Py_NewRef(node->value) : is_there < 0 ? NULL : Py_NewRef(count == 2 ? args[1] : Py_None);
}

static PyObject *cache_put_call(PyObject *self, PyObject *const *args, Py_ssize_t count) {
    Node *gone;
    if (count != 2) {
        PyErr_Format(PyExc_TypeError, "put takes 2 arguments, not %zd", count);
        return NULL;
    }
    PyObject *pair = PyTuple_New(2);
    if (pair == NULL || cache_put((Cache *)self, args[0], args[1], &gone) < 0) {
        Py_XDECREF(pair);
        return NULL;
    }
    if (gone == NULL) {
        Py_DECREF(pair);
        Py_RETURN_NONE;
    }
    PyTuple_SetItem(pair, 0, Py_NewRef(gone->key));
    PyTuple_SetItem(pair, 1, Py_NewRef(gone->value));
    nodes_drop(((Table *)self)->state, gone);
    return pair;
}

/* _cache_of(type, maxsize, words=0, hashed=0): an empty cache of a subclass of Cache, without a call of its `__init__`, with
 * room for that many pairs of each kind, if memory allows. Older pickles have no such numbers. */
PyObject *cache_made(PyObject *module, PyObject *args) {
    PyTypeObject *type;
    Py_ssize_t maxsize, words = 0, hashed = 0;
    State *state = state_of_module(module);
    if (!PyArg_ParseTuple(args, "O!n|nn", &PyType_Type, &type, &maxsize, &words, &hashed)) {
        return NULL;
    }
    PyObject *made = PyObject_CallMethod((PyObject *)type, "__new__", "O", type);
    if (made != NULL && (!is_cache(state, made) || maxsize < 0 || words < 0 || hashed < 0)) {
        PyErr_SetString(PyExc_TypeError, "a subclass of Cache and sizes are required");
        Py_CLEAR(made);
    }
    if (made != NULL) {
        Coming coming = {.lens = {(size_t)words, (size_t)hashed}};
        ((Cache *)made)->maxsize = (size_t)maxsize;
        (void)table_make_room((Table *)made, &coming);
    }
    return made;
}

static PyObject *cache_copy(PyObject *self, PyObject *unused) {
    State *state = ((Table *)self)->state;
    (void)unused;
    Table *made = table_new(state, state->cache);
    if (made == NULL) {
        return NULL;
    }
    ((Cache *)made)->maxsize = ((Cache *)self)->maxsize;
    if (table_merge(made, self) < 0) {
        Py_CLEAR(made);
    }
    return (PyObject *)made;
}

static PyObject *cache_reduce(PyObject *self, PyObject *unused) {
    Table *table = (Table *)self;
    (void)unused;
    PyObject *attributes = collection_attributes(self);
    PyObject *pairs = attributes == NULL ? NULL : iterator_new(table, GIVES_ITEMS);
    if (pairs == NULL) {
        Py_XDECREF(attributes);
        return NULL;
    }
    Py_ssize_t words = (Py_ssize_t)table->lens[WORDS], hashed = (Py_ssize_t)table->lens[HASHED];
    return Py_BuildValue("O(Onnn)NON", table->state->make_cache, Py_TYPE(self), (Py_ssize_t)((Cache *)self)->maxsize, words, hashed,
                         attributes, Py_None, pairs);
}

static PyObject *cache_repr(PyObject *self) {
    PyObject *name = PyObject_GetAttrString((PyObject *)Py_TYPE(self), "__name__"), *shown = NULL;
    int running = name == NULL ? -1 : Py_ReprEnter(self);
    if (running > 0) {
        shown = PyUnicode_FromFormat("%U({...})", name);
    } else if (running == 0) {
        PyObject *dict = dict_of((Table *)self);
        if (dict != NULL) {
            shown = PyUnicode_FromFormat("%U(%R, maxsize=%zu, currsize=%zd)", name, dict, ((Cache *)self)->maxsize,
                                         collection_len(self));
            Py_DECREF(dict);
        }
        Py_ReprLeave(self);
    }
    Py_XDECREF(name);
    return shown;
}

static PyObject *cache_maxsize(PyObject *self, void *unused) {
    (void)unused;
    return PyLong_FromSize_t(((Cache *)self)->maxsize);
}

static PyObject *cache_currsize(PyObject *self, void *unused) {
    (void)unused;
    return PyLong_FromSsize_t(collection_len(self));
}

static PyObject *cache_hits(PyObject *self, void *unused) {
    (void)unused;
    return PyLong_FromUnsignedLongLong(((Cache *)self)->hits);
}

static PyObject *cache_misses(PyObject *self, void *unused) {
    (void)unused;
    return PyLong_FromUnsignedLongLong(((Cache *)self)->misses);
}

static PyObject *cache_capacity(PyObject *self, void *unused) {
    (void)unused;
    return PyLong_FromSize_t(table_capacity((Table *)self));
}

static PyObject *cache_info(PyObject *self, PyObject *unused) {
    Cache *cache = (Cache *)self;
    (void)unused;
    return PyObject_CallFunction(cache->table.state->cache_info, "KKnn", (unsigned long long)cache->hits,
                                 (unsigned long long)cache->misses, (Py_ssize_t)cache->maxsize, collection_len(self));
}

static PyGetSetDef cache_attributes[] = {
    {"maxsize", cache_maxsize, NULL, "The maximum number of pairs.", NULL},
    {"currsize", cache_currsize, NULL, "The number of pairs.", NULL},
    {"hits", cache_hits, NULL, "The number of look-ups that found their key.", NULL},
    {"misses", cache_misses, NULL, "The number of look-ups that didn't.", NULL},
    {"capacity", cache_capacity, NULL, "The number of slots that the library has allocated.", NULL},
    {NULL, NULL, NULL, NULL, NULL},
};

static PyMethodDef cache_methods[] = {
    {"get", (PyCFunction)(void (*)(void))pairs_get, METH_FASTCALL,
     "get($self, key, default=None, /)\n--\n\nThe value at a key, whose pair is touched, or the default. O(1)."},
    {"peek", (PyCFunction)(void (*)(void))cache_peek, METH_FASTCALL,
     "peek($self, key, default=None, /)\n--\n\nThe value at a key, or the default. Touches and counts nothing. O(1)."},
    {"put", (PyCFunction)(void (*)(void))cache_put_call, METH_FASTCALL,
     "put($self, key, value, /)\n--\n\nPuts a pair, as []= does, and returns the evicted pair, or None. O(1)."},
    {"setdefault", (PyCFunction)(void (*)(void))pairs_setdefault, METH_FASTCALL,
     "setdefault($self, key, default=None, /)\n--\n\nThe value at a key, as of get; if the key is absent, inserts the default. O(1)."},
    {"pop", (PyCFunction)(void (*)(void))pairs_pop, METH_FASTCALL,
     "pop(key[, default])\n\nRemoves a pair, and returns its value, or the default; else KeyError. O(1)."},
    {"popitem", pairs_popitem, METH_NOARGS,
     "popitem($self, /)\n--\n\nRemoves the pair touched longest ago, and returns it; KeyError if there is none. O(1)."},
    {"update", (PyCFunction)(void (*)(void))pairs_update, METH_VARARGS | METH_KEYWORDS,
     "update([other], **pairs)\n\nPuts the pairs of a mapping or of an iterable of pairs, then the keywords'."},
    {"clear", cache_clear, METH_NOARGS, "clear($self, /)\n--\n\nRemoves all pairs, and resets the counters. O(n)."},
    {"copy", cache_copy, METH_NOARGS,
     "copy($self, /)\n--\n\nA Cache of the same pairs in the same order, with new counters. O(n)."},
    {"keys", pairs_keys, METH_NOARGS, "keys($self, /)\n--\n\nA live view of the keys."},
    {"values", pairs_values, METH_NOARGS, "values($self, /)\n--\n\nA live view of the values."},
    {"items", pairs_items, METH_NOARGS, "items($self, /)\n--\n\nA live view of the pairs."},
    {"cache_info", cache_info, METH_NOARGS,
     "cache_info($self, /)\n--\n\nhits, misses, maxsize and currsize, as of functools.lru_cache."},
    {"__reduce__", cache_reduce, METH_NOARGS, "For copies and pickles."},
    {"__sizeof__", collection_sizeof, METH_NOARGS, "The approximate size in bytes, without keys and values."},
    {"__class_getitem__", Py_GenericAlias, METH_O | METH_CLASS, "Cache[str, int], for type hints."},
    {NULL, NULL, 0, NULL},
};

static PyMemberDef cache_members[] = {
    {"__weaklistoffset__", T_PYSSIZET, offsetof(Table, weakrefs), READONLY, NULL},
    {NULL, 0, 0, 0, NULL},
};

static PyType_Slot cache_slots[] = {
    {Py_tp_doc, "Cache(maxsize=128)\n\nA mapping of at most `maxsize` pairs: a further one evicts the pair that was touched longest\n"
                "ago. [], get, setdefault and insertions touch a pair; peek, in, views and iterations don't. An iteration yields the\n"
                "pair touched longest ago first, from a copy of the order."},
    {Py_tp_new, cache_new},
    {Py_tp_init, cache_init},
    {Py_tp_dealloc, collection_dealloc},
    {Py_tp_traverse, collection_traverse},
    {Py_tp_clear, collection_clear},
    {Py_tp_members, cache_members},
    {Py_tp_getset, cache_attributes},
    {Py_tp_methods, cache_methods},
    {Py_tp_repr, cache_repr},
    {Py_tp_hash, PyObject_HashNotImplemented},
    {Py_tp_richcompare, pairs_compare},
    {Py_tp_iter, collection_iter},
    {Py_mp_length, collection_len},
    {Py_mp_subscript, pairs_subscript},
    {Py_mp_ass_subscript, pairs_ass_subscript},
    {Py_sq_contains, collection_contains},
    {0, NULL},
};

PyType_Spec cache_spec = {
    .name = "bucket.Cache",
    .basicsize = sizeof(Cache),
    .flags = Py_TPFLAGS_DEFAULT | Py_TPFLAGS_HAVE_GC | Py_TPFLAGS_BASETYPE,
    .slots = cache_slots,
};
