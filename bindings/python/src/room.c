/* Makes room for many pairs at once, before they are read from an object that reports how many there are.
 *
 * Keys of another collection come in the order of its slots. If both hash with the same seed, that is the order of their hashes:
 * in a table that grows while it is filled, all would collide in its first buckets. */
#include "collection.h"

/* For up to this many pairs no room is made in advance. */
enum { FEW = 32 };

/* ---- The expected number ---- */

/* An item that is not a key, or is an int from 2^63 on, is miscounted: too much room is made. */
static void count_key(Coming *coming, PyObject *key) {
    coming->lens[PyLong_Check(key) ? WORDS : HASHED]++;
}

static void count_item(Coming *coming, PyObject *item, bool is_pair) {
    if (!is_pair) {
        count_key(coming, item);
    } else if (PyTuple_Check(item) && PyTuple_Size(item) == 2) {
        count_key(coming, PyTuple_GetItem(item, 0));
    }
}

static void count_dict(Coming *coming, PyObject *dict) {
    Py_ssize_t at = 0;
    PyObject *key;
    if (PyDict_Size(dict) > FEW) {
        while (PyDict_Next(dict, &at, &key, NULL)) {
            count_key(coming, key);
        }
    }
}

static void count_listed(Coming *coming, PyObject *items, bool are_pairs) {
    bool is_list = PyList_Check(items);
    Py_ssize_t len = is_list ? PyList_Size(items) : PyTuple_Size(items);
    for (Py_ssize_t at = 0; len > FEW && at < len; at++) {
        PyObject *item = is_list ? PyList_GetItem(items, at) : PyTuple_GetItem(items, at);
        count_item(coming, item, are_pairs);
    }
}

static void count_set(Coming *coming, PyObject *set) {
    PyObject *iterator, *key;
    if (PySet_Size(set) <= FEW) {
        return;
    }
    iterator = PyObject_GetIter(set);
    while (iterator != NULL && (key = PyIter_Next(iterator)) != NULL) {
        count_key(coming, key);
        Py_DECREF(key);
    }
    Py_XDECREF(iterator);
    PyErr_Clear();
}

/* The collection whose keys an object yields, or NULL. */
static const Table *table_behind(const State *state, PyObject *object, bool are_pairs) {
    if (Py_TYPE(object) == (are_pairs ? state->items : state->keys)) {
        return table_of_view(object);
    }
    bool has_keys = has_pairs(state, object) && !PyDict_Check(object);
    has_keys |= !are_pairs && is_set(state, object);
    return has_keys ? (const Table *)object : NULL;
}

Coming coming_of(const State *state, PyObject *object, bool are_pairs) {
    Coming coming = {{0, 0}, false};
    const Table *table = table_behind(state, object, are_pairs);
    if (table != NULL) {
        coming.lens[WORDS] = table->lens[WORDS];
        coming.lens[HASHED] = table->lens[HASHED];
        /* A subclass may yield its keys in its own way. */
        PyTypeObject *type = Py_TYPE(object);
        coming.is_sure = type == state->map || type == state->set || type == state->cache;
    } else if (PyDict_Check(object)) {
        count_dict(&coming, object);
        coming.is_sure = PyDict_CheckExact(object);
    } else if (PyList_Check(object) || PyTuple_Check(object)) {
        count_listed(&coming, object, are_pairs);
    } else if (PyAnySet_CheckExact(object) && !are_pairs) {
        count_set(&coming, object);
        coming.is_sure = true;
    }
    return coming;
}

/* ---- Room ---- */

static uint32_t reserve(Table *table, int kind, size_t additional) {
    bucket_handle *handle = &table->handles[kind];
    uint32_t code = bucket_reserve(handle, additional);
    if (code == BUCKET_CLOSED) {
        code = table_open(table, kind);
        code = code == BUCKET_OK ? bucket_reserve(handle, additional) : code;
        if (code != BUCKET_OK) {
            bucket_free(handle);
        }
    }
    return code;
}

/* How many of that many pairs a collection may have at once. */
static size_t most_of(const Table *table, size_t coming) {
    size_t most = table->is_cache ? ((const Cache *)table)->maxsize : coming;
    return coming < most ? coming : most;
}

/* The array is then a new one, in which an iteration would lose its place. So the version changes too. */
int table_make_room(Table *table, Coming *coming) {
    for (int kind = WORDS; kind < KINDS; kind++) {
        size_t len = table->lens[kind], all = most_of(table, coming->lens[kind]);
        bool is_vain = all <= FEW || all <= len || (!coming->is_sure && len > 0);
        coming->lens[kind] = is_vain ? 0 : all;
        if (is_vain) {
            continue;
        }
        uint32_t code = reserve(table, kind, all - len);
        if (code != BUCKET_OK && coming->is_sure) {
            for (; kind < KINDS; kind++) {
                coming->lens[kind] = 0;
            }
            table_give_back(table, coming);
            return code_refused(code);
        }
        table->version += code == BUCKET_OK;
    }
    return 0;
}

void table_give_back(Table *table, const Coming *coming) {
    for (int kind = WORDS; kind < KINDS; kind++) {
        bool is_sparse = table->lens[kind] < coming->lens[kind] / 4;
        if (is_sparse && bucket_shrink(&table->handles[kind]) == BUCKET_OK) {
            table->version++;
        }
    }
}
