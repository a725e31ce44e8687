/* Inserts pairs from a dict, a collection, any mapping, or an iterable of pairs. */
#include "collection.h"

bool has_pairs(const State *state, PyObject *object) {
    return PyDict_Check(object) || is_map(state, object) || is_cache(state, object);
}

static int merge_dict(Table *table, PyObject *dict) {
    Py_ssize_t at = 0, size = PyDict_Size(dict);
    PyObject *key, *value;
    while (PyDict_Next(dict, &at, &key, &value)) {
        Py_INCREF(key);
        Py_INCREF(value);
        int code = table_put(table, key, value);
        Py_DECREF(key);
        Py_DECREF(value);
        if (code < 0) {
            return -1;
        }
        if (PyDict_Size(dict) != size) {
            PyErr_SetString(PyExc_RuntimeError, "dict mutated during update");
            return -1;
        }
    }
    return 0;
}

/* Inserts the pairs of another collection, without touching them there. */
static int merge_table(Table *table, Table *other) {
    Reading reading;
    Node *node;
    int code = 0;
    if (reading_begin_shared(&reading, other) < 0) {
        return -1;
    }
    while (code == 0 && (node = reading_step(&reading)) != NULL) {
        PyObject *key = Py_NewRef(node->key), *value = Py_NewRef(node->value);
        code = table_put(table, key, value);
        Py_DECREF(key);
        Py_DECREF(value);
    }
    reading_end(&reading);
    return code == 0 && PyErr_Occurred() ? -1 : code;
}

/* Inserts the pairs of a mapping, read by its keys() and []. */
static int merge_mapping(Table *table, PyObject *mapping, PyObject *get_keys) {
    PyObject *keys = PyObject_CallNoArgs(get_keys);
    PyObject *iterator = keys == NULL ? NULL : PyObject_GetIter(keys);
    PyObject *key;
    Py_XDECREF(keys);
    if (iterator == NULL) {
        return -1;
    }
    int code = 0;
    while (code == 0 && (key = PyIter_Next(iterator)) != NULL) {
        PyObject *value = PyObject_GetItem(mapping, key);
        code = value == NULL ? -1 : table_put(table, key, value);
        Py_XDECREF(value);
        Py_DECREF(key);
    }
    Py_DECREF(iterator);
    return code == 0 && PyErr_Occurred() ? -1 : code;
}

static int merge_pair(Table *table, PyObject *item, Py_ssize_t number) {
    PyObject *pair = PySequence_Tuple(item);
    if (pair == NULL) {
        if (PyErr_ExceptionMatches(PyExc_TypeError)) {
            PyErr_Format(PyExc_TypeError, "cannot convert update sequence element #%zd to a sequence", number);
        }
        return -1;
    }
    int code = -1;
    if (PyTuple_Size(pair) != 2) {
        PyErr_Format(PyExc_ValueError, "update sequence element #%zd has length %zd; 2 is required", number, PyTuple_Size(pair));
    } else {
        code = table_put(table, PyTuple_GetItem(pair, 0), PyTuple_GetItem(pair, 1));
    }
    Py_DECREF(pair);
    return code;
}

static int merge_pairs(Table *table, PyObject *pairs) {
    PyObject *iterator = PyObject_GetIter(pairs), *item;
    if (iterator == NULL) {
        return -1;
    }
    int code = 0;
    for (Py_ssize_t number = 0; code == 0 && (item = PyIter_Next(iterator)) != NULL; number++) {
        code = merge_pair(table, item, number);
        Py_DECREF(item);
    }
    Py_DECREF(iterator);
    return code == 0 && PyErr_Occurred() ? -1 : code;
}

static int merge(Table *table, PyObject *other) {
    const State *state = table->state;
    if (PyDict_CheckExact(other)) {
        return merge_dict(table, other);
    }
    if (Py_TYPE(other) == state->map || Py_TYPE(other) == state->cache) {
        return merge_table(table, (Table *)other);
    }
    PyObject *get_keys = PyObject_GetAttrString(other, "keys");
    if (get_keys != NULL) {
        int code = merge_mapping(table, other, get_keys);
        Py_DECREF(get_keys);
        return code;
    }
    if (!PyErr_ExceptionMatches(PyExc_AttributeError)) {
        return -1;
    }
    PyErr_Clear();
    return merge_pairs(table, other);
}

int table_merge(Table *table, PyObject *other) {
    if (other == (PyObject *)table) {
        return 0;
    }
    Coming coming = coming_of(table->state, other, true);
    if (table_make_room(table, &coming) < 0) {
        return -1;
    }
    int code = merge(table, other);
    table_give_back(table, &coming);
    return code;
}

PyObject *dict_of(Table *table) {
    Reading reading;
    Node *node;
    PyObject *dict = PyDict_New();
    if (dict == NULL || reading_begin_shared(&reading, table) < 0) {
        Py_XDECREF(dict);
        return NULL;
    }
    int code = 0;
    while (code == 0 && (node = reading_step(&reading)) != NULL) {
        PyObject *key = Py_NewRef(node->key), *value = Py_NewRef(node->value);
        code = PyDict_SetItem(dict, key, value);
        Py_DECREF(key);
        Py_DECREF(value);
    }
    reading_end(&reading);
    if (PyErr_Occurred()) {
        Py_CLEAR(dict);
    }
    return dict;
}
