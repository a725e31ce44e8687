/* What maps and caches share: look-ups and removals. A look-up in a cache touches the pair, and is counted. */
#include "collection.h"

static int takes(Py_ssize_t count, Py_ssize_t least, Py_ssize_t most, const char *name) {
    if (count < least || count > most) {
        PyErr_Format(PyExc_TypeError, "%s takes from %zd to %zd arguments, not %zd", name, least, most, count);
        return -1;
    }
    return 0;
}

/* The pair as a tuple. */
PyObject *pair_of(PyObject *key, PyObject *value) {
    /* Making a tuple may run the garbage collector, which may remove the pair. */
    Py_INCREF(key);
    Py_INCREF(value);
    PyObject *pair = PyTuple_Pack(2, key, value);
    Py_DECREF(key);
    Py_DECREF(value);
    return pair;
}

/* What a subclass of a map or a cache does with an absent key: its `__missing__`, or KeyError. */
static PyObject *missing(PyObject *self, PyObject *key) {
    State *state = ((Table *)self)->state;
    PyTypeObject *type = Py_TYPE(self);
    if (type != state->map && type != state->cache) {
        PyObject *call = PyObject_GetAttrString((PyObject *)type, "__missing__");
        if (call != NULL) {
            PyObject *value = PyObject_CallFunctionObjArgs(call, self, key, NULL);
            Py_DECREF(call);
            return value;
        }
        if (!PyErr_ExceptionMatches(PyExc_AttributeError)) {
            return NULL;
        }
        PyErr_Clear();
    }
    key_missing(key);
    return NULL;
}

PyObject *pairs_subscript(PyObject *self, PyObject *key) {
    Node *node;
    int is_there = table_look((Table *)self, key, true, &node);
    if (is_there == 1) {
        return Py_NewRef(node->value);
    }
    return is_there == 0 ? missing(self, key) : NULL;
}

int pairs_ass_subscript(PyObject *self, PyObject *key, PyObject *value) {
    Table *table = (Table *)self;
    Node *node;
    if (value != NULL) {
        return table_put(table, key, value);
    }
    int is_there = table_remove(table, key, &node);
    if (is_there == 1) {
        nodes_drop(table->state, node);
        return 0;
    }
    if (is_there == 0) {
        key_missing(key);
    }
    return -1;
}

PyObject *pairs_get(PyObject *self, PyObject *const *args, Py_ssize_t count) {
    Node *node;
    if (takes(count, 1, 2, "get") < 0) {
        return NULL;
    }
    int is_there = table_look((Table *)self, args[0], true, &node);
    if (is_there == 1) {
        return Py_NewRef(node->value);
    }
    return is_there == 0 ? Py_NewRef(count == 2 ? args[1] : Py_None) : NULL;
}

PyObject *pairs_setdefault(PyObject *self, PyObject *const *args, Py_ssize_t count) {
    Table *table = (Table *)self;
    Node *node;
    if (takes(count, 1, 2, "setdefault") < 0) {
        return NULL;
    }
    int is_there = table_look(table, args[0], true, &node);
    if (is_there == 1) {
        return Py_NewRef(node->value);
    }
    PyObject *value = count == 2 ? args[1] : Py_None;
    return is_there == 0 && table_put(table, args[0], value) == 0 ? Py_NewRef(value) : NULL;
}

PyObject *pairs_pop(PyObject *self, PyObject *const *args, Py_ssize_t count) {
    Table *table = (Table *)self;
    Node *node;
    if (takes(count, 1, 2, "pop") < 0) {
        return NULL;
    }
    int is_there = table_remove(table, args[0], &node);
    if (is_there == 1) {
        PyObject *value = Py_NewRef(node->value);
        nodes_drop(table->state, node);
        return value;
    }
    if (is_there == 0 && count == 2) {
        return Py_NewRef(args[1]);
    }
    if (is_there == 0) {
        key_missing(args[0]);
    }
    return NULL;
}

PyObject *pairs_popitem(PyObject *self, PyObject *unused) {
    Table *table = (Table *)self;
    Node *node;
    (void)unused;
    /* The tuple is made first: if its allocation fails, no pair is lost. */
    PyObject *pair = PyTuple_New(2);
    if (pair == NULL) {
        return NULL;
    }
    int is_there = table_take_some(table, &node);
    if (is_there == 1) {
        PyTuple_SetItem(pair, 0, Py_NewRef(node->key));
        PyTuple_SetItem(pair, 1, Py_NewRef(node->value));
        nodes_drop(table->state, node);
        return pair;
    }
    Py_DECREF(pair);
    if (is_there == 0) {
        PyErr_SetString(PyExc_KeyError, "popitem(): there is no pair");
    }
    return NULL;
}

PyObject *pairs_update(PyObject *self, PyObject *args, PyObject *kwargs) {
    Table *table = (Table *)self;
    PyObject *other = NULL;
    if (!PyArg_UnpackTuple(args, "update", 0, 1, &other)) {
        return NULL;
    }
    if (other != NULL && table_merge(table, other) < 0) {
        return NULL;
    }
    if (kwargs != NULL && table_merge(table, kwargs) < 0) {
        return NULL;
    }
    Py_RETURN_NONE;
}

PyObject *pairs_keys(PyObject *self, PyObject *unused) {
    (void)unused;
    return view_new((Table *)self, ((Table *)self)->state->keys);
}

PyObject *pairs_values(PyObject *self, PyObject *unused) {
    (void)unused;
    return view_new((Table *)self, ((Table *)self)->state->values);
}

PyObject *pairs_items(PyObject *self, PyObject *unused) {
    (void)unused;
    return view_new((Table *)self, ((Table *)self)->state->items);
}

/* ---- Comparisons ---- */

/* The value of a key in another collection or in a dict: 1 and a new reference, 0, -1. No pair is touched. */
static int value_in(PyObject *other, PyObject *key, PyObject **value) {
    if (!PyDict_Check(other)) {
        Node *node;
        int is_there = table_look((Table *)other, key, false, &node);
        *value = is_there == 1 ? Py_NewRef(node->value) : NULL;
        return is_there;
    }
    *value = Py_XNewRef(PyDict_GetItemWithError(other, key));
    return *value != NULL ? 1 : PyErr_Occurred() ? -1 : 0;
}

/* Whether a pair is in another collection: 1, 0, -1. */
static int has_pair(PyObject *other, const Node *node) {
    PyObject *key = Py_NewRef(node->key), *value = Py_NewRef(node->value), *found;
    int is_there = value_in(other, key, &found);
    if (is_there == 1) {
        is_there = PyObject_RichCompareBool(found, value, Py_EQ);
        Py_DECREF(found);
    }
    Py_DECREF(key);
    Py_DECREF(value);
    return is_there;
}

static int are_equal(Table *table, PyObject *other) {
    Reading reading;
    Node *node;
    int are = 1;
    if (PyObject_Size(other) != (Py_ssize_t)table_len(table)) {
        return PyErr_Occurred() ? -1 : 0;
    }
    if (reading_begin_shared(&reading, table) < 0) {
        return -1;
    }
    while (are == 1 && (node = reading_step(&reading)) != NULL) {
        are = has_pair(other, node);
    }
    reading_end(&reading);
    return are == 1 && PyErr_Occurred() ? -1 : are;
}

PyObject *pairs_compare(PyObject *self, PyObject *other, int op) {
    Table *table = (Table *)self;
    if ((op != Py_EQ && op != Py_NE) || !has_pairs(table->state, other)) {
        Py_RETURN_NOTIMPLEMENTED;
    }
    int are = are_equal(table, other);
    return are < 0 ? NULL : PyBool_FromLong(are == (op == Py_EQ));
}
