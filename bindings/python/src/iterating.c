/* Iterators over keys, values or pairs. They raise RuntimeError after a pair was added or removed. */
#include "collection.h"

#include <string.h>

typedef struct Iterator {
    PyObject_HEAD
    Table *table; /* NULL once it is at the end */
    Gives gives;
    size_t given;
    Reading reading;
} Iterator;

PyObject *iterator_new(Table *table, Gives gives) {
    PyTypeObject *type = table->state->iterator;
    if (type == NULL) {
        PyErr_SetString(PyExc_RuntimeError, "the module bucket is no longer loaded");
        return NULL;
    }
    Iterator *iterator = PyObject_GC_New(Iterator, type);
    if (iterator == NULL) {
        return NULL;
    }
    iterator->table = NULL;
    iterator->gives = gives;
    iterator->given = 0;
    iterator->reading.all = NULL;
    if (reading_begin_shared(&iterator->reading, table) < 0) {
        Py_DECREF(iterator);
        return NULL;
    }
    iterator->table = (Table *)Py_NewRef((PyObject *)table);
    PyObject_GC_Track(iterator);
    return (PyObject *)iterator;
}

static int iterator_traverse(PyObject *self, visitproc visit, void *arg) {
    Py_VISIT(Py_TYPE(self));
    Py_VISIT(((Iterator *)self)->table);
    return 0;
}

static int iterator_clear(PyObject *self) {
    Iterator *iterator = (Iterator *)self;
    reading_end(&iterator->reading);
    Py_CLEAR(iterator->table);
    return 0;
}

static void iterator_dealloc(PyObject *self) {
    PyTypeObject *type = Py_TYPE(self);
    PyObject_GC_UnTrack(self);
    iterator_clear(self);
    PyObject_GC_Del(self);
    Py_DECREF(type);
}

static PyObject *given(const Node *node, Gives gives) {
    return gives == GIVES_KEYS ? Py_NewRef(node->key)
        : gives == GIVES_VALUES ? Py_NewRef(node->value)
                                : pair_of(node->key, node->value);
}

static PyObject *iterator_next(PyObject *self) {
    Iterator *iterator = (Iterator *)self;
    if (iterator->table == NULL) {
        return NULL;
    }
    Node *node = reading_step(&iterator->reading);
    if (node != NULL) {
        iterator->given++;
        return given(node, iterator->gives);
    }
    if (!PyErr_Occurred()) {
        iterator_clear(self);
    }
    return NULL;
}

static PyObject *iterator_length_hint(PyObject *self, PyObject *unused) {
    Iterator *iterator = (Iterator *)self;
    (void)unused;
    if (iterator->table == NULL || iterator->reading.version != iterator->table->version) {
        return PyLong_FromSize_t(0);
    }
    return PyLong_FromSize_t(table_len(iterator->table) - iterator->given);
}

/* Copies the nodes that an iterator has yet to return into its own `all`. Returns 0 or -1. */
static int rest_of(const Iterator *iterator, Reading *rest) {
    memcpy(rest, &iterator->reading, sizeof *rest);
    if (rest->all != NULL) {
        size_t size = rest->count * sizeof *rest->all;
        rest->all = PyMem_Malloc(size);
        if (rest->all == NULL) {
            PyErr_NoMemory();
            return -1;
        }
        memcpy(rest->all, iterator->reading.all, size);
    }
    return 0;
}

/* The list of the remaining items; the iterator doesn't advance. */
static PyObject *rest_list(Iterator *iterator) {
    PyObject *list = PyList_New(0);
    Reading rest;
    if (list == NULL || iterator->table == NULL) {
        return list;
    }
    if (rest_of(iterator, &rest) < 0) {
        Py_DECREF(list);
        return NULL;
    }
    Table *table = (Table *)Py_NewRef((PyObject *)iterator->table);
    Node *node;
    int code = 0;
    while (code == 0 && (node = reading_step(&rest)) != NULL) {
        PyObject *item = given(node, iterator->gives);
        code = item == NULL ? -1 : PyList_Append(list, item);
        Py_XDECREF(item);
    }
    reading_end(&rest);
    Py_DECREF(table);
    if (PyErr_Occurred()) {
        Py_CLEAR(list);
    }
    return list;
}

static PyObject *iterator_reduce(PyObject *self, PyObject *unused) {
    (void)unused;
    PyObject *list = rest_list((Iterator *)self);
    if (list == NULL) {
        return NULL;
    }
    PyObject *iter = PyDict_GetItemString(PyEval_GetBuiltins(), "iter");
    return Py_BuildValue("O(N)", iter, list);
}

static PyMethodDef iterator_methods[] = {
    {"__length_hint__", iterator_length_hint, METH_NOARGS, "The number of remaining items; 0 once the size has changed."},
    {"__reduce__", iterator_reduce, METH_NOARGS, "For pickles: an iterator of a list of the remaining items."},
    {NULL, NULL, 0, NULL},
};

static PyType_Slot iterator_slots[] = {
    {Py_tp_doc, "An iterator over a collection."},
    {Py_tp_dealloc, iterator_dealloc},
    {Py_tp_traverse, iterator_traverse},
    {Py_tp_clear, iterator_clear},
    {Py_tp_iter, PyObject_SelfIter},
    {Py_tp_iternext, iterator_next},
    {Py_tp_methods, iterator_methods},
    {0, NULL},
};

PyType_Spec iterator_spec = {
    .name = "bucket.iterator",
    .basicsize = sizeof(Iterator),
    .flags = Py_TPFLAGS_DEFAULT | Py_TPFLAGS_HAVE_GC | Py_TPFLAGS_DISALLOW_INSTANTIATION,
    .slots = iterator_slots,
};
