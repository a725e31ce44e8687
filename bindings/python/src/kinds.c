/* What maps, sets and caches share as Python objects. */
#include "collection.h"

extern PyModuleDef bucket_module;

State *state_of_type(PyTypeObject *type) {
    while (type != NULL) {
        if (PyType_GetFlags(type) & Py_TPFLAGS_HEAPTYPE) {
            PyObject *module = PyType_GetModule(type);
            if (module == NULL) {
                PyErr_Clear();
            } else if (PyModule_GetDef(module) == &bucket_module) {
                return state_of_module(module);
            }
        }
        type = PyType_GetSlot(type, Py_tp_base);
    }
    return NULL;
}

State *state_of(PyObject *left, PyObject *right) {
    State *state = state_of_type(Py_TYPE(left));
    return state != NULL ? state : state_of_type(Py_TYPE(right));
}

void state_leave(State *state) {
    if (--state->holders == 0) {
        PyMem_Free(state);
    }
}

/* Once the module is cleared, at the end of the interpreter, its types no longer exist. */
static bool is_below(PyObject *object, PyTypeObject *type) {
    return type != NULL && PyObject_TypeCheck(object, type);
}

bool is_map(const State *state, PyObject *object) {
    return is_below(object, state->map);
}

bool is_set(const State *state, PyObject *object) {
    return is_below(object, state->set);
}

bool is_cache(const State *state, PyObject *object) {
    return is_below(object, state->cache);
}

Table *table_new(State *state, PyTypeObject *type) {
    if (state == NULL || type == NULL) {
        PyErr_SetString(PyExc_RuntimeError, "the module bucket is no longer loaded");
        return NULL;
    }
    allocfunc alloc = (allocfunc)PyType_GetSlot(type, Py_tp_alloc);
    Table *table = (Table *)alloc(type, 0);
    if (table != NULL) {
        table->state = state;
        state->holders++;
        if (is_cache(state, (PyObject *)table)) {
            table->is_cache = true;
            order_begin((Cache *)table);
        }
    }
    return table;
}

/* As with dict and set, `__new__` ignores the arguments of `__init__`. */
PyObject *collection_new(PyTypeObject *type, PyObject *args, PyObject *kwargs) {
    (void)args;
    (void)kwargs;
    return (PyObject *)table_new(state_of_type(type), type);
}

void collection_dealloc(PyObject *self) {
    Table *table = (Table *)self;
    PyTypeObject *type = Py_TYPE(self);
    PyObject_GC_UnTrack(self);
    if (table->weakrefs != NULL) {
        PyObject_ClearWeakRefs(self);
    }
    nodes_drop(table->state, table_take_all(table));
    state_leave(table->state);
    ((freefunc)PyType_GetSlot(type, Py_tp_free))(self);
    Py_DECREF(type);
}

int collection_traverse(PyObject *self, visitproc visit, void *arg) {
    Reading reading;
    Node *node;
    Py_VISIT(Py_TYPE(self));
    reading_begin(&reading, (Table *)self);
    while ((node = reading_next(&reading)) != NULL) {
        Py_VISIT(node->key);
        Py_VISIT(node->value);
    }
    return 0;
}

int collection_clear(PyObject *self) {
    Table *table = (Table *)self;
    nodes_drop(table->state, table_take_all(table));
    return 0;
}

Py_ssize_t collection_len(PyObject *self) {
    return (Py_ssize_t)table_len((Table *)self);
}

int collection_contains(PyObject *self, PyObject *key) {
    Node *node;
    return table_look((Table *)self, key, false, &node);
}

PyObject *collection_iter(PyObject *self) {
    return iterator_new((Table *)self, GIVES_KEYS);
}

/* An estimate: a slot of the library takes about 18 bytes. */
PyObject *collection_sizeof(PyObject *self, PyObject *unused) {
    enum { SLOT_BYTES = 18 };
    Table *table = (Table *)self;
    (void)unused;
    PyObject *own = PyObject_CallMethod((PyObject *)&PyBaseObject_Type, "__sizeof__", "O", self);
    if (own == NULL) {
        return NULL;
    }
    size_t size = PyLong_AsSize_t(own);
    Py_DECREF(own);
    size += table_len(table) * (table->is_cache ? sizeof(Used) : sizeof(Node));
    return PyLong_FromSize_t(size + table_capacity(table) * SLOT_BYTES);
}

PyObject *collection_attributes(PyObject *self) {
    /* Since Python 3.11 each object has __getstate__. */
    PyObject *get = PyObject_GetAttrString(self, "__getstate__");
    if (get != NULL) {
        PyObject *attributes = PyObject_CallNoArgs(get);
        Py_DECREF(get);
        return attributes;
    }
    if (!PyErr_ExceptionMatches(PyExc_AttributeError)) {
        return NULL;
    }
    PyErr_Clear();
    PyObject *attributes = PyObject_GetAttrString(self, "__dict__");
    if (attributes == NULL && PyErr_ExceptionMatches(PyExc_AttributeError)) {
        PyErr_Clear();
        return Py_NewRef(Py_None);
    }
    return attributes;
}
