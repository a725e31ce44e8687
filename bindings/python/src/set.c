/* The type Set: a set of ints, strs and bytes, in the order of its slots. */
#include "collection.h"

static int set_init(PyObject *self, PyObject *args, PyObject *kwargs) {
    PyObject *keys = NULL;
    if (kwargs != NULL && Py_TYPE(self) == ((Table *)self)->state->set && PyDict_Size(kwargs) > 0) {
        PyErr_SetString(PyExc_TypeError, "Set() takes no keyword arguments");
        return -1;
    }
    if (!PyArg_UnpackTuple(args, "Set", 0, 1, &keys)) {
        return -1;
    }
    collection_clear(self);
    return keys == NULL ? 0 : set_add_all((Table *)self, keys);
}

static PyObject *set_add(PyObject *self, PyObject *key) {
    return table_put((Table *)self, key, NULL) < 0 ? NULL : Py_NewRef(Py_None);
}

/* Removes a key: 1, 0, -1. */
static int removed(PyObject *self, PyObject *key) {
    Node *node;
    int is_there = table_remove((Table *)self, key, &node);
    if (is_there == 1) {
        nodes_drop(((Table *)self)->state, node);
    }
    return is_there;
}

static PyObject *set_discard(PyObject *self, PyObject *key) {
    return removed(self, key) < 0 ? NULL : Py_NewRef(Py_None);
}

static PyObject *set_remove(PyObject *self, PyObject *key) {
    int is_there = removed(self, key);
    if (is_there == 0) {
        key_missing(key);
    }
    return is_there == 1 ? Py_NewRef(Py_None) : NULL;
}

static PyObject *set_pop(PyObject *self, PyObject *unused) {
    Node *node;
    (void)unused;
    int is_there = table_take_some((Table *)self, &node);
    if (is_there == 1) {
        PyObject *key = Py_NewRef(node->key);
        nodes_drop(((Table *)self)->state, node);
        return key;
    }
    if (is_there == 0) {
        PyErr_SetString(PyExc_KeyError, "pop from an empty set");
    }
    return NULL;
}

static PyObject *set_clear(PyObject *self, PyObject *unused) {
    (void)unused;
    collection_clear(self);
    Py_RETURN_NONE;
}

static PyObject *set_copy(PyObject *self, PyObject *unused) {
    (void)unused;
    State *state = ((Table *)self)->state;
    Table *made = table_new(state, state->set);
    if (made != NULL && set_add_all(made, self) < 0) {
        Py_CLEAR(made);
    }
    return (PyObject *)made;
}

static PyObject *set_issubset(PyObject *self, PyObject *other) {
    PyObject *set = is_set_like(((Table *)self)->state, other) ? Py_NewRef(other) : PySet_New(other);
    if (set == NULL) {
        return NULL;
    }
    int are = collection_len(self) <= PyObject_Size(set) ? are_all_in(self, set) : 0;
    Py_DECREF(set);
    return are < 0 || PyErr_Occurred() ? NULL : PyBool_FromLong(are);
}

static PyObject *set_issuperset(PyObject *self, PyObject *other) {
    int are = are_all_in(other, self);
    return are < 0 ? NULL : PyBool_FromLong(are);
}

/* Its name and its keys, in the braces of a set. */
static PyObject *set_repr(PyObject *self) {
    PyObject *name = PyObject_GetAttrString((PyObject *)Py_TYPE(self), "__name__"), *shown = NULL;
    PyObject *list = name == NULL ? NULL : PySequence_List(self);
    PyObject *listed = list == NULL ? NULL : PyObject_Repr(list);
    if (listed != NULL && PyList_Size(list) == 0) {
        shown = PyUnicode_FromFormat("%U()", name);
    } else if (listed != NULL) {
        PyObject *inner = PyUnicode_Substring(listed, 1, PyUnicode_GetLength(listed) - 1);
        shown = inner == NULL ? NULL : PyUnicode_FromFormat("%U({%U})", name, inner);
        Py_XDECREF(inner);
    }
    Py_XDECREF(listed);
    Py_XDECREF(list);
    Py_XDECREF(name);
    return shown;
}

static PyObject *set_reduce(PyObject *self, PyObject *unused) {
    (void)unused;
    PyObject *attributes = collection_attributes(self);
    PyObject *keys = attributes == NULL ? NULL : PySequence_List(self);
    if (keys == NULL) {
        Py_XDECREF(attributes);
        return NULL;
    }
    return Py_BuildValue("O(ON)N", ((Table *)self)->state->make_set, Py_TYPE(self), keys, attributes);
}

/* _set_of(type, keys): a set of a subclass of Set, without a call of its `__init__`. */
PyObject *set_made(PyObject *module, PyObject *args) {
    PyTypeObject *type;
    PyObject *keys;
    State *state = state_of_module(module);
    if (!PyArg_ParseTuple(args, "O!O", &PyType_Type, &type, &keys)) {
        return NULL;
    }
    PyObject *made = PyObject_CallMethod((PyObject *)type, "__new__", "O", type);
    if (made != NULL && !is_set(state, made)) {
        PyErr_SetString(PyExc_TypeError, "a subclass of Set is required");
        Py_CLEAR(made);
    }
    if (made != NULL && set_add_all((Table *)made, keys) < 0) {
        Py_CLEAR(made);
    }
    return made;
}

static PyMethodDef set_methods[] = {
    {"add", set_add, METH_O, "add($self, key, /)\n--\n\nAdds a key. O(1)."},
    {"discard", set_discard, METH_O, "discard($self, key, /)\n--\n\nRemoves a key, if it is present. O(1)."},
    {"remove", set_remove, METH_O, "remove($self, key, /)\n--\n\nRemoves a key; KeyError if it is absent. O(1)."},
    {"pop", set_pop, METH_NOARGS, "pop($self, /)\n--\n\nRemoves some key, and returns it; KeyError if there is none."},
    {"clear", set_clear, METH_NOARGS, "clear($self, /)\n--\n\nRemoves all keys. O(n)."},
    {"copy", set_copy, METH_NOARGS,
     "copy($self, /)\n--\n\nA Set of the same keys. O(n)."},
    {"update", set_update, METH_VARARGS, "update(*others)\n\nAdds the keys of iterables."},
    {"union", set_union, METH_VARARGS, "union(*others)\n\nA Set of the keys that are in any."},
    {"intersection", set_intersection, METH_VARARGS, "intersection(*others)\n\nA Set of the keys that are in all."},
    {"intersection_update", set_intersection_update, METH_VARARGS,
     "intersection_update(*others)\n\nRemoves the keys that aren't in all. If it fails, all keys stay."},
    {"difference", set_difference, METH_VARARGS, "difference(*others)\n\nA Set of the keys that are in none of the others."},
    {"difference_update", set_difference_update, METH_VARARGS, "difference_update(*others)\n\nRemoves the keys of iterables."},
    {"symmetric_difference", set_symmetric_difference, METH_O,
     "symmetric_difference($self, other, /)\n--\n\nA Set of the keys that are in exactly one."},
    {"symmetric_difference_update", set_symmetric_difference_update, METH_O,
     "symmetric_difference_update($self, other, /)\n--\n\nKeeps the keys in exactly one. If it fails, all keys stay."},
    {"isdisjoint", set_like_isdisjoint, METH_O, "isdisjoint($self, other, /)\n--\n\nWhether no key is in both."},
    {"issubset", set_issubset, METH_O, "issubset($self, other, /)\n--\n\nWhether each key is in the other."},
    {"issuperset", set_issuperset, METH_O, "issuperset($self, other, /)\n--\n\nWhether each item of the other is in the set."},
    {"__reduce__", set_reduce, METH_NOARGS, "For copies and pickles."},
    {"__sizeof__", collection_sizeof, METH_NOARGS, "The approximate size in bytes, without keys."},
    {"__class_getitem__", Py_GenericAlias, METH_O | METH_CLASS, "Set[str], for type hints."},
    {NULL, NULL, 0, NULL},
};

static PyMemberDef set_members[] = {
    {"__weaklistoffset__", T_PYSSIZET, offsetof(Table, weakrefs), READONLY, NULL},
    {NULL, 0, 0, 0, NULL},
};

static PyType_Slot set_slots[] = {
    {Py_tp_doc, "Set([keys])\n\nA set of ints from -2**63 up to 2**64 - 1, strs and bytes, with a set's calls and operators. Any\n"
                "other key is absent in a look-up or a removal, and raises TypeError or OverflowError if put. The order is that\n"
                "of its slots, and changes as keys are put and removed."},
    {Py_tp_new, collection_new},
    {Py_tp_init, set_init},
    {Py_tp_dealloc, collection_dealloc},
    {Py_tp_traverse, collection_traverse},
    {Py_tp_clear, collection_clear},
    {Py_tp_members, set_members},
    {Py_tp_methods, set_methods},
    {Py_tp_repr, set_repr},
    {Py_tp_hash, PyObject_HashNotImplemented},
    {Py_tp_richcompare, set_like_compare},
    {Py_tp_iter, collection_iter},
    {Py_sq_length, collection_len},
    {Py_sq_contains, collection_contains},
    {Py_nb_or, set_or},
    {Py_nb_and, set_and},
    {Py_nb_subtract, set_minus},
    {Py_nb_xor, set_xor},
    {Py_nb_inplace_or, set_or_into},
    {Py_nb_inplace_and, set_and_into},
    {Py_nb_inplace_subtract, set_minus_into},
    {Py_nb_inplace_xor, set_xor_into},
    {0, NULL},
};

PyType_Spec set_spec = {
    .name = "bucket.Set",
    .basicsize = sizeof(Table),
    .flags = Py_TPFLAGS_DEFAULT | Py_TPFLAGS_HAVE_GC | Py_TPFLAGS_BASETYPE,
    .slots = set_slots,
};
