/* The type Map: a dict whose keys are ints, strs and bytes, in the order of its slots. */
#include "collection.h"

static int map_init(PyObject *self, PyObject *args, PyObject *kwargs) {
    PyObject *done = pairs_update(self, args, kwargs);
    Py_XDECREF(done);
    return done == NULL ? -1 : 0;
}

static PyObject *map_clear(PyObject *self, PyObject *unused) {
    (void)unused;
    collection_clear(self);
    Py_RETURN_NONE;
}

/* A Map with the pairs of one or two collections. */
static PyObject *map_of(State *state, PyObject *first, PyObject *second) {
    Table *made = table_new(state, state->map);
    if (made == NULL) {
        return NULL;
    }
    if (table_merge(made, first) < 0 || (second != NULL && table_merge(made, second) < 0)) {
        Py_DECREF(made);
        return NULL;
    }
    return (PyObject *)made;
}

static PyObject *map_copy(PyObject *self, PyObject *unused) {
    (void)unused;
    return map_of(((Table *)self)->state, self, NULL);
}

static PyObject *map_or(PyObject *left, PyObject *right) {
    State *state = state_of(left, right);
    if (state == NULL || !has_pairs(state, left) || !has_pairs(state, right)) {
        Py_RETURN_NOTIMPLEMENTED;
    }
    return map_of(state, left, right);
}

static PyObject *map_or_into(PyObject *self, PyObject *other) {
    return table_merge((Table *)self, other) < 0 ? NULL : Py_NewRef(self);
}

static PyObject *map_fromkeys(PyObject *type, PyObject *const *args, Py_ssize_t count) {
    if (count < 1 || count > 2) {
        PyErr_Format(PyExc_TypeError, "fromkeys takes from 1 to 2 arguments, not %zd", count);
        return NULL;
    }
    PyObject *value = count == 2 ? args[1] : Py_None, *key;
    PyObject *made = PyObject_CallNoArgs(type);
    State *state = made == NULL ? NULL : state_of_type(Py_TYPE(made));
    Coming coming = {0};
    if (state != NULL && Py_TYPE(made) == state->map) {
        coming = coming_of(state, args[0], false);
        if (table_make_room((Table *)made, &coming) < 0) {
            Py_CLEAR(made);
        }
    }
    PyObject *iterator = made == NULL ? NULL : PyObject_GetIter(args[0]);
    int code = iterator == NULL ? -1 : 0;
    while (code == 0 && (key = PyIter_Next(iterator)) != NULL) {
        code = PyObject_SetItem(made, key, value);
        Py_DECREF(key);
    }
    Py_XDECREF(iterator);
    if (code < 0 || PyErr_Occurred()) {
        Py_CLEAR(made);
    }
    if (made != NULL && state != NULL && Py_TYPE(made) == state->map) {
        table_give_back((Table *)made, &coming);
    }
    return made;
}

static PyObject *map_repr(PyObject *self) {
    PyObject *name = PyObject_GetAttrString((PyObject *)Py_TYPE(self), "__name__"), *shown = NULL;
    int running = name == NULL ? -1 : Py_ReprEnter(self);
    if (running > 0) {
        shown = PyUnicode_FromFormat("%U({...})", name);
    } else if (running == 0) {
        PyObject *dict = dict_of((Table *)self);
        if (dict != NULL) {
            shown = PyUnicode_FromFormat("%U(%R)", name, dict);
            Py_DECREF(dict);
        }
        Py_ReprLeave(self);
    }
    Py_XDECREF(name);
    return shown;
}

/* A pickle stores the pairs, the attributes, and the number of keys of each kind, for making room. It doesn't store the seed. */
static PyObject *map_reduce(PyObject *self, PyObject *unused) {
    Table *table = (Table *)self;
    (void)unused;
    PyObject *attributes = collection_attributes(self);
    PyObject *pairs = attributes == NULL ? NULL : iterator_new(table, GIVES_ITEMS);
    if (pairs == NULL) {
        Py_XDECREF(attributes);
        return NULL;
    }
    Py_ssize_t words = (Py_ssize_t)table->lens[WORDS], hashed = (Py_ssize_t)table->lens[HASHED];
    return Py_BuildValue("O(Onn)NON", table->state->make_map, Py_TYPE(self), words, hashed,
                         attributes, Py_None, pairs);
}

/* _map_of(type, words, hashed): an empty map of a subclass of Map, without a call of its `__init__`, with room for that many
 * pairs of each kind, if memory allows. */
PyObject *map_made(PyObject *module, PyObject *args) {
    PyTypeObject *type;
    Py_ssize_t words, hashed;
    State *state = state_of_module(module);
    if (!PyArg_ParseTuple(args, "O!nn", &PyType_Type, &type, &words, &hashed)) {
        return NULL;
    }
    PyObject *made = PyObject_CallMethod((PyObject *)type, "__new__", "O", type);
    if (made != NULL && (!is_map(state, made) || words < 0 || hashed < 0)) {
        PyErr_SetString(PyExc_TypeError, "a subclass of Map and two sizes are required");
        Py_CLEAR(made);
    }
    if (made != NULL) {
        Coming coming = {.lens = {(size_t)words, (size_t)hashed}};
        (void)table_make_room((Table *)made, &coming);
    }
    return made;
}

static PyMethodDef map_methods[] = {
    {"get", (PyCFunction)(void (*)(void))pairs_get, METH_FASTCALL,
     "get($self, key, default=None, /)\n--\n\nThe value at a key, or the default. O(1)."},
    {"setdefault", (PyCFunction)(void (*)(void))pairs_setdefault, METH_FASTCALL,
     "setdefault($self, key, default=None, /)\n--\n\nThe value at a key; if the key is absent, inserts the default. O(1)."},
    {"pop", (PyCFunction)(void (*)(void))pairs_pop, METH_FASTCALL,
     "pop(key[, default])\n\nRemoves a pair, and returns its value, or the default; else KeyError. O(1)."},
    {"popitem", pairs_popitem, METH_NOARGS,
     "popitem($self, /)\n--\n\nRemoves some pair, and returns it; KeyError if there is none. Removing all this way costs O(slots)."},
    {"update", (PyCFunction)(void (*)(void))pairs_update, METH_VARARGS | METH_KEYWORDS,
     "update([other], **pairs)\n\nPuts the pairs of a mapping or of an iterable of pairs, then the keywords'."},
    {"clear", map_clear, METH_NOARGS, "clear($self, /)\n--\n\nRemoves all pairs. O(n)."},
    {"copy", map_copy, METH_NOARGS,
     "copy($self, /)\n--\n\nA Map of the same pairs. O(n)."},
    {"fromkeys", (PyCFunction)(void (*)(void))map_fromkeys, METH_FASTCALL | METH_CLASS,
     "fromkeys($type, keys, value=None, /)\n--\n\nA map of these keys, all with one value."},
    {"keys", pairs_keys, METH_NOARGS, "keys($self, /)\n--\n\nA live view of the keys."},
    {"values", pairs_values, METH_NOARGS, "values($self, /)\n--\n\nA live view of the values."},
    {"items", pairs_items, METH_NOARGS, "items($self, /)\n--\n\nA live view of the pairs."},
    {"__reduce__", map_reduce, METH_NOARGS, "For copies and pickles."},
    {"__sizeof__", collection_sizeof, METH_NOARGS, "The approximate size in bytes, without keys and values."},
    {"__class_getitem__", Py_GenericAlias, METH_O | METH_CLASS, "Map[str, int], for type hints."},
    {NULL, NULL, 0, NULL},
};

static PyMemberDef map_members[] = {
    {"__weaklistoffset__", T_PYSSIZET, offsetof(Table, weakrefs), READONLY, NULL},
    {NULL, 0, 0, 0, NULL},
};

static PyType_Slot map_slots[] = {
    {Py_tp_doc, "Map([pairs], **more)\n\nA hash map with a dict's calls, whose keys are ints from -2**63 up to 2**64 - 1, strs and\n"
                "bytes. Any other key is absent in a look-up or a removal, and raises TypeError or OverflowError if put.\n"
                "The order is that of its slots, and changes as pairs are put and removed."},
    {Py_tp_new, collection_new},
    {Py_tp_init, map_init},
    {Py_tp_dealloc, collection_dealloc},
    {Py_tp_traverse, collection_traverse},
    {Py_tp_clear, collection_clear},
    {Py_tp_members, map_members},
    {Py_tp_methods, map_methods},
    {Py_tp_repr, map_repr},
    {Py_tp_hash, PyObject_HashNotImplemented},
    {Py_tp_richcompare, pairs_compare},
    {Py_tp_iter, collection_iter},
    {Py_mp_length, collection_len},
    {Py_mp_subscript, pairs_subscript},
    {Py_mp_ass_subscript, pairs_ass_subscript},
    {Py_sq_contains, collection_contains},
    {Py_nb_or, map_or},
    {Py_nb_inplace_or, map_or_into},
    {0, NULL},
};

PyType_Spec map_spec = {
    .name = "bucket.Map",
    .basicsize = sizeof(Table),
    .flags = Py_TPFLAGS_DEFAULT | Py_TPFLAGS_HAVE_GC | Py_TPFLAGS_BASETYPE,
    .slots = map_slots,
};
