/* The module bucket._bucket: its types, its seed and its functions. */
#include "collection.h"

#include <string.h>

extern PyModuleDef bucket_module;

/* The module's own memory is the address of its state. */
State *state_of_module(PyObject *module) {
    return *(State **)PyModule_GetState(module);
}

/* ---- The seed ---- */

static int seed_from(State *state, PyObject *bytes) {
    char *start;
    Py_ssize_t len;
    if (PyBytes_AsStringAndSize(bytes, &start, &len) < 0) {
        return -1;
    }
    if (len != sizeof state->seed) {
        PyErr_Format(PyExc_ValueError, "a seed has %zu bytes", sizeof state->seed);
        return -1;
    }
    memcpy(&state->seed, start, sizeof state->seed);
    state->is_drawn = false;
    return 0;
}

static int seed_by_chance(State *state) {
    PyObject *os = PyImport_ImportModule("os");
    PyObject *bytes = os == NULL ? NULL : PyObject_CallMethod(os, "urandom", "n", (Py_ssize_t)sizeof state->seed);
    int code = bytes == NULL ? -1 : seed_from(state, bytes);
    state->is_drawn |= code == 0;
    Py_XDECREF(bytes);
    Py_XDECREF(os);
    return code;
}

/* Keys are read from a table in the order of their hashes. Inserted into another table with the same seed, they would all
 * collide in its first buckets, since it is small when the first ones are inserted. So seeds differ, unless one was given. */
bucket_seed next_seed(State *state) {
    bucket_seed seed = state->seed;
    state->seed.key0 += state->is_drawn;
    return seed;
}

static PyObject *seeded(PyObject *module, PyObject *seed) {
    State *state = state_of_module(module);
    int code = seed == Py_None ? seed_by_chance(state) : seed_from(state, seed);
    return code < 0 ? NULL : Py_NewRef(Py_None);
}

/* How many pairs all collections have, including those still to be released. */
static PyObject *count_nodes(PyObject *module, PyObject *unused) {
    (void)unused;
    return PyLong_FromSsize_t(state_of_module(module)->nodes);
}

static PyMethodDef functions[] = {
    {"seeded", seeded, METH_O,
     "seeded($module, seed, /)\n--\n\n"
     "Sets the seed, 16 bytes, of the collections whose first key is put from now on. None: a\n"
     "random seed for each collection.\n\n"
     "Keys are iterated in the order of their hashes. So a loop that puts those of one Map or Set\n"
     "into another with the same seed takes up to O(n * n). Calls that take a whole collection,\n"
     "such as copy and update, take O(n). A Cache has another seed, derived from this one.\n\n"
     "At first the seeds are random, or derived from PYTHONHASHSEED. Of a str, bytes and an int from 2**63 on, Python's own\n"
     "hash is hashed; that of strs and bytes differs in each process, unless PYTHONHASHSEED is set."},
    {"_nodes", count_nodes, METH_NOARGS, "The number of pairs in memory, for tests."},
    {"_map_of", map_made, METH_VARARGS, "For pickles of a Map."},
    {"_set_of", set_made, METH_VARARGS, "For pickles of a Set."},
    {"_cache_of", cache_made, METH_VARARGS, "For pickles of a Cache."},
    {NULL, NULL, 0, NULL},
};

/* ---- The module ---- */

/* Makes a type, which the state holds; a public one is also an attribute of the module. */
static int make_type(PyObject *module, PyType_Spec *spec, PyTypeObject **type, bool is_public) {
    *type = (PyTypeObject *)PyType_FromModuleAndSpec(module, spec, NULL);
    return *type == NULL ? -1 : is_public ? PyModule_AddType(module, *type) : 0;
}

static int make_types(PyObject *module, State *state) {
    if (make_type(module, &map_spec, &state->map, true) < 0 || make_type(module, &set_spec, &state->set, true) < 0 ||
        make_type(module, &cache_spec, &state->cache, true) < 0 || make_type(module, &keys_spec, &state->keys, false) < 0 ||
        make_type(module, &values_spec, &state->values, false) < 0 || make_type(module, &items_spec, &state->items, false) < 0 ||
        make_type(module, &iterator_spec, &state->iterator, false) < 0) {
        return -1;
    }
    /* Otherwise a subclass with a __getitem__ could be reversed by it. The order is meaningless. */
    if (PyObject_SetAttrString((PyObject *)state->map, "__reversed__", Py_None) < 0 ||
        PyObject_SetAttrString((PyObject *)state->cache, "__reversed__", Py_None) < 0) {
        return -1;
    }
    return 0;
}

static PyObject *attribute_of(const char *module, const char *name) {
    PyObject *imported = PyImport_ImportModule(module);
    PyObject *attribute = imported == NULL ? NULL : PyObject_GetAttrString(imported, name);
    Py_XDECREF(imported);
    return attribute;
}

static PyObject *make_cache_info(void) {
    PyObject *make = attribute_of("collections", "namedtuple");
    PyObject *type = make == NULL
        ? NULL
        : PyObject_CallFunction(make, "s(ssss)", "CacheInfo", "hits", "misses", "maxsize", "currsize");
    PyObject *name = type == NULL ? NULL : PyUnicode_FromString("bucket");
    if (name == NULL || PyObject_SetAttrString(type, "__module__", name) < 0) {
        Py_CLEAR(type);
    }
    Py_XDECREF(name);
    Py_XDECREF(make);
    return type;
}

static int add_version(PyObject *module) {
    PyObject *version = PyUnicode_FromFormat("%d.%d.%d", BUCKET_VERSION_MAJOR, BUCKET_VERSION_MINOR, BUCKET_VERSION_PATCH);
    int code = version == NULL ? -1 : PyModule_AddObjectRef(module, "__version__", version);
    Py_XDECREF(version);
    return code;
}

static int module_exec(PyObject *module) {
    State **own = PyModule_GetState(module), *state = PyMem_Calloc(1, sizeof *state);
    if (state == NULL) {
        PyErr_NoMemory();
        return -1;
    }
    state->holders = 1;
    *own = state;
    if (bucket_version() != BUCKET_VERSION) {
        PyErr_SetString(PyExc_ImportError, "the library and the header have different versions");
        return -1;
    }
    if (make_types(module, state) < 0 || seed_by_chance(state) < 0 || add_version(module) < 0) {
        return -1;
    }
    state->make_map = PyObject_GetAttrString(module, "_map_of");
    state->make_set = PyObject_GetAttrString(module, "_set_of");
    state->make_cache = PyObject_GetAttrString(module, "_cache_of");
    state->cache_info = make_cache_info();
    if (state->make_map == NULL || state->make_set == NULL || state->make_cache == NULL || state->cache_info == NULL) {
        return -1;
    }
    return PyModule_AddObjectRef(module, "CacheInfo", state->cache_info);
}

static int module_traverse(PyObject *module, visitproc visit, void *arg) {
    State *state = state_of_module(module);
    if (state == NULL) {
        return 0;
    }
    Py_VISIT(state->map);
    Py_VISIT(state->set);
    Py_VISIT(state->cache);
    Py_VISIT(state->keys);
    Py_VISIT(state->values);
    Py_VISIT(state->items);
    Py_VISIT(state->iterator);
    Py_VISIT(state->make_map);
    Py_VISIT(state->make_set);
    Py_VISIT(state->make_cache);
    Py_VISIT(state->cache_info);
    return 0;
}

static int module_clear(PyObject *module) {
    State *state = state_of_module(module);
    if (state == NULL) {
        return 0;
    }
    Py_CLEAR(state->map);
    Py_CLEAR(state->set);
    Py_CLEAR(state->cache);
    Py_CLEAR(state->keys);
    Py_CLEAR(state->values);
    Py_CLEAR(state->items);
    Py_CLEAR(state->iterator);
    Py_CLEAR(state->make_map);
    Py_CLEAR(state->make_set);
    Py_CLEAR(state->make_cache);
    Py_CLEAR(state->cache_info);
    return 0;
}

static void module_free(void *module) {
    module_clear(module);
    if (state_of_module(module) != NULL) {
        state_leave(state_of_module(module));
    }
}

static PyModuleDef_Slot module_slots[] = {
    {Py_mod_exec, module_exec},
    {0, NULL},
};

PyModuleDef bucket_module = {
    PyModuleDef_HEAD_INIT,
    .m_name = "bucket._bucket",
    .m_doc = "The types of the module bucket.",
    .m_size = sizeof(State *),
    .m_methods = functions,
    .m_slots = module_slots,
    .m_traverse = module_traverse,
    .m_clear = module_clear,
    .m_free = module_free,
};

PyMODINIT_FUNC PyInit__bucket(void) {
    return PyModuleDef_Init(&bucket_module);
}
