/* Keys: how an int, a str or bytes is stored in a table.
 *
 * An int from -2^63 to 2^63 - 1 is its own word, in two's complement. The word of another key is its Python hash, which a str
 * and bytes cache. Keys with equal hashes, such as "a" and b"a", are distinguished by their types and contents, without running
 * foreign code. So two keys are equal exactly if a dict considers them equal. */
#include "collection.h"

#include <string.h>

static KeyCode key_by_hash(Key *key, PyObject *object, PyTypeObject *base) {
    /* An object of a subclass hashes as its base does, whatever the subclass defines. */
    hashfunc hash = Py_TYPE(object) == base ? PyObject_Hash : (hashfunc)PyType_GetSlot(base, Py_tp_hash);
    Py_hash_t word = hash(object);
    *key = (Key){.kind = HASHED, .word = (uint64_t)word, .object = object, .base = base};
    return word == -1 ? KEY_ERROR : KEY_OK;
}

static KeyCode key_of_int(Key *key, PyObject *object) {
    int overflow;
    long long word = PyLong_AsLongLongAndOverflow(object, &overflow);
    if (overflow == 0) {
        *key = (Key){.kind = WORDS, .word = (uint64_t)word};
        return KEY_OK;
    }
    if (overflow < 0) {
        return KEY_NONE;
    }
    if (PyLong_AsUnsignedLongLong(object) == (unsigned long long)-1 && PyErr_Occurred()) {
        if (!PyErr_ExceptionMatches(PyExc_OverflowError)) {
            return KEY_ERROR;
        }
        PyErr_Clear();
        return KEY_NONE;
    }
    return key_by_hash(key, object, &PyLong_Type);
}

static KeyCode key_of_base(Key *key, PyObject *object, PyTypeObject *base) {
    return base == &PyLong_Type ? key_of_int(key, object) : key_by_hash(key, object, base);
}

/* Whether two types share an object as an attribute: 1, 0, -1. */
static int have_same(PyTypeObject *type, PyTypeObject *base, const char *name) {
    PyObject *own = PyObject_GetAttrString((PyObject *)type, name);
    PyObject *inherited = own == NULL ? NULL : PyObject_GetAttrString((PyObject *)base, name);
    int is_same = inherited == NULL ? -1 : own == inherited;
    Py_XDECREF(own);
    Py_XDECREF(inherited);
    return is_same;
}

/* Whether objects of a subclass of int, str or bytes compare and hash as those do: 1, 0, -1. */
static int is_plain(PyTypeObject *type, PyTypeObject *base) {
    if (PyType_GetSlot(type, Py_tp_richcompare) == PyType_GetSlot(base, Py_tp_richcompare) &&
        PyType_GetSlot(type, Py_tp_hash) == PyType_GetSlot(base, Py_tp_hash)) {
        return 1;
    }
    int is_same = have_same(type, base, "__eq__");
    return is_same == 1 ? have_same(type, base, "__hash__") : is_same;
}

/* The one of int, str and bytes of which an object's type is a subclass, or NULL. */
static PyTypeObject *base_of(PyObject *object) {
    return PyLong_Check(object) ? &PyLong_Type
        : PyUnicode_Check(object) ? &PyUnicode_Type
        : PyBytes_Check(object) ? &PyBytes_Type
                                : NULL;
}

KeyCode key_of(Key *key, PyObject *object) {
    PyTypeObject *type = Py_TYPE(object);
    if (type == &PyUnicode_Type || type == &PyLong_Type || type == &PyBytes_Type) {
        return key_of_base(key, object, type);
    }
    PyTypeObject *base = base_of(object);
    if (base == NULL) {
        return KEY_NONE;
    }
    int plain = is_plain(type, base);
    return plain == 1 ? key_of_base(key, object, base) : plain == 0 ? KEY_NONE : KEY_ERROR;
}

void key_of_node(Key *key, const Node *node) {
    (void)key_of_base(key, node->key, base_of(node->key));
}

bool key_equals(const Key *key, PyObject *object) {
    if (Py_TYPE(object) != key->base && base_of(object) != key->base) {
        return false;
    }
    /* None of these calls fails: a str that was hashed is ready, and an int that is a key has 64 bits. */
    if (key->base == &PyUnicode_Type) {
        return PyUnicode_Compare(key->object, object) == 0;
    }
    if (key->base == &PyLong_Type) {
        return PyLong_AsUnsignedLongLong(key->object) == PyLong_AsUnsignedLongLong(object);
    }
    Py_ssize_t len = PyBytes_Size(object);
    return PyBytes_Size(key->object) == len &&
        memcmp(PyBytes_AsString(key->object), PyBytes_AsString(object), (size_t)len) == 0;
}

int key_refused(PyObject *object) {
    PyTypeObject *type = Py_TYPE(object), *base = base_of(object);
    PyObject *name = PyObject_GetAttrString((PyObject *)type, "__name__");
    if (name == NULL) {
        return -1;
    }
    int plain = base == NULL ? 0 : is_plain(type, base);
    if (plain == 1) {
        PyErr_SetString(PyExc_OverflowError, "an int key must be from -2**63 up to 2**64 - 1");
    } else if (plain == 0 && PyType_GetSlot(type, Py_tp_hash) == (void *)PyObject_HashNotImplemented) {
        PyErr_Format(PyExc_TypeError, "unhashable type: '%U'", name);
    } else if (plain == 0 && base != NULL) {
        PyErr_Format(PyExc_TypeError, "a key must compare and hash as int, str or bytes do, unlike '%U'", name);
    } else if (plain == 0) {
        PyErr_Format(PyExc_TypeError, "a key must be an int, a str or bytes, not '%U'", name);
    }
    Py_DECREF(name);
    return -1;
}

void key_missing(PyObject *object) {
    /* A bare tuple would become the exception's arguments. */
    PyObject *arguments = PyTuple_Pack(1, object);
    if (arguments != NULL) {
        PyErr_SetObject(PyExc_KeyError, arguments);
        Py_DECREF(arguments);
    }
}
