/* Live views of the keys, the values and the pairs of a map or a cache, with the set operations of a dict's views. */
#include "collection.h"

typedef struct View {
    PyObject_HEAD
    Table *table;
} View;

PyObject *view_new(Table *table, PyTypeObject *type) {
    if (type == NULL) {
        PyErr_SetString(PyExc_RuntimeError, "the module bucket is no longer loaded");
        return NULL;
    }
    View *view = PyObject_GC_New(View, type);
    if (view != NULL) {
        view->table = (Table *)Py_NewRef((PyObject *)table);
        PyObject_GC_Track(view);
    }
    return (PyObject *)view;
}

const Table *table_of_view(PyObject *view) {
    return ((View *)view)->table;
}

static int view_traverse(PyObject *self, visitproc visit, void *arg) {
    Py_VISIT(Py_TYPE(self));
    Py_VISIT(((View *)self)->table);
    return 0;
}

static int view_clear(PyObject *self) {
    Py_CLEAR(((View *)self)->table);
    return 0;
}

static void view_dealloc(PyObject *self) {
    PyTypeObject *type = Py_TYPE(self);
    PyObject_GC_UnTrack(self);
    view_clear(self);
    PyObject_GC_Del(self);
    Py_DECREF(type);
}

static Py_ssize_t view_len(PyObject *self) {
    Table *table = ((View *)self)->table;
    return table == NULL ? 0 : (Py_ssize_t)table_len(table);
}

static PyObject *keys_iter(PyObject *self) {
    return iterator_new(((View *)self)->table, GIVES_KEYS);
}

static PyObject *values_iter(PyObject *self) {
    return iterator_new(((View *)self)->table, GIVES_VALUES);
}

static PyObject *items_iter(PyObject *self) {
    return iterator_new(((View *)self)->table, GIVES_ITEMS);
}

static int keys_contains(PyObject *self, PyObject *key) {
    Node *node;
    return table_look(((View *)self)->table, key, false, &node);
}

static int items_contains(PyObject *self, PyObject *item) {
    Node *node;
    if (!PyTuple_Check(item) || PyTuple_Size(item) != 2) {
        return 0;
    }
    int is_there = table_look(((View *)self)->table, PyTuple_GetItem(item, 0), false, &node);
    if (is_there == 1) {
        PyObject *value = Py_NewRef(node->value);
        is_there = PyObject_RichCompareBool(value, PyTuple_GetItem(item, 1), Py_EQ);
        Py_DECREF(value);
    }
    return is_there;
}

static PyObject *view_repr(PyObject *self) {
    int running = Py_ReprEnter(self);
    if (running != 0) {
        return running > 0 ? PyUnicode_FromString("...") : NULL;
    }
    PyObject *shown = NULL, *name = PyObject_GetAttrString((PyObject *)Py_TYPE(self), "__name__");
    PyObject *list = name == NULL ? NULL : PySequence_List(self);
    if (list != NULL) {
        shown = PyUnicode_FromFormat("%U(%R)", name, list);
        Py_DECREF(list);
    }
    Py_XDECREF(name);
    Py_ReprLeave(self);
    return shown;
}

static PyObject *view_mapping(PyObject *self, void *unused) {
    (void)unused;
    return PyDictProxy_New((PyObject *)((View *)self)->table);
}

/* ---- Comparisons ---- */

/* Whether an object is a view of keys or of pairs, of a collection or a dict. */
static bool is_view(const State *state, PyObject *object) {
    return PyDictViewSet_Check(object) || Py_TYPE(object) == state->keys || Py_TYPE(object) == state->items;
}

static bool is_items(const State *state, PyObject *object) {
    return PyDictItems_Check(object) || Py_TYPE(object) == state->items;
}

bool is_set_like(const State *state, PyObject *object) {
    return PyAnySet_Check(object) || is_set(state, object) || is_view(state, object);
}

int are_all_in(PyObject *items, PyObject *other) {
    PyObject *iterator = PyObject_GetIter(items), *item;
    if (iterator == NULL) {
        return -1;
    }
    int are = 1;
    while (are == 1 && (item = PyIter_Next(iterator)) != NULL) {
        are = PySequence_Contains(other, item);
        Py_DECREF(item);
    }
    Py_DECREF(iterator);
    return are == 1 && PyErr_Occurred() ? -1 : are;
}

PyObject *set_like_compare(PyObject *self, PyObject *other, int op) {
    State *state = state_of_type(Py_TYPE(self));
    if (state == NULL || !is_set_like(state, other)) {
        Py_RETURN_NOTIMPLEMENTED;
    }
    Py_ssize_t own = PyObject_Size(self), others = PyObject_Size(other);
    if (own < 0 || others < 0) {
        return NULL;
    }
    int is;
    switch (op) {
    case Py_EQ:
    case Py_NE:
        is = own == others ? are_all_in(self, other) : 0;
        break;
    case Py_LT:
    case Py_LE:
        is = own < others || (op == Py_LE && own == others) ? are_all_in(self, other) : 0;
        break;
    default:
        is = own > others || (op == Py_GE && own == others) ? are_all_in(other, self) : 0;
    }
    return is < 0 ? NULL : PyBool_FromLong(op == Py_NE ? !is : is);
}

/* Whether an object is fast to iterate and to look up in: a set or a view, not of a subclass. */
static bool is_cheap(const State *state, PyObject *object) {
    return PyAnySet_CheckExact(object) || Py_TYPE(object) == state->set || is_view(state, object);
}

PyObject *set_like_isdisjoint(PyObject *self, PyObject *other) {
    PyObject *asked = self, *walked = other;
    State *state = state_of_type(Py_TYPE(self));
    if (state != NULL && is_cheap(state, other)) {
        Py_ssize_t own = PyObject_Size(self), others = PyObject_Size(other);
        if (own < 0 || others < 0) {
            return NULL;
        }
        asked = others > own ? other : self;
        walked = others > own ? self : other;
    }
    PyObject *iterator = PyObject_GetIter(walked), *item;
    if (iterator == NULL) {
        return NULL;
    }
    int is_in = 0;
    while (is_in == 0 && (item = PyIter_Next(iterator)) != NULL) {
        is_in = PySequence_Contains(asked, item);
        Py_DECREF(item);
    }
    Py_DECREF(iterator);
    return is_in < 0 || PyErr_Occurred() ? NULL : PyBool_FromLong(!is_in);
}

/* ---- Operators: a new set, as of a dict's views ---- */

/* 0 or -1. */
static int call_set(PyObject *set, const char *call, PyObject *other) {
    /* "O" alone would take a tuple as the arguments. */
    PyObject *done = PyObject_CallMethod(set, call, "(O)", other);
    Py_XDECREF(done);
    return done == NULL ? -1 : 0;
}

static PyObject *set_after(PyObject *left, const char *call, PyObject *right) {
    PyObject *set = PySet_New(left);
    if (set != NULL && call_set(set, call, right) < 0) {
        Py_CLEAR(set);
    }
    return set;
}

/* Puts the items of an iterable that are in a view into a set. 0 or -1. */
static int add_common(PyObject *set, PyObject *view, PyObject *items) {
    PyObject *iterator = PyObject_GetIter(items), *item;
    if (iterator == NULL) {
        return -1;
    }
    int code = 0;
    while (code == 0 && (item = PyIter_Next(iterator)) != NULL) {
        int is_in = PySequence_Contains(view, item);
        code = is_in == 1 ? PySet_Add(set, item) : is_in;
        Py_DECREF(item);
    }
    Py_DECREF(iterator);
    return code == 0 && PyErr_Occurred() ? -1 : code;
}

/* If a set is at least as long as the view, the view's items are looked up in the set, and hashed for that. Otherwise the
 * other's items are looked up in the view, or of two views the shorter one's items in the longer one: an item that isn't in both
 * isn't hashed. */
static PyObject *view_and(PyObject *left, PyObject *right) {
    State *state = state_of(left, right);
    bool is_left = state != NULL && is_view(state, left);
    PyObject *view = is_left ? left : right, *other = is_left ? right : left;
    Py_ssize_t len = PyObject_Size(view);
    Py_ssize_t others = PySet_CheckExact(other) || (state != NULL && is_view(state, other)) ? PyObject_Size(other) : 0;
    if (len < 0 || others < 0) {
        return NULL;
    }
    if (PySet_CheckExact(other) && len <= others) {
        return PyObject_CallMethod(other, "intersection", "(O)", view);
    }
    PyObject *set = PySet_New(NULL);
    if (set != NULL && (others > len ? add_common(set, other, view) : add_common(set, view, other)) < 0) {
        Py_CLEAR(set);
    }
    return set;
}

static PyObject *view_or(PyObject *left, PyObject *right) {
    return set_after(left, "update", right);
}

static PyObject *view_minus(PyObject *left, PyObject *right) {
    return set_after(left, "difference_update", right);
}

/* Removes a pair from a dict that has it, else puts it into a set. 0 or -1. */
static int toggle_pair(PyObject *dict, PyObject *set, PyObject *pair) {
    PyObject *key = PyTuple_GetItem(pair, 0), *value = Py_XNewRef(PyDict_GetItemWithError(dict, key));
    int is_same = PyErr_Occurred() ? -1 : 0;
    if (value != NULL) {
        is_same = PyObject_RichCompareBool(value, PyTuple_GetItem(pair, 1), Py_EQ);
        Py_DECREF(value);
    }
    return is_same == 1 ? PyDict_DelItem(dict, key) : is_same == 0 ? PySet_Add(set, pair) : -1;
}

/* Puts the left pairs that are not among the right ones into the dict, and the right pairs that are not among the left ones into
 * the set. 0 or -1. */
static int part_pairs(PyObject *dict, PyObject *set, PyObject *left, PyObject *right) {
    PyObject *iterator = PyDict_MergeFromSeq2(dict, left, 1) < 0 ? NULL : PyObject_GetIter(right), *pair;
    if (iterator == NULL) {
        return -1;
    }
    int code = 0;
    while (code == 0 && (pair = PyIter_Next(iterator)) != NULL) {
        code = toggle_pair(dict, set, pair);
        Py_DECREF(pair);
    }
    Py_DECREF(iterator);
    return code == 0 && PyErr_Occurred() ? -1 : code;
}

/* The pairs in exactly one of two views of pairs. A value that is equal in both isn't hashed. */
static PyObject *items_xor(PyObject *left, PyObject *right) {
    PyObject *dict = PyDict_New(), *set = dict == NULL ? NULL : PySet_New(NULL);
    PyObject *rest = set == NULL || part_pairs(dict, set, left, right) < 0 ? NULL : PyDict_Items(dict);
    if (rest == NULL || call_set(set, "update", rest) < 0) {
        Py_CLEAR(set);
    }
    Py_XDECREF(rest);
    Py_XDECREF(dict);
    return set;
}

static PyObject *view_xor(PyObject *left, PyObject *right) {
    State *state = state_of(left, right);
    if (state != NULL && is_items(state, left) && is_items(state, right)) {
        return items_xor(left, right);
    }
    return set_after(left, "symmetric_difference_update", right);
}

/* ---- Types ---- */

static PyGetSetDef view_attributes[] = {
    {"mapping", view_mapping, NULL, "The collection of this view, read-only.", NULL},
    {NULL, NULL, NULL, NULL, NULL},
};

static PyMethodDef set_like_methods[] = {
    {"isdisjoint", set_like_isdisjoint, METH_O, "Whether no item of an iterable is in the view."},
    {NULL, NULL, 0, NULL},
};

/* What all views share, and what those of keys and of pairs share. */
#define VIEW_SLOTS(contents, iterate)                                                                                          \
    {Py_tp_doc, "A live view of the " contents "."}, {Py_tp_dealloc, view_dealloc}, {Py_tp_traverse, view_traverse},           \
        {Py_tp_clear, view_clear}, {Py_tp_repr, view_repr}, {Py_tp_iter, iterate}, {Py_sq_length, view_len},                   \
        {Py_tp_getset, view_attributes}
#define SET_SLOTS(contains)                                                                                                    \
    {Py_sq_contains, contains}, {Py_tp_richcompare, set_like_compare}, {Py_tp_hash, PyObject_HashNotImplemented},                  \
        {Py_tp_methods, set_like_methods}, {Py_nb_and, view_and}, {Py_nb_or, view_or}, {Py_nb_subtract, view_minus},                \
        {Py_nb_xor, view_xor}
#define VIEW_SPEC(kind, its_slots)                                                                                             \
    {                                                                                                                          \
        .name = "bucket.map_" kind, .basicsize = sizeof(View),                                                                 \
        .flags = Py_TPFLAGS_DEFAULT | Py_TPFLAGS_HAVE_GC | Py_TPFLAGS_DISALLOW_INSTANTIATION, .slots = its_slots,              \
    }

static PyType_Slot keys_slots[] = {VIEW_SLOTS("keys", keys_iter), SET_SLOTS(keys_contains), {0, NULL}};
static PyType_Slot values_slots[] = {VIEW_SLOTS("values", values_iter), {0, NULL}};
static PyType_Slot items_slots[] = {VIEW_SLOTS("pairs", items_iter), SET_SLOTS(items_contains), {0, NULL}};

PyType_Spec keys_spec = VIEW_SPEC("keys", keys_slots);
PyType_Spec values_spec = VIEW_SPEC("values", values_slots);
PyType_Spec items_spec = VIEW_SPEC("items", items_slots);
