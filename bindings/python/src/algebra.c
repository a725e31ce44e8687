/* The operations of sets: methods that take any iterables, and operators that take sets. An item that is not a key is in no set;
 * a call that would have to insert it raises TypeError. */
#include "collection.h"

typedef int (*KeyCall)(Table *set, PyObject *key, Table *made);

/* Makes a call for each key of an iterable. Returns 0 or -1. */
static int each_key(PyObject *keys, KeyCall call, Table *set, Table *made) {
    PyObject *iterator = PyObject_GetIter(keys), *key;
    if (iterator == NULL) {
        return -1;
    }
    int code = 0;
    while (code == 0 && (key = PyIter_Next(iterator)) != NULL) {
        code = call(set, key, made);
        Py_DECREF(key);
    }
    Py_DECREF(iterator);
    return code == 0 && PyErr_Occurred() ? -1 : code;
}

static int add(Table *set, PyObject *key, Table *made) {
    (void)made;
    return table_put(set, key, NULL);
}

static int take_away(Table *set, PyObject *key, Table *made) {
    Node *node;
    (void)made;
    int is_there = table_remove(set, key, &node);
    if (is_there == 1) {
        nodes_drop(set->state, node);
    }
    return is_there < 0 ? -1 : 0;
}

static int toggle(Table *set, PyObject *key, Table *made) {
    Node *node;
    (void)made;
    int is_there = table_remove(set, key, &node);
    if (is_there == 1) {
        nodes_drop(set->state, node);
    }
    return is_there == 0 ? table_put(set, key, NULL) : is_there < 0 ? -1 : 0;
}

/* Puts the set's own key into the new set, if it has one. */
static int keep(Table *set, PyObject *key, Table *made) {
    Node *node;
    int is_there = table_look(set, key, false, &node);
    if (is_there != 1) {
        return is_there;
    }
    key = Py_NewRef(node->key);
    int code = table_put(made, key, NULL);
    Py_DECREF(key);
    return code;
}

int set_add_all(Table *set, PyObject *keys) {
    if (keys == (PyObject *)set) {
        return 0;
    }
    Coming coming = coming_of(set->state, keys, false);
    if (table_make_room(set, &coming) < 0) {
        return -1;
    }
    int code = each_key(keys, add, set, NULL);
    table_give_back(set, &coming);
    return code;
}

static int remove_all(Table *set, PyObject *keys) {
    return keys == (PyObject *)set ? collection_clear(keys) : each_key(keys, take_away, set, NULL);
}

/* ---- New sets ---- */

static Table *new_set(const Table *set) {
    return table_new(set->state, set->state->set);
}

static Table *finished(Table *made, int code) {
    if (code < 0) {
        Py_CLEAR(made);
    }
    return made;
}

static Table *set_of(const Table *set, PyObject *keys) {
    Table *made = new_set(set);
    return made == NULL ? NULL : finished(made, set_add_all(made, keys));
}

/* Whether `keys` is a set or a dict with more keys than a set. */
static bool is_larger(const Table *set, PyObject *keys) {
    if (!is_set_like(set->state, keys) && !PyDict_CheckExact(keys)) {
        return false;
    }
    Py_ssize_t len = PyObject_Size(keys);
    PyErr_Clear();
    return len > (Py_ssize_t)table_len(set);
}

/* A new set with room for some of the keys of another collection. */
static Table *new_set_for(const Table *set, PyObject *keys, Coming *coming) {
    Table *made = new_set(set);
    if (made == NULL) {
        return NULL;
    }
    *coming = coming_of(set->state, keys, false);
    coming->is_sure = false;
    return finished(made, table_make_room(made, coming));
}

/* The set's own keys that are in another collection, or those that aren't. */
static Table *own_keys(Table *set, PyObject *other, bool that_are_in) {
    Coming coming;
    Table *made = new_set_for(set, (PyObject *)set, &coming);
    PyObject *iterator = made == NULL ? NULL : collection_iter((PyObject *)set), *key;
    int code = iterator == NULL ? -1 : 0;
    while (code == 0 && (key = PyIter_Next(iterator)) != NULL) {
        int is_in = PySequence_Contains(other, key);
        code = is_in < 0 ? -1 : is_in == that_are_in ? table_put(made, key, NULL) : 0;
        Py_DECREF(key);
    }
    Py_XDECREF(iterator);
    if (made != NULL) {
        table_give_back(made, &coming);
    }
    return made == NULL ? NULL : finished(made, code == 0 && PyErr_Occurred() ? -1 : code);
}

static Table *common_keys(Table *set, PyObject *keys) {
    if (is_larger(set, keys)) {
        return own_keys(set, keys, true);
    }
    Coming coming;
    Table *made = new_set_for(set, keys, &coming);
    if (made == NULL) {
        return NULL;
    }
    int code = each_key(keys, keep, set, made);
    table_give_back(made, &coming);
    return finished(made, code);
}

static Table *without_keys(Table *set, PyObject *keys) {
    if (is_larger(set, keys)) {
        return own_keys(set, keys, false);
    }
    Table *made = set_of(set, (PyObject *)set);
    PyObject *others = keys == (PyObject *)set ? (PyObject *)made : keys;
    return made == NULL ? NULL : finished(made, remove_all(made, others));
}

/* The keys in exactly one of the two. */
static Table *keys_of_one(Table *set, PyObject *keys) {
    Table *made = set_of(set, keys);
    if (made == NULL) {
        return NULL;
    }
    Coming coming = coming_of(set->state, (PyObject *)set, false);
    int code = table_make_room(made, &coming);
    if (code == 0) {
        code = each_key((PyObject *)set, toggle, made, NULL);
        table_give_back(made, &coming);
    }
    return finished(made, code);
}

/* Moves the contents of a new set into the set. */
static int take_over(Table *set, Table *made) {
    if (made == NULL) {
        return -1;
    }
    table_exchange(set, made);
    Py_DECREF(made);
    return 0;
}

static PyObject *none_or_error(int code) {
    return code < 0 ? NULL : Py_NewRef(Py_None);
}

/* ---- Methods ---- */

typedef Table *(*NewSet)(Table *set, PyObject *keys);

/* The set that results from a call with each of the others in turn; a copy if there are none. */
static Table *with_each(PyObject *self, PyObject *others, NewSet call) {
    Table *made = PyTuple_Size(others) > 0 ? (Table *)Py_NewRef(self) : set_of((Table *)self, self);
    for (Py_ssize_t at = 0; made != NULL && at < PyTuple_Size(others); at++) {
        Table *next = call(made, PyTuple_GetItem(others, at));
        Py_DECREF(made);
        made = next;
    }
    return made;
}

PyObject *set_update(PyObject *self, PyObject *others) {
    int code = 0;
    for (Py_ssize_t at = 0; code == 0 && at < PyTuple_Size(others); at++) {
        code = set_add_all((Table *)self, PyTuple_GetItem(others, at));
    }
    return none_or_error(code);
}

PyObject *set_union(PyObject *self, PyObject *others) {
    Table *made = set_of((Table *)self, self);
    PyObject *done = made == NULL ? NULL : set_update((PyObject *)made, others);
    Py_XDECREF(done);
    return (PyObject *)(made == NULL ? NULL : finished(made, done == NULL ? -1 : 0));
}

PyObject *set_intersection(PyObject *self, PyObject *others) {
    return (PyObject *)with_each(self, others, common_keys);
}

PyObject *set_intersection_update(PyObject *self, PyObject *others) {
    return none_or_error(take_over((Table *)self, with_each(self, others, common_keys)));
}

PyObject *set_difference(PyObject *self, PyObject *others) {
    return (PyObject *)with_each(self, others, without_keys);
}

PyObject *set_difference_update(PyObject *self, PyObject *others) {
    int code = 0;
    for (Py_ssize_t at = 0; code == 0 && at < PyTuple_Size(others); at++) {
        code = remove_all((Table *)self, PyTuple_GetItem(others, at));
    }
    return none_or_error(code);
}

PyObject *set_symmetric_difference(PyObject *self, PyObject *other) {
    return (PyObject *)keys_of_one((Table *)self, other);
}

PyObject *set_symmetric_difference_update(PyObject *self, PyObject *other) {
    return none_or_error(take_over((Table *)self, keys_of_one((Table *)self, other)));
}

/* ---- Operators ---- */

/* An operator whose left side is a set or a frozenset returns one of these, else a Set. */
static PyObject *operate(PyObject *left, PyObject *right, NewSet call, const char *name) {
    State *state = state_of(left, right);
    if (state == NULL || !is_set_like(state, right)) {
        Py_RETURN_NOTIMPLEMENTED;
    }
    if (is_set(state, left)) {
        return (PyObject *)call((Table *)left, right);
    }
    if (PyAnySet_Check(left)) {
        return PyObject_CallMethod(left, name, "O", right);
    }
    Py_RETURN_NOTIMPLEMENTED;
}

static Table *all_keys(Table *set, PyObject *keys) {
    Table *made = set_of(set, (PyObject *)set);
    return made == NULL ? NULL : finished(made, set_add_all(made, keys));
}

PyObject *set_or(PyObject *left, PyObject *right) {
    return operate(left, right, all_keys, "union");
}

PyObject *set_and(PyObject *left, PyObject *right) {
    return operate(left, right, common_keys, "intersection");
}

PyObject *set_minus(PyObject *left, PyObject *right) {
    return operate(left, right, without_keys, "difference");
}

PyObject *set_xor(PyObject *left, PyObject *right) {
    return operate(left, right, keys_of_one, "symmetric_difference");
}

/* An operator that changes its left side. */
static PyObject *operate_into(PyObject *self, PyObject *other, PyObject *(*call)(PyObject *, PyObject *)) {
    if (!is_set_like(((Table *)self)->state, other)) {
        Py_RETURN_NOTIMPLEMENTED;
    }
    PyObject *done = call(self, other);
    if (done == NULL) {
        return NULL;
    }
    Py_DECREF(done);
    return Py_NewRef(self);
}

static PyObject *update_by(PyObject *self, PyObject *other) {
    return none_or_error(set_add_all((Table *)self, other));
}

static PyObject *intersect_by(PyObject *self, PyObject *other) {
    return none_or_error(take_over((Table *)self, common_keys((Table *)self, other)));
}

static PyObject *reduce_by(PyObject *self, PyObject *other) {
    return none_or_error(remove_all((Table *)self, other));
}

PyObject *set_or_into(PyObject *self, PyObject *other) {
    return operate_into(self, other, update_by);
}

PyObject *set_and_into(PyObject *self, PyObject *other) {
    return operate_into(self, other, intersect_by);
}

PyObject *set_minus_into(PyObject *self, PyObject *other) {
    return operate_into(self, other, reduce_by);
}

PyObject *set_xor_into(PyObject *self, PyObject *other) {
    return operate_into(self, other, set_symmetric_difference_update);
}
