/* Reads all nodes, in pieces of 64 that continue from a place. */
#include "collection.h"

void reading_begin(Reading *reading, Table *table) {
    reading->table = table;
    reading->version = table->version;
    reading->kind = WORDS;
    reading->place = (bucket_place)BUCKET_START;
    reading->at = reading->count = 0;
    reading->all = NULL;
    reading->rest = NULL;
}

int reading_begin_shared(Reading *reading, Table *table) {
    reading_begin(reading, table);
    if (!table->is_cache || table_len(table) == 0) {
        return 0;
    }
    /* A look-up in a cache moves pairs. So all nodes are copied out, and a node lives as long as no pair is removed. */
    reading->all = PyMem_Malloc(table_len(table) * sizeof *reading->all);
    if (reading->all == NULL) {
        PyErr_NoMemory();
        return -1;
    }
    Cache *cache = (Cache *)table;
    for (Used *used = cache->order.after; used != &cache->order; used = used->after) {
        reading->all[reading->count++] = &used->node;
    }
    return 0;
}

void reading_end(Reading *reading) {
    PyMem_Free(reading->all);
    reading->all = NULL;
    reading->rest = NULL;
    reading->at = reading->count = 0;
    reading->kind = KINDS;
}

/* The first node of the next chain, or NULL. */
static Node *next_first(Reading *reading) {
    while (reading->at == reading->count) {
        if (reading->kind == KINDS) {
            return NULL;
        }
        size_t count = 0;
        uint32_t code = bucket_values(&reading->table->handles[reading->kind], &reading->place, reading->firsts, PIECE, &count);
        reading->at = 0;
        reading->count = code == BUCKET_OK ? count : 0;
        if (reading->count == 0) {
            reading->kind++;
            reading->place = (bucket_place)BUCKET_START;
        }
    }
    return (Node *)(uintptr_t)reading->firsts[reading->at++];
}

Node *reading_next(Reading *reading) {
    if (reading->all != NULL) {
        return reading->at < reading->count ? reading->all[reading->at++] : NULL;
    }
    Node *node = reading->rest != NULL ? reading->rest : next_first(reading);
    reading->rest = node == NULL ? NULL : node->next;
    return node;
}

Node *reading_step(Reading *reading) {
    if (reading->version != reading->table->version) {
        PyErr_SetString(PyExc_RuntimeError, "a collection changed size during iteration");
        return NULL;
    }
    return reading_next(reading);
}
