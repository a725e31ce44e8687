// Tables of named cases, and what the programs of this folder share: the kinds of collections, and
// the calls that a handle of each kind refuses. It is both C and C++.
#ifndef CASES_H
#define CASES_H

#include "bucket.h"

#include <stdio.h>
#include <string.h>

// A case, or a part of one, returns 1 at its first check that fails, otherwise 0.
typedef struct test_case {
    const char *name;
    int (*run)(void);
} test_case;

// The first check that failed in a case, and what the case was about then, such as a kind.
static struct {
    const char *check, *file;
    int line;
    char about[60];
} failure;

static inline int failed_at(const char *file, int line, const char *check) {
    if (failure.check == NULL) {
        failure.check = check;
        failure.file = file;
        failure.line = line;
    }
    return 1;
}

#define CHECK(holds)                                      \
    do {                                                  \
        if (!(holds)) {                                   \
            return failed_at(__FILE__, __LINE__, #holds); \
        }                                                 \
    } while (0)

// Notes, in the way of printf, what the next checks of a case are about. It is printed if one
// fails.
#define ABOUT(...) snprintf(failure.about, sizeof failure.about, __VA_ARGS__)

// The seed of the handles that the running case opens.
static bucket_seed seed;

// Runs a case with each seed until a check fails, and prints that check. Its line is one of the
// program, unless this header is named.
static inline int run_case(const char *program, const test_case *one, const bucket_seed *seeds, size_t count) {
    for (size_t at = 0; at < count; at++) {
        seed = seeds[at];
        memset(&failure, 0, sizeof failure);
        if (one->run() != 0) {
            const char *where = strcmp(failure.file, __FILE__) == 0 ? " of cases.h" : "";
            printf("%s: %s: line %d%s: %s", program, one->name, failure.line, where, failure.check);
            printf(*failure.about ? " (%s)\n" : "%s\n", failure.about);
            return 1;
        }
    }
    return 0;
}

// Runs all cases of a table, which ends with a row of nulls. Returns 1 if one failed, otherwise 0.
static inline int run_cases(const char *program, const test_case *cases, const bucket_seed *seeds, size_t count) {
    int failed = 0;
    for (; cases->run != NULL; cases++) {
        failed |= run_case(program, cases, seeds, count);
    }
    return failed;
}

static inline const uint8_t *text(const char *of) { return (const uint8_t *)of; }

// First the kinds whose keys are words, then those whose keys are byte strings. NONE: a closed
// handle.
enum kinds { MAP, SET, CACHE, TEXT_MAP, TEXT_CACHE, TEXT_SET, STORE, KINDS, NONE };

static inline const char *kind_name(int kind) {
    static const char *const names[KINDS] = {"map", "set", "cache", "text map", "text cache", "text set", "store"};
    return kind < KINDS ? names[kind] : "closed handle";
}

static inline uint32_t open_kind(int kind, bucket_handle *handle) {
    switch (kind) {
    case MAP: return bucket_map_new(handle, 0, seed);
    case SET: return bucket_set_new(handle, seed);
    case CACHE: return bucket_cache_new(handle, 0, 1 << 20, seed);
    case TEXT_MAP: return bucket_text_map_new(handle, 0, seed);
    case TEXT_CACHE: return bucket_text_cache_new(handle, 0, 1 << 20, seed);
    case TEXT_SET: return bucket_text_set_new(handle, seed);
    default: return bucket_store_new(handle, 0, seed);
    }
}

// The value of a number's key, if its kind has values.
#define VALUE(number) ((number) + 5000)

// Puts the key of a number: itself, or its bytes.
static inline uint32_t put_number(int kind, bucket_handle *handle, uint64_t number) {
    const uint8_t *key = (const uint8_t *)&number;
    uint8_t gone[8];
    uint64_t word, other;
    size_t len;
    switch (kind) {
    case MAP: return bucket_map_insert(handle, number, VALUE(number));
    case SET: return bucket_set_insert(handle, number);
    case CACHE: return bucket_cache_put(handle, number, VALUE(number), &word, &other);
    case TEXT_MAP: return bucket_text_map_insert(handle, key, 8, VALUE(number));
    case TEXT_CACHE: return bucket_text_cache_put(handle, key, 8, VALUE(number), gone, 8, &len, &word);
    case TEXT_SET: return bucket_text_set_insert(handle, key, 8);
    default: return bucket_store_insert(handle, key, 8, key, 8);
    }
}

static inline bool is_cache(int kind) { return kind == CACHE || kind == TEXT_CACHE; }

// Puts a number that is absent. A cache may evict another one.
static inline int put_next(int kind, bucket_handle *handle, uint64_t number) {
    uint32_t code = put_number(kind, handle, number);
    CHECK(code == BUCKET_OK || (code == BUCKET_EVICTED && is_cache(kind)));
    return 0;
}

// Opens a handle of a kind, and puts the numbers below `count`.
static inline int open_with(int kind, bucket_handle *handle, uint64_t count) {
    ABOUT("%s of %d keys", kind_name(kind), (int)count);
    CHECK(open_kind(kind, handle) == BUCKET_OK);
    for (uint64_t number = 0; number < count; number++) {
        CHECK(put_next(kind, handle, number) == 0);
    }
    CHECK(is_cache(kind) || bucket_len(handle) == count);
    return 0;
}

// What calls write out: no byte of it changes if a call is refused.
typedef struct outputs {
    uint64_t word, other;
    size_t size;
    bucket_place place;
    bucket_pair pair;
    bucket_text_pair row;
    uint8_t bytes[8];
} outputs;

// The functions that a refused call must not call. The first two change an output.
static inline void change_output(uint64_t key, uint64_t value, void *out) { ((outputs *)out)->word += key + value + 1; }

static inline bool change_and_remove(uint64_t key, uint64_t value, void *out) {
    change_output(key, value, out);
    return true;
}

// How often count_destroyed was called.
static size_t destroyed;

static inline void count_destroyed(uint64_t value) {
    (void)value;
    destroyed++;
}

static inline int refuse_words(int kind, bucket_handle *handle, uint32_t code, outputs *out) {
    if (kind != MAP) {
        CHECK(bucket_map_insert(handle, 1, 2) == code);
        CHECK(bucket_map_upsert(handle, 1, 2, &out->word) == code);
        CHECK(bucket_map_get(handle, 1, &out->word) == code);
        CHECK(bucket_map_contains(handle, 1) == code);
        CHECK(bucket_map_remove(handle, 1, &out->word) == code);
        CHECK(bucket_map_add(handle, 1, 2, &out->word) == code);
        CHECK(bucket_map_get_or_insert(handle, 1, 2, &out->word) == code);
        CHECK(bucket_map_remove_if_equal(handle, 1, 2, &out->word) == code);
        CHECK(bucket_map_remove_if(handle, change_and_remove, out, &out->size) == code);
    }
    if (kind != SET) {
        CHECK(bucket_set_insert(handle, 1) == code);
        CHECK(bucket_set_contains(handle, 1) == code);
        CHECK(bucket_set_remove(handle, 1) == code);
        CHECK(bucket_set_remove_if(handle, change_and_remove, out, &out->size) == code);
    }
    if (kind != CACHE) {
        CHECK(bucket_cache_put(handle, 1, 2, &out->word, &out->other) == code);
        CHECK(bucket_cache_upsert(handle, 1, 2, &out->word, &out->other) == code);
        CHECK(bucket_cache_get(handle, 1, &out->word) == code);
        CHECK(bucket_cache_peek(handle, 1, &out->word) == code);
        CHECK(bucket_cache_contains(handle, 1) == code);
        CHECK(bucket_cache_remove(handle, 1, &out->word) == code);
    }
    return 0;
}

static inline int refuse_texts(int kind, bucket_handle *handle, uint32_t code, outputs *out) {
    const uint8_t *key = text("a");
    if (kind != TEXT_MAP) {
        CHECK(bucket_text_map_insert(handle, key, 1, 2) == code);
        CHECK(bucket_text_map_upsert(handle, key, 1, 2, &out->word) == code);
        CHECK(bucket_text_map_get(handle, key, 1, &out->word) == code);
        CHECK(bucket_text_map_contains(handle, key, 1) == code);
        CHECK(bucket_text_map_remove(handle, key, 1, &out->word) == code);
        CHECK(bucket_text_map_add(handle, key, 1, 2, &out->word) == code);
        CHECK(bucket_text_map_get_or_insert(handle, key, 1, 2, &out->word) == code);
        CHECK(bucket_text_map_remove_if_equal(handle, key, 1, 2, &out->word) == code);
    }
    if (kind != TEXT_SET) {
        CHECK(bucket_text_set_insert(handle, key, 1) == code);
        CHECK(bucket_text_set_contains(handle, key, 1) == code);
        CHECK(bucket_text_set_remove(handle, key, 1) == code);
    }
    if (kind != STORE) {
        CHECK(bucket_store_insert(handle, key, 1, key, 1) == code);
        CHECK(bucket_store_upsert(handle, key, 1, key, 1) == code);
        CHECK(bucket_store_get(handle, key, 1, out->bytes, 8, &out->size) == code);
        CHECK(bucket_store_get(handle, key, 1, out->bytes, 0, &out->size) == code);
        CHECK(bucket_store_contains(handle, key, 1) == code);
        CHECK(bucket_store_remove(handle, key, 1) == code);
    }
    if (kind != TEXT_CACHE) {
        CHECK(bucket_text_cache_put(handle, key, 1, 2, out->bytes, 8, &out->size, &out->word) == code);
        CHECK(bucket_text_cache_upsert(handle, key, 1, 2, out->bytes, 8, &out->size, &out->word) == code);
        CHECK(bucket_text_cache_get(handle, key, 1, &out->word) == code);
        CHECK(bucket_text_cache_peek(handle, key, 1, &out->word) == code);
        CHECK(bucket_text_cache_contains(handle, key, 1) == code);
        CHECK(bucket_text_cache_remove(handle, key, 1, &out->word) == code);
    }
    return 0;
}

// The calls that read pairs, and accept more than one kind.
static inline int refuse_readings(int kind, bucket_handle *handle, uint32_t code, outputs *out) {
    if (kind == NONE) {
        for (size_t room = 0; room < 2; room++) {
            CHECK(bucket_pairs_in(handle, 0, 0, &out->pair, room, &out->size) == code);
            CHECK(bucket_pairs_in(handle, SIZE_MAX, 0, &out->pair, room, &out->size) == code);
            CHECK(bucket_read(handle, &out->place, &out->pair, room, &out->size) == code);
            CHECK(bucket_values(handle, &out->place, &out->word, room, &out->size) == code);
        }
        CHECK(bucket_each(handle, change_output, out) == code);
    }
    if (kind != MAP && kind != CACHE) {
        CHECK(bucket_pairs(handle, 0, &out->pair, 1, &out->size) == code);
    }
    if (kind != TEXT_MAP && kind != TEXT_SET && kind != TEXT_CACHE) {
        CHECK(bucket_texts(handle, 0, &out->row, 1, out->bytes, 8, &out->size) == code);
    }
    if (kind == MAP || kind == SET || kind == CACHE || kind == NONE) {
        CHECK(bucket_texts_in(handle, 0, 0, &out->row, 1, out->bytes, 8, &out->size) == code);
        CHECK(bucket_texts_in(handle, SIZE_MAX, 1, &out->row, 0, out->bytes, 0, &out->size) == code);
        CHECK(bucket_read_texts(handle, &out->place, &out->row, 1, out->bytes, 8, &out->size) == code);
    }
    return 0;
}

// The other calls that accept more than one kind. No call opens a handle that is open.
static inline int refuse_others(int kind, bucket_handle *handle, uint32_t code) {
    if (kind == SET || kind == TEXT_SET || kind == STORE || kind == NONE) {
        destroyed = 0;
        CHECK(bucket_free_values(handle, count_destroyed) == code);
        CHECK(destroyed == 0);
    }
    if (kind == CACHE || kind == TEXT_CACHE || kind == NONE) {
        CHECK(bucket_reserve(handle, 9) == code);
        CHECK(bucket_shrink(handle) == code);
    }
    for (int other = 0; other < KINDS && kind != NONE; other++) {
        CHECK(open_kind(other, handle) == BUCKET_OPEN);
    }
    return 0;
}

// A handle of a kind refuses every call of another kind, and a closed handle refuses all. A call
// that is refused changes neither the handle nor an output.
static inline int refuse(int kind, bucket_handle *handle) {
    const outputs before = {77, 78, 79, {0, 0}, {5, 6}, {7, 8}, {1, 2, 3, 4, 5, 6, 7, 8}};
    outputs out = before;
    uint32_t code = kind == NONE ? BUCKET_CLOSED : BUCKET_OTHER_KIND;
    size_t len = bucket_len(handle), slots = bucket_capacity(handle);
    CHECK(refuse_words(kind, handle, code, &out) == 0);
    CHECK(refuse_texts(kind, handle, code, &out) == 0);
    CHECK(refuse_readings(kind, handle, code, &out) == 0);
    CHECK(refuse_others(kind, handle, code) == 0);
    CHECK(memcmp(&out, &before, sizeof out) == 0);
    CHECK(bucket_len(handle) == len);
    CHECK(bucket_capacity(handle) == slots);
    CHECK(handle->live == (kind != NONE));
    return 0;
}

#endif
