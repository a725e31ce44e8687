/* Hash maps, sets, a store and caches for C and C++, proved to behave as documented here. Link libbucket.a or libbucket.so.
 *
 *     bucket_handle ages = BUCKET_HANDLE;
 *     uint64_t age;
 *     if (bucket_map_new(&ages, 0, BUCKET_FIXED_SEED) != BUCKET_OK) return 1;
 *     if (bucket_map_upsert(&ages, 7, 30, &age) == BUCKET_NO_MEMORY) return 1;
 *     if (bucket_map_get(&ages, 7, &age) == BUCKET_OK) printf("%" PRIu64 "\n", age);
 *     bucket_free(&ages);
 *
 * The caller has to ensure at each call:
 *   - a pointer to bytes, pairs or rows points to as many of them as the length or room passed with it says, and may be null if that
 *     is 0; no other pointer is null;
 *   - buffers, outputs and the handle don't overlap;
 *   - a handle is initialized with BUCKET_HANDLE; the caller neither reads nor writes its fields, nor uses a copy beside the original;
 *   - one call at a time on a handle in all threads, including the calls that take it by `const`: a lock, or a thread's start or join,
 *     orders the calls of two threads;
 *   - no call in a signal handler, or in the forked child of a process with threads;
 *   - `malloc` and `free` belong to one allocator, whose blocks are aligned to 16, or to each smaller power of two that divides their
 *     size.
 * A call has no other precondition: whatever was called before, it returns a code.
 *
 * A call that fails changes no pair and no key. An output keeps its value, unless the call's comment says that it is written.
 * Costs are expected costs, where n is the number of slots, about 1.2 to 8 per pair; a call that changes the collection may also
 * move 64 old buckets of a resize. If an attacker chooses the keys, use a random seed: with the fixed one an attacker can force
 * collisions in one bucket, and a call then takes time proportional to the number of pairs. */
#ifndef BUCKET_H
#define BUCKET_H

#include <stdbool.h>
#include <stddef.h>
#include <stdint.h>

/* The library needs a 64-bit platform. */
#if defined(__cplusplus) && __cplusplus >= 201103L
static_assert(sizeof(size_t) == 8, "size_t has 64 bits");
#elif defined(__STDC_VERSION__) && __STDC_VERSION__ >= 201112L
_Static_assert(sizeof(size_t) == 8, "size_t has 64 bits");
#else
typedef char bucket_size_t_has_64_bits[sizeof(size_t) == 8 ? 1 : -1];
#endif

/* Included after the check above, so that a compiler that has this header for 64 bits only stops there. */
#include <stdlib.h>

/* Dropping a code causes a warning; before C23 and C++17, gcc also warns about a cast to void. */
#if defined(__cplusplus) ? __cplusplus >= 201703L : defined(__STDC_VERSION__) && __STDC_VERSION__ >= 202000L
#define BUCKET_MUST_USE [[nodiscard]]
#elif defined(__GNUC__)
#define BUCKET_MUST_USE __attribute__((__warn_unused_result__))
#else
#define BUCKET_MUST_USE
#endif

#ifdef __cplusplus
#define BUCKET_INLINE inline
#elif defined(__GNUC__)
#define BUCKET_INLINE static __inline__
#else
#define BUCKET_INLINE static inline
#endif

#ifdef __cplusplus
extern "C" {
#endif

#define BUCKET_VERSION_MAJOR 0
#define BUCKET_VERSION_MINOR 2
#define BUCKET_VERSION_PATCH 0
#define BUCKET_VERSION (BUCKET_VERSION_MAJOR * 65536 + BUCKET_VERSION_MINOR * 256 + BUCKET_VERSION_PATCH)

/* The BUCKET_VERSION of the linked library. */
uint32_t bucket_version(void);

/* The codes that calls return. */
enum bucket_code {
    BUCKET_OK = 0,
    BUCKET_ABSENT = 1,     /* the key is absent */
    BUCKET_PRESENT = 2,    /* the key is present: not inserted; after an upsert or an addition: its value was replaced */
    BUCKET_NO_MEMORY = 3,  /* allocation failed; no pair has changed */
    BUCKET_CLOSED = 4,     /* the handle is closed */
    BUCKET_OPEN = 5,       /* `new` was called on an open handle */
    BUCKET_OTHER_KIND = 6, /* the handle holds a collection of another kind */
    BUCKET_EVICTED = 7,    /* cache only: done, and another pair was evicted */
    BUCKET_TOO_LONG = 8    /* store only: the value is longer than the room; its first bytes are written */
};

typedef struct bucket_handle {
    void *held;
    bool live;
} bucket_handle;

/* A closed handle. */
#ifdef __cplusplus
#define BUCKET_HANDLE {}
#else
#define BUCKET_HANDLE {NULL, false}
#endif

/* 16 bytes, best from getrandom(): the two keys of SipHash-1-3, by which the collection's keys are hashed. If both are 0, a faster
 * hash without a key is used.
 *
 * Pairs are read in the order of their hashes. Before inserting them in that order into a collection with the same seed, call
 * bucket_reserve for all of them; otherwise that takes O(n * n). Or give the collection another seed. A cache needs another seed,
 * since otherwise it evicts most of them. */
typedef struct bucket_seed {
    uint64_t key0;
    uint64_t key1;
} bucket_seed;

#ifdef __cplusplus
#define BUCKET_FIXED_SEED (bucket_seed{0, 0})
#else
#define BUCKET_FIXED_SEED ((bucket_seed){0, 0})
#endif

typedef struct bucket_pair {
    uint64_t key;
    uint64_t value;
} bucket_pair;

typedef struct bucket_text_pair {
    size_t len; /* of the key */
    uint64_t value; /* 0 for a set; for a store the value's length */
} bucket_text_pair;

/* ---- Calls for each kind ---- */

/* Frees what the handle holds, and closes it; a closed handle stays closed. O(n). bucket_free_values, at the end of this header, first
 * passes each value to a function. */
void bucket_free(bucket_handle *handle);

/* Returns the number of pairs or keys; 0 if closed. O(n / 32). */
size_t bucket_len(const bucket_handle *handle);

/* Returns the number of slots of the current array; 0 if closed. O(1). */
size_t bucket_capacity(const bucket_handle *handle);

/* Drops all pairs; the seed, the slots and the limits on their number stay. bucket_shrink frees the slots of a map, a set or a store.
 * OK, CLOSED. O(n). */
BUCKET_MUST_USE uint32_t bucket_clear(bucket_handle *handle);

/* Makes room for `additional` more pairs. OK; NO_MEMORY, also if no array can have so many slots. CLOSED; OTHER_KIND: a cache, whose
 * capacity is fixed when it is made. O(n). */
BUCKET_MUST_USE uint32_t bucket_reserve(bucket_handle *handle, size_t additional);

/* Sets the minimum to 0, and leaves as few slots as the pairs need. OK; NO_MEMORY, unless there is no pair or the slots are as few
 * already. CLOSED, OTHER_KIND. O(n). */
BUCKET_MUST_USE uint32_t bucket_shrink(bucket_handle *handle);

/* Copies pairs of one bucket to `out`, skipping the first `start`, as many as there is room for, and stores their number in `count`.
 * Buckets are numbered from 0; together they have each pair once, as long as no call changes the collection (bucket_cache_get does). A
 * key or a value that is a byte string is encoded as 0, and a set's values are 0. OK; ABSENT: past the last bucket, `count` is 0.
 * CLOSED. O(pairs of the bucket). */
BUCKET_MUST_USE uint32_t bucket_pairs_in(const bucket_handle *handle, size_t bucket, size_t start, bucket_pair *out, size_t room,
                                         size_t *count);

/* The same for byte strings: `rows` gets the length of each key and its value (0 for a set, the value's length for a store), and
 * `bytes` gets the keys' bytes, one after another: as many pairs as fit in both. OK; ABSENT: past the last bucket, `count` is 0.
 * CLOSED; OTHER_KIND: the keys are words. O(pairs of the bucket). */
BUCKET_MUST_USE uint32_t bucket_texts_in(const bucket_handle *handle, size_t bucket, size_t start, bucket_text_pair *rows, size_t room,
                                         uint8_t *bytes, size_t bytes_room, size_t *count);

/* A position among all pairs, from which reading continues: bucket_read, bucket_values and bucket_read_texts, at the end of this
 * header, advance it. It is initialized with BUCKET_START, and is meaningless once a call has changed the collection; using it then is
 * safe. */
typedef struct bucket_place {
    size_t bucket;
    size_t pair;
} bucket_place;

#define BUCKET_START {0, 0}

/* Copies pairs of a map or a cache to `out`, skipping the first `start`, as many as there is room for, and stores their number in
 * `count`. The order stays until a call changes the collection (bucket_cache_get does), so a loop that adds each count to `start` gets
 * each pair once. OK, CLOSED; OTHER_KIND: a set, also one of words, or the keys are byte strings. O(n). */
BUCKET_MUST_USE uint32_t bucket_pairs(const bucket_handle *handle, size_t start, bucket_pair *out, size_t room, size_t *count);

/* The same for a text map, a text cache or a text set, whose values are 0. `rows` gets each key's length and its value, and `bytes`
 * gets the keys' bytes, one after another: as many pairs as fit in both. If `count` is 0 before the end, the next key is longer than
 * `bytes`. OK, CLOSED, OTHER_KIND. O(n). */
BUCKET_MUST_USE uint32_t bucket_texts(const bucket_handle *handle, size_t start, bucket_text_pair *rows, size_t room,
                                      uint8_t *bytes, size_t bytes_room, size_t *count);

/* ---- A map from uint64_t to uint64_t ---- */

/* Opens a closed handle on an empty map, whose first array has room for `capacity` pairs. OK, NO_MEMORY, OPEN. O(1). */
BUCKET_MUST_USE uint32_t bucket_map_new(bucket_handle *handle, size_t capacity, bucket_seed seed);

/* All calls below also return CLOSED and OTHER_KIND. All are O(1). */

/* Inserts a pair. OK, PRESENT; NO_MEMORY only if there is no array, the array shrinks, the key's bucket is the home of 32 pairs, or
 * its bucket in an old array is the home of 33. */
BUCKET_MUST_USE uint32_t bucket_map_insert(bucket_handle *handle, uint64_t key, uint64_t value);

/* Inserts a pair: OK; or replaces the earlier value, which is written to `earlier`: PRESENT. NO_MEMORY as for insert: the key is
 * absent. */
BUCKET_MUST_USE uint32_t bucket_map_upsert(bucket_handle *handle, uint64_t key, uint64_t value, uint64_t *earlier);

/* Writes the value to `value`. OK, ABSENT. */
BUCKET_MUST_USE uint32_t bucket_map_get(const bucket_handle *handle, uint64_t key, uint64_t *value);

/* Tests whether the key is present. OK, ABSENT. */
BUCKET_MUST_USE uint32_t bucket_map_contains(const bucket_handle *handle, uint64_t key);

/* Removes a pair, and writes its value to `value`. OK, ABSENT. bucket_map_remove_if, at the end of this header, removes many. */
BUCKET_MUST_USE uint32_t bucket_map_remove(bucket_handle *handle, uint64_t key, uint64_t *value);

/* Adds `amount` to a value, modulo 2^64: PRESENT; or inserts `amount`: OK. Either way `total` gets the sum. NO_MEMORY as for insert:
 * the key is absent. */
BUCKET_MUST_USE uint32_t bucket_map_add(bucket_handle *handle, uint64_t key, uint64_t amount, uint64_t *total);

/* Inserts a pair: OK; or PRESENT: nothing changes. Either way `held` gets the value now under the key. NO_MEMORY as for insert. */
BUCKET_MUST_USE uint32_t bucket_map_get_or_insert(bucket_handle *handle, uint64_t key, uint64_t value, uint64_t *held);

/* Removes a pair if it has the value `value`: OK. PRESENT: it has another one, which is written to `held`, and stays. ABSENT. */
BUCKET_MUST_USE uint32_t bucket_map_remove_if_equal(bucket_handle *handle, uint64_t key, uint64_t value, uint64_t *held);

/* ---- A map from byte strings to uint64_t: the same calls. The map keeps copies of its keys. insert, upsert, add and get_or_insert
 * copy a key that is absent, and may return NO_MEMORY then; for a key that is present they never do. No other call copies a key. ---- */

BUCKET_MUST_USE uint32_t bucket_text_map_new(bucket_handle *handle, size_t capacity, bucket_seed seed);
BUCKET_MUST_USE uint32_t bucket_text_map_insert(bucket_handle *handle, const uint8_t *key, size_t len, uint64_t value);
BUCKET_MUST_USE uint32_t bucket_text_map_upsert(bucket_handle *handle, const uint8_t *key, size_t len, uint64_t value,
                                                uint64_t *earlier);
BUCKET_MUST_USE uint32_t bucket_text_map_get(const bucket_handle *handle, const uint8_t *key, size_t len, uint64_t *value);
BUCKET_MUST_USE uint32_t bucket_text_map_contains(const bucket_handle *handle, const uint8_t *key, size_t len);
BUCKET_MUST_USE uint32_t bucket_text_map_remove(bucket_handle *handle, const uint8_t *key, size_t len, uint64_t *value);
BUCKET_MUST_USE uint32_t bucket_text_map_add(bucket_handle *handle, const uint8_t *key, size_t len, uint64_t amount,
                                             uint64_t *total);
BUCKET_MUST_USE uint32_t bucket_text_map_get_or_insert(bucket_handle *handle, const uint8_t *key, size_t len, uint64_t value,
                                                       uint64_t *held);
BUCKET_MUST_USE uint32_t bucket_text_map_remove_if_equal(bucket_handle *handle, const uint8_t *key, size_t len, uint64_t value,
                                                         uint64_t *held);

/* ---- A set of uint64_t, and one of byte strings: like maps, without values ---- */

BUCKET_MUST_USE uint32_t bucket_set_new(bucket_handle *handle, bucket_seed seed);
BUCKET_MUST_USE uint32_t bucket_set_insert(bucket_handle *handle, uint64_t key);
BUCKET_MUST_USE uint32_t bucket_set_contains(const bucket_handle *handle, uint64_t key);
BUCKET_MUST_USE uint32_t bucket_set_remove(bucket_handle *handle, uint64_t key);

BUCKET_MUST_USE uint32_t bucket_text_set_new(bucket_handle *handle, bucket_seed seed);
BUCKET_MUST_USE uint32_t bucket_text_set_insert(bucket_handle *handle, const uint8_t *key, size_t len);
BUCKET_MUST_USE uint32_t bucket_text_set_contains(const bucket_handle *handle, const uint8_t *key, size_t len);
BUCKET_MUST_USE uint32_t bucket_text_set_remove(bucket_handle *handle, const uint8_t *key, size_t len);

/* ---- A store: a map from byte strings to byte strings. It keeps copies of both. All calls also take the time to read or copy the
 * bytes. ---- */

/* Like bucket_map_new. OK, NO_MEMORY, OPEN. O(1). */
BUCKET_MUST_USE uint32_t bucket_store_new(bucket_handle *handle, size_t capacity, bucket_seed seed);

/* Inserts a pair. OK; PRESENT: nothing changes. NO_MEMORY for the copies or as for a map: the key is absent. */
BUCKET_MUST_USE uint32_t bucket_store_insert(bucket_handle *handle, const uint8_t *key, size_t len, const uint8_t *value,
                                             size_t value_len);

/* Inserts a pair: OK; or replaces the earlier value: PRESENT. NO_MEMORY as for insert, or for a copy of the value: nothing changes. */
BUCKET_MUST_USE uint32_t bucket_store_upsert(bucket_handle *handle, const uint8_t *key, size_t len, const uint8_t *value,
                                             size_t value_len);

/* Writes the value to `out`, and its length to `value_len`: OK; or TOO_LONG: its first `room` bytes, and its whole length. ABSENT. */
BUCKET_MUST_USE uint32_t bucket_store_get(const bucket_handle *handle, const uint8_t *key, size_t len, uint8_t *out, size_t room,
                                          size_t *value_len);

/* Tests whether the key is present. OK, ABSENT. */
BUCKET_MUST_USE uint32_t bucket_store_contains(const bucket_handle *handle, const uint8_t *key, size_t len);

/* Removes a pair. OK, ABSENT. */
BUCKET_MUST_USE uint32_t bucket_store_remove(bucket_handle *handle, const uint8_t *key, size_t len);

/* ---- A cache from uint64_t to uint64_t. If a key's bucket is full, the pair of that bucket that was touched longest ago is evicted.
 * ---- */

/* Opens a closed handle on an empty cache with at least `minimum` slots, and at most the least power of two that is at least
 * `maximum`, `minimum` and 64; both are limited to 2^63. OK, NO_MEMORY, OPEN. */
BUCKET_MUST_USE uint32_t bucket_cache_new(bucket_handle *handle, size_t minimum, size_t maximum, bucket_seed seed);

/* Inserts a pair: OK; or EVICTED: another pair was evicted, and is written to the outputs. PRESENT, NO_MEMORY as for a map: it isn't
 * inserted. */
BUCKET_MUST_USE uint32_t bucket_cache_put(bucket_handle *handle, uint64_t key, uint64_t value, uint64_t *gone_key,
                                          uint64_t *gone_value);

/* The same; or PRESENT: it replaces the earlier value, which is written to `before`, and touches the pair. */
BUCKET_MUST_USE uint32_t bucket_cache_upsert(bucket_handle *handle, uint64_t key, uint64_t value, uint64_t *gone_key,
                                             uint64_t *before);

/* Writes the value to `value`, and touches the pair. OK, ABSENT. */
BUCKET_MUST_USE uint32_t bucket_cache_get(bucket_handle *handle, uint64_t key, uint64_t *value);

/* Writes the value to `value`. OK, ABSENT. */
BUCKET_MUST_USE uint32_t bucket_cache_peek(const bucket_handle *handle, uint64_t key, uint64_t *value);

/* Tests whether the key is present. OK, ABSENT. */
BUCKET_MUST_USE uint32_t bucket_cache_contains(const bucket_handle *handle, uint64_t key);

/* Removes a pair, and writes its value to `value`. OK, ABSENT. */
BUCKET_MUST_USE uint32_t bucket_cache_remove(bucket_handle *handle, uint64_t key, uint64_t *value);

/* ---- A cache from byte strings to uint64_t: the same calls. put and upsert copy a key that is absent, and may return NO_MEMORY then;
 * for a key that is present they never do. No other call copies a key. If a key is evicted, `gone_len` gets its length, and `gone` as
 * many of its bytes as it has room for. ---- */

BUCKET_MUST_USE uint32_t bucket_text_cache_new(bucket_handle *handle, size_t minimum, size_t maximum, bucket_seed seed);
BUCKET_MUST_USE uint32_t bucket_text_cache_put(bucket_handle *handle, const uint8_t *key, size_t len, uint64_t value,
                                               uint8_t *gone, size_t gone_room, size_t *gone_len, uint64_t *gone_value);
BUCKET_MUST_USE uint32_t bucket_text_cache_upsert(bucket_handle *handle, const uint8_t *key, size_t len, uint64_t value,
                                                  uint8_t *gone, size_t gone_room, size_t *gone_len, uint64_t *before);
BUCKET_MUST_USE uint32_t bucket_text_cache_get(bucket_handle *handle, const uint8_t *key, size_t len, uint64_t *value);
BUCKET_MUST_USE uint32_t bucket_text_cache_peek(const bucket_handle *handle, const uint8_t *key, size_t len, uint64_t *value);
BUCKET_MUST_USE uint32_t bucket_text_cache_contains(const bucket_handle *handle, const uint8_t *key, size_t len);
BUCKET_MUST_USE uint32_t bucket_text_cache_remove(bucket_handle *handle, const uint8_t *key, size_t len, uint64_t *value);

/* ---- Null pointers ----
 * The library accepts no null pointer. So the names of the calls that take a length are macros for the functions below, which pass on
 * another pointer if the length is 0. */

BUCKET_INLINE const uint8_t *bucket_guarded_key(const uint8_t *key, size_t len) {
    static const uint8_t none = 0;
    return len > 0 ? key : &none;
}

BUCKET_MUST_USE BUCKET_INLINE uint32_t bucket_guarded_pairs_in(const bucket_handle *handle, size_t bucket, size_t start,
                                                               bucket_pair *out, size_t room, size_t *count) {
    bucket_pair none = {0, 0};
    return bucket_pairs_in(handle, bucket, start, room > 0 ? out : &none, room, count);
}
#define bucket_pairs_in bucket_guarded_pairs_in

BUCKET_MUST_USE BUCKET_INLINE uint32_t bucket_guarded_pairs(const bucket_handle *handle, size_t start, bucket_pair *out,
                                                            size_t room, size_t *count) {
    bucket_pair none = {0, 0};
    return bucket_pairs(handle, start, room > 0 ? out : &none, room, count);
}
#define bucket_pairs bucket_guarded_pairs

BUCKET_MUST_USE BUCKET_INLINE uint32_t bucket_guarded_texts(const bucket_handle *handle, size_t start, bucket_text_pair *rows,
                                                            size_t room, uint8_t *bytes, size_t bytes_room, size_t *count) {
    bucket_text_pair row = {0, 0};
    uint8_t byte = 0;
    return bucket_texts(handle, start, room > 0 ? rows : &row, room, bytes_room > 0 ? bytes : &byte, bytes_room, count);
}
#define bucket_texts bucket_guarded_texts

BUCKET_MUST_USE BUCKET_INLINE uint32_t bucket_guarded_texts_in(const bucket_handle *handle, size_t bucket, size_t start,
                                                               bucket_text_pair *rows, size_t room, uint8_t *bytes,
                                                               size_t bytes_room, size_t *count) {
    bucket_text_pair row = {0, 0};
    uint8_t byte = 0;
    return bucket_texts_in(handle, bucket, start, room > 0 ? rows : &row, room, bytes_room > 0 ? bytes : &byte, bytes_room, count);
}
#define bucket_texts_in bucket_guarded_texts_in

BUCKET_MUST_USE BUCKET_INLINE uint32_t bucket_guarded_text_map_insert(bucket_handle *handle, const uint8_t *key, size_t len,
                                                                      uint64_t value) {
    return bucket_text_map_insert(handle, bucket_guarded_key(key, len), len, value);
}
#define bucket_text_map_insert bucket_guarded_text_map_insert

BUCKET_MUST_USE BUCKET_INLINE uint32_t bucket_guarded_text_map_upsert(bucket_handle *handle, const uint8_t *key, size_t len,
                                                                      uint64_t value, uint64_t *earlier) {
    return bucket_text_map_upsert(handle, bucket_guarded_key(key, len), len, value, earlier);
}
#define bucket_text_map_upsert bucket_guarded_text_map_upsert

BUCKET_MUST_USE BUCKET_INLINE uint32_t bucket_guarded_text_map_get(const bucket_handle *handle, const uint8_t *key, size_t len,
                                                                   uint64_t *value) {
    return bucket_text_map_get(handle, bucket_guarded_key(key, len), len, value);
}
#define bucket_text_map_get bucket_guarded_text_map_get

BUCKET_MUST_USE BUCKET_INLINE uint32_t bucket_guarded_text_map_contains(const bucket_handle *handle, const uint8_t *key,
                                                                        size_t len) {
    return bucket_text_map_contains(handle, bucket_guarded_key(key, len), len);
}
#define bucket_text_map_contains bucket_guarded_text_map_contains

BUCKET_MUST_USE BUCKET_INLINE uint32_t bucket_guarded_text_map_remove(bucket_handle *handle, const uint8_t *key, size_t len,
                                                                      uint64_t *value) {
    return bucket_text_map_remove(handle, bucket_guarded_key(key, len), len, value);
}
#define bucket_text_map_remove bucket_guarded_text_map_remove

BUCKET_MUST_USE BUCKET_INLINE uint32_t bucket_guarded_text_map_add(bucket_handle *handle, const uint8_t *key, size_t len,
                                                                   uint64_t amount, uint64_t *total) {
    return bucket_text_map_add(handle, bucket_guarded_key(key, len), len, amount, total);
}
#define bucket_text_map_add bucket_guarded_text_map_add

BUCKET_MUST_USE BUCKET_INLINE uint32_t bucket_guarded_text_map_get_or_insert(bucket_handle *handle, const uint8_t *key,
                                                                             size_t len, uint64_t value, uint64_t *held) {
    return bucket_text_map_get_or_insert(handle, bucket_guarded_key(key, len), len, value, held);
}
#define bucket_text_map_get_or_insert bucket_guarded_text_map_get_or_insert

BUCKET_MUST_USE BUCKET_INLINE uint32_t bucket_guarded_text_map_remove_if_equal(bucket_handle *handle, const uint8_t *key,
                                                                               size_t len, uint64_t value, uint64_t *held) {
    return bucket_text_map_remove_if_equal(handle, bucket_guarded_key(key, len), len, value, held);
}
#define bucket_text_map_remove_if_equal bucket_guarded_text_map_remove_if_equal

BUCKET_MUST_USE BUCKET_INLINE uint32_t bucket_guarded_text_set_insert(bucket_handle *handle, const uint8_t *key, size_t len) {
    return bucket_text_set_insert(handle, bucket_guarded_key(key, len), len);
}
#define bucket_text_set_insert bucket_guarded_text_set_insert

BUCKET_MUST_USE BUCKET_INLINE uint32_t bucket_guarded_text_set_contains(const bucket_handle *handle, const uint8_t *key,
                                                                        size_t len) {
    return bucket_text_set_contains(handle, bucket_guarded_key(key, len), len);
}
#define bucket_text_set_contains bucket_guarded_text_set_contains

BUCKET_MUST_USE BUCKET_INLINE uint32_t bucket_guarded_text_set_remove(bucket_handle *handle, const uint8_t *key, size_t len) {
    return bucket_text_set_remove(handle, bucket_guarded_key(key, len), len);
}
#define bucket_text_set_remove bucket_guarded_text_set_remove

BUCKET_MUST_USE BUCKET_INLINE uint32_t bucket_guarded_store_insert(bucket_handle *handle, const uint8_t *key, size_t len,
                                                                   const uint8_t *value, size_t value_len) {
    return bucket_store_insert(handle, bucket_guarded_key(key, len), len, bucket_guarded_key(value, value_len), value_len);
}
#define bucket_store_insert bucket_guarded_store_insert

BUCKET_MUST_USE BUCKET_INLINE uint32_t bucket_guarded_store_upsert(bucket_handle *handle, const uint8_t *key, size_t len,
                                                                   const uint8_t *value, size_t value_len) {
    return bucket_store_upsert(handle, bucket_guarded_key(key, len), len, bucket_guarded_key(value, value_len), value_len);
}
#define bucket_store_upsert bucket_guarded_store_upsert

BUCKET_MUST_USE BUCKET_INLINE uint32_t bucket_guarded_store_get(const bucket_handle *handle, const uint8_t *key, size_t len,
                                                                uint8_t *out, size_t room, size_t *value_len) {
    uint8_t none = 0;
    return bucket_store_get(handle, bucket_guarded_key(key, len), len, room > 0 ? out : &none, room, value_len);
}
#define bucket_store_get bucket_guarded_store_get

BUCKET_MUST_USE BUCKET_INLINE uint32_t bucket_guarded_store_contains(const bucket_handle *handle, const uint8_t *key, size_t len) {
    return bucket_store_contains(handle, bucket_guarded_key(key, len), len);
}
#define bucket_store_contains bucket_guarded_store_contains

BUCKET_MUST_USE BUCKET_INLINE uint32_t bucket_guarded_store_remove(bucket_handle *handle, const uint8_t *key, size_t len) {
    return bucket_store_remove(handle, bucket_guarded_key(key, len), len);
}
#define bucket_store_remove bucket_guarded_store_remove

BUCKET_MUST_USE BUCKET_INLINE uint32_t bucket_guarded_text_cache_put(bucket_handle *handle, const uint8_t *key, size_t len,
                                                                     uint64_t value, uint8_t *gone, size_t gone_room,
                                                                     size_t *gone_len, uint64_t *gone_value) {
    uint8_t none = 0;
    return bucket_text_cache_put(handle, bucket_guarded_key(key, len), len, value, gone_room > 0 ? gone : &none, gone_room,
                                 gone_len, gone_value);
}
#define bucket_text_cache_put bucket_guarded_text_cache_put

BUCKET_MUST_USE BUCKET_INLINE uint32_t bucket_guarded_text_cache_upsert(bucket_handle *handle, const uint8_t *key, size_t len,
                                                                        uint64_t value, uint8_t *gone, size_t gone_room,
                                                                        size_t *gone_len, uint64_t *before) {
    uint8_t none = 0;
    return bucket_text_cache_upsert(handle, bucket_guarded_key(key, len), len, value, gone_room > 0 ? gone : &none, gone_room,
                                    gone_len, before);
}
#define bucket_text_cache_upsert bucket_guarded_text_cache_upsert

BUCKET_MUST_USE BUCKET_INLINE uint32_t bucket_guarded_text_cache_get(bucket_handle *handle, const uint8_t *key, size_t len,
                                                                     uint64_t *value) {
    return bucket_text_cache_get(handle, bucket_guarded_key(key, len), len, value);
}
#define bucket_text_cache_get bucket_guarded_text_cache_get

BUCKET_MUST_USE BUCKET_INLINE uint32_t bucket_guarded_text_cache_peek(const bucket_handle *handle, const uint8_t *key, size_t len,
                                                                      uint64_t *value) {
    return bucket_text_cache_peek(handle, bucket_guarded_key(key, len), len, value);
}
#define bucket_text_cache_peek bucket_guarded_text_cache_peek

BUCKET_MUST_USE BUCKET_INLINE uint32_t bucket_guarded_text_cache_contains(const bucket_handle *handle, const uint8_t *key,
                                                                          size_t len) {
    return bucket_text_cache_contains(handle, bucket_guarded_key(key, len), len);
}
#define bucket_text_cache_contains bucket_guarded_text_cache_contains

BUCKET_MUST_USE BUCKET_INLINE uint32_t bucket_guarded_text_cache_remove(bucket_handle *handle, const uint8_t *key, size_t len,
                                                                        uint64_t *value) {
    return bucket_text_cache_remove(handle, bucket_guarded_key(key, len), len, value);
}
#define bucket_text_cache_remove bucket_guarded_text_cache_remove

/* ---- Readings of all pairs ---- */

/* bucket_read(handle, place, out, room, count) copies pairs from a place on, as bucket_pairs_in does for one bucket, as many as there
 * is room for, advances the place past them, and stores their number in `count`. OK; ABSENT: none is left, `count` is 0. CLOSED,
 * OTHER_KIND. One call takes O(its pairs, plus the empty buckets between them), reading all pairs O(n). */
BUCKET_MUST_USE BUCKET_INLINE uint32_t bucket_guarded_read(const bucket_handle *handle, bucket_place *place, bucket_pair *out,
                                                           size_t room, size_t *count) {
    size_t read = 0;
    uint32_t code;
    do {
        size_t more = 0;
        code = bucket_pairs_in(handle, place->bucket, place->pair, room > 0 ? out + read : out, room - read, &more);
        if (code != BUCKET_OK) {
            break;
        }
        read += more;
        if (read < room) {
            place->bucket++;
            place->pair = 0;
        } else {
            place->pair += more;
        }
    } while (read < room);
    if (code == BUCKET_OK || code == BUCKET_ABSENT) {
        *count = read;
    }
    if (code == BUCKET_ABSENT && read > 0) {
        return BUCKET_OK;
    }
    return code;
}
#define bucket_read bucket_guarded_read

/* bucket_values(handle, place, out, room, count) does the same for the values only. */
BUCKET_MUST_USE BUCKET_INLINE uint32_t bucket_guarded_values(const bucket_handle *handle, bucket_place *place, uint64_t *out,
                                                             size_t room, size_t *count) {
    bucket_pair pairs[32];
    size_t read = 0;
    size_t more;
    size_t piece;
    do {
        size_t at;
        uint32_t code;
        piece = room - read < 32 ? room - read : 32;
        more = 0;
        code = bucket_read(handle, place, pairs, piece, &more);
        if (code == BUCKET_ABSENT && read > 0) {
            break;
        }
        if (code != BUCKET_OK) {
            if (code == BUCKET_ABSENT) {
                *count = 0;
            }
            return code;
        }
        for (at = 0; at < more && at < piece; at++) {
            out[read + at] = pairs[at].value;
        }
        read += more;
    } while (more == piece && read < room);
    *count = read;
    return BUCKET_OK;
}
#define bucket_values bucket_guarded_values

/* bucket_read_texts(handle, place, rows, room, bytes, bytes_room, count) does the same for byte strings, as bucket_texts_in does for
 * one bucket: as many pairs as fit in both buffers. If it returns OK and `count` is 0, the next key is longer than `bytes`, or there
 * is no row. */
BUCKET_MUST_USE BUCKET_INLINE uint32_t bucket_guarded_read_texts(const bucket_handle *handle, bucket_place *place,
                                                                 bucket_text_pair *rows, size_t room, uint8_t *bytes,
                                                                 size_t bytes_room, size_t *count) {
    size_t read = 0;
    size_t used = 0;
    uint32_t code;
    for (;;) {
        bucket_pair next;
        size_t more = 0;
        size_t left = 0;
        size_t end;
        code = bucket_texts_in(handle, place->bucket, place->pair, room > 0 ? rows + read : rows, room - read,
                               bytes_room > 0 ? bytes + used : bytes, bytes_room - used, &more);
        if (code != BUCKET_OK) {
            break;
        }
        for (end = read + more; read < end; read++) {
            used += rows[read].len;
        }
        place->pair += more;
        /* The rest of the bucket doesn't fit. */
        code = bucket_pairs_in(handle, place->bucket, place->pair, &next, 1, &left);
        if (code != BUCKET_OK || left > 0) {
            break;
        }
        place->bucket++;
        place->pair = 0;
    }
    if (code == BUCKET_OK || code == BUCKET_ABSENT) {
        *count = read;
    }
    if (code == BUCKET_ABSENT && read > 0) {
        return BUCKET_OK;
    }
    return code;
}
#define bucket_read_texts bucket_guarded_read_texts

/* The function that bucket_each calls: it may look up in the handle, but must not change it. */
typedef void (*bucket_visit)(uint64_t key, uint64_t value, void *data);

/* bucket_each(handle, visit, data) calls visit(key, value, data) once for each pair, in the order and encoding of bucket_read: a key
 * or a value that is a byte string is encoded as 0, and a set's values are 0. `data` may be null. If `visit` changes the handle
 * nevertheless (bucket_cache_get does), a pair may be visited twice or not at all. OK, CLOSED. O(n). */
BUCKET_MUST_USE BUCKET_INLINE uint32_t bucket_guarded_each(const bucket_handle *handle, bucket_visit visit, void *data) {
    bucket_place place = BUCKET_START;
    bucket_pair pairs[32];
    size_t count = 0;
    uint32_t code;
    while ((code = bucket_read(handle, &place, pairs, 32, &count)) == BUCKET_OK) {
        size_t at;
        for (at = 0; at < count && at < 32; at++) {
            visit(pairs[at].key, pairs[at].value, data);
        }
    }
    if (code == BUCKET_ABSENT) {
        return BUCKET_OK;
    }
    return code;
}
#define bucket_each bucket_guarded_each

/* The function that bucket_free_values calls: it must not make any call on the handle. */
typedef void (*bucket_destroy)(uint64_t value);

/* Tests whether the values are words: OK; CLOSED; OTHER_KIND: a set or a store. */
BUCKET_MUST_USE BUCKET_INLINE uint32_t bucket_guarded_has_values(const bucket_handle *handle) {
    const uint8_t none = 0;
    uint32_t code = bucket_map_contains(handle, 0);
    if (code == BUCKET_OTHER_KIND) {
        code = bucket_text_map_contains(handle, &none, 0);
    }
    if (code == BUCKET_OTHER_KIND) {
        code = bucket_cache_contains(handle, 0);
    }
    if (code == BUCKET_OTHER_KIND) {
        code = bucket_text_cache_contains(handle, &none, 0);
    }
    if (code == BUCKET_ABSENT) {
        return BUCKET_OK;
    }
    return code;
}

/* bucket_free_values(handle, destroy) calls destroy(value) once for each pair, in the order of bucket_values, and then bucket_free.
 * OK; CLOSED; OTHER_KIND: a set or a store: nothing is destroyed, and the handle stays open. O(n). No other call destroys a value: the
 * caller owns a value that bucket_map_upsert or bucket_map_remove outputs, or that a cache evicts. */
BUCKET_MUST_USE BUCKET_INLINE uint32_t bucket_guarded_free_values(bucket_handle *handle, bucket_destroy destroy) {
    bucket_place place = BUCKET_START;
    uint64_t values[32];
    size_t count = 0;
    uint32_t code = bucket_guarded_has_values(handle);
    if (code != BUCKET_OK) {
        return code;
    }
    while (bucket_values(handle, &place, values, 32, &count) == BUCKET_OK) {
        size_t at;
        for (at = 0; at < count && at < 32; at++) {
            destroy(values[at]);
        }
    }
    bucket_free(handle);
    return BUCKET_OK;
}
#define bucket_free_values bucket_guarded_free_values

/* ---- Removals of many pairs ---- */

/* Returns whether to remove a pair. It may look up in the handle, but must not change it. */
typedef bool (*bucket_test)(uint64_t key, uint64_t value, void *data);

#ifdef __cplusplus
#define BUCKET_BLOCK(memory) static_cast<uint64_t *>(memory)
#else
#define BUCKET_BLOCK(memory) ((uint64_t *)(memory))
#endif

/* Doubles the room of a block of keys. Returns false if allocation fails: the block stays. */
BUCKET_MUST_USE BUCKET_INLINE bool bucket_guarded_grow(uint64_t **keys, size_t *room) {
    uint64_t *block;
    if (*room >> 60 != 0) {
        return false; /* 16 bytes per key exceed 2^64 */
    }
    block = BUCKET_BLOCK(realloc(*keys, 2 * *room * sizeof **keys));
    if (!block) {
        return false;
    }
    *keys = block;
    *room *= 2;
    return true;
}

/* Collects the keys of the pairs that pass a test in a block, which may be null. The caller frees it, whatever code is returned. OK,
 * NO_MEMORY, CLOSED, OTHER_KIND. */
BUCKET_MUST_USE BUCKET_INLINE uint32_t bucket_guarded_keys_if(const bucket_handle *handle, bucket_test test, void *data,
                                                              uint64_t **keys, size_t *kept) {
    bucket_place place = BUCKET_START;
    bucket_pair pairs[32];
    size_t room = 64;
    size_t count = 0;
    uint32_t code = BUCKET_NO_MEMORY;
    *keys = BUCKET_BLOCK(malloc(room * sizeof **keys));
    while (*keys && (code = bucket_read(handle, &place, pairs, 32, &count)) == BUCKET_OK) {
        size_t at;
        for (at = 0; at < count && at < 32; at++) {
            if (!test(pairs[at].key, pairs[at].value, data)) {
                continue;
            }
            if (*kept == room && !bucket_guarded_grow(keys, &room)) {
                return BUCKET_NO_MEMORY;
            }
            (*keys)[(*kept)++] = pairs[at].key;
        }
    }
    if (code == BUCKET_ABSENT) {
        return BUCKET_OK;
    }
    return code;
}

/* Removes from a set if `is_set`, else from a map. */
BUCKET_MUST_USE BUCKET_INLINE uint32_t bucket_guarded_remove_if(bucket_handle *handle, bool is_set, bucket_test test, void *data,
                                                                size_t *removed) {
    uint64_t *keys;
    uint64_t value = 0;
    size_t kept = 0;
    size_t gone = 0;
    size_t at;
    uint32_t code = is_set ? bucket_set_contains(handle, 0) : bucket_map_contains(handle, 0);
    if (code != BUCKET_OK && code != BUCKET_ABSENT) {
        return code;
    }
    code = bucket_guarded_keys_if(handle, test, data, &keys, &kept);
    for (at = 0; code == BUCKET_OK && at < kept; at++) {
        code = is_set ? bucket_set_remove(handle, keys[at]) : bucket_map_remove(handle, keys[at], &value);
        if (code == BUCKET_OK) {
            gone++;
        } else if (code == BUCKET_ABSENT) {
            code = BUCKET_OK;
        }
    }
    free(keys);
    if (code == BUCKET_OK) {
        *removed = gone;
    }
    return code;
}

/* bucket_map_remove_if(handle, test, data, removed) removes the pairs of a map from uint64_t to uint64_t for which test(key, value,
 * data) is true, and stores their number in `removed`. All pairs are tested, in the order of bucket_read, before any is removed; the
 * keys to remove are kept in a block of 8 to 16 bytes per key, at least 512 bytes. OK; NO_MEMORY: the block can't be allocated, and
 * all pairs stay. Once all keys are in the block, all of them are removed, since no removal returns NO_MEMORY. `test` must not free
 * anything that a pair refers to, since the pair may stay although `test` returned true; if `test` changes the handle nevertheless,
 * other pairs may be removed, or fewer. CLOSED, OTHER_KIND. O(n). */
BUCKET_MUST_USE BUCKET_INLINE uint32_t bucket_guarded_map_remove_if(bucket_handle *handle, bucket_test test, void *data,
                                                                    size_t *removed) {
    return bucket_guarded_remove_if(handle, false, test, data, removed);
}
#define bucket_map_remove_if bucket_guarded_map_remove_if

/* bucket_set_remove_if(handle, test, data, removed) does the same for the keys of a set of uint64_t. The value of each is 0. */
BUCKET_MUST_USE BUCKET_INLINE uint32_t bucket_guarded_set_remove_if(bucket_handle *handle, bucket_test test, void *data,
                                                                    size_t *removed) {
    return bucket_guarded_remove_if(handle, true, test, data, removed);
}
#define bucket_set_remove_if bucket_guarded_set_remove_if

#ifdef __cplusplus
}
#endif
#endif
