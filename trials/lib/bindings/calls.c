// The calls of maps, text maps, text sets, caches and text caches, with each code that they can
// return except NO_MEMORY for a failed allocation. Exits with 1 if a case fails, otherwise with 0.
// It is both C and C++.
#include "cases.h"

#define ENTRIES 100000
#define TEXTS 20000

// ---- Handles of each kind ----

static int closed_refuses(void) {
    bucket_handle handle = BUCKET_HANDLE;
    CHECK(refuse(NONE, &handle) == 0);
    CHECK(bucket_clear(&handle) == BUCKET_CLOSED);
    bucket_free(&handle);
    CHECK(!handle.live);
    CHECK(bucket_len(&handle) == 0);
    return 0;
}

static int open_refuses(void) {
    for (int kind = 0; kind < KINDS; kind++) {
        bucket_handle handle = BUCKET_HANDLE;
        CHECK(open_with(kind, &handle, 2) == 0);
        CHECK(refuse(kind, &handle) == 0);
        bucket_free(&handle);
    }
    return 0;
}

static int reserve_and_shrink(void) {
    for (int kind = 0; kind < KINDS; kind++) {
        for (uint64_t count = 0; count < 2 && !is_cache(kind); count++) {
            bucket_handle handle = BUCKET_HANDLE;
            CHECK(open_with(kind, &handle, count) == 0);
            CHECK(bucket_reserve(&handle, 1000) == BUCKET_OK);
            CHECK(bucket_reserve(&handle, SIZE_MAX) == BUCKET_NO_MEMORY);
            CHECK(bucket_shrink(&handle) == BUCKET_OK);
            bucket_free(&handle);
        }
    }
    return 0;
}

static int clear_empties(void) {
    for (int kind = 0; kind < KINDS; kind++) {
        bucket_handle handle = BUCKET_HANDLE;
        CHECK(open_with(kind, &handle, TEXTS) == 0);
        CHECK(bucket_clear(&handle) == BUCKET_OK);
        CHECK(bucket_len(&handle) == 0);
        bucket_free(&handle);
    }
    return 0;
}

// ---- A map ----

static int map_get_absent(void) {
    bucket_handle map = BUCKET_HANDLE;
    uint64_t value = 77;
    CHECK(bucket_map_new(&map, 0, seed) == BUCKET_OK);
    CHECK(bucket_map_get(&map, 1, &value) == BUCKET_ABSENT && value == 77);
    CHECK(bucket_map_contains(&map, 1) == BUCKET_ABSENT);
    bucket_free(&map);
    return 0;
}

static int map_insert_present(void) {
    bucket_handle map = BUCKET_HANDLE;
    uint64_t value = 77;
    CHECK(bucket_map_new(&map, 0, seed) == BUCKET_OK);
    CHECK(bucket_map_insert(&map, 1, 2) == BUCKET_OK);
    CHECK(bucket_map_insert(&map, 1, 3) == BUCKET_PRESENT);
    CHECK(bucket_map_contains(&map, 1) == BUCKET_OK);
    CHECK(bucket_map_get(&map, 1, &value) == BUCKET_OK && value == 2);
    bucket_free(&map);
    return 0;
}

static int map_upsert(void) {
    bucket_handle map = BUCKET_HANDLE;
    uint64_t value = 77;
    CHECK(bucket_map_new(&map, 0, seed) == BUCKET_OK);
    CHECK(bucket_map_insert(&map, 1, 2) == BUCKET_OK);
    CHECK(bucket_map_upsert(&map, 1, 5, &value) == BUCKET_PRESENT && value == 2);
    CHECK(bucket_map_upsert(&map, 9, 6, &value) == BUCKET_OK && value == 2);
    CHECK(bucket_map_get(&map, 1, &value) == BUCKET_OK && value == 5);
    CHECK(bucket_map_get(&map, 9, &value) == BUCKET_OK && value == 6);
    CHECK(bucket_len(&map) == 2);
    bucket_free(&map);
    return 0;
}

static int map_remove(void) {
    bucket_handle map = BUCKET_HANDLE;
    uint64_t value = 77;
    CHECK(bucket_map_new(&map, 0, seed) == BUCKET_OK);
    CHECK(bucket_map_upsert(&map, 1, 2, &value) == BUCKET_OK && value == 77);
    CHECK(bucket_map_upsert(&map, 1, 5, &value) == BUCKET_PRESENT && value == 2);
    CHECK(bucket_map_remove(&map, 1, &value) == BUCKET_OK && value == 5);
    CHECK(bucket_map_remove(&map, 1, &value) == BUCKET_ABSENT && value == 5);
    bucket_free(&map);
    return 0;
}

// Opens a map of the values below `count`, each under the key that is 7919 times as great.
static int open_map_of(bucket_handle *map, uint64_t count) {
    uint64_t earlier;
    CHECK(bucket_map_new(map, 0, seed) == BUCKET_OK);
    for (uint64_t value = 0; value < count; value++) {
        CHECK(bucket_map_upsert(map, value * 7919, value, &earlier) == BUCKET_OK);
    }
    return 0;
}

static int map_of_many(void) {
    bucket_handle map = BUCKET_HANDLE;
    uint64_t found = 0;
    CHECK(open_map_of(&map, ENTRIES) == 0);
    for (uint64_t value = 0; value < ENTRIES; value++) {
        CHECK(bucket_map_get(&map, value * 7919, &found) == BUCKET_OK && found == value);
        CHECK(bucket_map_get(&map, value * 7919 + 1, &found) == BUCKET_ABSENT);
    }
    bucket_free(&map);
    return 0;
}

static int map_pieces(void) {
    static bucket_pair pairs[ENTRIES];
    bucket_handle map = BUCKET_HANDLE;
    uint64_t sum = 0;
    size_t start = 0, count = 0;
    CHECK(open_map_of(&map, ENTRIES) == 0);
    CHECK(bucket_pairs(&map, 0, pairs, ENTRIES, &count) == BUCKET_OK && count == ENTRIES);
    do {
        bucket_pair piece[777];
        CHECK(bucket_pairs(&map, start, piece, 777, &count) == BUCKET_OK);
        CHECK(memcmp(piece, pairs + start, count * sizeof *piece) == 0);
        for (size_t i = 0; i < count; i++) {
            CHECK(piece[i].key == piece[i].value * 7919);
            sum += piece[i].value;
        }
        start += count;
    } while (count == 777);
    CHECK(start == ENTRIES);
    CHECK(sum == (uint64_t)ENTRIES * (ENTRIES - 1) / 2);
    bucket_free(&map);
    return 0;
}

static int map_no_pairs(void) {
    bucket_handle map = BUCKET_HANDLE;
    bucket_pair pair = {5, 6};
    size_t count = 79;
    CHECK(open_map_of(&map, 1000) == 0);
    CHECK(bucket_pairs(&map, SIZE_MAX, &pair, 1, &count) == BUCKET_OK && count == 0);
    count = 79;
    CHECK(bucket_pairs(&map, 0, &pair, 0, &count) == BUCKET_OK && count == 0);
    CHECK(pair.key == 5 && pair.value == 6);
    bucket_free(&map);
    return 0;
}

static int map_free(void) {
    bucket_handle map = BUCKET_HANDLE;
    uint64_t value = 77;
    CHECK(open_map_of(&map, 1000) == 0);
    CHECK(bucket_map_get(&map, 7919, &value) == BUCKET_OK);
    bucket_free(&map);
    bucket_free(&map);
    CHECK(bucket_map_get(&map, 7919, &value) == BUCKET_CLOSED);
    return 0;
}

// ---- A text map ----

static int text_map_upsert(void) {
    bucket_handle map = BUCKET_HANDLE;
    uint64_t value = 77;
    CHECK(bucket_text_map_new(&map, 100, seed) == BUCKET_OK);
    CHECK(bucket_text_map_upsert(&map, text(""), 0, 5, &value) == BUCKET_OK && value == 77);
    CHECK(bucket_text_map_upsert(&map, text(""), 0, 6, &value) == BUCKET_PRESENT && value == 5);
    CHECK(bucket_text_map_get(&map, text(""), 0, &value) == BUCKET_OK && value == 6);
    CHECK(bucket_text_map_contains(&map, text(""), 1) == BUCKET_ABSENT);
    bucket_free(&map);
    return 0;
}

static int text_map_remove(void) {
    bucket_handle map = BUCKET_HANDLE;
    uint64_t value = 77;
    CHECK(bucket_text_map_new(&map, 100, seed) == BUCKET_OK);
    CHECK(bucket_text_map_insert(&map, text(""), 0, 6) == BUCKET_OK);
    CHECK(bucket_text_map_remove(&map, text(""), 0, &value) == BUCKET_OK && value == 6);
    CHECK(bucket_text_map_remove(&map, text(""), 0, &value) == BUCKET_ABSENT && value == 6);
    bucket_free(&map);
    return 0;
}

// Writes the key of a number, and returns its length.
static size_t key_of(unsigned number, uint8_t key[16]) { return (size_t)snprintf((char *)key, 16, "key %u", number); }

// Opens a text map with the keys of the numbers below TEXTS.
static int open_full_text_map(bucket_handle *map) {
    uint8_t key[16];
    CHECK(bucket_text_map_new(map, 100, seed) == BUCKET_OK);
    for (unsigned i = 0; i < TEXTS; i++) {
        size_t len = key_of(i, key);
        CHECK(bucket_text_map_insert(map, key, len, i) == BUCKET_OK);
        CHECK(bucket_text_map_insert(map, key, len, i) == BUCKET_PRESENT);
    }
    CHECK(bucket_len(map) == TEXTS);
    return 0;
}

static int text_map_of_many(void) {
    bucket_handle map = BUCKET_HANDLE;
    uint64_t value = 77;
    uint8_t key[16];
    CHECK(open_full_text_map(&map) == 0);
    for (unsigned i = 0; i < TEXTS; i++) {
        size_t len = key_of(i, key);
        CHECK(bucket_text_map_get(&map, key, len, &value) == BUCKET_OK && value == i);
        CHECK(bucket_text_map_contains(&map, key, len) == BUCKET_OK);
        CHECK(bucket_text_map_get(&map, key, len - 1, &value) == (i < 10 ? BUCKET_ABSENT : BUCKET_OK));
    }
    bucket_free(&map);
    return 0;
}

// Reads the keys of the numbers below TEXTS in pieces. The values are the numbers, or 0 in a set.
static int text_pieces(const bucket_handle *handle, bool has_values) {
    bucket_text_pair rows[100];
    uint8_t bytes[600];
    uint64_t sum = 0;
    size_t start = 0, count = 0, pieces = 0;
    do {
        CHECK(bucket_texts(handle, start, rows, 100, bytes, sizeof bytes, &count) == BUCKET_OK);
        size_t at = 0;
        for (size_t i = 0; i < count; i++) {
            char key[16] = "";
            unsigned number;
            CHECK(rows[i].len < sizeof key && at + rows[i].len <= sizeof bytes);
            memcpy(key, bytes + at, rows[i].len);
            CHECK(sscanf(key, "key %u", &number) == 1);
            CHECK(rows[i].value == (has_values ? number : 0));
            at += rows[i].len;
            sum += number;
        }
        start += count;
        pieces++;
    } while (count > 0);
    CHECK(start == TEXTS);
    CHECK(pieces > TEXTS / 100);
    CHECK(sum == (uint64_t)TEXTS * (TEXTS - 1) / 2);
    CHECK(bucket_texts(handle, 0, rows, 100, bytes, 0, &count) == BUCKET_OK && count == 0);
    return 0;
}

static int text_map_pieces(void) {
    bucket_handle map = BUCKET_HANDLE;
    CHECK(open_full_text_map(&map) == 0);
    CHECK(text_pieces(&map, true) == 0);
    bucket_free(&map);
    return 0;
}

// ---- A text set ----

static int text_set_insert(void) {
    bucket_handle set = BUCKET_HANDLE;
    CHECK(bucket_text_set_new(&set, seed) == BUCKET_OK);
    CHECK(bucket_text_set_insert(&set, text("a"), 1) == BUCKET_OK);
    CHECK(bucket_text_set_insert(&set, text("a"), 1) == BUCKET_PRESENT);
    CHECK(bucket_text_set_contains(&set, text("a"), 1) == BUCKET_OK);
    CHECK(bucket_text_set_contains(&set, text("a"), 0) == BUCKET_ABSENT);
    bucket_free(&set);
    return 0;
}

static int text_set_remove(void) {
    bucket_handle set = BUCKET_HANDLE;
    CHECK(bucket_text_set_new(&set, seed) == BUCKET_OK);
    CHECK(bucket_text_set_insert(&set, text("a"), 1) == BUCKET_OK);
    CHECK(bucket_text_set_remove(&set, text("a"), 1) == BUCKET_OK);
    CHECK(bucket_text_set_remove(&set, text("a"), 1) == BUCKET_ABSENT);
    bucket_free(&set);
    return 0;
}

// Opens a text set of the keys of the numbers below TEXTS.
static int open_full_text_set(bucket_handle *set) {
    uint8_t key[16];
    CHECK(bucket_text_set_new(set, seed) == BUCKET_OK);
    for (unsigned i = 0; i < TEXTS; i++) {
        size_t len = key_of(i, key);
        CHECK(bucket_text_set_insert(set, key, len) == BUCKET_OK);
    }
    CHECK(bucket_len(set) == TEXTS);
    return 0;
}

static int text_set_pieces(void) {
    bucket_handle set = BUCKET_HANDLE;
    CHECK(open_full_text_set(&set) == 0);
    CHECK(text_pieces(&set, false) == 0);
    bucket_free(&set);
    return 0;
}

// ---- A cache ----

static int cache_upsert(void) {
    bucket_handle cache = BUCKET_HANDLE;
    uint64_t gone = 1, value = 77;
    CHECK(bucket_cache_new(&cache, 0, 256, seed) == BUCKET_OK);
    CHECK(bucket_cache_upsert(&cache, 7, 70, &gone, &value) == BUCKET_OK && gone == 1 && value == 77);
    CHECK(bucket_cache_upsert(&cache, 7, 71, &gone, &value) == BUCKET_PRESENT && gone == 1 && value == 70);
    CHECK(bucket_cache_peek(&cache, 7, &value) == BUCKET_OK && value == 71);
    bucket_free(&cache);
    return 0;
}

static int cache_peek(void) {
    bucket_handle cache = BUCKET_HANDLE;
    uint64_t gone = 1, value = 77;
    CHECK(bucket_cache_new(&cache, 0, 256, seed) == BUCKET_OK);
    CHECK(bucket_cache_put(&cache, 7, 71, &gone, &value) == BUCKET_OK && gone == 1 && value == 77);
    CHECK(bucket_cache_peek(&cache, 7, &value) == BUCKET_OK && value == 71);
    CHECK(bucket_cache_peek(&cache, 8, &value) == BUCKET_ABSENT && value == 71);
    CHECK(bucket_cache_contains(&cache, 7) == BUCKET_OK);
    CHECK(bucket_cache_contains(&cache, 8) == BUCKET_ABSENT);
    bucket_free(&cache);
    return 0;
}

// Opens a cache, and puts the keys below `count`, which are more than it has room for, each with
// the value that is greater by 1. Counts the pairs that are evicted.
static int open_full_cache(bucket_handle *cache, uint64_t count, size_t *evicted) {
    uint64_t gone, value, kept;
    *evicted = 0;
    CHECK(bucket_cache_new(cache, 0, 256, seed) == BUCKET_OK);
    for (uint64_t key = 0; key < count; key++) {
        uint32_t code = key % 2 == 0 ? bucket_cache_put(cache, key, key + 1, &gone, &value)
                                     : bucket_cache_upsert(cache, key, key + 1, &gone, &value);
        CHECK(code == BUCKET_OK || code == BUCKET_EVICTED);
        if (code == BUCKET_EVICTED) {
            ++*evicted;
            CHECK(value == gone + 1);
            CHECK(bucket_cache_get(cache, gone, &value) == BUCKET_ABSENT);
        }
        // A pair that was touched in each round stays, even if its bucket is full.
        CHECK(bucket_cache_get(cache, 0, &kept) == BUCKET_OK && kept == 1);
        CHECK(bucket_cache_put(cache, key, 0, &gone, &value) == BUCKET_PRESENT);
    }
    return 0;
}

static int cache_evicts(void) {
    bucket_handle cache = BUCKET_HANDLE;
    size_t evicted;
    CHECK(open_full_cache(&cache, ENTRIES, &evicted) == 0);
    CHECK(bucket_len(&cache) + evicted == ENTRIES);
    bucket_free(&cache);
    return 0;
}

static int cache_pairs(void) {
    bucket_handle cache = BUCKET_HANDLE;
    bucket_pair pairs[1000];
    size_t evicted, count = 0;
    CHECK(open_full_cache(&cache, 1000, &evicted) == 0);
    CHECK(bucket_pairs(&cache, 0, pairs, 1000, &count) == BUCKET_OK && count == bucket_len(&cache));
    for (size_t i = 0; i < count; i++) {
        CHECK(pairs[i].value == pairs[i].key + 1);
        CHECK(bucket_cache_contains(&cache, pairs[i].key) == BUCKET_OK);
    }
    bucket_free(&cache);
    return 0;
}

static int cache_remove(void) {
    bucket_handle cache = BUCKET_HANDLE;
    uint64_t value = 77;
    size_t evicted;
    CHECK(open_full_cache(&cache, 1000, &evicted) == 0);
    CHECK(bucket_cache_remove(&cache, 999, &value) == BUCKET_OK && value == 1000);
    CHECK(bucket_cache_remove(&cache, 999, &value) == BUCKET_ABSENT && value == 1000);
    bucket_free(&cache);
    return 0;
}

// ---- A text cache ----

static int text_cache_put(void) {
    bucket_handle cache = BUCKET_HANDLE;
    uint8_t gone[16];
    uint64_t value = 77;
    size_t len = 3;
    CHECK(bucket_text_cache_new(&cache, 0, 256, seed) == BUCKET_OK);
    CHECK(bucket_text_cache_upsert(&cache, text("ab"), 2, 70, gone, 16, &len, &value) == BUCKET_OK && value == 77);
    CHECK(bucket_text_cache_upsert(&cache, text("ab"), 2, 71, gone, 16, &len, &value) == BUCKET_PRESENT && value == 70);
    CHECK(bucket_text_cache_put(&cache, text("ab"), 2, 72, gone, 16, &len, &value) == BUCKET_PRESENT && len == 3);
    CHECK(bucket_text_cache_peek(&cache, text("ab"), 2, &value) == BUCKET_OK && value == 71);
    bucket_free(&cache);
    return 0;
}

// Opens a text cache with the value 71 under "ab".
static int open_text_cache(bucket_handle *cache) {
    uint8_t gone[16];
    uint64_t value = 77;
    size_t len = 3;
    CHECK(bucket_text_cache_new(cache, 0, 256, seed) == BUCKET_OK);
    CHECK(bucket_text_cache_put(cache, text("ab"), 2, 71, gone, 16, &len, &value) == BUCKET_OK && len == 3 && value == 77);
    return 0;
}

static int text_cache_get(void) {
    bucket_handle cache = BUCKET_HANDLE;
    uint64_t value = 77;
    CHECK(open_text_cache(&cache) == 0);
    CHECK(bucket_text_cache_peek(&cache, text("ab"), 1, &value) == BUCKET_ABSENT && value == 77);
    CHECK(bucket_text_cache_get(&cache, text("ab"), 1, &value) == BUCKET_ABSENT && value == 77);
    CHECK(bucket_text_cache_contains(&cache, text("ab"), 1) == BUCKET_ABSENT);
    CHECK(bucket_text_cache_peek(&cache, text("ab"), 2, &value) == BUCKET_OK && value == 71);
    value = 77;
    CHECK(bucket_text_cache_get(&cache, text("ab"), 2, &value) == BUCKET_OK && value == 71);
    CHECK(bucket_text_cache_contains(&cache, text("ab"), 2) == BUCKET_OK);
    bucket_free(&cache);
    return 0;
}

static int text_cache_remove(void) {
    bucket_handle cache = BUCKET_HANDLE;
    uint64_t value = 77;
    CHECK(open_text_cache(&cache) == 0);
    CHECK(bucket_text_cache_remove(&cache, text("ab"), 2, &value) == BUCKET_OK && value == 71);
    CHECK(bucket_text_cache_remove(&cache, text("ab"), 2, &value) == BUCKET_ABSENT && value == 71);
    bucket_free(&cache);
    return 0;
}

// Opens a text cache, and puts the keys of the numbers below TEXTS. Counts the pairs that are
// evicted.
static int open_full_text_cache(bucket_handle *cache, size_t *evicted) {
    uint8_t key[16], gone[16], other[16];
    uint64_t value = 77;
    size_t gone_len = 3;
    *evicted = 0;
    CHECK(bucket_text_cache_new(cache, 0, 256, seed) == BUCKET_OK);
    for (unsigned i = 0; i < TEXTS; i++) {
        // There is room for a whole evicted key, or only for its first five bytes, in turn.
        size_t len = key_of(i, key), room = i % 2 == 0 ? 16 : 5;
        uint32_t code = bucket_text_cache_put(cache, key, len, i, gone, room, &gone_len, &value);
        CHECK(code == BUCKET_OK || code == BUCKET_EVICTED);
        if (code == BUCKET_EVICTED) {
            size_t other_len = key_of((unsigned)value, other);
            ++*evicted;
            CHECK(gone_len == other_len);
            CHECK(memcmp(gone, other, other_len < room ? other_len : room) == 0);
            CHECK(bucket_text_cache_contains(cache, other, other_len) == BUCKET_ABSENT);
        }
    }
    return 0;
}

static int text_cache_evicts(void) {
    bucket_handle cache = BUCKET_HANDLE;
    size_t evicted;
    CHECK(open_full_text_cache(&cache, &evicted) == 0);
    CHECK(bucket_len(&cache) + evicted == TEXTS);
    bucket_free(&cache);
    return 0;
}

static int text_cache_texts(void) {
    bucket_handle cache = BUCKET_HANDLE;
    bucket_text_pair rows[1000];
    uint8_t bytes[16000];
    size_t evicted, count = 0;
    CHECK(open_full_text_cache(&cache, &evicted) == 0);
    CHECK(bucket_texts(&cache, 0, rows, 1000, bytes, sizeof bytes, &count) == BUCKET_OK);
    CHECK(count == bucket_len(&cache));
    bucket_free(&cache);
    return 0;
}

// ---- A pointer may be null if its length or room is 0, as that of an empty std::string_view ----

static int null_key_absent(void) {
    bucket_handle map = BUCKET_HANDLE;
    uint64_t value = 77;
    CHECK(bucket_text_map_new(&map, 0, seed) == BUCKET_OK);
    CHECK(bucket_text_map_get(&map, NULL, 0, &value) == BUCKET_ABSENT && value == 77);
    CHECK(bucket_text_map_contains(&map, NULL, 0) == BUCKET_ABSENT);
    CHECK(bucket_text_map_remove(&map, NULL, 0, &value) == BUCKET_ABSENT && value == 77);
    bucket_free(&map);
    return 0;
}

static int null_key_present(void) {
    bucket_handle map = BUCKET_HANDLE;
    uint64_t value = 77;
    CHECK(bucket_text_map_new(&map, 0, seed) == BUCKET_OK);
    CHECK(bucket_text_map_insert(&map, NULL, 0, 5) == BUCKET_OK);
    CHECK(bucket_text_map_insert(&map, text(""), 0, 5) == BUCKET_PRESENT);
    CHECK(bucket_text_map_upsert(&map, NULL, 0, 6, &value) == BUCKET_PRESENT && value == 5);
    CHECK(bucket_text_map_get(&map, NULL, 0, &value) == BUCKET_OK && value == 6);
    CHECK(bucket_text_map_contains(&map, NULL, 0) == BUCKET_OK);
    value = 77;
    CHECK(bucket_text_map_remove(&map, NULL, 0, &value) == BUCKET_OK && value == 6);
    CHECK(bucket_len(&map) == 0);
    bucket_free(&map);
    return 0;
}

static int null_key_by_pointer(void) {
    uint32_t (*contains)(const bucket_handle *, const uint8_t *, size_t) = bucket_text_map_contains;
    bucket_handle map = BUCKET_HANDLE;
    CHECK(bucket_text_map_new(&map, 0, seed) == BUCKET_OK);
    CHECK(contains(&map, NULL, 0) == BUCKET_ABSENT);
    CHECK(bucket_text_map_insert(&map, NULL, 0, 5) == BUCKET_OK);
    CHECK(contains(&map, NULL, 0) == BUCKET_OK);
    bucket_free(&map);
    return 0;
}

static int null_rooms_of_texts(void) {
    bucket_handle map = BUCKET_HANDLE;
    bucket_text_pair row = {7, 8};
    size_t count = 79;
    CHECK(bucket_text_map_new(&map, 0, seed) == BUCKET_OK);
    CHECK(bucket_text_map_insert(&map, NULL, 0, 6) == BUCKET_OK);
    CHECK(bucket_texts(&map, 0, NULL, 0, NULL, 0, &count) == BUCKET_OK && count == 0);
    CHECK(bucket_texts(&map, 0, &row, 1, NULL, 0, &count) == BUCKET_OK && count == 1);
    CHECK(row.len == 0 && row.value == 6);
    bucket_free(&map);
    return 0;
}

static int null_room_of_pairs(void) {
    bucket_handle map = BUCKET_HANDLE;
    size_t count = 79;
    CHECK(bucket_map_new(&map, 0, seed) == BUCKET_OK);
    CHECK(bucket_map_insert(&map, 1, 2) == BUCKET_OK);
    CHECK(bucket_pairs(&map, 0, NULL, 0, &count) == BUCKET_OK && count == 0);
    bucket_free(&map);
    return 0;
}

static int null_key_of_set(void) {
    bucket_handle set = BUCKET_HANDLE;
    CHECK(bucket_text_set_new(&set, seed) == BUCKET_OK);
    CHECK(bucket_text_set_contains(&set, NULL, 0) == BUCKET_ABSENT);
    CHECK(bucket_text_set_remove(&set, NULL, 0) == BUCKET_ABSENT);
    CHECK(bucket_text_set_insert(&set, NULL, 0) == BUCKET_OK);
    CHECK(bucket_text_set_insert(&set, text(""), 0) == BUCKET_PRESENT);
    CHECK(bucket_text_set_contains(&set, NULL, 0) == BUCKET_OK);
    CHECK(bucket_text_set_remove(&set, NULL, 0) == BUCKET_OK);
    bucket_free(&set);
    return 0;
}

static int null_key_of_cache(void) {
    bucket_handle cache = BUCKET_HANDLE;
    uint64_t value = 77, before = 0;
    size_t len = 3;
    CHECK(bucket_text_cache_new(&cache, 0, 64, seed) == BUCKET_OK);
    CHECK(bucket_text_cache_get(&cache, NULL, 0, &value) == BUCKET_ABSENT);
    CHECK(bucket_text_cache_put(&cache, NULL, 0, 5, NULL, 0, &len, &value) == BUCKET_OK);
    CHECK(bucket_text_cache_put(&cache, text(""), 0, 5, NULL, 0, &len, &value) == BUCKET_PRESENT && len == 3);
    CHECK(bucket_text_cache_upsert(&cache, NULL, 0, 6, NULL, 0, &len, &before) == BUCKET_PRESENT && before == 5);
    CHECK(bucket_text_cache_get(&cache, NULL, 0, &value) == BUCKET_OK && value == 6);
    value = 77;
    CHECK(bucket_text_cache_peek(&cache, NULL, 0, &value) == BUCKET_OK && value == 6);
    CHECK(bucket_text_cache_contains(&cache, NULL, 0) == BUCKET_OK);
    value = 77;
    CHECK(bucket_text_cache_remove(&cache, NULL, 0, &value) == BUCKET_OK && value == 6);
    CHECK(bucket_len(&cache) == 0);
    bucket_free(&cache);
    return 0;
}

static int null_room_of_evicted_key(void) {
    bucket_handle cache = BUCKET_HANDLE;
    uint64_t value = 77;
    size_t gone_len = 3, evicted = 0;
    uint8_t key[16];
    CHECK(bucket_text_cache_new(&cache, 0, 64, seed) == BUCKET_OK);
    for (unsigned i = 0; i < 1000; i++) {
        size_t len = (size_t)snprintf((char *)key, sizeof key, "key %03u", i);
        uint32_t code = i % 2 == 0 ? bucket_text_cache_put(&cache, key, len, i, NULL, 0, &gone_len, &value)
                                   : bucket_text_cache_upsert(&cache, key, len, i, NULL, 0, &gone_len, &value);
        CHECK(code == BUCKET_OK || (code == BUCKET_EVICTED && gone_len == 7 && value < i));
        evicted += code == BUCKET_EVICTED;
    }
    CHECK(bucket_len(&cache) + evicted == 1000);
    CHECK(evicted >= 1000 - 64);
    bucket_free(&cache);
    return 0;
}

static const test_case cases[] = {
    {"a closed handle refuses each call", closed_refuses},
    {"an open handle refuses calls of other kinds, and a second opening", open_refuses},
    {"reserve of SIZE_MAX pairs returns NO_MEMORY, and of 1000 pairs OK", reserve_and_shrink},
    {"clear leaves no key", clear_empties},
    {"map_get of an absent key returns ABSENT and writes nothing", map_get_absent},
    {"map_insert of a present key returns PRESENT and keeps the value", map_insert_present},
    {"map_upsert inserts an absent key, and returns the earlier value of a present one", map_upsert},
    {"a key removed by map_remove is absent", map_remove},
    {"each of 100000 keys of a map is found, and no other", map_of_many},
    {"pairs reads the same pairs of a map in pieces as at once", map_pieces},
    {"pairs reads none past the end of a map, and none without room", map_no_pairs},
    {"a map that was freed is closed, and may be freed again", map_free},
    {"text_map_upsert inserts an absent key, and returns the earlier value of a present one", text_map_upsert},
    {"a key removed by text_map_remove is absent", text_map_remove},
    {"each of 20000 keys of a text map is found, and a prefix only if it is a key", text_map_of_many},
    {"texts reads each key and value of a text map once, in pieces", text_map_pieces},
    {"text_set_insert of a present key returns PRESENT", text_set_insert},
    {"a key removed by text_set_remove is absent", text_set_remove},
    {"texts reads each key of a text set once, in pieces, with the value 0", text_set_pieces},
    {"cache_upsert inserts an absent key, and returns the earlier value of a present one", cache_upsert},
    {"cache_peek and cache_contains find only the key that is present", cache_peek},
    {"a full cache evicts pairs, but not one that is read after each put", cache_evicts},
    {"pairs reads all pairs of a full cache", cache_pairs},
    {"a key removed by cache_remove is absent", cache_remove},
    {"text_cache_put keeps the value of a present key, and upsert replaces it", text_cache_put},
    {"text_cache_get, peek and contains find a key, and not its prefix", text_cache_get},
    {"a key removed by text_cache_remove is absent", text_cache_remove},
    {"a full text cache writes out an evicted key, as far as there is room", text_cache_evicts},
    {"texts reads as many keys of a full text cache as it has", text_cache_texts},
    {"a null key is absent from an empty text map", null_key_absent},
    {"a null key is the empty key in each call of a text map", null_key_present},
    {"a null key may be passed to a call through a pointer", null_key_by_pointer},
    {"texts accepts null buffers whose room is 0", null_rooms_of_texts},
    {"pairs accepts a null buffer whose room is 0", null_room_of_pairs},
    {"a null key is the empty key in each call of a text set", null_key_of_set},
    {"a null key is the empty key in each call of a text cache", null_key_of_cache},
    {"a text cache that evicts accepts a null buffer whose room is 0", null_room_of_evicted_key},
    {NULL, NULL},
};

int main(void) {
    const bucket_seed seeds[2] = {BUCKET_FIXED_SEED, {0x0706050403020100u, 0x0f0e0d0c0b0a0908u}};
    if (run_cases("calls", cases, seeds, 2) != 0) {
        return 1;
    }
    puts("each call of maps, text sets and caches, with each code: correct");
    return 0;
}
