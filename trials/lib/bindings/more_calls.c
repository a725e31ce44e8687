// The calls of sets of words, stores and counters, readings of pairs and removals of many, with
// each code that they can return except NO_MEMORY for a failed allocation; and the slots of each
// kind. Exits with 1 if a case fails, otherwise with 0. It is both C and C++.
#include "cases.h"

#define ENTRIES 3000

static uint32_t has(int kind, const bucket_handle *handle, uint64_t number) {
    const uint8_t *key = (const uint8_t *)&number;
    switch (kind) {
    case MAP: return bucket_map_contains(handle, number);
    case SET: return bucket_set_contains(handle, number);
    case CACHE: return bucket_cache_contains(handle, number);
    case TEXT_MAP: return bucket_text_map_contains(handle, key, 8);
    case TEXT_CACHE: return bucket_text_cache_contains(handle, key, 8);
    case TEXT_SET: return bucket_text_set_contains(handle, key, 8);
    default: return bucket_store_contains(handle, key, 8);
    }
}

// ---- Handles of each kind, and their slots ----

static int version(void) {
    CHECK(bucket_version() == BUCKET_VERSION);
    return 0;
}

static int closed(void) {
    bucket_handle handle = BUCKET_HANDLE;
    CHECK(bucket_clear(&handle) == BUCKET_CLOSED);
    CHECK(bucket_len(&handle) == 0);
    CHECK(bucket_capacity(&handle) == 0);
    bucket_free(&handle);
    CHECK(refuse(NONE, &handle) == 0);
    return 0;
}

static int empty_of_each_kind(void) {
    for (int kind = 0; kind < KINDS; kind++) {
        bucket_handle handle = BUCKET_HANDLE;
        CHECK(open_with(kind, &handle, 0) == 0);
        CHECK(bucket_len(&handle) == 0);
        CHECK(bucket_capacity(&handle) == 0);
        CHECK(refuse(kind, &handle) == 0);
        bucket_free(&handle);
    }
    return 0;
}

static bool is_power(size_t slots) { return slots > 0 && (slots & (slots - 1)) == 0; }

static int puts_of_each_kind(void) {
    for (int kind = 0; kind < KINDS; kind++) {
        bucket_handle handle = BUCKET_HANDLE;
        CHECK(open_with(kind, &handle, 0) == 0);
        for (uint64_t number = 0; number < 1000; number++) {
            size_t slots = bucket_capacity(&handle);
            CHECK(has(kind, &handle, number) == BUCKET_ABSENT);
            CHECK(put_number(kind, &handle, number) != BUCKET_NO_MEMORY);
            CHECK(has(kind, &handle, number) == BUCKET_OK);
            CHECK(put_number(kind, &handle, number) == BUCKET_PRESENT);
            CHECK(bucket_capacity(&handle) >= 64);
            CHECK(bucket_capacity(&handle) >= slots);
            CHECK(is_power(bucket_capacity(&handle)));
            CHECK(is_cache(kind) || bucket_len(&handle) == number + 1);
        }
        CHECK(refuse(kind, &handle) == 0);
        bucket_free(&handle);
    }
    return 0;
}

static int slots_of_each_kind(void) {
    for (int kind = 0; kind < KINDS; kind++) {
        bucket_handle handle = BUCKET_HANDLE;
        if (is_cache(kind)) {
            continue;
        }
        CHECK(open_with(kind, &handle, 1000) == 0);
        CHECK(bucket_reserve(&handle, SIZE_MAX) == BUCKET_NO_MEMORY);
        CHECK(bucket_len(&handle) == 1000);
        CHECK(bucket_reserve(&handle, 9000) == BUCKET_OK);
        size_t slots = bucket_capacity(&handle);
        CHECK(slots >= 8192);
        CHECK(is_power(slots));
        CHECK(bucket_shrink(&handle) == BUCKET_OK);
        CHECK(bucket_capacity(&handle) < slots);
        CHECK(is_power(bucket_capacity(&handle)));
        CHECK(bucket_len(&handle) == 1000);
        CHECK(has(kind, &handle, 999) == BUCKET_OK);
        bucket_free(&handle);
    }
    return 0;
}

static int clear_of_each_kind(void) {
    for (int kind = 0; kind < KINDS; kind++) {
        bucket_handle handle = BUCKET_HANDLE;
        CHECK(open_with(kind, &handle, 1000) == 0);
        size_t slots = bucket_capacity(&handle);
        CHECK(bucket_clear(&handle) == BUCKET_OK);
        CHECK(bucket_len(&handle) == 0);
        CHECK(bucket_capacity(&handle) == slots);
        CHECK(has(kind, &handle, 999) == BUCKET_ABSENT);
        CHECK(put_number(kind, &handle, 999) == BUCKET_OK);
        CHECK(bucket_len(&handle) == 1);
        CHECK(bucket_capacity(&handle) >= 64);
        bucket_free(&handle);
    }
    return 0;
}

static int free_of_each_kind(void) {
    for (int kind = 0; kind < KINDS; kind++) {
        bucket_handle handle = BUCKET_HANDLE;
        CHECK(open_with(kind, &handle, 1000) == 0);
        bucket_free(&handle);
        CHECK(bucket_len(&handle) == 0);
        CHECK(bucket_capacity(&handle) == 0);
        CHECK(has(kind, &handle, 999) == BUCKET_CLOSED);
    }
    return 0;
}

// ---- Counters ----

static int map_add(void) {
    bucket_handle map = BUCKET_HANDLE;
    uint64_t word = 77;
    CHECK(bucket_map_new(&map, 0, seed) == BUCKET_OK);
    CHECK(bucket_map_add(&map, 1, 5, &word) == BUCKET_OK && word == 5);
    CHECK(bucket_map_add(&map, 1, 3, &word) == BUCKET_PRESENT && word == 8);
    CHECK(bucket_map_add(&map, 1, UINT64_MAX, &word) == BUCKET_PRESENT && word == 7);
    CHECK(bucket_map_add(&map, 2, UINT64_MAX, &word) == BUCKET_OK && word == UINT64_MAX);
    CHECK(bucket_map_add(&map, 2, 1, &word) == BUCKET_PRESENT && word == 0);
    word = 77;
    CHECK(bucket_map_get(&map, 2, &word) == BUCKET_OK && word == 0);
    CHECK(bucket_map_get(&map, 1, &word) == BUCKET_OK && word == 7);
    CHECK(bucket_len(&map) == 2);
    bucket_free(&map);
    return 0;
}

static int map_get_or_insert(void) {
    bucket_handle map = BUCKET_HANDLE;
    uint64_t word = 77;
    CHECK(bucket_map_new(&map, 0, seed) == BUCKET_OK);
    CHECK(bucket_map_get_or_insert(&map, 3, 30, &word) == BUCKET_OK && word == 30);
    word = 77;
    CHECK(bucket_map_get_or_insert(&map, 3, 31, &word) == BUCKET_PRESENT && word == 30);
    word = 77;
    CHECK(bucket_map_get(&map, 3, &word) == BUCKET_OK && word == 30);
    CHECK(bucket_len(&map) == 1);
    bucket_free(&map);
    return 0;
}

static int map_remove_if_equal(void) {
    bucket_handle map = BUCKET_HANDLE;
    uint64_t word = 77;
    CHECK(bucket_map_new(&map, 0, seed) == BUCKET_OK);
    CHECK(bucket_map_remove_if_equal(&map, 3, 0, &word) == BUCKET_ABSENT && word == 77);
    CHECK(bucket_len(&map) == 0);
    CHECK(bucket_map_insert(&map, 3, 30) == BUCKET_OK);
    CHECK(bucket_map_insert(&map, 4, 30) == BUCKET_OK);
    CHECK(bucket_map_remove_if_equal(&map, 3, 31, &word) == BUCKET_PRESENT && word == 30);
    CHECK(bucket_map_contains(&map, 3) == BUCKET_OK);
    CHECK(bucket_len(&map) == 2);
    word = 77;
    CHECK(bucket_map_remove_if_equal(&map, 3, 30, &word) == BUCKET_OK && word == 77);
    CHECK(bucket_map_remove_if_equal(&map, 3, 30, &word) == BUCKET_ABSENT && word == 77);
    CHECK(bucket_len(&map) == 1);
    bucket_free(&map);
    return 0;
}

// ---- Keys that are byte strings: of a text map and of a store ----

typedef int (*test_of_key)(const uint8_t *key, size_t len);

// Runs a test with a key of three bytes, and with the empty key at a null pointer.
static int with_both_keys(test_of_key test) {
    ABOUT("the key \"key\"");
    CHECK(test(text("key"), 3) == 0);
    ABOUT("the empty key");
    CHECK(test(NULL, 0) == 0);
    return 0;
}

static int text_map_add_of(const uint8_t *key, size_t len) {
    bucket_handle map = BUCKET_HANDLE;
    uint64_t word = 77;
    CHECK(bucket_text_map_new(&map, 0, seed) == BUCKET_OK);
    CHECK(bucket_text_map_add(&map, key, len, UINT64_MAX, &word) == BUCKET_OK && word == UINT64_MAX);
    CHECK(bucket_text_map_add(&map, key, len, 9, &word) == BUCKET_PRESENT && word == 8);
    word = 77;
    CHECK(bucket_text_map_get(&map, key, len, &word) == BUCKET_OK && word == 8);
    bucket_free(&map);
    return 0;
}

static int text_map_add(void) { return with_both_keys(text_map_add_of); }

static int text_map_get_or_insert_of(const uint8_t *key, size_t len) {
    bucket_handle map = BUCKET_HANDLE;
    uint64_t word = 77;
    CHECK(bucket_text_map_new(&map, 0, seed) == BUCKET_OK);
    CHECK(bucket_text_map_insert(&map, key, len, 8) == BUCKET_OK);
    CHECK(bucket_text_map_get_or_insert(&map, key, len, 9, &word) == BUCKET_PRESENT && word == 8);
    CHECK(bucket_text_map_get_or_insert(&map, text("other"), 5, 9, &word) == BUCKET_OK && word == 9);
    CHECK(bucket_len(&map) == 2);
    bucket_free(&map);
    return 0;
}

static int text_map_get_or_insert(void) { return with_both_keys(text_map_get_or_insert_of); }

static int text_map_remove_if_equal_of(const uint8_t *key, size_t len) {
    bucket_handle map = BUCKET_HANDLE;
    uint64_t word = 77;
    CHECK(bucket_text_map_new(&map, 0, seed) == BUCKET_OK);
    CHECK(bucket_text_map_remove_if_equal(&map, key, len, 0, &word) == BUCKET_ABSENT && word == 77);
    CHECK(bucket_text_map_insert(&map, key, len, 8) == BUCKET_OK);
    CHECK(bucket_text_map_insert(&map, text("other"), 5, 9) == BUCKET_OK);
    CHECK(bucket_text_map_remove_if_equal(&map, key, len, 9, &word) == BUCKET_PRESENT && word == 8);
    CHECK(bucket_text_map_contains(&map, key, len) == BUCKET_OK);
    CHECK(bucket_len(&map) == 2);
    word = 77;
    CHECK(bucket_text_map_remove_if_equal(&map, key, len, 8, &word) == BUCKET_OK && word == 77);
    CHECK(bucket_text_map_remove_if_equal(&map, key, len, 8, &word) == BUCKET_ABSENT && word == 77);
    CHECK(bucket_len(&map) == 1);
    bucket_free(&map);
    return 0;
}

static int text_map_remove_if_equal(void) { return with_both_keys(text_map_remove_if_equal_of); }

// A key has this value: it is written out if the room is long enough, otherwise its first bytes and
// its whole length.
static int is_stored(const bucket_handle *store, const uint8_t *key, size_t len, const char *value) {
    size_t value_len = strlen(value);
    for (size_t room = 0; room <= value_len + 1; room++) {
        uint8_t out[32];
        size_t written = 79, front = room < value_len ? room : value_len;
        memset(out, 200, sizeof out);
        uint32_t code = bucket_store_get(store, key, len, room > 0 ? out : NULL, room, &written);
        CHECK(code == (room < value_len ? BUCKET_TOO_LONG : BUCKET_OK));
        CHECK(written == value_len);
        for (size_t i = 0; i < sizeof out; i++) {
            CHECK(out[i] == (i < front ? (uint8_t)value[i] : 200));
        }
    }
    CHECK(bucket_store_contains(store, key, len) == BUCKET_OK);
    return 0;
}

static int store_absent_of(const uint8_t *key, size_t len) {
    bucket_handle store = BUCKET_HANDLE;
    uint8_t out[4] = {1, 2, 3, 4};
    size_t value_len = 79;
    CHECK(bucket_store_new(&store, 100, seed) == BUCKET_OK);
    CHECK(bucket_store_get(&store, key, len, out, 4, &value_len) == BUCKET_ABSENT && value_len == 79 && out[0] == 1);
    CHECK(bucket_store_contains(&store, key, len) == BUCKET_ABSENT);
    CHECK(bucket_store_remove(&store, key, len) == BUCKET_ABSENT);
    bucket_free(&store);
    return 0;
}

static int store_absent(void) { return with_both_keys(store_absent_of); }

static int store_insert_of(const uint8_t *key, size_t len) {
    bucket_handle store = BUCKET_HANDLE;
    CHECK(bucket_store_new(&store, 100, seed) == BUCKET_OK);
    CHECK(bucket_store_insert(&store, key, len, text("a value"), 7) == BUCKET_OK);
    CHECK(is_stored(&store, key, len, "a value") == 0);
    CHECK(bucket_store_insert(&store, key, len, text("none"), 4) == BUCKET_PRESENT);
    CHECK(is_stored(&store, key, len, "a value") == 0);
    CHECK(bucket_store_insert(&store, text("other"), 5, NULL, 0) == BUCKET_OK);
    CHECK(is_stored(&store, text("other"), 5, "") == 0);
    CHECK(bucket_len(&store) == 2);
    bucket_free(&store);
    return 0;
}

static int store_insert(void) { return with_both_keys(store_insert_of); }

static int store_upsert_of(const uint8_t *key, size_t len) {
    bucket_handle store = BUCKET_HANDLE;
    CHECK(bucket_store_new(&store, 100, seed) == BUCKET_OK);
    CHECK(bucket_store_insert(&store, key, len, text("a value"), 7) == BUCKET_OK);
    CHECK(bucket_store_insert(&store, text("other"), 5, NULL, 0) == BUCKET_OK);
    CHECK(bucket_store_upsert(&store, key, len, text("a longer value"), 14) == BUCKET_PRESENT);
    CHECK(is_stored(&store, key, len, "a longer value") == 0);
    CHECK(bucket_len(&store) == 2);
    CHECK(bucket_store_upsert(&store, key, len, NULL, 0) == BUCKET_PRESENT);
    CHECK(is_stored(&store, key, len, "") == 0);
    CHECK(bucket_store_upsert(&store, text("other"), 5, text("long"), 4) == BUCKET_PRESENT);
    CHECK(is_stored(&store, text("other"), 5, "long") == 0);
    bucket_free(&store);
    return 0;
}

static int store_upsert(void) { return with_both_keys(store_upsert_of); }

static int store_remove_of(const uint8_t *key, size_t len) {
    bucket_handle store = BUCKET_HANDLE;
    CHECK(bucket_store_new(&store, 100, seed) == BUCKET_OK);
    CHECK(bucket_store_insert(&store, key, len, text("a value"), 7) == BUCKET_OK);
    CHECK(bucket_store_insert(&store, text("other"), 5, text("long"), 4) == BUCKET_OK);
    CHECK(bucket_store_remove(&store, key, len) == BUCKET_OK);
    CHECK(bucket_store_remove(&store, key, len) == BUCKET_ABSENT);
    CHECK(bucket_store_contains(&store, key, len) == BUCKET_ABSENT);
    CHECK(bucket_len(&store) == 1);
    CHECK(bucket_store_upsert(&store, key, len, text("c"), 1) == BUCKET_OK);
    CHECK(is_stored(&store, key, len, "c") == 0);
    CHECK(is_stored(&store, text("other"), 5, "long") == 0);
    CHECK(bucket_len(&store) == 2);
    bucket_free(&store);
    return 0;
}

static int store_remove(void) { return with_both_keys(store_remove_of); }

static int store_copies(void) {
    bucket_handle store = BUCKET_HANDLE;
    uint8_t name[8] = "name";
    CHECK(bucket_store_new(&store, 100, seed) == BUCKET_OK);
    CHECK(bucket_store_insert(&store, name, 4, name, 4) == BUCKET_OK);
    memset(name, 'x', sizeof name);
    CHECK(is_stored(&store, text("name"), 4, "name") == 0);
    CHECK(bucket_store_contains(&store, name, 4) == BUCKET_ABSENT);
    bucket_free(&store);
    return 0;
}

// ---- Sets of words ----

static int open_full_set(bucket_handle *set) {
    CHECK(bucket_set_new(set, seed) == BUCKET_OK);
    CHECK(bucket_set_remove(set, 0) == BUCKET_ABSENT);
    for (uint64_t key = 0; key < ENTRIES; key++) {
        CHECK(bucket_set_insert(set, ~key) == BUCKET_OK);
        CHECK(bucket_set_insert(set, ~key) == BUCKET_PRESENT);
    }
    CHECK(bucket_len(set) == ENTRIES);
    return 0;
}

static int set_insert(void) {
    bucket_handle set = BUCKET_HANDLE;
    CHECK(open_full_set(&set) == 0);
    for (uint64_t key = 0; key < ENTRIES; key++) {
        CHECK(bucket_set_contains(&set, ~key) == BUCKET_OK);
        CHECK(bucket_set_contains(&set, key) == BUCKET_ABSENT);
    }
    bucket_free(&set);
    return 0;
}

static int set_remove(void) {
    bucket_handle set = BUCKET_HANDLE;
    CHECK(open_full_set(&set) == 0);
    for (uint64_t key = 0; key < ENTRIES; key++) {
        CHECK(bucket_set_contains(&set, ~key) == BUCKET_OK);
        CHECK(bucket_set_remove(&set, ~key) == BUCKET_OK);
        CHECK(bucket_set_remove(&set, ~key) == BUCKET_ABSENT);
        CHECK(bucket_len(&set) == ENTRIES - 1 - key);
    }
    bucket_free(&set);
    return 0;
}

// ---- Readings ----

// The pairs that were read are all pairs of the collection, each once.
static int is_all(int kind, const bucket_handle *handle, const bucket_pair *pairs, size_t count) {
    static bool seen[ENTRIES];
    memset(seen, 0, sizeof seen);
    CHECK(count == bucket_len(handle));
    for (size_t i = 0; i < count; i++) {
        uint64_t number = kind == SET ? pairs[i].key : pairs[i].value - VALUE(0);
        CHECK(number < ENTRIES);
        CHECK(!seen[number]);
        CHECK(has(kind, handle, number) == BUCKET_OK);
        CHECK(pairs[i].value == (kind == SET ? 0 : VALUE(number)));
        CHECK(pairs[i].key == (kind == TEXT_MAP || kind == TEXT_CACHE ? 0 : number));
        seen[number] = true;
    }
    return 0;
}

// Pairs, in the order in which they were read.
typedef struct visited {
    bucket_pair pairs[2 * ENTRIES + 99];
    size_t count;
} visited;

static void visit(uint64_t key, uint64_t value, void *data) {
    visited *to = (visited *)data;
    if (to->count < sizeof to->pairs / sizeof *to->pairs) {
        to->pairs[to->count].key = key;
        to->pairs[to->count].value = value;
    }
    to->count++;
}

// bucket_pairs_in and bucket_each give the same pairs, in the same order, as bucket_read.
static int are_read_again(const bucket_handle *handle, size_t room, const bucket_pair *pairs, size_t read) {
    static bucket_pair again[2 * ENTRIES + 99];
    static visited each;
    size_t bucket = 0, in = 0, all = 0, count = 79;
    while (bucket_pairs_in(handle, bucket, in, again + all, room, &count) == BUCKET_OK) {
        all += count;
        in = count < room ? 0 : in + count;
        bucket += count < room;
    }
    CHECK(all == read);
    CHECK(count == 0);
    CHECK(memcmp(pairs, again, all * sizeof *pairs) == 0);
    each.count = 0;
    CHECK(bucket_each(handle, visit, &each) == BUCKET_OK);
    CHECK(each.count == read);
    CHECK(memcmp(pairs, each.pairs, read * sizeof *pairs) == 0);
    return 0;
}

// Reads all pairs with each of the four calls, three of them in pieces whose size depends on the
// round.
static int reads(int kind, const bucket_handle *handle, uint64_t round) {
    static const size_t rooms[7] = {1, 2, 31, 32, 33, 99, ENTRIES + 99};
    static bucket_pair pairs[2 * ENTRIES + 99];
    static uint64_t values[2 * ENTRIES + 99];
    bucket_place place = BUCKET_START, other = BUCKET_START;
    size_t room = rooms[round % 7], read = 0, count = 79, more = 79;
    while (bucket_read(handle, &place, pairs + read, room, &count) == BUCKET_OK) {
        CHECK(bucket_values(handle, &other, values + read, room, &more) == BUCKET_OK);
        CHECK(more == count);
        CHECK(count <= room);
        for (size_t end = read + count; read < end; read++) {
            CHECK(values[read] == pairs[read].value);
        }
        CHECK(count == room || read == bucket_len(handle));
    }
    CHECK(bucket_read(handle, &place, pairs + read, room, &count) == BUCKET_ABSENT && count == 0);
    CHECK(bucket_values(handle, &other, values + read, room, &more) == BUCKET_ABSENT && more == 0);
    CHECK(are_read_again(handle, room, pairs, read) == 0);
    CHECK(is_all(kind, handle, pairs, read) == 0);
    return 0;
}

// A room of 0, also with a null pointer, and places past all pairs.
static int reads_none(int kind, const bucket_handle *handle, uint64_t round) {
    (void)kind, (void)round;
    uint32_t first = bucket_capacity(handle) == 0 ? BUCKET_ABSENT : BUCKET_OK;
    bucket_place place = BUCKET_START, past = {SIZE_MAX, SIZE_MAX}, in_first = {0, SIZE_MAX};
    bucket_pair pair = {5, 6};
    uint64_t value = 7;
    size_t a = 79, b = 79, c = 79;
    CHECK(bucket_read(handle, &place, NULL, 0, &a) == first && a == 0);
    CHECK(bucket_values(handle, &place, NULL, 0, &b) == first && b == 0);
    CHECK(bucket_pairs_in(handle, 0, 0, NULL, 0, &c) == first && c == 0);
    CHECK(place.bucket == 0 && place.pair == 0);
    for (size_t room = 0; room < 2; room++) {
        size_t count[4] = {79, 79, 79, 79};
        CHECK(bucket_read(handle, &past, &pair, room, &count[0]) == BUCKET_ABSENT && count[0] == 0);
        CHECK(bucket_values(handle, &past, &value, room, &count[1]) == BUCKET_ABSENT && count[1] == 0);
        CHECK(bucket_pairs_in(handle, SIZE_MAX, room, &pair, room, &count[2]) == BUCKET_ABSENT && count[2] == 0);
        CHECK(bucket_pairs_in(handle, 0, SIZE_MAX, &pair, room, &count[3]) == first && count[3] == 0);
    }
    CHECK(pair.key == 5 && pair.value == 6);
    CHECK(value == 7);
    // After the pairs of the first bucket, those of the others are read.
    uint32_t code = bucket_read(handle, &in_first, &pair, 1, &a);
    CHECK(code == BUCKET_OK ? a == 1 && in_first.bucket > 0 : code == BUCKET_ABSENT && a == 0);
    return 0;
}

// Runs a test with a handle of each kind that has words as keys or values: when it is empty, after
// every 16 puts, and when it is cleared. In most rounds there is an old array, at first with all
// its buckets.
static int while_it_grows(int (*test)(int kind, const bucket_handle *handle, uint64_t round)) {
    for (int kind = 0; kind <= TEXT_CACHE; kind++) {
        bucket_handle handle = BUCKET_HANDLE;
        CHECK(open_with(kind, &handle, 0) == 0);
        CHECK(test(kind, &handle, 0) == 0);
        for (uint64_t number = 0; number < ENTRIES; number++) {
            CHECK(put_next(kind, &handle, number) == 0);
            if (number % 16 == 15) {
                ABOUT("%s of %d keys", kind_name(kind), (int)number + 1);
                CHECK(test(kind, &handle, number / 16) == 0);
            }
        }
        CHECK(bucket_clear(&handle) == BUCKET_OK);
        CHECK(test(kind, &handle, 0) == 0);
        bucket_free(&handle);
    }
    return 0;
}

static int readings(void) { return while_it_grows(reads); }

static int readings_of_none(void) { return while_it_grows(reads_none); }

// ---- Removals of many, and values that are destroyed ----

// As many pairs as fill the block of keys, one more and one fewer, and others.
static const uint64_t counts[] = {0, 1, 31, 32, 33, 63, 64, 65, 127, 128, 129, 1025, ENTRIES};

// The values of the calls of note_destroyed.
static uint64_t destroyed_values[ENTRIES];

static void note_destroyed(uint64_t value) {
    if (destroyed < ENTRIES) {
        destroyed_values[destroyed] = value;
    }
    destroyed++;
}

// Each value is destroyed once, in the order of a reading, and then the handle is closed.
static int destroys(int kind, uint64_t entries) {
    static uint64_t values[ENTRIES];
    bucket_handle handle = BUCKET_HANDLE;
    bucket_place place = BUCKET_START;
    size_t count = 0;
    CHECK(open_with(kind, &handle, entries) == 0);
    CHECK(bucket_values(&handle, &place, values, ENTRIES, &count) == (entries > 0 ? BUCKET_OK : BUCKET_ABSENT));
    CHECK(count == bucket_len(&handle));
    destroyed = 0;
    CHECK(bucket_free_values(&handle, note_destroyed) == BUCKET_OK && destroyed == count);
    CHECK(memcmp(values, destroyed_values, count * sizeof *values) == 0);
    CHECK(!handle.live);
    CHECK(bucket_free_values(&handle, note_destroyed) == BUCKET_CLOSED && destroyed == count);
    return 0;
}

static int free_values(void) {
    for (size_t at = 0; at < sizeof counts / sizeof *counts; at++) {
        for (int kind = 0; kind <= TEXT_CACHE; kind++) {
            CHECK(kind == SET || destroys(kind, counts[at]) == 0);
        }
    }
    return 0;
}

// The test of a removal: it removes each key that is 1 less than a multiple of `divisor`. It looks
// up the keys in the handle.
typedef struct question {
    const bucket_handle *handle;
    int kind;
    uint64_t divisor;
    size_t asked, yes;
    bool is_right;
} question;

static bool passes(const question *asking, uint64_t key) { return (key + 1) % asking->divisor == 0; }

static bool ask(uint64_t key, uint64_t value, void *data) {
    question *asking = (question *)data;
    bool is_set = asking->kind == SET;
    uint64_t held = 0;
    uint32_t code = is_set ? bucket_set_contains(asking->handle, key) : bucket_map_get(asking->handle, key, &held);
    bool is_held = code == BUCKET_OK && held == value && value == (is_set ? 0 : VALUE(key));
    asking->is_right = asking->is_right && is_held;
    asking->asked++;
    asking->yes += passes(asking, key);
    return passes(asking, key);
}

// A test is called once for each pair, before any is removed; exactly those for which it is true
// are removed.
static int removes(int kind, uint64_t entries, uint64_t divisor) {
    bucket_handle handle = BUCKET_HANDLE;
    question asking = {&handle, kind, divisor, 0, 0, true};
    CHECK(open_with(kind, &handle, entries) == 0);
    ABOUT("%s of %d keys, divisor %d", kind_name(kind), (int)entries, (int)divisor);
    for (int round = 0; round < 2; round++) {
        size_t len = bucket_len(&handle), removed = 79;
        asking.asked = asking.yes = 0;
        uint32_t code = kind == SET ? bucket_set_remove_if(&handle, ask, &asking, &removed)
                                    : bucket_map_remove_if(&handle, ask, &asking, &removed);
        CHECK(code == BUCKET_OK);
        CHECK(asking.is_right);
        CHECK(asking.asked == len);
        CHECK(removed == asking.yes);
        CHECK(removed == (round == 0 ? entries / divisor : 0));
        CHECK(bucket_len(&handle) == len - removed);
    }
    for (uint64_t number = 0; number < entries; number++) {
        CHECK(has(kind, &handle, number) == (passes(&asking, number) ? BUCKET_ABSENT : BUCKET_OK));
        CHECK(put_number(kind, &handle, number) == (passes(&asking, number) ? BUCKET_OK : BUCKET_PRESENT));
    }
    bucket_free(&handle);
    return 0;
}

static int removes_of_kind(int kind) {
    for (size_t at = 0; at < sizeof counts / sizeof *counts; at++) {
        for (uint64_t divisor = 1; divisor < 4; divisor++) {
            CHECK(removes(kind, counts[at], divisor) == 0);
        }
        CHECK(removes(kind, counts[at], ENTRIES + 1) == 0);
    }
    return 0;
}

static int map_remove_if(void) { return removes_of_kind(MAP); }

static int set_remove_if(void) { return removes_of_kind(SET); }

static const test_case cases[] = {
    {"the library has the version of the header", version},
    {"a closed handle has no slots and refuses each call", closed},
    {"a handle that was just opened has no slots and refuses the calls of other kinds", empty_of_each_kind},
    {"a key that was put is present, and the slots grow by powers of two", puts_of_each_kind},
    {"reserve and shrink change the slots by powers of two, and no key", slots_of_each_kind},
    {"after clear a handle is empty, and keys may be put again", clear_of_each_kind},
    {"after free a handle is closed", free_of_each_kind},
    {"map_add inserts an amount, and adds modulo 2^64", map_add},
    {"map_get_or_insert keeps and returns the value of a present key", map_get_or_insert},
    {"map_remove_if_equal removes a pair only if it has the value", map_remove_if_equal},
    {"text_map_add inserts an amount, and adds modulo 2^64", text_map_add},
    {"text_map_get_or_insert keeps and returns the value of a present key", text_map_get_or_insert},
    {"text_map_remove_if_equal removes a pair only if it has the value", text_map_remove_if_equal},
    {"store_get of an absent key returns ABSENT and writes nothing", store_absent},
    {"store_insert of a present key returns PRESENT and keeps the value", store_insert},
    {"store_upsert replaces a value by a longer one and by an empty one", store_upsert},
    {"a key removed by store_remove is absent, and may be put again", store_remove},
    {"a store keeps its own copies of a key and a value", store_copies},
    {"each of 3000 keys of a set is found, and no other", set_insert},
    {"a key removed by set_remove is absent", set_remove},
    {"each call that reads pairs reads each once, in pieces of any length", readings},
    {"each call that reads pairs reads none without room or past the end", readings_of_none},
    {"free_values destroys each value once, in the order of a reading", free_values},
    {"map_remove_if tests each pair once, and removes those that pass", map_remove_if},
    {"set_remove_if tests each key once, and removes those that pass", set_remove_if},
    {NULL, NULL},
};

int main(void) {
    const bucket_seed seeds[2] = {BUCKET_FIXED_SEED, {0x0706050403020100u, 0x0f0e0d0c0b0a0908u}};
    if (run_cases("more_calls", cases, seeds, 2) != 0) {
        return 1;
    }
    puts("each reading, counter, set, store and removal of many, with each code: correct");
    return 0;
}
