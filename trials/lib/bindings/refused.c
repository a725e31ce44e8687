// Makes each allocation in turn fail, and all after it. Exits with 1 if a call then returns
// anything but NO_MEMORY, a pair is lost, or memory isn't freed. Link with
// -Wl,--wrap=malloc,--wrap=realloc,--wrap=free.
#include "cases.h"

#include <stdlib.h>

static size_t left = SIZE_MAX; // how many allocations succeed before the others fail
static bool refused;           // whether one has failed
static long held;              // how many blocks are allocated

void *__real_malloc(size_t size);
void *__real_realloc(void *block, size_t size);
void __real_free(void *block);

static bool may(void) {
    if (left == 0) {
        refused = true;
        return false;
    }
    left -= left != SIZE_MAX;
    return true;
}

void *__wrap_malloc(size_t size) {
    void *block = may() ? __real_malloc(size) : NULL;
    held += block != NULL;
    return block;
}

void *__wrap_realloc(void *block, size_t size) {
    void *moved = may() ? __real_realloc(block, size) : NULL;
    held += block == NULL && moved != NULL;
    return moved;
}

void __wrap_free(void *block) {
    held -= block != NULL;
    __real_free(block);
}

#define ENTRIES 3000

// What a look-up returns here if the value isn't the one that was put.
enum { WRONG = 99 };

// The four calls that put a pair into a map, in turn. A present pair stays as it is.
static uint32_t put_map(bucket_handle *handle, uint64_t key, bool is_there) {
    uint64_t word;
    switch (key % 4) {
    case 0: return bucket_map_insert(handle, key, key);
    case 1: return bucket_map_upsert(handle, key, key, &word);
    case 2: return bucket_map_add(handle, key, is_there ? 0 : key, &word);
    default: return bucket_map_get_or_insert(handle, key, key, &word);
    }
}

static uint32_t put_text_map(bucket_handle *handle, uint64_t key, bool is_there) {
    const uint8_t *bytes = (const uint8_t *)&key;
    uint64_t word;
    switch (key % 4) {
    case 0: return bucket_text_map_insert(handle, bytes, 8, key);
    case 1: return bucket_text_map_upsert(handle, bytes, 8, key, &word);
    case 2: return bucket_text_map_add(handle, bytes, 8, is_there ? 0 : key, &word);
    default: return bucket_text_map_get_or_insert(handle, bytes, 8, key, &word);
    }
}

// Puts a pair with one of its kind's calls: PRESENT if the key is present, and then nothing is
// allocated.
static uint32_t put(int kind, bucket_handle *handle, uint64_t key, bool is_there) {
    const uint8_t *bytes = (const uint8_t *)&key;
    uint8_t gone[8];
    uint64_t word, other;
    size_t len;
    switch (kind) {
    case MAP: return put_map(handle, key, is_there);
    case TEXT_MAP: return put_text_map(handle, key, is_there);
    case SET: return bucket_set_insert(handle, key);
    case TEXT_SET: return bucket_text_set_insert(handle, bytes, 8);
    case STORE:
        return key % 2 || is_there ? bucket_store_insert(handle, bytes, 8, bytes, 8)
                                   : bucket_store_upsert(handle, bytes, 8, bytes, 8);
    case CACHE:
        return key % 2 ? bucket_cache_put(handle, key, key, &word, &other) : bucket_cache_upsert(handle, key, key, &word, &other);
    default:
        return key % 2 ? bucket_text_cache_put(handle, bytes, 8, key, gone, 8, &len, &word)
                       : bucket_text_cache_upsert(handle, bytes, 8, key, gone, 8, &len, &word);
    }
}

// Looks up a key, and its value if the kind has values.
static uint32_t has(int kind, const bucket_handle *handle, uint64_t key) {
    const uint8_t *bytes = (const uint8_t *)&key;
    uint64_t word = key;
    size_t len = 8;
    uint32_t code;
    switch (kind) {
    case MAP: code = bucket_map_get(handle, key, &word); break;
    case TEXT_MAP: code = bucket_text_map_get(handle, bytes, 8, &word); break;
    case SET: code = bucket_set_contains(handle, key); break;
    case TEXT_SET: code = bucket_text_set_contains(handle, bytes, 8); break;
    case STORE: code = bucket_store_get(handle, bytes, 8, (uint8_t *)&word, 8, &len); break;
    case CACHE: code = bucket_cache_peek(handle, key, &word); break;
    default: code = bucket_text_cache_peek(handle, bytes, 8, &word); break;
    }
    return word == key && len == 8 ? code : (uint32_t)WRONG;
}

static uint32_t take(int kind, bucket_handle *handle, uint64_t key) {
    const uint8_t *bytes = (const uint8_t *)&key;
    uint64_t word;
    switch (kind) {
    case MAP: return key % 2 ? bucket_map_remove(handle, key, &word) : bucket_map_remove_if_equal(handle, key, key, &word);
    case TEXT_MAP:
        return key % 2 ? bucket_text_map_remove(handle, bytes, 8, &word)
                       : bucket_text_map_remove_if_equal(handle, bytes, 8, key, &word);
    case SET: return bucket_set_remove(handle, key);
    case TEXT_SET: return bucket_text_set_remove(handle, bytes, 8);
    case STORE: return bucket_store_remove(handle, bytes, 8);
    case CACHE: return bucket_cache_remove(handle, key, &word);
    default: return bucket_text_cache_remove(handle, bytes, 8, &word);
    }
}

// Reading all pairs allocates nothing, and returns as many as there are.
static int reads_all(const bucket_handle *handle) {
    size_t bucket = 0, all = 0, count = 0;
    bucket_pair pairs[64];
    while (bucket_pairs_in(handle, bucket, 0, pairs, 64, &count) == BUCKET_OK && count < 64) {
        all += count;
        bucket++;
    }
    CHECK(all == bucket_len(handle));
    return 0;
}

// The keys below `end` that were put are present, and no others. Putting one of them again
// allocates nothing.
static int holds_all(int kind, bucket_handle *handle, const bool *is_in, uint64_t end, size_t in) {
    CHECK(bucket_len(handle) == in);
    CHECK(reads_all(handle) == 0);
    for (uint64_t key = 0; key < end; key++) {
        CHECK(has(kind, handle, key) == (is_in[key] ? BUCKET_OK : BUCKET_ABSENT));
        CHECK(!is_in[key] || put(kind, handle, key, true) == BUCKET_PRESENT);
    }
    CHECK(bucket_len(handle) == in);
    return 0;
}

// Removals work without memory; then memory is back, and nothing is left. If pairs were evicted,
// any key may be absent.
static int removes_all(int kind, bucket_handle *handle, const bool *is_in, bool has_evicted) {
    for (uint64_t key = 0; key < ENTRIES; key++) {
        uint32_t code = take(kind, handle, key);
        CHECK(has_evicted || code == (is_in[key] ? BUCKET_OK : BUCKET_ABSENT));
    }
    left = SIZE_MAX;
    for (uint64_t key = 0; !has_evicted && key < ENTRIES; key++) {
        CHECK(take(kind, handle, key) == BUCKET_ABSENT);
    }
    return 0;
}

// Memory is back, and the handle is freed, and so are all blocks.
static int ended(bucket_handle *handle) {
    left = SIZE_MAX;
    bucket_free(handle);
    CHECK(held == 0);
    return 0;
}

// Puts keys while the allocation at `at` and all after it fail. Sets `any` if one failed.
static int puts_all(int kind, size_t at, bool *any) {
    static bool is_in[ENTRIES];
    bucket_handle handle = BUCKET_HANDLE;
    size_t in = 0, evicted = 0;
    left = at;
    refused = false;
    if (open_kind(kind, &handle) == BUCKET_NO_MEMORY) {
        *any = true;
        CHECK(refused);
        CHECK(has(kind, &handle, 0) == BUCKET_CLOSED);
        return ended(&handle);
    }
    for (uint64_t key = 0; key < ENTRIES; key++) {
        refused = false;
        uint32_t code = put(kind, &handle, key, false);
        bool is_first = code == BUCKET_NO_MEMORY && !*any;
        is_in[key] = code != BUCKET_NO_MEMORY;
        in += is_in[key];
        evicted += code == BUCKET_EVICTED;
        if (code == BUCKET_NO_MEMORY) {
            *any = true;
            CHECK(refused);
            CHECK(has(kind, &handle, key) == BUCKET_ABSENT);
        }
        CHECK(code == BUCKET_NO_MEMORY || code == BUCKET_OK || code == BUCKET_EVICTED);
        CHECK(bucket_len(&handle) + evicted == in);
        // No pair is lost, neither right after the first failure nor at the end.
        if (evicted == 0 && (is_first || key + 1 == ENTRIES)) {
            CHECK(holds_all(kind, &handle, is_in, key + 1, in) == 0);
        }
    }
    CHECK(removes_all(kind, &handle, is_in, evicted > 0) == 0);
    return ended(&handle);
}

// Opens a handle, and puts the keys below `entries`.
static int fill(int kind, bucket_handle *handle, uint64_t entries) {
    CHECK(open_kind(kind, handle) == BUCKET_OK);
    for (uint64_t key = 0; key < entries; key++) {
        CHECK(put(kind, handle, key, false) == BUCKET_OK);
    }
    return 0;
}

// Puts longer values into a store in place of the present ones, as puts_all. If one fails, the
// earlier value stays.
static int replaces_values(int kind, size_t at, bool *any) {
    static const uint8_t longer[40] = {1, 2, 3};
    bucket_handle handle = BUCKET_HANDLE;
    CHECK(fill(kind, &handle, 50) == 0);
    left = at;
    for (uint64_t key = 0; key < 50; key++) {
        const uint8_t *bytes = (const uint8_t *)&key;
        uint8_t out[40] = {0};
        size_t len = 0;
        refused = false;
        uint32_t code = bucket_store_upsert(&handle, bytes, 8, longer, sizeof longer);
        CHECK(code == (refused ? BUCKET_NO_MEMORY : BUCKET_PRESENT));
        CHECK(bucket_store_get(&handle, bytes, 8, out, sizeof out, &len) == BUCKET_OK);
        CHECK(len == (refused ? 8 : sizeof longer));
        CHECK(memcmp(out, refused ? bytes : longer, len) == 0);
        *any = *any || refused;
    }
    CHECK(bucket_len(&handle) == 50);
    return ended(&handle);
}

static bool is_odd(uint64_t key, uint64_t value, void *data) {
    (void)value, (void)data;
    return key % 2 == 1;
}

// Removes all odd keys with one call, as puts_all. If that fails, all stay.
static int removes_odd(int kind, size_t at, bool *any) {
    static bool is_in[ENTRIES];
    bucket_handle handle = BUCKET_HANDLE;
    size_t removed = 79;
    CHECK(fill(kind, &handle, ENTRIES) == 0);
    left = at;
    refused = false;
    uint32_t code = kind == SET ? bucket_set_remove_if(&handle, is_odd, NULL, &removed)
                                : bucket_map_remove_if(&handle, is_odd, NULL, &removed);
    *any = refused;
    for (uint64_t key = 0; key < ENTRIES; key++) {
        is_in[key] = *any || key % 2 == 0;
    }
    CHECK(code == (*any ? BUCKET_NO_MEMORY : BUCKET_OK));
    CHECK(removed == (*any ? 79 : ENTRIES / 2));
    CHECK(holds_all(kind, &handle, is_in, ENTRIES, *any ? ENTRIES : ENTRIES / 2) == 0);
    return ended(&handle);
}

// How many runs there were.
static size_t runs;

// Runs a test with each allocation failing in turn, until none fails.
static int in_turn(int kind, int (*test)(int kind, size_t at, bool *any)) {
    // If keys are byte strings, the later allocations are mostly copies of keys, so only every 37th
    // fails.
    size_t step = kind >= TEXT_MAP ? 37 : 1;
    bool any = true;
    for (size_t at = 0; any; at += at > 200 ? step : 1, runs++) {
        ABOUT("%s, allocation %zu", kind_name(kind), at);
        left = SIZE_MAX;
        held = 0;
        any = false;
        CHECK(test(kind, at, &any) == 0);
    }
    return 0;
}

static int puts_of_each_kind(void) {
    for (int kind = 0; kind < KINDS; kind++) {
        CHECK(in_turn(kind, puts_all) == 0);
    }
    return 0;
}

static int values_of_a_store(void) { return in_turn(STORE, replaces_values); }

static int removals_of_many(void) {
    CHECK(in_turn(MAP, removes_odd) == 0);
    CHECK(in_turn(SET, removes_odd) == 0);
    return 0;
}

static const test_case cases[] = {
    {"a put that fails loses no pair", puts_of_each_kind},
    {"a longer value of a store that can't be allocated leaves the earlier one", values_of_a_store},
    {"map_remove_if and set_remove_if that fail remove nothing", removals_of_many},
    {NULL, NULL},
};

int main(void) {
    const bucket_seed fixed = BUCKET_FIXED_SEED;
    if (run_cases("refused", cases, &fixed, 1) != 0) {
        return 1;
    }
    printf("%zu allocations failed in turn: every answer is correct\n", runs);
    return 0;
}
