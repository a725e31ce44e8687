// Reads all pairs of each kind whose keys are byte strings, bucket by bucket and from a place, into
// buffers of several lengths. Exits with 1 if a case fails, otherwise with 0. It is both C and C++.
#include "cases.h"

#include <stdlib.h>

#define ENTRIES 2000
#define LONGEST 40

// Makes the key of a number, of 0 to LONGEST bytes: dots, as many as the number determines, and
// then the number in decimal.
static size_t key_of(size_t number, uint8_t *key) {
    char digits[24];
    size_t dots = number % 37, len = (size_t)snprintf(digits, sizeof digits, "%zu", number);
    memset(key, '.', dots);
    memcpy(key + dots, digits, len);
    return number == 0 ? 0 : dots + len;
}

static uint64_t value_of(int kind, size_t number) {
    return kind == TEXT_SET ? 0 : kind == STORE ? number % 50 : number + 7000;
}

static uint32_t put(int kind, bucket_handle *handle, size_t number) {
    static const uint8_t zeros[50] = {0};
    uint8_t key[LONGEST], gone[LONGEST];
    size_t len = key_of(number, key), gone_len;
    uint64_t before, value = value_of(kind, number);
    switch (kind) {
    case TEXT_MAP: return bucket_text_map_insert(handle, key, len, value);
    case TEXT_SET: return bucket_text_set_insert(handle, key, len);
    case TEXT_CACHE: return bucket_text_cache_put(handle, key, len, value, gone, sizeof gone, &gone_len, &before);
    default: return bucket_store_insert(handle, key, len, zeros, (size_t)value);
    }
}

// Opens a handle of a kind, with ENTRIES pairs. A cache with so many slots evicts none of them.
static int open_full(int kind, bucket_handle *handle) {
    uint32_t code = kind == TEXT_CACHE ? bucket_text_cache_new(handle, 1 << 14, 1 << 14, seed)
                                       : open_kind(kind, handle);
    ABOUT("%s", kind_name(kind));
    CHECK(code == BUCKET_OK);
    for (size_t number = 0; number < ENTRIES; number++) {
        CHECK(put(kind, handle, number) == BUCKET_OK);
    }
    CHECK(bucket_len(handle) == ENTRIES);
    return 0;
}

// Notes the pairs that were read: each is one that was put, with its value, and is read once.
static int mark(int kind, const bucket_text_pair *rows, const uint8_t *bytes, size_t count, uint8_t *seen) {
    for (size_t row = 0; row < count; bytes += rows[row].len, row++) {
        uint8_t key[LONGEST];
        char digits[24] = "0";
        size_t dots = 0, number;
        while (dots < rows[row].len && bytes[dots] == '.') {
            dots++;
        }
        CHECK(rows[row].len <= LONGEST);
        memcpy(digits, bytes + dots, rows[row].len - dots < 23 ? rows[row].len - dots : 23);
        number = strtoul(digits, NULL, 10);
        CHECK(number < ENTRIES && !seen[number] && key_of(number, key) == rows[row].len);
        CHECK(memcmp(key, bytes, rows[row].len) == 0 && rows[row].value == value_of(kind, number));
        seen[number] = 1;
    }
    return 0;
}

static int all_seen(const bucket_handle *handle, const uint8_t *seen) {
    size_t count = 0;
    for (size_t number = 0; number < ENTRIES; number++) {
        count += seen[number];
    }
    CHECK(count == bucket_len(handle));
    return 0;
}

static void count_pair(uint64_t key, uint64_t value, void *count) {
    *(size_t *)count += key == 0 && value < ENTRIES + 7000 ? 1 : 0;
}

// Reads all pairs from a place, with this many rows and bytes per call.
static int read_by_place(int kind, const bucket_handle *handle, size_t room, size_t bytes_room) {
    static uint8_t bytes[ENTRIES * LONGEST];
    static bucket_text_pair rows[ENTRIES];
    uint8_t seen[ENTRIES] = {0};
    bucket_place place = BUCKET_START;
    uint32_t code;
    for (;;) {
        size_t count = 79;
        code = bucket_read_texts(handle, &place, rows, room, bytes, bytes_room, &count);
        if (code != BUCKET_OK) {
            CHECK(code == BUCKET_ABSENT && count == 0);
            break;
        }
        CHECK(count > 0 && count <= room && mark(kind, rows, bytes, count, seen) == 0);
    }
    CHECK(all_seen(handle, seen) == 0);
    return 0;
}

// Reads the pairs of each bucket in turn, and at the end none.
static int read_by_bucket(int kind, const bucket_handle *handle) {
    uint8_t bytes[LONGEST], seen[ENTRIES] = {0};
    bucket_text_pair row;
    bucket_pair words[1] = {{5, 6}};
    size_t bucket = 0, count = 79, all = 79;
    while (bucket_pairs_in(handle, bucket, 0, words, 0, &count) == BUCKET_OK) {
        for (size_t start = 0;; start++) {
            CHECK(bucket_texts_in(handle, bucket, start, &row, 1, bytes, sizeof bytes, &count) == BUCKET_OK && count <= 1);
            CHECK(bucket_pairs_in(handle, bucket, start, words, 1, &all) == BUCKET_OK && all == count);
            if (count == 0) {
                break;
            }
            CHECK(mark(kind, &row, bytes, 1, seen) == 0 && words[0].key == 0);
            CHECK(words[0].value == (kind == STORE ? 0 : row.value));
        }
        bucket++;
    }
    CHECK(bucket_texts_in(handle, bucket, 0, &row, 1, bytes, sizeof bytes, &count) == BUCKET_ABSENT && count == 0);
    CHECK(bucket_each(handle, count_pair, &count) == BUCKET_OK && count == bucket_len(handle));
    CHECK(all_seen(handle, seen) == 0);
    return 0;
}

// A key that is longer than the buffer stops the reading, with nothing written, until the buffer is
// long enough.
static int longer_keys(void) {
    bucket_handle map = BUCKET_HANDLE;
    bucket_place place = BUCKET_START;
    bucket_text_pair row = {5, 6};
    uint8_t bytes[8] = {1, 2, 3, 4, 5, 6, 7, 8};
    size_t count = 79;
    CHECK(bucket_text_map_new(&map, 0, seed) == BUCKET_OK);
    CHECK(bucket_read_texts(&map, &place, &row, 1, bytes, 8, &count) == BUCKET_ABSENT && count == 0);
    CHECK(bucket_text_map_insert(&map, (const uint8_t *)"a longer key", 12, 9) == BUCKET_OK);
    for (int again = 0; again < 2; again++) {
        CHECK(bucket_read_texts(&map, &place, &row, 1, bytes, 8, &count) == BUCKET_OK && count == 0);
        CHECK(bucket_read_texts(&map, &place, &row, 0, NULL, 0, &count) == BUCKET_OK && count == 0);
        CHECK(row.len == 5 && row.value == 6 && bytes[0] == 1 && bytes[7] == 8);
    }
    uint8_t longer[12];
    CHECK(bucket_read_texts(&map, &place, &row, 1, longer, 12, &count) == BUCKET_OK && count == 1);
    CHECK(row.len == 12 && row.value == 9 && memcmp(longer, "a longer key", 12) == 0);
    CHECK(bucket_read_texts(&map, &place, &row, 1, longer, 12, &count) == BUCKET_ABSENT && count == 0);
    bucket_free(&map);
    CHECK(bucket_read_texts(&map, &place, &row, 1, longer, 12, &count) == BUCKET_CLOSED);
    return 0;
}

static int by_bucket(void) {
    for (int kind = TEXT_MAP; kind < KINDS; kind++) {
        bucket_handle handle = BUCKET_HANDLE;
        CHECK(open_full(kind, &handle) == 0);
        CHECK(read_by_bucket(kind, &handle) == 0);
        bucket_free(&handle);
    }
    return 0;
}

static int by_place(void) {
    static const size_t rooms[][2] = {{1, LONGEST}, {3, LONGEST}, {ENTRIES, LONGEST}, {7, 200}, {64, 1 << 12},
                                      {ENTRIES, ENTRIES *LONGEST}};
    for (int kind = TEXT_MAP; kind < KINDS; kind++) {
        bucket_handle handle = BUCKET_HANDLE;
        CHECK(open_full(kind, &handle) == 0);
        for (size_t i = 0; i < sizeof rooms / sizeof *rooms; i++) {
            ABOUT("%s, %d rows, %d bytes", kind_name(kind), (int)rooms[i][0], (int)rooms[i][1]);
            CHECK(read_by_place(kind, &handle, rooms[i][0], rooms[i][1]) == 0);
        }
        bucket_free(&handle);
    }
    return 0;
}

static const test_case cases[] = {
    {"texts_in and pairs_in read each pair of each bucket once", by_bucket},
    {"read_texts reads each pair once, in rooms of several lengths", by_place},
    {"read_texts stops at a key that is longer than its room for bytes", longer_keys},
    {NULL, NULL},
};

int main(void) {
    const bucket_seed keyed = {3, 4};
    if (run_cases("reading", cases, &keyed, 1) != 0) {
        return 1;
    }
    printf("%d pairs of %d kinds are read from a place and by bucket, each once\n", ENTRIES, KINDS - TEXT_MAP);
    return 0;
}
