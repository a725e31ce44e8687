// Wraps the calls that take a length, and exits with 1 if one of them gets a null pointer. Link with -Wl,--wrap= for each name
// below.
#include "bucket.h"

#include <stdio.h>
#include <stdlib.h>

#define WATCH(name, parameters, arguments, are_pointers)  \
    uint32_t __real_##name parameters;                    \
    uint32_t __wrap_##name parameters;                    \
    uint32_t __wrap_##name parameters {                   \
        if (!(are_pointers)) {                            \
            puts("a null pointer reaches " #name);       \
            exit(1);                                      \
        }                                                 \
        return __real_##name arguments;                   \
    }

#define HANDLE bucket_handle *handle
#define KEY const uint8_t *key, size_t len
#define VALUE const uint8_t *value, size_t value_len
#define GONE uint8_t *gone, size_t gone_room, size_t *gone_len

WATCH(bucket_pairs_in, (HANDLE, size_t bucket, size_t start, bucket_pair *out, size_t room, size_t *count),
      (handle, bucket, start, out, room, count), out)
WATCH(bucket_pairs, (HANDLE, size_t start, bucket_pair *out, size_t room, size_t *count), (handle, start, out, room, count), out)
WATCH(bucket_texts_in,
      (HANDLE, size_t bucket, size_t start, bucket_text_pair *rows, size_t room, uint8_t *bytes, size_t bytes_room, size_t *count),
      (handle, bucket, start, rows, room, bytes, bytes_room, count), rows && bytes)
WATCH(bucket_texts,
      (HANDLE, size_t start, bucket_text_pair *rows, size_t room, uint8_t *bytes, size_t bytes_room, size_t *count),
      (handle, start, rows, room, bytes, bytes_room, count), rows && bytes)
WATCH(bucket_text_map_insert, (HANDLE, KEY, uint64_t value), (handle, key, len, value), key)
WATCH(bucket_text_map_upsert, (HANDLE, KEY, uint64_t value, uint64_t *earlier), (handle, key, len, value, earlier), key)
WATCH(bucket_text_map_get, (HANDLE, KEY, uint64_t *value), (handle, key, len, value), key)
WATCH(bucket_text_map_contains, (HANDLE, KEY), (handle, key, len), key)
WATCH(bucket_text_map_remove, (HANDLE, KEY, uint64_t *value), (handle, key, len, value), key)
WATCH(bucket_text_map_add, (HANDLE, KEY, uint64_t amount, uint64_t *total), (handle, key, len, amount, total), key)
WATCH(bucket_text_map_get_or_insert, (HANDLE, KEY, uint64_t value, uint64_t *held), (handle, key, len, value, held), key)
WATCH(bucket_text_map_remove_if_equal, (HANDLE, KEY, uint64_t value, uint64_t *held), (handle, key, len, value, held), key)
WATCH(bucket_text_set_insert, (HANDLE, KEY), (handle, key, len), key)
WATCH(bucket_text_set_contains, (HANDLE, KEY), (handle, key, len), key)
WATCH(bucket_text_set_remove, (HANDLE, KEY), (handle, key, len), key)
WATCH(bucket_store_insert, (HANDLE, KEY, VALUE), (handle, key, len, value, value_len), key && value)
WATCH(bucket_store_upsert, (HANDLE, KEY, VALUE), (handle, key, len, value, value_len), key && value)
WATCH(bucket_store_get, (HANDLE, KEY, uint8_t *out, size_t room, size_t *value_len), (handle, key, len, out, room, value_len),
      key && out)
WATCH(bucket_store_contains, (HANDLE, KEY), (handle, key, len), key)
WATCH(bucket_store_remove, (HANDLE, KEY), (handle, key, len), key)
WATCH(bucket_text_cache_put, (HANDLE, KEY, uint64_t value, GONE, uint64_t *gone_value),
      (handle, key, len, value, gone, gone_room, gone_len, gone_value), key && gone)
WATCH(bucket_text_cache_upsert, (HANDLE, KEY, uint64_t value, GONE, uint64_t *before),
      (handle, key, len, value, gone, gone_room, gone_len, before), key && gone)
WATCH(bucket_text_cache_get, (HANDLE, KEY, uint64_t *value), (handle, key, len, value), key)
WATCH(bucket_text_cache_peek, (HANDLE, KEY, uint64_t *value), (handle, key, len, value), key)
WATCH(bucket_text_cache_contains, (HANDLE, KEY), (handle, key, len), key)
WATCH(bucket_text_cache_remove, (HANDLE, KEY, uint64_t *value), (handle, key, len, value), key)
