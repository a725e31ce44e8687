// Prints what calls take with a million pairs, in nanoseconds a call: of bindings/bucket.h, of std::unordered_map, and, where
// HAS_GLIB is defined, of GHashTable, whose keys and values are pointers.
#include "bucket.h"

#ifdef HAS_GLIB
#include <glib.h>
#endif

#include <chrono>
#include <cstdio>
#include <cstdlib>
#include <map>
#include <string>
#include <unordered_map>
#include <vector>

static std::map<std::string, double> least;

// Times a call that does that many operations.
template <class Call> static void once(const std::string &name, size_t count, Call call) {
    auto start = std::chrono::steady_clock::now();
    volatile uint64_t kept = call();
    (void)kept;
    std::chrono::duration<double, std::nano> took = std::chrono::steady_clock::now() - start;
    double time = took.count() / (double)count;
    auto earlier = least.find(name);
    least[name] = earlier == least.end() || time < earlier->second ? time : earlier->second;
}

// Times a call for each key.
template <class Call> static void add(const std::string &name, const std::vector<uint64_t> &keys, Call call) {
    once(name, keys.size(), [&] {
        uint64_t sum = 0;
        for (uint64_t key : keys) {
            sum += call(key);
        }
        return sum;
    });
}

static std::vector<uint64_t> words(uint64_t seed) {
    std::vector<uint64_t> words(1000000);
    for (uint64_t &word : words) {
        seed += 0x9e3779b97f4a7c15u;
        word = (seed ^ (seed >> 30)) * 0xbf58476d1ce4e5b9u;
        word = (word ^ (word >> 27)) * 0x94d049bb133111ebu;
        word ^= word >> 31;
    }
    return words;
}

#ifdef HAS_GLIB
// GLib's hash of a pointer is its low half, which is as random as these keys.
static void time_glib(const std::vector<uint64_t> &there, const std::vector<uint64_t> &others) {
    GHashTable *map = g_hash_table_new(nullptr, nullptr);
    add("GHashTable: 1 insert", there, [&](uint64_t key) { return g_hash_table_insert(map, GSIZE_TO_POINTER(key), GSIZE_TO_POINTER(key)); });
    add("GHashTable: 2 hit", there, [&](uint64_t key) { return GPOINTER_TO_SIZE(g_hash_table_lookup(map, GSIZE_TO_POINTER(key))); });
    add("GHashTable: 3 miss", others, [&](uint64_t key) { return g_hash_table_contains(map, GSIZE_TO_POINTER(key)); });
    GHashTable *copy = g_hash_table_new(nullptr, nullptr);
    once("GHashTable: 4 copy by a loop", there.size(), [&] {
        GHashTableIter at;
        gpointer key, value;
        g_hash_table_iter_init(&at, map);
        while (g_hash_table_iter_next(&at, &key, &value)) {
            g_hash_table_insert(copy, key, value);
        }
        return (uint64_t)g_hash_table_size(copy);
    });
    g_hash_table_unref(copy);
    add("GHashTable: 5 remove", there, [&](uint64_t key) { return g_hash_table_remove(map, GSIZE_TO_POINTER(key)); });
    g_hash_table_unref(map);
}
#endif

int main(int argc, char **argv) {
    int rounds = argc > 1 ? std::atoi(argv[1]) : 3;
    std::vector<uint64_t> there = words(1), others = words(uint64_t(1) << 40);
    for (int round = 0; round < rounds; round++) {
        bucket_handle map = BUCKET_HANDLE;
        uint64_t value = 0;
        bucket_handle copy = BUCKET_HANDLE;
        if (bucket_map_new(&map, 0, BUCKET_FIXED_SEED) != BUCKET_OK || bucket_map_new(&copy, 0, BUCKET_FIXED_SEED) != BUCKET_OK) {
            return 1;
        }
        add("bucket: 1 insert", there, [&](uint64_t key) { return bucket_map_insert(&map, key, key); });
        add("bucket: 2 hit", there, [&](uint64_t key) { return bucket_map_get(&map, key, &value); });
        add("bucket: 3 miss", others, [&](uint64_t key) { return bucket_map_get(&map, key, &value); });
        once("bucket: 4 copy by a loop", there.size(), [&] {
            bucket_place place = BUCKET_START;
            bucket_pair pairs[64];
            size_t count = 0;
            while (bucket_read(&map, &place, pairs, 64, &count) == BUCKET_OK) {
                for (size_t i = 0; i < count; i++) {
                    value += bucket_map_insert(&copy, pairs[i].key, pairs[i].value);
                }
            }
            return bucket_len(&copy);
        });
        bucket_free(&copy);
        add("bucket: 5 remove", there, [&](uint64_t key) { return bucket_map_remove(&map, key, &value); });
        bucket_free(&map);
        std::unordered_map<uint64_t, uint64_t> std_map;
        add("unordered_map: 1 insert", there, [&](uint64_t key) { return std_map.emplace(key, key).second; });
        add("unordered_map: 2 hit", there, [&](uint64_t key) { return std_map.find(key)->second; });
        add("unordered_map: 3 miss", others, [&](uint64_t key) { return std_map.count(key); });
        once("unordered_map: 4 copy by a loop", there.size(), [&] {
            std::unordered_map<uint64_t, uint64_t> copy;
            for (const auto &pair : std_map) {
                copy.emplace(pair.first, pair.second);
            }
            return copy.size();
        });
        add("unordered_map: 5 remove", there, [&](uint64_t key) { return std_map.erase(key); });
#ifdef HAS_GLIB
        time_glib(there, others);
#endif
    }
    for (const auto &row : least) {
        std::printf("C, %-32s%8.1f ns a call\n", row.first.c_str(), row.second);
    }
    return 0;
}
