// Prints how long calls take with a million pairs, in nanoseconds per call, the minimum over some rounds: of bucket::map, of
// std::unordered_map, and of tsl::robin_map and absl::flat_hash_map if their headers are installed.
//
//     c++ -std=c++17 -O2 -Ibindings bindings/cpp/times.cpp libbucket.a -o times && ./times [ROUNDS]
#include "bucket.hpp"

#include <chrono>
#include <cstdio>
#include <cstdlib>
#include <map>
#include <string>
#include <unordered_map>
#include <vector>

#if __has_include(<tsl/robin_map.h>)
#include <tsl/robin_map.h>
#define HAS_ROBIN_MAP
#endif
// Its templates call functions of its libraries, so HAS_FLAT_HASH_MAP is defined only if they are linked.
#if defined(HAS_FLAT_HASH_MAP)
#include <absl/container/flat_hash_map.h>
#endif

namespace {

constexpr std::size_t pairs = 1000000;

// The minimum time of each call, by its name.
std::map<std::string, double> least;
volatile std::uint64_t kept;

template <class K, class Call> void time_of(const std::string &name, const std::vector<K> &keys, Call call) {
    auto start = std::chrono::steady_clock::now();
    std::uint64_t sum = 0;
    for (const K &key : keys) {
        sum += call(key);
    }
    kept = sum;
    std::chrono::duration<double, std::nano> took = std::chrono::steady_clock::now() - start;
    double time = took.count() / static_cast<double>(keys.size());
    auto [at, is_new] = least.emplace(name, time);
    at->second = std::min(at->second, time);
}

std::vector<std::uint64_t> words(std::uint64_t state) {
    std::vector<std::uint64_t> all(pairs);
    for (std::uint64_t &word : all) {
        state += 0x9e3779b97f4a7c15u;
        word = (state ^ (state >> 30)) * 0xbf58476d1ce4e5b9u;
        word = (word ^ (word >> 27)) * 0x94d049bb133111ebu;
        word ^= word >> 31;
    }
    return all;
}

std::vector<std::string> texts(const std::vector<std::uint64_t> &of) {
    std::vector<std::string> all;
    for (std::uint64_t word : of) {
        all.push_back("user:" + std::to_string(word));
    }
    return all;
}

template <class Map, class K> const std::uint64_t *found(const Map &map, const K &key) {
    auto at = map.find(key);
    if constexpr (std::is_pointer_v<decltype(at)>) {
        return at;
    } else {
        return at == map.end() ? nullptr : &at->second;
    }
}

// Times calls of a map, and a loop that copies its pairs to another one. `empty` makes both.
template <class Empty, class K>
void course(const std::string &name, Empty empty, const std::vector<K> &there, const std::vector<K> &others) {
    auto map = empty(), copy = empty();
    time_of(name + " 1 insert", there, [&](const K &key) { return map.try_emplace(key, 1u).second; });
    time_of(name + " 2 hit", there, [&](const K &key) { return *found(map, key); });
    time_of(name + " 3 miss", others, [&](const K &key) { return found(map, key) == nullptr; });
    time_of(name + " 4 count", there, [&](const K &key) { return ++map[key]; });
    std::uint64_t sum = 0;
    auto at = map.begin();
    time_of(name + " 5 iterate", there, [&](const K &) {
        sum += at->second;
        ++at;
        return sum;
    });
    at = map.begin();
    time_of(name + " 6 copy by a loop", there, [&](const K &) {
        bool is_new = copy.try_emplace(at->first, at->second).second;
        ++at;
        return is_new;
    });
    time_of(name + " 7 erase", there, [&](const K &key) { return map.erase(key); });
}

template <class K> void courses(const std::string &of, const std::vector<K> &there, const std::vector<K> &others) {
    course(of + " bucket::map", [] { return bucket::map<K, std::uint64_t>(); }, there, others);
    course(of + " bucket::map, fixed seed", [] { return bucket::map<K, std::uint64_t>(bucket::fixed_seed); }, there, others);
    course(of + " std::unordered_map", [] { return std::unordered_map<K, std::uint64_t>(); }, there, others);
#if defined(HAS_ROBIN_MAP)
    course(of + " tsl::robin_map", [] { return tsl::robin_map<K, std::uint64_t>(); }, there, others);
#endif
#if defined(HAS_FLAT_HASH_MAP)
    course(of + " absl::flat_hash_map", [] { return absl::flat_hash_map<K, std::uint64_t>(); }, there, others);
#endif
}

} // namespace

int main(int argc, char **argv) {
    int rounds = argc > 1 ? std::atoi(argv[1]) : 3;
    std::vector<std::uint64_t> there = words(1), others = words(std::uint64_t(1) << 40);
    std::vector<std::string> text_there = texts(there), text_others = texts(others);
    for (int round = 0; round < rounds; round++) {
        courses("words,", there, others);
        courses("texts,", text_there, text_others);
    }
    for (const auto &[name, time] : least) {
        std::printf("C++, %-40s%8.1f ns a call\n", name.c_str(), time);
    }
    return 0;
}
