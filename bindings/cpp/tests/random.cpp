// 200,000 random calls on a map, a set and a cache, or as many as BUCKET_CALLS says, checked against std's, with
// values that are counted.
#include "bucket.hpp"
#include "check.hpp"

#include <cstdlib>
#include <unordered_map>
#include <unordered_set>

using tests::chance;
using tests::counted;

namespace {

int number_of_calls() {
    const char *said = std::getenv("BUCKET_CALLS");
    return said ? std::atoi(said) : 200000;
}

const int calls = number_of_calls();
constexpr int range = 5000;

template <class K> K key_at(int i) {
    if constexpr (std::is_same_v<K, std::string>) {
        return (i % 2 ? std::string(20, 'x') : std::string()) + std::to_string(i);
    } else {
        return static_cast<K>(i) * 2654435761u;
    }
}

template <class K> void check_equal(const bucket::map<K, counted> &map, const std::unordered_map<K, int> &beside) {
    std::size_t seen = 0;
    for (const auto &[key, value] : map) {
        auto other = beside.find(key);
        CHECK(other != beside.end() && other->second == value.value());
        seen++;
    }
    CHECK(seen == beside.size() && map.size() == seen && counted::alive == static_cast<long>(seen));
}

// Extracts a pair, may change its key, and may insert the pair again. Returns whether there was one.
template <class K> bool take_out(chance &by, bucket::map<K, counted> &map, std::unordered_map<K, int> &beside, const K &key) {
    auto out = map.extract(key);
    auto other = beside.extract(key);
    CHECK(out.empty() == other.empty() && (out.empty() || out.mapped().value() == other.mapped()));
    if (out && by.below(2) == 0) {
        out.key() = other.key() = key_at<K>(static_cast<int>(by.below(range)));
    }
    bool is_there = out.has_value();
    if (by.below(4) != 0) {
        CHECK(map.insert(std::move(out)).inserted == beside.insert(std::move(other)).inserted);
    }
    return is_there;
}

// One call on a map, compared with std's.
template <class K> void call_map(chance &by, bucket::map<K, counted> &map, std::unordered_map<K, int> &beside, int number) {
    // Keys come from a moving window, so that the map grows and shrinks.
    K key = key_at<K>(static_cast<int>(by.below(range)) / (number / 20000 % 2 ? 10 : 1));
    bool is_there = beside.count(key) > 0;
    switch (by.below(12)) {
    case 0: CHECK(map.try_emplace(key, number).second == beside.try_emplace(key, number).second); break;
    case 1: CHECK(map.insert_or_assign(key, number).second == beside.insert_or_assign(key, number).second); break;
    case 2: CHECK(map.insert({key, number}).second == beside.insert({key, number}).second); break;
    case 3: CHECK(map.erase(key) == beside.erase(key)); break;
    case 4: CHECK(map[key].value() == beside[key]); break;
    case 5: CHECK(map.contains(key) == is_there && (map.find(key) != nullptr) == is_there); break;
    case 6:
        CHECK(take_out(by, map, beside, key) == is_there);
        break;
    case 7: CHECK(map.try_insert(key, number).inserted() == beside.emplace(key, number).second); break;
    case 8:
        CHECK(map.try_insert_or_assign(key, counted(number)).outcome == (is_there ? bucket::outcome::present : bucket::outcome::inserted));
        beside[key] = number;
        break;
    case 9: CHECK(map.erase(key) == beside.erase(key)); break;
    case 10:
        if (by.below(400) == 0) {
            map.shrink_to_fit();
            map.reserve(by.below(10000));
            bucket::map<K, counted> moved = std::move(map);
            map = std::move(moved);
        }
        break;
    default:
        if (by.below(2000) == 0) {
            int bound = static_cast<int>(by.below(static_cast<unsigned long long>(calls)));
            for (auto it = beside.begin(); it != beside.end();) {
                it = it->second < bound ? beside.erase(it) : std::next(it);
            }
            erase_if(map, [&](auto &pair) { return pair.second.value() < bound; });
        }
        if (by.below(8000) == 0) {
            map.clear();
            beside.clear();
        }
    }
}

template <class K> void map_beside_std() {
    chance by(7);
    bucket::map<K, counted> map;
    std::unordered_map<K, int> beside;
    for (int number = 0; number < calls; number++) {
        call_map(by, map, beside, number);
        CHECK(map.size() == beside.size() && counted::alive == static_cast<long>(beside.size()));
        if (number % 5000 == 0) {
            check_equal(map, beside);
        }
    }
    check_equal(map, beside);
    bucket::map<K, counted> other;
    other.merge(map);
    check_equal(other, beside);
    CHECK(map.empty());
}

template <class K> void set_beside_std() {
    chance by(11);
    bucket::set<K> set;
    std::unordered_set<K> beside;
    for (int number = 0; number < calls; number++) {
        K key = key_at<K>(static_cast<int>(by.below(range)));
        switch (by.below(4)) {
        case 0: CHECK(set.insert(key) == beside.insert(key).second); break;
        case 1: CHECK(set.erase(key) == beside.erase(key)); break;
        case 2: CHECK(set.contains(key) == (beside.count(key) > 0)); break;
        default: CHECK((set.try_insert(key) == bucket::outcome::inserted) == beside.insert(key).second);
        }
        CHECK(set.size() == beside.size());
        if (number % 5000 == 0) {
            CHECK(std::unordered_set<K>(set.begin(), set.end()) == beside);
        }
    }
}

// For the keys that it hasn't returned, a cache holds what std's map does.
template <class K> void cache_beside_std() {
    chance by(13);
    bucket::cache<K, counted> cache(1000);
    std::unordered_map<K, int> beside;
    for (int number = 0; number < calls; number++) {
        K key = key_at<K>(static_cast<int>(by.below(range)));
        auto other = beside.find(key);
        const counted *there = nullptr;
        switch (by.below(5)) {
        case 0:
        case 1: {
            bool was_there = other != beside.end();
            auto gone = cache.put(key, number);
            CHECK(was_there ? gone && gone.key() == key : !gone || gone.key() != key);
            if (gone) {
                CHECK(beside.at(gone.key()) == gone.mapped().value());
                beside.erase(gone.key());
            }
            beside[key] = number;
            break;
        }
        case 2: CHECK(cache.erase(key) == beside.erase(key)); break;
        default:
            there = by.below(2) == 0 ? cache.get(key) : cache.peek(key);
            CHECK(there ? other != beside.end() && there->value() == other->second : other == beside.end());
        }
        CHECK(cache.size() == beside.size() && cache.size() <= cache.max_size());
        CHECK(counted::alive == static_cast<long>(beside.size()));
    }
    std::size_t seen = 0;
    for (const auto &[key, value] : cache) {
        CHECK(beside.at(key) == value.value());
        seen++;
    }
    CHECK(seen == beside.size());
}

void maps_of_words() { map_beside_std<std::uint64_t>(); }
void maps_of_texts() { map_beside_std<std::string>(); }
void sets_of_words() { set_beside_std<std::uint64_t>(); }
void sets_of_texts() { set_beside_std<std::string>(); }
void caches_of_words() { cache_beside_std<std::uint64_t>(); }
void caches_of_texts() { cache_beside_std<std::string>(); }
void all_are_destroyed() { CHECK(counted::alive == 0); }

const tests::story stories[] = {
    {"a map of words against std's", maps_of_words},   {"a map of texts against std's", maps_of_texts},
    {"a set of words against std's", sets_of_words},   {"a set of texts against std's", sets_of_texts},
    {"a cache of words returns evicted pairs", caches_of_words}, {"a cache of texts returns evicted pairs", caches_of_texts},
    {"all values are destroyed", all_are_destroyed},
};

} // namespace

int main() { return tests::play(stories); }
