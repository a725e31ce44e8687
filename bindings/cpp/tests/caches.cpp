// Each call of bucket::cache, with keys of each type.
#include "bucket.hpp"
#include "check.hpp"

#include <memory>
#include <set>

using tests::colour;
using tests::counted;
using tests::key;

namespace {

template <class K> void all_calls_with() {
    bucket::cache<K, std::string> pages(100);
    K a = key<K>(0), b = key<K>(1);
    CHECK(pages.empty() && pages.size() == 0 && pages.max_size() == 128 && pages.get(a) == nullptr && pages.peek(a) == nullptr);
    CHECK(pages.erase(a) == 0 && !pages.extract(a) && pages.begin() == pages.end() && !pages.contains(a));
    CHECK(!pages.put(a, "1") && *pages.get(a) == "1" && *pages.peek(a) == "1" && *std::as_const(pages).peek(a) == "1");
    auto replaced = pages.put(a, std::string("2"));
    CHECK(replaced && replaced->first == a && replaced->second == "1" && pages.size() == 1);
    auto done = pages.try_put(b, "3");
    CHECK(done && *done.value == "3" && !done.gone && pages.contains(b) && pages.count(b) == 1 && pages.size() == 2);
    auto again = pages.try_put(b, "4");
    CHECK(again && *again.value == "4" && again.gone && again.gone.mapped() == "3" && pages.size() == 2);
    for (auto &[k, value] : pages) {
        CHECK(k == a || k == b);
        value += "!";
    }
    CHECK(*pages.peek(b) == "4!" && pages.extract(b).mapped() == "4!" && pages.erase(a) == 1 && pages.empty());
    pages.put(a, "5");
    pages.clear();
    CHECK(pages.empty() && !pages.put(b, "6") && erase_if(pages, [](auto &pair) { return pair.second == "6"; }) == 1);
}

template <class... K> void each_call_with() { (all_calls_with<K>(), ...); }

void keys_of_each_type() { each_call_with<int, char, unsigned short, long long, std::uint64_t, bool, colour, std::string>(); }

template <class K, class MakeKey> void evicts(MakeKey key_of) {
    CHECK(counted::alive == 0);
    {
        bucket::cache<K, counted> recent(256);
        std::size_t evicted = 0;
        for (int i = 0; i < 20000; i++) {
            if (auto gone = recent.put(key_of(i), i)) {
                evicted++;
                CHECK(gone.key() == key_of(gone.mapped().value()) && !recent.contains(gone.key()) && gone.mapped().value() != i);
            }
            // A pair that is read by `get` in each round stays.
            counted *kept = recent.get(key_of(0));
            CHECK(kept && kept->value() == 0 && recent.contains(key_of(i)));
        }
        CHECK(recent.size() + evicted == 20000 && recent.size() <= recent.max_size());
        CHECK(counted::alive == static_cast<long>(recent.size()));
        std::set<int> seen;
        for (const auto &[k, value] : std::as_const(recent)) {
            CHECK(k == key_of(value.value()));
            seen.insert(value.value());
        }
        CHECK(seen.size() == recent.size());
        bucket::cache<K, counted> moved = std::move(recent);
        CHECK(recent.empty() && recent.max_size() == 256 && !recent.put(key_of(5), 5) && moved.size() == seen.size());
        swap(moved, recent);
        recent = std::move(moved);
        CHECK(recent.size() == 1 && moved.empty() && counted::alive == 1);
    }
    CHECK(counted::alive == 0);
}

void a_full_bucket_evicts_what_was_touched_longest_ago() {
    evicts<int>([](int i) { return i; });
    evicts<std::string>([](int i) { return std::to_string(i) + (i % 2 ? std::string(30, 'x') : ""); });
}

void an_evicted_pair_is_an_optional() {
    bucket::cache<std::string, std::unique_ptr<int>> cache(1, bucket::fixed_seed);
    CHECK(cache.max_size() == 64);
    std::optional<std::pair<std::string, std::unique_ptr<int>>> gone;
    for (int i = 0; !gone; i++) {
        gone = cache.put(std::to_string(i), std::make_unique<int>(i));
    }
    CHECK(gone->first == std::to_string(*gone->second) && cache.size() <= 64);
}

void slots_are_a_power_of_two() {
    struct {
        std::size_t asked, slots;
    } const rows[] = {{0, 64}, {1, 64}, {64, 64}, {65, 128}, {1000, 1024}, {SIZE_MAX, std::size_t(1) << 63}};
    for (auto &row : rows) {
        CHECK(bucket::cache<int, int>(row.asked).max_size() == row.slots);
    }
}

const tests::story stories[] = {
    {"each call works with keys of each type", keys_of_each_type},
    {"a full bucket evicts the pair that was touched longest ago, and hands it out", a_full_bucket_evicts_what_was_touched_longest_ago},
    {"an evicted pair turns into an optional", an_evicted_pair_is_an_optional},
    {"the slots are a power of two of at least 64", slots_are_a_power_of_two},
};

} // namespace

int main() { return tests::play(stories); }
