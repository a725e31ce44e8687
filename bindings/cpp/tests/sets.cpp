// Each call of bucket::set, with keys of each type.
#include "bucket.hpp"
#include "check.hpp"

#include <iterator>
#include <set>
#include <sstream>
#include <unordered_set>
#include <vector>

using tests::colour;
using tests::key;

namespace {

template <class K> void all_calls_with() {
    bucket::set<K> keys;
    K a = key<K>(0), b = key<K>(1);
    CHECK(keys.empty() && keys.size() == 0 && !keys.contains(a) && keys.erase(a) == 0 && keys.begin() == keys.end());
    auto put = keys.insert(a);
    CHECK(put && put.second && put.first == a && !keys.insert(a) && keys.size() == 1 && keys.count(a) == 1);
    auto [first, is_new] = keys.emplace(b);
    CHECK(is_new && first == b && keys.try_insert(b) == bucket::outcome::present && keys.capacity() > 0);
    CHECK(keys.erase(b) == 1 && keys.try_insert(b) == bucket::outcome::inserted && keys.try_reserve(100));
    std::size_t seen = 0;
    for (const K &each : keys) {
        CHECK(each == a || each == b);
        seen++;
    }
    CHECK(seen == 2 && keys.size() == 2);
    keys.clear();
    CHECK(keys.empty() && !keys.contains(a) && keys.insert(b) && keys.contains(b));
}

template <class... K> void each_call_with() { (all_calls_with<K>(), ...); }

void keys_of_each_type() {
    each_call_with<int, unsigned, char, signed char, short, long, unsigned long long, bool, char16_t, std::uint64_t, colour, std::byte,
                   std::string>();
}

template <class K> void walks() {
    for (int count : {0, 1, 31, 32, 33, 64, 65, 200}) {
        bucket::set<K> keys;
        std::set<K> wanted;
        for (int i = 0; i < count; i++) {
            CHECK(keys.insert(key<K>(i)));
            wanted.insert(key<K>(i));
        }
        CHECK(std::set<K>(keys.begin(), keys.end()) == wanted && std::distance(keys.cbegin(), keys.cend()) == count);
        auto it = keys.begin();
        for (int i = 0; i < count; i++) {
            CHECK(wanted.erase(*it++) == 1);
        }
        CHECK(it == keys.end() && wanted.empty());
    }
}

void iterators_give_each_key_once() {
    walks<int>();
    walks<std::string>();
}

template <class K> void made_and_moved() {
    using set = bucket::set<K>;
    static_assert(!std::is_copy_constructible_v<set> && std::is_nothrow_move_constructible_v<set>);
    static_assert(std::is_nothrow_default_constructible_v<set> && std::is_nothrow_swappable_v<set>);
    K one = key<K>(1), two = key<K>(2), three = key<K>(3);
    std::vector<K> all{one, two, one};
    set listed{one, two, one}, ranged(all.begin(), all.end()), seeded(bucket::fixed_seed);
    CHECK(listed.size() == 2 && listed == ranged && listed != seeded && seeded.is_subset_of(listed) && !listed.is_subset_of(seeded));
    set moved = std::move(listed);
    CHECK(listed.empty() && !listed.contains(one) && listed.insert(three) && moved == ranged);
    moved = std::move(listed);
    CHECK(moved.size() == 1 && moved.contains(three) && listed.empty());
    swap(moved, ranged);
    CHECK(moved.size() == 2 && ranged.contains(three));
    set copy = moved.clone();
    copy.erase(one);
    CHECK(moved.contains(one) && copy.size() == 1);
    copy = {three, three};
    CHECK(copy.size() == 1 && copy == ranged);
    copy = {};
    CHECK(copy.empty());
}

// std::unordered_set deduces the same from each.
void types_are_deduced() {
    std::vector<std::string> texts{"a", "b", "a"};
    bucket::set ranged(texts.begin(), texts.end()), listed{std::string("a"), std::string("b")};
    std::unordered_set std_ranged(texts.begin(), texts.end());
    static_assert(std::is_same_v<decltype(ranged), bucket::set<std::string>> && std::is_same_v<decltype(listed), decltype(ranged)>);
    static_assert(std::is_same_v<decltype(std_ranged), std::unordered_set<std::string>>);
    CHECK(ranged.size() == 2 && ranged == listed && ranged.contains("b"));
    bucket::set numbers{1, 2}, seeded({1, 2}, bucket::fixed_seed), copied(numbers.begin(), numbers.end());
    std::unordered_set std_numbers{1, 2};
    static_assert(std::is_same_v<decltype(numbers), bucket::set<int>> && std::is_same_v<decltype(seeded), decltype(numbers)>);
    static_assert(std::is_same_v<decltype(copied), decltype(numbers)> && std::is_same_v<decltype(std_numbers), std::unordered_set<int>>);
    CHECK(numbers.size() == 2 && numbers == seeded && numbers == copied);
    std::istringstream text("7 8 7");
    bucket::set read(std::istream_iterator<int>(text), std::istream_iterator<int>{});
    static_assert(std::is_same_v<decltype(read), bucket::set<int>>);
    CHECK(read.size() == 2 && read.contains(7) && read.contains(8));
}

template <class K> void with_hints() {
    bucket::set<K> all;
    std::vector<K> keys{key<K>(1), key<K>(2), key<K>(1)};
    std::copy(keys.begin(), keys.end(), std::inserter(all, all.end()));
    CHECK(all.size() == 2 && all.contains(keys[0]) && all.contains(keys[1]));
    auto at = all.insert(all.begin(), keys[1]), same = all.emplace_hint(all.end(), keys[1]);
    CHECK(*at == keys[1] && at == same && at != all.end() && ++at == all.end() && all.size() == 2);
    CHECK(*all.insert(all.end(), key<K>(3)) == key<K>(3) && all.size() == 3);
    bucket::set<K> roomy(1000), seeded(1000, bucket::fixed_seed);
    CHECK(roomy.capacity() >= 1000 && seeded.capacity() >= 1000 && roomy.empty() && roomy == seeded);
    CHECK_THROWS(std::bad_alloc, bucket::set<K>(SIZE_MAX));
}

void hints_are_of_no_use() {
    with_hints<int>();
    with_hints<std::string>();
}

template <class K> void without_ranges() {
    for (int count : {0, 1, 31, 32, 33, 64, 65, 200}) {
        bucket::set<K> all;
        for (int i = 0; i < count; i++) {
            all.insert(key<K>(i));
        }
        auto first = all.begin(), last = first;
        std::set<K> stay;
        for (int i = 0; i < count / 3; i++, ++first) {
            stay.insert(*first);
        }
        last = first;
        for (int i = 0; i < count / 2; i++) {
            ++last;
        }
        stay.insert(last, all.end());
        CHECK(all.erase(first, first) == 0 && all.erase(first, last) == static_cast<std::size_t>(count / 2));
        CHECK(std::set<K>(all.begin(), all.end()) == stay && all.size() == stay.size());
        CHECK(all.erase(all.cbegin(), all.cend()) == stay.size() && all.empty());
    }
}

void ranges_are_erased() {
    without_ranges<int>();
    without_ranges<std::string>();
}

void sets_are_made_and_moved() {
    made_and_moved<int>();
    made_and_moved<std::string>();
}

template <class K> void combined() {
    bucket::set<K> a, b;
    for (int i = 0; i < 100; i++) {
        a.insert(key<K>(i));
        b.insert(key<K>(i + 50));
    }
    auto either = a.clone(), both = a.clone(), rest = a.clone();
    either |= b;
    both &= b;
    rest -= b;
    CHECK(either.size() == 150 && both.size() == 50 && rest.size() == 50 && both.is_subset_of(a) && both.is_subset_of(b));
    CHECK(rest.contains(key<K>(49)) && !rest.contains(key<K>(50)) && !both.contains(key<K>(49)) && both.contains(key<K>(50)));
    const auto &same_either = either, &same_both = both, &same_rest = rest;
    either |= same_either;
    both &= same_both;
    rest -= same_rest;
    CHECK(either.size() == 150 && both.size() == 50 && rest.empty());
    a.merge(b);
    CHECK(a == either && b == both && a.try_merge(b) && b.size() == 50);
    a.merge(a);
    a.merge(bucket::set<K>{key<K>(199)});
    CHECK(a.size() == 151);
    CHECK(bucket::erase_if(a, [](const K &each) { return each == key<K>(7); }) == 1 && !a.contains(key<K>(7)));
    CHECK(erase_if(a, [](const K &) { return true; }) == 150 && a.empty());
    CHECK_THROWS(tests::thrown, b.erase_if([](const K &) -> bool { throw tests::thrown(); }));
    CHECK(b.size() == 50 && b == both);
    b.shrink_to_fit();
    CHECK(b == both && b.max_size() > b.size() && !b.try_reserve(SIZE_MAX));
    CHECK_THROWS(std::bad_alloc, b.reserve(SIZE_MAX));
}

void sets_are_combined() {
    combined<int>();
    combined<std::string>();
}

void texts_of_a_set_stay_where_they_are() {
    bucket::set<std::string> words;
    const std::string &first = words.insert("first").first;
    for (int i = 0; i < 1000; i++) {
        words.insert(key<std::string>(i));
    }
    CHECK(first == "first" && words.contains(std::string_view("first x").substr(0, 5)) && words.erase("first") == 1);
    std::string moved(50, 'm');
    CHECK(words.insert(std::move(moved)) && moved.empty());
}

const tests::story stories[] = {
    {"each call works with keys of each type", keys_of_each_type},
    {"iterators give each key once", iterators_give_each_key_once},
    {"sets are made of lists and ranges, moved, swapped, assigned and cloned", sets_are_made_and_moved},
    {"types are deduced of lists and ranges, as std does", types_are_deduced},
    {"insertions with a hint, std::inserter, and room for so many keys", hints_are_of_no_use},
    {"ranges are erased", ranges_are_erased},
    {"sets are merged, united, intersected, subtracted and filtered", sets_are_combined},
    {"texts of a set stay where they are", texts_of_a_set_stay_where_they_are},
};

} // namespace

int main() { return tests::play(stories); }
