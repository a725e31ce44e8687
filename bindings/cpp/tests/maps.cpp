// Each call of bucket::map, with keys of each type.
#include "bucket.hpp"
#include "check.hpp"

#include <iterator>
#include <limits>
#include <map>
#include <memory>
#include <mutex>
#include <numeric>
#include <unordered_map>
#include <vector>

using tests::colour;
using tests::key;

std::size_t second_unit();

namespace {

template <class K> void a_new_map_is_empty() {
    bucket::map<K, std::string> ages;
    const K a = key<K>(0);
    CHECK(ages.empty() && ages.size() == 0);
    CHECK(ages.find(a) == nullptr);
    CHECK(!ages.contains(a) && ages.count(a) == 0);
    CHECK(ages.erase(a) == 0);
    CHECK(ages.begin() == ages.end());
    CHECK(ages.capacity() == 0);
}

template <class K> void try_emplace_constructs_once() {
    bucket::map<K, std::string> ages;
    const K a = key<K>(0);
    auto [first, is_new] = ages.try_emplace(a, 3, 'x');
    CHECK(is_new && *first == "xxx");
    auto [again, is_new_again] = ages.try_emplace(a, "other");
    CHECK(!is_new_again && again == first && *again == "xxx");
}

template <class K> void insert_and_emplace_keep_a_value() {
    const K a = key<K>(0), b = key<K>(1);
    bucket::map<K, std::string> ages{{a, "xxx"}, {b, "z"}};
    CHECK(!ages.insert({a, "no"}).second);
    CHECK(*ages.find(a) == "xxx");
    CHECK(!ages.emplace(b, "no").second);
    CHECK(ages.at(b) == "z");
    CHECK(ages.size() == 2 && ages.capacity() > 0);
}

template <class K> void insert_or_assign_assigns() {
    bucket::map<K, std::string> ages;
    const K a = key<K>(0), b = key<K>(1);
    std::string *first = ages.try_emplace(a, "x").first;
    CHECK(!ages.insert_or_assign(a, "y").second);
    CHECK(*first == "y");
    CHECK(ages.insert_or_assign(b, "z").second);
    CHECK(ages[b] == "z");
    CHECK(ages.size() == 2);
}

template <class K> void present_keys_are_found() {
    bucket::map<K, std::string> ages;
    const K a = key<K>(0), b = key<K>(1);
    std::string *first = ages.try_emplace(a, "y").first;
    ages[b] = "z";
    CHECK(first == ages.find(a));
    CHECK(ages.contains(a) && ages.count(a) == 1);
    ages[b] += "z";
    CHECK(std::as_const(ages).at(b) == "zz");
    CHECK(*std::as_const(ages).find(b) == "zz");
}

template <class K> void erased_keys_are_absent() {
    const K a = key<K>(0), b = key<K>(1);
    bucket::map<K, std::string> ages{{a, "y"}, {b, "zz"}};
    CHECK(ages.erase(b) == 1);
    CHECK(ages.erase(b) == 0);
    CHECK(ages.size() == 1);
    CHECK_THROWS(std::out_of_range, ages.at(b));
    CHECK_THROWS(std::out_of_range, std::as_const(ages).at(b));
}

template <class K> void tries_return_outcomes() {
    const K b = key<K>(1);
    bucket::map<K, std::string> ages{{key<K>(0), "y"}};
    auto put = ages.try_insert(b, "b");
    CHECK(put && put.inserted() && put.outcome == bucket::outcome::inserted);
    CHECK(*put.value == "b");
    auto assigned = ages.try_insert_or_assign(b, "c");
    CHECK(assigned && !assigned.inserted() && assigned.outcome == bucket::outcome::present);
    CHECK(*put.value == "c");
    CHECK(ages.try_insert({b, "d"}).value == put.value);
    CHECK(*put.value == "c");
    CHECK(ages.try_reserve(100));
}

template <class K> void iterators_change_values() {
    const K a = key<K>(0), b = key<K>(1);
    bucket::map<K, std::string> ages{{a, "y"}, {b, "c"}};
    for (auto &[k, value] : ages) {
        CHECK(k == a || k == b);
        value += "!";
    }
    CHECK(ages[a] == "y!");
    CHECK(ages[b] == "c!");
}

template <class K> void a_cleared_map_is_empty() {
    const K a = key<K>(0);
    bucket::map<K, std::string> ages{{a, "y"}, {key<K>(1), "c"}};
    ages.clear();
    CHECK(ages.empty() && !ages.contains(a));
    CHECK(ages.try_emplace(a).second);
    CHECK(ages.at(a).empty());
}

template <class K> const tests::story stories_of[] = {
    {"a new map is empty and has no slots", a_new_map_is_empty<K>},
    {"try_emplace constructs a value only if the key is absent", try_emplace_constructs_once<K>},
    {"insert and emplace keep the value of a present key", insert_and_emplace_keep_a_value<K>},
    {"insert_or_assign inserts a key, or assigns to its value", insert_or_assign_assigns<K>},
    {"a present key is found, also in a const map", present_keys_are_found<K>},
    {"an erased key is absent, and at throws", erased_keys_are_absent<K>},
    {"try_insert and try_insert_or_assign return whether a key was inserted", tries_return_outcomes<K>},
    {"values are changed through iterators", iterators_change_values<K>},
    {"a cleared map is empty, and accepts keys", a_cleared_map_is_empty<K>},
};

template <class... K> void play_with_keys() { (tests::play_with(stories_of<K>, ", with keys of " + tests::name_of<K>()), ...); }

void extreme_keys() {
    bucket::map<std::int64_t, int> wide;
    bucket::map<std::int8_t, int> narrow;
    for (std::int64_t k : {std::numeric_limits<std::int64_t>::min(), std::int64_t(-1), std::int64_t(0),
                           std::numeric_limits<std::int64_t>::max()}) {
        wide[k] = 1;
    }
    for (int k = -128; k < 128; k++) {
        narrow[static_cast<std::int8_t>(k)] = k;
    }
    CHECK(wide.size() == 4 && narrow.size() == 256 && narrow.at(-1) == -1 && narrow.at(127) == 127);
    bucket::map<std::string, int> texts;
    std::string with_zero("a\0b", 3);
    texts[with_zero] = 1;
    texts["a"] = 2;
    texts[""] = 3;
    texts[std::string(100000, 'x')] = 4;
    CHECK(texts.size() == 4 && texts.at(with_zero) == 1 && texts.at("a") == 2 && texts.at(std::string_view()) == 3);
    CHECK(texts.at(std::string(100000, 'x')) == 4 && !texts.contains(std::string(99999, 'x')));
}

void texts_are_looked_up_by_views() {
    bucket::map<std::string, int> ages{{"ann", 30}, {"bob", 27}};
    std::string_view both = "annbob";
    const std::string ann = "ann";
    CHECK(*ages.find(both.substr(0, 3)) == 30 && ages.contains("bob") && ages.at(ann) == 30 && !ages.contains(both));
    CHECK(ages.erase(both.substr(3)) == 1 && ages.try_emplace(both, 1).second && ages[both] == 1);
    std::string moved(50, 'm');
    CHECK(ages.try_emplace(std::move(moved), 5).second && moved.empty() && ages.at(std::string(50, 'm')) == 5);
    std::string kept(50, 'm');
    CHECK(!ages.try_emplace(std::move(kept), 6).second && kept.size() == 50);
}

void pairs_stay_where_they_are() {
    bucket::map<int, std::string> all;
    std::vector<std::pair<const std::string *, const std::pair<const int, std::string> *>> known;
    for (int i = 0; i < 5000; i++) {
        known.push_back({all.try_emplace(i, std::to_string(i)).first, nullptr});
    }
    for (auto &pair : all) {
        known[static_cast<std::size_t>(pair.first)].second = &pair;
    }
    for (int i = 0; i < 5000; i += 2) {
        CHECK(all.erase(i) == 1);
    }
    all.shrink_to_fit();
    all.reserve(100000);
    bucket::map<int, std::string> moved = std::move(all);
    for (int i = 1; i < 5000; i += 2) {
        auto [value, pair] = known[static_cast<std::size_t>(i)];
        CHECK(moved.find(i) == value && &pair->second == value && pair->first == i && *value == std::to_string(i));
    }
}

void iterators_give_each_pair_once() {
    for (int count : {0, 1, 63, 64, 65, 128, 1000}) {
        bucket::map<int, int> squares;
        for (int i = 0; i < count; i++) {
            squares[i] = i * i;
        }
        std::map<int, int> seen(squares.begin(), squares.end());
        const auto &fixed = squares;
        CHECK(seen.size() == static_cast<std::size_t>(count) && std::distance(fixed.begin(), fixed.end()) == count);
        CHECK(std::all_of(squares.cbegin(), squares.cend(), [](auto &pair) { return pair.second == pair.first * pair.first; }));
        long sum = std::accumulate(fixed.begin(), fixed.end(), 0L, [](long so_far, auto &pair) { return so_far + pair.first; });
        CHECK(sum == static_cast<long>(count) * (count - 1) / 2);
        // A forward iterator: a copy advances independently.
        auto it = squares.begin();
        bucket::map<int, int>::const_iterator other = it;
        for (; it != squares.end(); it++) {
            CHECK(other != squares.cend() && &*other == &*it && other->first == it->first);
            ++other;
        }
        CHECK(other == squares.end());
    }
    using traits = std::iterator_traits<bucket::map<int, int>::iterator>;
    static_assert(std::is_same_v<traits::reference, std::pair<const int, int> &>);
    static_assert(std::is_base_of_v<std::forward_iterator_tag, traits::iterator_category>);
    static_assert(std::is_same_v<decltype(*std::declval<bucket::map<int, int>::const_iterator>()), const std::pair<const int, int> &>);
}

void maps_are_made_and_moved() {
    using map = bucket::map<std::string, int>;
    static_assert(!std::is_copy_constructible_v<map> && !std::is_copy_assignable_v<map>);
    static_assert(std::is_nothrow_move_constructible_v<map> && std::is_nothrow_move_assignable_v<map>);
    static_assert(std::is_nothrow_default_constructible_v<map> && std::is_nothrow_swappable_v<map>);
    std::vector<std::pair<std::string, int>> pairs{{"a", 1}, {"b", 2}, {"a", 3}};
    map listed{{"a", 1}, {"b", 2}, {"a", 3}}, ranged(pairs.begin(), pairs.end()), seeded(bucket::seed{1, 2});
    CHECK(listed.size() == 2 && listed.at("a") == 1 && listed == ranged && listed != seeded);
    seeded.insert({{"b", 2}, {"a", 1}});
    CHECK(listed == seeded && map({{"a", 1}, {"b", 2}}, bucket::fixed_seed) == listed);

    map moved = std::move(listed);
    CHECK(listed.empty() && !listed.contains("a") && listed.begin() == listed.end() && moved == ranged);
    listed["c"] = 3;
    CHECK(listed.size() == 1 && !moved.contains("c"));
    moved = std::move(listed);
    CHECK(moved.size() == 1 && moved.at("c") == 3 && listed.empty());
    map &same = moved;
    moved = std::move(same);
    CHECK(moved.size() == 1 && moved.at("c") == 3);
    moved.swap(ranged);
    swap(moved, seeded);
    CHECK(ranged.size() == 1 && moved == seeded);
    moved = {{"x", 7}};
    CHECK(moved.size() == 1 && moved["x"] == 7);
    moved = {};
    CHECK(moved.empty() && listed == moved);

    map copy = seeded.clone();
    copy["a"] = 5;
    CHECK(seeded.at("a") == 1 && copy != seeded && copy.size() == 2);
}

template <class Map, class K, class V>
constexpr bool has = std::is_same_v<typename Map::key_type, K> && std::is_same_v<typename Map::mapped_type, V>;

// std::unordered_map deduces the same from each.
void types_are_deduced() {
    std::vector<std::pair<std::string, int>> pairs{{"a", 1}, {"b", 2}, {"a", 3}};
    bucket::map ranged(pairs.begin(), pairs.end()), seeded(pairs.cbegin(), pairs.cend(), bucket::fixed_seed);
    std::unordered_map std_ranged(pairs.begin(), pairs.end());
    static_assert(has<decltype(ranged), std::string, int> && has<decltype(std_ranged), std::string, int>);
    static_assert(std::is_same_v<decltype(ranged), decltype(seeded)>);
    CHECK(ranged.size() == 2 && ranged.at("a") == 1 && ranged == seeded);
    bucket::map pointed(pairs.data(), pairs.data() + 2);
    CHECK(pointed == ranged);

    bucket::map listed{std::pair(1, 2.5), std::pair(3, 4.5)};
    std::unordered_map std_listed{std::pair(1, 2.5), std::pair(3, 4.5)};
    static_assert(has<decltype(listed), int, double> && has<decltype(std_listed), int, double>);
    bucket::map list_with_a_seed({std::pair(1, 2.5), std::pair(3, 4.5)}, bucket::seed{1, 2});
    bucket::map listed_const{std::pair<const int, double>(1, 2.5), std::pair<const int, double>(3, 4.5)};
    static_assert(has<decltype(listed_const), int, double> && has<decltype(list_with_a_seed), int, double>);
    CHECK(listed.size() == 2 && listed.at(3) == 4.5 && listed == list_with_a_seed && listed == listed_const);

    bucket::map copied(listed.begin(), listed.end()), of_std(std_listed.begin(), std_listed.end());
    std::unordered_map to_std(listed.cbegin(), listed.cend());
    static_assert(has<decltype(copied), int, double> && has<decltype(of_std), int, double> && has<decltype(to_std), int, double>);
    CHECK(copied == listed && of_std == listed && to_std == std_listed);
    bucket::map moved = std::move(copied);
    static_assert(std::is_same_v<decltype(moved), bucket::map<int, double>>);

    std::vector<std::pair<colour, std::unique_ptr<int>>> owned;
    owned.emplace_back(colour::blue, std::make_unique<int>(7));
    bucket::map owner(std::make_move_iterator(owned.begin()), std::make_move_iterator(owned.end()));
    static_assert(has<decltype(owner), colour, std::unique_ptr<int>>);
    CHECK(*owner.at(colour::blue) == 7 && !owned[0].second);
}

void hints_are_of_no_use() {
    bucket::map<std::string, int> all;
    std::vector<std::pair<const std::string, int>> pairs{{"a", 1}, {"b", 2}, {"a", 3}};
    std::copy(pairs.begin(), pairs.end(), std::inserter(all, all.end()));
    CHECK(all.size() == 2 && all.at("a") == 1 && all.at("b") == 2);
    std::transform(pairs.begin(), pairs.end(), std::inserter(all, all.begin()), [](auto &pair) {
        return std::pair<const std::string, int>(pair.first + "'", pair.second);
    });
    CHECK(all.size() == 4 && all.at("a'") == 1);
    auto at = all.insert(all.cend(), pairs[2]);
    CHECK(at->second == 1 && &at->second == all.find("a") && at != all.end() && ++at == all.end());
    auto put = all.insert(all.begin(), {"c", 5}), kept = all.emplace_hint(all.end(), "c", 6);
    CHECK(put->first == "c" && put->second == 5 && put == kept && &*put == &*kept && std::next(put) == all.end());
    auto whole = all.emplace_hint(all.end(), std::make_pair("d", 7)), other = all.emplace_hint(all.end(), std::make_pair("d", 8));
    CHECK(whole->first == "d" && whole->second == 7 && whole == other && all.size() == 6);
    bucket::map<int, std::unique_ptr<int>> owner;
    CHECK(*owner.insert(owner.end(), {1, std::make_unique<int>(2)})->second == 2);
}

void ranges_are_erased() {
    for (int count : {0, 1, 63, 64, 65, 300}) {
        for (int front : {0, 1, 64, 200}) {
            bucket::map<int, std::string> all;
            for (int i = 0; i < count; i++) {
                all[i] = std::to_string(i);
            }
            auto first = all.begin();
            std::map<int, std::string> stay;
            for (int i = 0; i < front && first != all.end(); i++, ++first) {
                stay.insert(*first);
            }
            auto last = first;
            std::size_t gone = 0;
            for (; gone < 70 && last != all.end(); ++last) {
                gone++;
            }
            stay.insert(last, all.end());
            CHECK(all.erase(first, first) == 0 && all.erase(first, last) == gone);
            CHECK(std::map<int, std::string>(all.begin(), all.end()) == stay && all.size() == stay.size());
            CHECK(all.erase(all.cbegin(), all.cend()) == stay.size() && all.empty() && all.begin() == all.end());
        }
    }
}

// Changes the key of the pair `from`, and inserts the pair again; so does std's map.
template <class K> void change(bucket::map<K, int> &all, std::unordered_map<K, int> &beside, const K &from, const K &to) {
    int *where = all.find(from);
    auto node = all.extract(from);
    auto other = beside.extract(from);
    static_assert(std::is_same_v<decltype(node.key()), K &> && std::is_same_v<decltype(other.key()), K &>);
    node.key() = to;
    other.key() = to;
    CHECK(node.key() == to && node->first == to && &node.mapped() == where);
    auto put = all.insert(std::move(node));
    auto std_put = beside.insert(std::move(other));
    CHECK(put.inserted == std_put.inserted && put.node.empty() == std_put.node.empty() && *put.position == std_put.position->second);
    CHECK(put.inserted ? put.position == where : put.node.key() == to && std_put.node.key() == to);
}

template <class K> void keys_of_a_type_are_changed() {
    bucket::map<K, int> all;
    std::unordered_map<K, int> beside;
    for (int i = 0; i < 100; i++) {
        all[key<K>(i)] = beside[key<K>(i)] = i;
    }
    for (int i = 0; i < 100; i += 2) {
        change(all, beside, key<K>(i), key<K>(i + 100));
    }
    change(all, beside, key<K>(1), key<K>(3));
    change(all, beside, key<K>(3), key<K>(3));
    for (int i = 0; i < 200; i++) {
        auto other = beside.find(key<K>(i));
        const int *there = all.find(key<K>(i));
        CHECK(there ? other != beside.end() && *there == other->second : other == beside.end());
    }
    CHECK(all.size() == 99 && (std::unordered_map<K, int>(all.begin(), all.end()) == beside));
}

void keys_are_changed_outside() {
    keys_of_a_type_are_changed<int>();
    keys_of_a_type_are_changed<std::uint8_t>();
    keys_of_a_type_are_changed<std::string>();
    // A pair taken out of a cache also has a key that may be changed.
    bucket::cache<std::string, int> cache(64);
    static_cast<void>(cache.put("a", 1));
    auto gone = cache.put("a", 2);
    gone.key() += "b";
    bucket::map<std::string, int> all;
    CHECK(all.insert(std::move(gone)).inserted && all.at("ab") == 1);
}

void values_are_taken_out_and_put_back() {
    bucket::map<std::string, std::unique_ptr<int>> from, to;
    from.emplace("a", std::make_unique<int>(1));
    from.emplace("b", std::make_unique<int>(2));
    to.emplace("b", std::make_unique<int>(3));
    std::unique_ptr<int> *where = from.find("a");
    auto a = from.extract("a"), b = from.extract("b"), none = from.extract("c");
    CHECK(a && a.has_value() && !a.empty() && a.key() == "a" && &a.mapped() == where && a->first == "a" && *(*a).second == 1);
    CHECK(!none && none.empty() && from.empty());
    CHECK_THROWS(std::bad_optional_access, none.value());
    auto put = to.insert(std::move(a));
    CHECK(put.inserted && put.position == where && !put.node && !a && to.size() == 2);
    auto kept = to.insert(std::move(b));
    CHECK(!kept.inserted && **kept.position == 3 && kept.node && *kept.node.mapped() == 2);
    CHECK(!to.insert(std::move(none)).inserted && to.insert(std::move(a)).position == nullptr);
    std::optional<std::pair<std::string, std::unique_ptr<int>>> pair = to.extract("a");
    CHECK(pair && pair->first == "a" && *pair->second == 1 && to.size() == 1);
    pair = to.extract("a");
    CHECK(!pair);
}

void maps_are_merged() {
    bucket::map<int, std::string> a{{1, "a"}, {2, "a"}}, b{{2, "b"}, {3, "b"}};
    const std::string *three = b.find(3);
    a.merge(b);
    CHECK(a.size() == 3 && a.at(2) == "a" && a.find(3) == three && b.size() == 1 && b.at(2) == "b");
    a.merge(a);
    a.merge(bucket::map<int, std::string>{{4, "c"}});
    CHECK(a.size() == 4 && a.try_merge(b) && b.size() == 1);
    bucket::map<int, std::string> empty;
    a.merge(empty);
    empty.merge(a);
    CHECK(a.empty() && empty.size() == 4 && empty.at(3) == "b");
}

void pairs_are_erased_by_a_predicate() {
    bucket::map<int, int> all;
    for (int i = 0; i < 1000; i++) {
        all[i] = i;
    }
    CHECK(bucket::erase_if(all, [](const auto &pair) { return pair.first % 3 == 0; }) == 334 && all.size() == 666);
    CHECK(erase_if(all, [](auto &pair) { return pair.second++ < 500; }) == 333 && all.at(500) == 501);
    CHECK(all.erase_if([](auto &) { return false; }) == 0 && all.erase_if([](auto &) { return true; }) == 333 && all.empty());
    all[7] = 7;
    for (auto it = all.begin(); it != all.end(); it = all.begin()) {
        CHECK(all.erase(it->first) == 1);
    }
    CHECK(all.empty());
}

struct fixed_point {
    fixed_point(int left, int right) : sum(left + right) {}
    fixed_point(const fixed_point &) = delete;
    fixed_point &operator=(const fixed_point &) = delete;
    int sum;
};

struct alignas(64) wide_value {
    int number = 0;
};

struct tree {
    int leaf = 0;
    bucket::map<std::string, tree> children;
};

void values_of_any_type() {
    bucket::map<int, fixed_point> points;
    CHECK(points.try_emplace(1, 2, 3).second && points.at(1).sum == 5);
    CHECK(points.emplace(std::piecewise_construct, std::make_tuple(4), std::make_tuple(5, 6)).second && points.at(4).sum == 11);
    CHECK(!points.emplace(std::piecewise_construct, std::make_tuple(4), std::make_tuple(5, 7)).second && points.at(4).sum == 11);
    bucket::map<std::string, std::mutex> locks;
    locks["a"].lock();
    locks["a"].unlock();
    bucket::map<int, wide_value> wide;
    for (int i = 0; i < 100; i++) {
        CHECK(reinterpret_cast<std::uintptr_t>(&wide[i]) % 64 == 0);
    }
    tree root;
    root.children["a"].children["b"].leaf = 7;
    CHECK(root.children.at("a").children.at("b").leaf == 7);
    bucket::map<int, bucket::map<std::string, bucket::set<int>>> nested;
    nested[1]["x"].insert(5);
    CHECK(nested.at(1).at("x").contains(5));
    bucket::map<int, bool> flags{{1, true}};
    flags[1] = flags[2];
    CHECK(!flags.at(1) && !flags.at(2));
    bucket::map<int, std::vector<int>> lists;
    lists.insert({1, {1, 2, 3}});
    lists[1].push_back(4);
    CHECK(lists.at(1).size() == 4 && lists.max_size() > 0);
}

void keys_inside_of_the_map_may_be_passed() {
    bucket::map<std::string, std::string> all;
    all[std::string(50, 'k')] = "v";
    const std::string &inside = all.begin()->first;
    CHECK(!all.try_emplace(inside, "w").second && !all.insert_or_assign(inside, inside).second && all.at(inside) == inside);
    CHECK(all.try_emplace("copy", *all.find(inside)).second && all.at("copy").size() == 50);
    CHECK(all.erase(inside) == 1 && all.size() == 1);
}

void rooms() {
    bucket::map<int, int> all;
    all.reserve(1000);
    std::size_t slots = all.capacity();
    CHECK(slots >= 1000);
    for (int i = 0; i < 1000; i++) {
        all[i] = i;
    }
    all.reserve(10);
    CHECK(all.size() == 1000 && all.capacity() >= 1000);
    CHECK(!all.try_reserve(SIZE_MAX) && !all.try_reserve(SIZE_MAX / 16) && all.size() == 1000 && all.at(999) == 999);
    CHECK_THROWS(std::bad_alloc, all.reserve(SIZE_MAX));
    all.erase_if([](auto &pair) { return pair.first > 9; });
    all.shrink_to_fit();
    CHECK(all.size() == 10 && all.capacity() < slots && all.at(9) == 9);
    bucket::map<int, int> roomy(1000), seeded(1000, bucket::fixed_seed), none(0);
    CHECK(roomy.capacity() >= 1000 && roomy.empty() && seeded.capacity() >= 1000 && none.capacity() == 0 && roomy == none);
    slots = roomy.capacity();
    for (int i = 0; i < 1000; i++) {
        roomy[i] = i;
    }
    CHECK(roomy.capacity() == slots);
    CHECK_THROWS(std::bad_alloc, bucket::map<int, int>(SIZE_MAX));
    bucket::map<int, int> closed;
    closed.shrink_to_fit();
    closed.reserve(0);
    CHECK(closed.capacity() == 0);
}

void two_units_share_the_header() { CHECK(second_unit() == 1); }

const tests::story stories[] = {
    {"the least and greatest words, and texts with any byte and of any length, are keys", extreme_keys},
    {"texts are looked up by views, and moved from only if they are inserted", texts_are_looked_up_by_views},
    {"pairs stay where they are through erasures, reserve and moves", pairs_stay_where_they_are},
    {"iterators give each pair once, as forward iterators", iterators_give_each_pair_once},
    {"maps are made of lists and ranges, moved, swapped, assigned and cloned", maps_are_made_and_moved},
    {"types are deduced of lists and ranges, as std does", types_are_deduced},
    {"insertions with a hint, and std::inserter", hints_are_of_no_use},
    {"ranges are erased", ranges_are_erased},
    {"a key is changed outside and filed anew, as std does", keys_are_changed_outside},
    {"values are taken out and put into another map without a move", values_are_taken_out_and_put_back},
    {"merge moves the pairs whose keys are absent", maps_are_merged},
    {"erase_if erases what its predicate holds of", pairs_are_erased_by_a_predicate},
    {"values may be immovable, over-aligned, recursive, nested", values_of_any_type},
    {"keys and values inside of the map may be passed to it", keys_inside_of_the_map_may_be_passed},
    {"reserve, shrink_to_fit and capacity", rooms},
    {"two units of a program may include the header", two_units_share_the_header},
};

} // namespace

int main() {
    play_with_keys<int, unsigned, char, signed char, unsigned char, short, long, unsigned long, long long, unsigned long long, bool,
                   wchar_t, char16_t, char32_t, std::size_t, std::int8_t, std::uint64_t, colour, std::byte, std::string>();
    return tests::play(stories);
}
