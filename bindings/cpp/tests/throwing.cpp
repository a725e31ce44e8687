// Constructors, moves, assignments and predicates that throw, and values that call back into their container.
#include "bucket.hpp"
#include "check.hpp"

#include <functional>
#include <memory>
#include <vector>

using tests::counted;
using tests::key;
using tests::thrown;

namespace {

// The pairs of a map, in the order of their values.
template <class K> std::vector<std::pair<int, K>> contents(const bucket::map<K, counted> &of) {
    std::vector<std::pair<int, K>> all;
    for (const auto &[k, value] : of) {
        all.emplace_back(value.value(), k);
    }
    std::sort(all.begin(), all.end());
    return all;
}

// Makes a call repeatedly, with the first construction throwing, then the second, until none does. Nothing has changed each time.
template <class K, class Call> void throws_each_time(Call call) {
    for (long at = 0;; at++) {
        CHECK(counted::alive == 0);
        bucket::map<K, counted> map;
        for (int i = 0; i < 20; i++) {
            map.try_emplace(key<K>(i), i);
        }
        auto before = contents(map);
        counted::until_throw = at;
        bool threw = false;
        try {
            call(map);
        } catch (const thrown &) {
            threw = true;
        }
        counted::until_throw = -1;
        if (!threw) {
            CHECK(at > 0);
            return;
        }
        CHECK(contents(map) == before && map.size() == 20 && counted::alive == 20);
        CHECK(map.try_emplace(key<K>(50), 50).second && map.at(key<K>(50)).value() == 50);
    }
}

template <class K> void all_calls_throw() {
    using map = bucket::map<K, counted>;
    throws_each_time<K>([](map &all) { all.try_emplace(key<K>(30), 30); });
    throws_each_time<K>([](map &all) { all[key<K>(30)]; });
    throws_each_time<K>([](map &all) { all.emplace(key<K>(30), 30); });
    throws_each_time<K>([](map &all) { all.emplace(std::piecewise_construct, std::make_tuple(key<K>(30)), std::make_tuple(30)); });
    throws_each_time<K>([](map &all) { all.insert({key<K>(30), 30}); });
    throws_each_time<K>([](map &all) { all.insert_or_assign(key<K>(30), counted(30)); });
    throws_each_time<K>([](map &all) { all.insert_or_assign(key<K>(3), counted(30)); });
    throws_each_time<K>([](map &all) { all = {{key<K>(1), 1}, {key<K>(2), 2}}; });
    throws_each_time<K>([](map &all) { map copy = all.clone(); });
    throws_each_time<K>([](map &all) { static_cast<void>(all.try_insert(key<K>(30), 30)); });
    throws_each_time<K>([](map &all) { static_cast<void>(all.try_insert_or_assign(key<K>(30), 30)); });
}

void a_call_that_throws_changes_nothing() {
    all_calls_throw<int>();
    all_calls_throw<std::string>();
    CHECK(counted::alive == 0);
}

void a_key_that_was_given_away_comes_back() {
    bucket::map<std::string, counted> all;
    std::string given(50, 'k');
    counted::until_throw = 0;
    CHECK_THROWS(thrown, all.try_emplace(std::move(given), 1));
    counted::until_throw = -1;
    CHECK(given == std::string(50, 'k') && all.empty());
}

void a_call_that_throws_leaves_no_slot_taken() {
    bucket::map<int, counted> all;
    all[0] = 0;
    std::size_t before = all.capacity();
    counted::until_throw = 0;
    for (int i = 1; i < 10000; i++) {
        CHECK_THROWS(thrown, all.try_emplace(i, i));
    }
    counted::until_throw = -1;
    CHECK(all.capacity() <= before + 64 && all.size() == 1);
}

void a_put_that_throws_evicts_nothing() {
    bucket::cache<int, counted> cache(64);
    for (int i = 0; i < 64; i++) {
        cache.put(i, i);
    }
    std::size_t before = cache.size();
    for (int i = 100; i < 200; i++) {
        counted::until_throw = 0;
        CHECK_THROWS(thrown, cache.put(i, i));
        CHECK_THROWS(thrown, cache.put(5, i));
        counted::until_throw = -1;
    }
    CHECK(cache.size() == before && counted::alive == static_cast<long>(before));
    // The evicted pair is still owned if making an optional of it throws.
    for (int i = 100; i < 200; i++) {
        auto gone = cache.put(i, i);
        counted::until_throw = 0;
        if (gone) {
            CHECK_THROWS(thrown, std::optional<std::pair<int, counted>> pair = std::move(gone));
            CHECK(gone.has_value() && gone.mapped().value() == gone.key());
        }
        counted::until_throw = -1;
    }
}

void a_predicate_that_throws_erases_nothing() {
    bucket::map<int, counted> all;
    for (int i = 0; i < 500; i++) {
        all[i] = i;
    }
    for (int after : {0, 1, 63, 64, 65, 499}) {
        int asked = 0;
        CHECK_THROWS(thrown, all.erase_if([&](auto &) { return asked++ == after ? throw thrown() : true; }));
        CHECK(all.size() == 500 && counted::alive == 500);
    }
    CHECK(all.erase_if([](auto &pair) { return pair.first < 250; }) == 250 && contents(all).size() == 250);
}

// Calls back when it is constructed, and when it is destroyed.
struct caller {
    std::function<void()> on_end;
    caller() = default;
    explicit caller(const std::function<void()> &at_once, std::function<void()> at_end = {}) : on_end(std::move(at_end)) {
        if (at_once) {
            at_once();
        }
    }
    caller(const caller &) = delete;
    caller &operator=(const caller &) = delete;
    ~caller() {
        if (on_end) {
            on_end();
        }
    }
};

void a_destructor_may_call_its_container() {
    bucket::map<int, caller> all;
    int ended = 0;
    auto checks = [&] {
        ended++;
        std::size_t seen = 0;
        for (auto &[k, value] : all) {
            seen += k >= 0 ? 1u : 0u;
            CHECK(all.find(k) == &value);
        }
        CHECK(seen == all.size());
        all.try_emplace(-1 - ended);
        CHECK(all.erase(-1 - ended) == 1);
    };
    for (int i = 0; i < 100; i++) {
        all.try_emplace(i, nullptr, checks);
    }
    CHECK(all.erase(5) == 1 && ended == 1 && all.size() == 99);
    CHECK(all.erase_if([](auto &pair) { return pair.first < 50; }) == 49 && ended == 50 && all.size() == 50);
    all.clear();
    CHECK(ended == 100 && all.empty());
    // A destructor that inserts again during a clear.
    all.try_emplace(1, nullptr, [&] { all.try_emplace(2); });
    all.clear();
    CHECK(all.size() == 1 && all.contains(2));
    all = bucket::map<int, caller>();
    CHECK(all.empty());
}

void a_constructor_may_call_its_container() {
    bucket::map<std::string, caller> all;
    auto is_unseen = [&] {
        CHECK(!all.contains("k") && all.find("k") == nullptr && all.begin() == all.end() && all.empty() && all.erase("other") == 0);
    };
    CHECK(all.try_emplace("k", is_unseen).second && all.size() == 1);
    all.clear();
    // It inserts its own key: that pair stays.
    caller *inner = nullptr;
    auto [where, is_new] = all.try_emplace("k", [&] { inner = all.try_emplace("k").first; });
    CHECK(!is_new && where == inner && all.find("k") == inner && all.size() == 1);
    all.clear();
    // It erases its own key, or clears all.
    CHECK(all.try_emplace("k", [&] { CHECK(all.erase("k") == 0); }).second && all.size() == 1 && all.contains("k"));
    CHECK(all.try_emplace("l", [&] { all.clear(); }).second && all.size() == 1 && all.contains("l"));
    // It inserts its own key, and throws.
    auto throws = [&] {
        all.try_emplace("m");
        throw thrown();
    };
    CHECK_THROWS(thrown, all.try_emplace("m", throws));
    CHECK(all.size() == 2 && all.contains("m"));
    CHECK_THROWS(thrown, all.try_emplace("n", [&] {
        CHECK_THROWS(thrown, all.try_emplace("n", [] { throw thrown(); }));
        throw thrown();
    }));
    CHECK(all.size() == 2 && !all.contains("n") && all.try_emplace("n").second);
    for (int i = 0; i < 200; i++) {
        all.try_emplace(std::to_string(i), [&] { all.try_emplace(std::to_string(1000 + i)); });
    }
    std::size_t seen = 0;
    for (auto &pair : all) {
        seen += pair.first.empty() ? 0u : 1u;
    }
    CHECK(seen == all.size() && all.size() == 403);
}

// A value, counted, whose next constructor calls back.
struct calling : counted {
    static inline std::function<void()> next;
    calling(int value = 0) : counted(value) { call(); }
    calling(const calling &other) : counted(other) { call(); }
    calling(calling &&other) : counted(std::move(other)) { call(); }
    calling &operator=(const calling &) = default;
    calling &operator=(calling &&) = default;
    ~calling() = default;

  private:
    static void call() {
        if (auto now = std::exchange(next, nullptr)) {
            now();
        }
    }
};

template <class K> using calling_map = bucket::map<K, calling>;

// An insertion of a value into a map. The constructor of the pair calls `inside`, unless it is empty.
template <class K> using insertion = void (*)(calling_map<K> &, const K &, int, std::function<void()> inside);

// Insertions of a key and a value.
template <class K> std::vector<insertion<K>> insertions_of_two() {
    return {
        [](auto &to, auto &k, int v, auto inside) { calling::next = inside, to.try_emplace(k, v); },
        [](auto &to, auto &k, int v, auto inside) { calling::next = inside, to.emplace(k, v); },
        [](auto &to, auto &k, int v, auto inside) { calling::next = inside, to.emplace_hint(to.end(), k, v); },
        [](auto &to, auto &k, int v, auto inside) {
            calling given(v);
            calling::next = inside, to.insert_or_assign(k, given);
        },
        [](auto &to, auto &k, int v, auto inside) {
            calling given(v);
            calling::next = inside, to.insert_or_assign(k, std::move(given));
        },
        [](auto &to, auto &k, int v, auto inside) { calling::next = inside, static_cast<void>(to.try_insert(k, v)); },
        [](auto &to, auto &k, int v, auto inside) { calling::next = inside, static_cast<void>(to.try_insert_or_assign(k, v)); },
    };
}

// Insertions of a whole pair.
template <class K> std::vector<insertion<K>> insertions_of_pairs() {
    using pair = std::pair<const K, calling>;
    return {
        [](auto &to, auto &k, int v, auto inside) {
            calling::next = inside, to.emplace(std::piecewise_construct, std::make_tuple(k), std::make_tuple(v));
        },
        [](auto &to, auto &k, int v, auto inside) {
            pair given(k, v);
            calling::next = inside, to.emplace(std::move(given));
        },
        [](auto &to, auto &k, int v, auto inside) {
            pair given(k, v);
            calling::next = inside, to.emplace_hint(to.end(), given);
        },
        [](auto &to, auto &k, int v, auto inside) {
            const pair given(k, v);
            calling::next = inside, to.insert(given);
        },
        [](auto &to, auto &k, int v, auto inside) {
            pair given(k, v);
            calling::next = inside, to.insert(std::move(given));
        },
        [](auto &to, auto &k, int v, auto inside) {
            pair given(k, v);
            calling::next = inside, to.insert(to.end(), std::move(given));
        },
        [](auto &to, auto &k, int v, auto inside) {
            std::vector<pair> given;
            given.emplace_back(k, v);
            calling::next = inside, to.insert(given.begin(), given.end());
        },
        [](auto &to, auto &k, int v, auto inside) {
            std::initializer_list<pair> given{{k, v}};
            calling::next = inside, to.insert(given);
        },
        [](auto &to, auto &k, int v, auto inside) {
            pair given(k, v);
            calling::next = inside, static_cast<void>(to.try_insert(std::move(given)));
        },
    };
}

// Those that call nothing while the value is made.
template <class K> std::vector<insertion<K>> insertions_that_call_nothing() {
    return {
        [](auto &to, auto &k, int v, auto) { to[k] = v; },
        [](auto &to, auto &k, int v, auto) {
            calling_map<K> from;
            calling *where = from.try_emplace(k, v).first;
            auto done = to.insert(from.extract(k));
            CHECK(done.inserted && done.position == where && !done.node);
        },
        [](auto &to, auto &k, int v, auto) {
            calling_map<K> from;
            calling *where = from.try_emplace(k, v).first;
            to.merge(from);
            CHECK(from.empty() && to.find(k) == where);
        },
    };
}

// Makes an outer insertion of 1, whose constructor makes an inner one of 2 with the same key: the inner pair stays.
template <class K> void nests(insertion<K> outer, insertion<K> inner, int others, bool throws) {
    calling_map<K> all;
    for (int i = 0; i < others; i++) {
        all.try_emplace(key<K>(i), i);
    }
    const K k = key<K>(190);
    calling *where = nullptr;
    auto inside = [&] {
        CHECK(!all.contains(k) && all.size() == static_cast<std::size_t>(others));
        inner(all, k, 2, nullptr);
        where = all.find(k);
        CHECK(where && where->value() == 2 && all.size() == static_cast<std::size_t>(others) + 1);
        if (throws) {
            throw thrown();
        }
    };
    CHECK(tests::throws<thrown>([&] { outer(all, k, 1, inside); }) == throws);
    CHECK(where && all.find(k) == where && where->value() == 2 && counted::alive == others + 1);
    std::size_t seen = 0;
    for (auto &pair : all) {
        seen += all.find(pair.first) == &pair.second ? 1u : 0u;
    }
    CHECK(seen == all.size() && seen == static_cast<std::size_t>(others) + 1);
    CHECK(all.erase(k) == 1 && !all.contains(k) && counted::alive == others && all.try_emplace(k, 3).second);
}

template <class K> void each_in_each() {
    std::vector<insertion<K>> outers = insertions_of_two<K>(), more = insertions_of_pairs<K>();
    outers.insert(outers.end(), more.begin(), more.end());
    std::vector<insertion<K>> inners = insertions_that_call_nothing<K>();
    inners.insert(inners.end(), outers.begin(), outers.end());
    for (insertion<K> outer : outers) {
        for (insertion<K> inner : inners) {
            for (int others : {0, 1, 64}) {
                nests<K>(outer, inner, others, false);
                nests<K>(outer, inner, others, true);
            }
        }
    }
    CHECK(counted::alive == 0);
}

void a_constructor_may_insert_its_own_key_by_each_call() {
    each_in_each<int>();
    each_in_each<std::string>();
}

void results_where_a_constructor_inserts_its_own_key() {
    calling_map<std::string> all, from{{"k", 5}};
    calling *inner = from.find("k");
    calling::next = [&] { CHECK(all.insert(from.extract("k")).position == inner); };
    auto [where, is_new] = all.try_emplace("k", 1);
    CHECK(!is_new && where == inner && all.at("k").value() == 5 && all.size() == 1);

    // Three levels deep: the innermost pair stays.
    all.clear();
    calling::next = [&] {
        calling::next = [&] { CHECK(all.emplace(std::make_pair("k", 3)).second && all.at("k").value() == 3); };
        CHECK(!all.insert_or_assign("k", 2).second && all.at("k").value() == 3);
    };
    CHECK(!all.try_emplace("k", 1).second && all.at("k").value() == 3 && all.size() == 1);

    // V() calls back; the value is assigned to the pair that stays.
    all.clear();
    calling::next = [&] { all.emplace(std::make_pair("k", 2)); };
    CHECK(all["k"].value() == 2 && (all["k"] = 7).value() == 7 && all.size() == 1);

    // A value that was moved from isn't assigned to the pair that stays.
    all.clear();
    calling given(1);
    calling::next = [&] { all["k"] = 2; };
    auto [kept, is_put] = all.insert_or_assign("k", std::move(given));
    CHECK(!is_put && kept == all.find("k") && kept->value() == 2);
}

void a_constructor_may_take_its_key_away() {
    calling_map<std::string> all, other;
    calling::next = [&] {
        all.emplace(std::make_pair("k", 2));
        CHECK(all.erase("k") == 1);
    };
    CHECK(all.try_emplace("k", 1).second && all.at("k").value() == 1 && all.size() == 1);
    // It moves everything away.
    calling::next = [&] { other = std::move(all); };
    CHECK(all.try_emplace("l", 1).second && all.size() == 1 && other.size() == 1 && !other.contains("l"));
    CHECK(other.insert(all.extract("l")).inserted && other.at("l").value() == 1 && other.size() == 2);
}

void a_cached_value_may_call_its_cache() {
    bucket::cache<int, std::unique_ptr<caller>> cache(64);
    int ended = 0;
    for (int i = 0; i < 500; i++) {
        cache.put(i, std::make_unique<caller>(nullptr, [&, i] {
                      ended++;
                      CHECK(!cache.contains(i));
                      cache.get(i + 1);
                  }));
    }
    CHECK(static_cast<std::size_t>(ended) + cache.size() == 500);
    cache.clear();
    CHECK(ended == 500);
}

const tests::story stories[] = {
    {"a call whose value throws changes nothing", a_call_that_throws_changes_nothing},
    {"a moved key is returned if the value throws", a_key_that_was_given_away_comes_back},
    {"a call that throws leaves no slot occupied", a_call_that_throws_leaves_no_slot_taken},
    {"a put that throws evicts nothing", a_put_that_throws_evicts_nothing},
    {"a predicate that throws erases nothing", a_predicate_that_throws_erases_nothing},
    {"a destructor may call its container", a_destructor_may_call_its_container},
    {"a constructor may call its container", a_constructor_may_call_its_container},
    {"a constructor may insert its own key by each call", a_constructor_may_insert_its_own_key_by_each_call},
    {"what calls return if a constructor inserts its own key", results_where_a_constructor_inserts_its_own_key},
    {"a constructor may insert its own key and erase it, or move the map", a_constructor_may_take_its_key_away},
    {"a cached value may call its cache as it is destroyed", a_cached_value_may_call_its_cache},
};

} // namespace

int main() { return tests::play(stories); }
