// Fails each allocation in turn, of operator new and of malloc. The call throws std::bad_alloc, or reports it; nothing has changed, the
// arguments are still there, and nothing leaks. Link with -Wl,--wrap=malloc,--wrap=realloc,--wrap=free.
#include "bucket.hpp"
#include "check.hpp"

#include <cstdlib>
#include <memory>
#include <new>
#include <optional>
#include <vector>

using tests::key;

namespace {

// How many allocations succeed before one fails; -1: all do.
long granted = -1;
long held = 0;
long asked = 0;
// How many succeed before exactly one fails; -1: none fails.
long before_one = -1;

bool may() noexcept {
    asked++;
    if (before_one >= 0 && before_one-- == 0) {
        return false;
    }
    if (granted == 0) {
        return false;
    }
    granted -= granted > 0 ? 1 : 0;
    return true;
}

} // namespace

extern "C" {
void *__real_malloc(std::size_t size);
void *__real_realloc(void *block, std::size_t size);
void __real_free(void *block);
void *__wrap_malloc(std::size_t size);
void *__wrap_realloc(void *block, std::size_t size);
void __wrap_free(void *block);

void *__wrap_malloc(std::size_t size) {
    void *block = may() ? __real_malloc(size) : nullptr;
    held += block ? 1 : 0;
    return block;
}
void *__wrap_realloc(void *block, std::size_t size) {
    void *moved = may() ? __real_realloc(block, size) : nullptr;
    held += !block && moved ? 1 : 0;
    return moved;
}
void __wrap_free(void *block) {
    held -= block ? 1 : 0;
    __real_free(block);
}
}

void *operator new(std::size_t size) {
    if (void *block = __wrap_malloc(size)) {
        return block;
    }
    throw std::bad_alloc();
}
void operator delete(void *block) noexcept { __wrap_free(block); }
void operator delete(void *block, std::size_t) noexcept { __wrap_free(block); }

namespace {

struct grants_all {
    ~grants_all() { granted = -1; }
};

// Makes a call with the first allocation failing, then the second, until the call needs no more, each time on what `prepare` returns.
// `call` returns whether memory sufficed, or throws std::bad_alloc; `stays` checks that nothing has changed.
template <class Prepare, class Call, class Stays> void refuse_each(Prepare prepare, Call call, Stays stays) {
    for (long at = 0;; at++) {
        long before = held;
        bool done = false;
        {
            auto subject = prepare();
            {
                grants_all again;
                granted = at;
                try {
                    done = call(subject);
                } catch (const std::bad_alloc &) {
                }
            }
            if (!done) {
                stays(subject);
            }
        }
        CHECK(held == before && at < 100000);
        if (done || at == 100000) {
            return;
        }
    }
}

using owned = std::unique_ptr<std::string>;

owned text(int i) { return std::make_unique<std::string>(std::to_string(i)); }

// A map with some pairs, and the arguments of a call.
template <class K> struct given_map {
    bucket::map<K, owned> map;
    K given = key<K>(150);
    owned value = text(150);
};

template <class K> given_map<K> prepare(int pairs) {
    given_map<K> made;
    for (int i = 0; i < pairs; i++) {
        made.map.try_emplace(key<K>(i), text(i));
    }
    return made;
}

template <class K> void check_stays(const given_map<K> &subject, int pairs) {
    std::size_t seen = 0;
    for (auto &[k, value] : subject.map) {
        CHECK(*value == *subject.map.at(k));
        seen++;
    }
    CHECK(seen == static_cast<std::size_t>(pairs) && subject.map.size() == seen);
    for (int i = 0; i < pairs; i++) {
        const owned *there = subject.map.find(key<K>(i));
        CHECK(there && **there == std::to_string(i));
    }
    CHECK(!subject.map.contains(key<K>(150)) && subject.given == key<K>(150) && subject.value && *subject.value == "150");
}

template <class K, class Call> void refuse_each_on_maps(Call call) {
    // An insertion after that many pairs opens the handle, or allocates the first array, a block, or a larger array.
    for (int pairs : {0, 1, 20, 52, 53, 63, 64, 65, 104, 128}) {
        refuse_each([=] { return prepare<K>(pairs); }, call, [=](auto &subject) { check_stays(subject, pairs); });
    }
}

template <class K> void each_insertion() {
    using given = given_map<K>;
    refuse_each_on_maps<K>([](given &to) { return to.map.try_emplace(std::move(to.given), std::move(to.value)).second; });
    refuse_each_on_maps<K>([](given &to) { return to.map.insert_or_assign(std::move(to.given), std::move(to.value)).second; });
    refuse_each_on_maps<K>([](given &to) { return to.map.emplace(to.given, std::move(to.value)).second; });
    refuse_each_on_maps<K>([](given &to) { return to.map[to.given] = std::move(to.value), true; });
    refuse_each_on_maps<K>([](given &to) { return to.map.try_insert(std::move(to.given), std::move(to.value)).inserted(); });
    refuse_each_on_maps<K>([](given &to) { return to.map.try_insert_or_assign(std::move(to.given), std::move(to.value)).inserted(); });
    refuse_each_on_maps<K>([](given &to) {
        typename bucket::map<K, owned>::value_type pair(to.given, std::move(to.value));
        try {
            return to.map.insert(to.map.end(), std::move(pair))->first == to.given;
        } catch (const std::bad_alloc &) {
            to.value = std::move(pair.second);
            throw;
        }
    });
    refuse_each_on_maps<K>([](given &to) { return to.map.emplace_hint(to.map.end(), to.given, std::move(to.value)) != to.map.end(); });
    refuse_each_on_maps<K>([](given &to) { return to.map.try_reserve(10000); });
    refuse_each_on_maps<K>([](given &to) { return to.map.reserve(10000), true; });
}

// An extracted pair stays with the caller, with its present key.
template <class K> void a_node() {
    struct two {
        bucket::map<K, owned> to;
        typename bucket::map<K, owned>::node_type out;
    };
    for (int pairs : {0, 1, 20, 52, 53, 64, 128}) {
        auto made = [=] {
            two subject{prepare<K>(pairs).map, {}};
            bucket::map<K, owned> from;
            from.try_emplace(key<K>(149), text(150));
            subject.out = from.extract(key<K>(149));
            subject.out.key() = key<K>(150);
            return subject;
        };
        refuse_each(made, [](two &subject) { return subject.to.insert(std::move(subject.out)).inserted; }, [=](two &subject) {
            CHECK(subject.out && subject.out.key() == key<K>(150) && *subject.out.mapped() == "150");
            CHECK(subject.to.size() == static_cast<std::size_t>(pairs) && !subject.to.contains(key<K>(150)));
        });
    }
}

void insertions_of_nodes() {
    a_node<int>();
    a_node<std::string>();
}

// A map or a set that is made from a range, or with room.
template <class K> void a_constructor() {
    auto made = [] {
        std::vector<std::pair<K, std::string>> pairs;
        for (int i = 0; i < 100; i++) {
            pairs.emplace_back(key<K>(i), std::string(40, 'v'));
        }
        return pairs;
    };
    auto stays = [](auto &pairs) { CHECK(pairs.size() == 100 && pairs[99] == std::make_pair(key<K>(99), std::string(40, 'v'))); };
    refuse_each(made, [](auto &pairs) { return bucket::map(pairs.begin(), pairs.end()).size() == 100; }, stays);
    refuse_each(made, [](auto &pairs) { return bucket::map{pairs[1], pairs[2]}.size() == 2; }, stays);
    refuse_each(made, [](auto &pairs) { return bucket::map<K, int>(pairs.size()).empty(); }, stays);
    refuse_each(made, [](auto &pairs) { return bucket::set<K>(pairs.size()).empty(); }, stays);
    auto made_keys = [] {
        std::vector<K> keys;
        for (int i = 0; i < 100; i++) {
            keys.push_back(key<K>(i));
        }
        return keys;
    };
    refuse_each(made_keys, [](auto &keys) { return bucket::set(keys.begin(), keys.end()).size() == 100; }, [](auto &keys) {
        CHECK(keys.size() == 100 && keys[99] == key<K>(99));
    });
}

void constructors() {
    a_constructor<int>();
    a_constructor<std::string>();
}

void insertions_of_words() { each_insertion<int>(); }
void insertions_of_texts() { each_insertion<std::string>(); }

void a_key_that_is_there_takes_no_memory() {
    auto subject = prepare<std::string>(100);
    std::string longest = key<std::string>(3);
    {
        grants_all again;
        granted = 0;
        CHECK(subject.map.contains(longest) && **subject.map.find(longest) == "3" && **subject.map.try_insert(longest, nullptr).value == "3");
        CHECK(*subject.map[longest] == "3" && !subject.map.try_emplace(longest, nullptr).second);
        CHECK(!subject.map.insert_or_assign(longest, std::move(subject.value)).second);
        std::size_t seen = 0;
        for (auto &pair : subject.map) {
            seen += pair.second ? 1u : 0u;
        }
        CHECK(seen == 100 && subject.map.erase(longest) == 1 && subject.map.extract(key<std::string>(4)));
        CHECK(subject.map.erase_if([](auto &pair) { return pair.second->size() == 1; }) == 8 && subject.map.size() == 90);
        CHECK(subject.map.erase(subject.map.begin(), std::next(subject.map.begin(), 70)) == 70 && subject.map.size() == 20);
        subject.map.clear();
        bucket::map<std::string, owned> moved = std::move(subject.map), empty;
        swap(moved, empty);
        CHECK(empty.empty());
    }
}

template <class K> void a_merge() {
    struct two {
        bucket::map<K, owned> to, from;
    };
    auto made = [] {
        two subject;
        for (int i = 0; i < 100; i++) {
            subject.from.try_emplace(key<K>(i), text(i));
        }
        subject.to.try_emplace(key<K>(50), text(50));
        return subject;
    };
    auto each_is_in_one = [](two &subject) {
        CHECK(subject.to.size() + subject.from.size() == 101);
        for (int i = 0; i < 100; i++) {
            CHECK(subject.to.contains(key<K>(i)) + subject.from.contains(key<K>(i)) == (i == 50 ? 2 : 1));
        }
    };
    refuse_each(made, [](two &subject) { return subject.to.try_merge(subject.from); }, each_is_in_one);
    refuse_each(made, [](two &subject) { return subject.to.merge(subject.from), true; }, each_is_in_one);
}

void merges() {
    a_merge<int>();
    a_merge<std::string>();
}

template <class K> void a_copy() {
    auto made = [] {
        bucket::map<K, std::string> all;
        for (int i = 0; i < 100; i++) {
            all.try_emplace(key<K>(i), 40, 'v');
        }
        return all;
    };
    auto stays = [](auto &all) { CHECK(all.size() == 100 && all.at(key<K>(99)).size() == 40); };
    refuse_each(made, [](auto &all) { return all.clone() == all; }, stays);
    refuse_each(made, [](auto &all) { return all = {{key<K>(1), "1"}, {key<K>(2), "2"}}, true; }, stays);
    std::string lasting(100, 'l');
    refuse_each(made, [&](auto &all) { return bool(all.try_insert_or_assign(key<K>(3), lasting)); }, [&](auto &all) {
        stays(all);
        CHECK(all.at(key<K>(3)) == std::string(40, 'v'));
    });
}

void copies() {
    a_copy<int>();
    a_copy<std::string>();
}

template <class K> void a_set() {
    for (int keys : {0, 1, 52, 53, 64, 128}) {
        auto made = [=] {
            bucket::set<K> all;
            for (int i = 0; i < keys; i++) {
                all.insert(key<K>(i));
            }
            return all;
        };
        auto stays = [=](auto &all) {
            CHECK(all.size() == static_cast<std::size_t>(keys) && !all.contains(key<K>(150)) &&
                  std::distance(all.begin(), all.end()) == keys);
        };
        K given = key<K>(150);
        refuse_each(made, [&](auto &all) { return all.insert(given).second; }, stays);
        refuse_each(made, [&](auto &all) { return all.try_insert(given) == bucket::outcome::inserted; }, stays);
        refuse_each(made, [&](auto &all) { return all.try_reserve(10000); }, stays);
        refuse_each(made, [&](auto &all) { return all.clone() == all; }, stays);
        refuse_each(made, [&](auto &all) { return all.erase_if([](auto &) { return true; }), true; }, stays);
        refuse_each(made, [&](auto &all) { return all.erase(all.begin(), all.end()), true; }, stays);
        refuse_each(made, [&](auto &all) { return *all.insert(all.end(), given) == given; }, stays);
        auto both = [=] {
            auto other = made();
            other.insert(given);
            return std::make_pair(made(), std::move(other));
        };
        refuse_each(both, [](auto &all) { return all.first.try_merge(all.second); }, [=](auto &all) {
            CHECK(all.first.size() + all.second.size() == static_cast<std::size_t>(2 * keys + 1));
            CHECK(all.first.contains(given) != all.second.contains(given));
        });
    }
}

void sets() {
    a_set<int>();
    a_set<std::string>();
}

template <class K> void a_cache() {
    struct given_cache {
        bucket::cache<K, owned> cache{256};
        K given = key<K>(150);
        owned value = text(150);
    };
    for (int pairs : {0, 1, 30, 60, 100, 149}) {
        auto made = [=] {
            given_cache subject;
            for (int i = 0; i < pairs; i++) {
                subject.cache.put(key<K>(i), text(i));
            }
            return subject;
        };
        std::size_t before = made().cache.size();
        auto stays = [=](given_cache &subject) {
            std::size_t seen = 0;
            for (auto &[k, value] : subject.cache) {
                CHECK(k == key<K>(std::stoi(*value)));
                seen++;
            }
            CHECK(seen == subject.cache.size() && (seen == before || pairs > 30) && subject.given == key<K>(150));
            CHECK(subject.value && *subject.value == "150" && !subject.cache.contains(subject.given));
        };
        refuse_each(made, [](auto &to) { return to.cache.put(std::move(to.given), std::move(to.value)), true; }, stays);
        refuse_each(made, [](auto &to) { return bool(to.cache.try_put(std::move(to.given), std::move(to.value))); }, stays);
    }
}

// How many allocations a call makes.
template <class Call> long asked_by(Call call) {
    long before = asked;
    call();
    return asked - before;
}

// Pairs come in the order of the slots. With the same seed they would collide in the first buckets of a growing table, whose overflow
// chains are allocations.
template <class K> void a_map_of_a_map(std::optional<bucket::seed> by) {
    using map = bucket::map<K, int>;
    map all(0, by);
    long filling = asked_by([&] {
        for (int i = 0; i < 2500; i++) {
            all.try_emplace(key<K>(i), i);
        }
    });
    auto one = [=] {
        map made(0, by);
        made.try_emplace(key<K>(-1), -1);
        return made;
    };
    map from = all.clone(), to = one(), more = one();
    CHECK(asked_by([&] { CHECK(all.clone() == all); }) < filling);
    CHECK(asked_by([&] { CHECK(map(all.begin(), all.end(), by) == all); }) < filling);
    CHECK(asked_by([&] { to.insert(all.begin(), all.end()); }) < filling && to.size() == 2501);
    CHECK(asked_by([&] { more.merge(from); }) < filling - 2500);
    CHECK(more.size() == 2501 && from.empty());
    map again;
    auto loop = [&] {
        for (auto &[k, value] : all) {
            again.try_emplace(k, value);
        }
    };
    CHECK(asked_by(loop) < filling + 200);
}

template <class K> void a_set_of_a_set(std::optional<bucket::seed> by) {
    using set = bucket::set<K>;
    set all(0, by);
    long filling = asked_by([&] {
        for (int i = 0; i < 2500; i++) {
            all.insert(key<K>(i));
        }
    });
    set from = all.clone(), to(0, by), more(0, by), either(0, by);
    CHECK(to.insert(key<K>(-1)) && more.insert(key<K>(-1)) && either.insert(key<K>(-1)));
    CHECK(asked_by([&] { CHECK(all.clone() == all); }) < filling);
    CHECK(asked_by([&] { CHECK(set(all.begin(), all.end(), by) == all); }) < filling);
    CHECK(asked_by([&] { to.insert(all.begin(), all.end()); }) < filling && to.size() == 2501);
    CHECK(asked_by([&] { either |= all; }) < filling && either.size() == 2501);
    CHECK(asked_by([&] { more.merge(from); }) < filling && more.size() == 2501 && from.empty());
}

void copies_of_many() {
    using maybe = std::optional<bucket::seed>;
    for (maybe by : {maybe(), maybe(bucket::fixed_seed), maybe({5, 6})}) {
        a_map_of_a_map<int>(by);
        a_map_of_a_map<std::string>(by);
        a_set_of_a_set<int>(by);
        a_set_of_a_set<std::string>(by);
    }
}

// A range may have a key many times, so failing to make room for it is not an error.
void a_range_finds_its_room() {
    const std::vector<std::pair<int, int>> same(100, {7, 7});
    long without = 0;
    for (long at = 0; at < 4; at++) {
        bucket::map<int, int> map(bucket::fixed_seed);
        before_one = at;
        try {
            map.insert(same.begin(), same.end());
            without += before_one == -1 && map.capacity() < 100 ? 1 : 0;
            CHECK(map.size() == 1);
        } catch (const std::bad_alloc &) {
            CHECK(map.empty());
        }
        before_one = -1;
    }
    CHECK(without > 0);
}

void caches() {
    a_cache<int>();
    a_cache<std::string>();
}

const tests::story stories[] = {
    {"an insertion into a map of words that fails changes nothing", insertions_of_words},
    {"an insertion into a map of texts that fails changes nothing", insertions_of_texts},
    {"an extracted pair stays with the caller if it can't be inserted", insertions_of_nodes},
    {"a failing constructor of a range or with room leaks nothing", constructors},
    {"a present key, an iteration, an erasure and a move allocate nothing", a_key_that_is_there_takes_no_memory},
    {"a failing merge loses no pair", merges},
    {"a copy or an assignment that fails changes nothing", copies},
    {"a call of a set that fails changes nothing", sets},
    {"a put that fails changes nothing", caches},
    {"a copy allocates no more than the filling did", copies_of_many},
    {"a range with one key many times allocates for one pair only", a_range_finds_its_room},
};

} // namespace

int main() { return tests::play(stories); }
