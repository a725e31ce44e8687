/// Containers of C++17 over the proved tables of bucket.h: bucket::map<K, V>, bucket::set<K> and bucket::cache<K, V>.
///
///     bucket::map<std::string, std::vector<int>> lines;
///     lines["ann"].push_back(7);
///     if (auto *found = lines.find("ann")) std::cout << found->size() << '\n';
///     for (auto &[word, numbers] : lines) std::cout << word << '\n';
///
/// Link libbucket.a or libbucket.so. K is an integral type or an enum of at most 64 bits, or std::string; V is any object type.
///
///   - A container can be moved, but not copied: clone() makes a copy. A container that was moved from is empty, and usable.
///   - A pair stays at its address until it is erased: pointers and references to it remain valid through all other calls. Iterators
///     don't: a call that inserts or erases invalidates them, and so does a move or swap of the container.
///   - If allocation fails, a call throws std::bad_alloc, and a `try_` call reports it in its result instead. Nothing has changed
///     then, and what was to be inserted is still with the caller, unless the call's comment says otherwise.
///   - If a constructor, a move or a predicate of yours throws, the exception propagates and no pair is lost. The container is valid
///     whenever your code is called: pairs are unlinked before they are destroyed. A constructor of a value may insert the value's own
///     key: that pair stays, and the one that was being built is destroyed.
///   - One call at a time on a container, including reads: a lock orders the calls of two threads.
///   - Keys are hashed by SipHash-1-3, with a seed from the operating system unless you give one. The first insertion draws it, and
///     throws std::system_error if the system has none. If no attacker chooses the keys, bucket::fixed_seed makes look-ups faster.
///
/// Costs are expected costs; n is the number of slots, about 1.2 to 8 per pair.
#ifndef BUCKET_HPP
#define BUCKET_HPP

#include "bucket.h"

#include <algorithm>
#include <atomic>
#include <cerrno>
#include <cstddef>
#include <cstdint>
#include <initializer_list>
#include <iterator>
#include <memory>
#include <new>
#include <optional>
#include <stdexcept>
#include <string>
#include <string_view>
#include <system_error>
#include <tuple>
#include <type_traits>
#include <utility>
#include <vector>

#include <sys/random.h>

namespace bucket {

/// The 16 bytes of a seed for the hash of keys.
using seed = bucket_seed;

/// The seed of a faster hash, with which an attacker can choose keys that collide in one bucket.
inline constexpr seed fixed_seed{0, 0};

/// The outcome of an insertion that doesn't throw.
enum class [[nodiscard]] outcome {
    inserted, ///< the key was absent
    present,  ///< the key was there
    no_memory ///< allocation failed, and nothing has changed
};

/// The outcome of a `try_` insertion into a map, and a pointer to the value.
template <class V> struct [[nodiscard]] attempt {
    bucket::outcome outcome = bucket::outcome::no_memory;
    V *value = nullptr; ///< null if allocation failed

    /// Whether the value is present; false if allocation failed.
    explicit operator bool() const noexcept { return value != nullptr; }
    /// Whether the key was absent, and is present now.
    bool inserted() const noexcept { return outcome == bucket::outcome::inserted; }
};

template <class K, class V> class taken;
template <class K, class V> class map;
template <class K> class set;
template <class K, class V> class cache;

namespace detail {

// A key as the tables see it: a word, or bytes.

inline const std::uint8_t *bytes_of(std::string_view key) noexcept {
    return reinterpret_cast<const std::uint8_t *>(key.data());
}

// A text key that is passed in: a look-up doesn't copy it, and an rvalue is moved from if it is inserted.
class text_key {
  public:
    text_key(std::string &&key) noexcept : view_(key), given_(&key) {}
    template <class S, std::enable_if_t<std::is_convertible_v<const S &, std::string_view>, int> = 0>
    text_key(const S &key) : view_(key) {}

    std::string_view view() const noexcept { return view_; }
    std::string own(bool may_move) const { return given_ && may_move ? std::move(*given_) : std::string(view_); }

  private:
    std::string_view view_;
    std::string *given_ = nullptr;
};

// `view` is the type that a table looks up; `looked_up` and `given` are the parameter types of look-ups and of insertions.
template <class K> struct key_traits {
    static_assert((std::is_integral_v<K> || std::is_enum_v<K>) && sizeof(K) <= 8 && std::is_same_v<K, std::remove_cv_t<K>>,
                  "bucket: a key is an integral type or an enum of at most 64 bits, or std::string");
    using view = std::uint64_t;
    using looked_up = K;
    using given = K;

    static view view_of(K key) noexcept { return static_cast<view>(key); }
    static view view_given(K key) noexcept { return view_of(key); }
    static K own(K key, bool) noexcept { return key; }
    static K key_of(view word) noexcept {
        if constexpr (std::is_enum_v<K>) {
            return static_cast<K>(static_cast<std::underlying_type_t<K>>(word));
        } else {
            return static_cast<K>(word);
        }
    }
};

template <> struct key_traits<std::string> {
    using view = std::string_view;
    using looked_up = std::string_view;
    using given = text_key;

    static view view_of(std::string_view key) noexcept { return key; }
    static view view_given(const text_key &key) noexcept { return key.view(); }
    static std::string own(const text_key &key, bool may_move) { return key.own(may_move); }
};

// False if the call throws std::bad_alloc.
template <class Call> bool unless_refused(Call call) {
    try {
        call();
        return true;
    } catch (const std::bad_alloc &) {
        return false;
    }
}

// Whether a range with such iterators can be read twice.
template <class It, class Tag = typename std::iterator_traits<It>::iterator_category>
inline constexpr bool is_read_twice = std::is_base_of_v<std::forward_iterator_tag, Tag>;

template <class It> using needs_iterator = typename std::iterator_traits<It>::iterator_category;
template <class It> using item_of = typename std::iterator_traits<It>::value_type;
template <class It> using key_in = std::remove_const_t<typename item_of<It>::first_type>;
template <class It> using value_in = typename item_of<It>::second_type;

// The calls of the kinds with one word per key.

struct map_calls {
    static std::uint32_t open(bucket_handle *to, std::size_t room, seed by, std::uint64_t) {
        return bucket_map_new(to, room, by);
    }
    static std::uint32_t open(bucket_handle *to, std::size_t room, seed by, std::string_view) {
        return bucket_text_map_new(to, room, by);
    }
    static std::uint32_t find(const bucket_handle *in, std::uint64_t key, std::uint64_t *held) {
        return bucket_map_get(in, key, held);
    }
    static std::uint32_t find(const bucket_handle *in, std::string_view key, std::uint64_t *held) {
        return bucket_text_map_get(in, bytes_of(key), key.size(), held);
    }
    static std::uint32_t find_or_insert(bucket_handle *in, std::uint64_t key, std::uint64_t held, std::uint64_t *there) {
        return bucket_map_get_or_insert(in, key, held, there);
    }
    static std::uint32_t find_or_insert(bucket_handle *in, std::string_view key, std::uint64_t held, std::uint64_t *there) {
        return bucket_text_map_get_or_insert(in, bytes_of(key), key.size(), held, there);
    }
    static std::uint32_t write(bucket_handle *in, std::uint64_t key, std::uint64_t held, std::uint64_t *before) {
        return bucket_map_upsert(in, key, held, before);
    }
    static std::uint32_t write(bucket_handle *in, std::string_view key, std::uint64_t held, std::uint64_t *before) {
        return bucket_text_map_upsert(in, bytes_of(key), key.size(), held, before);
    }
    static std::uint32_t remove(bucket_handle *in, std::uint64_t key, std::uint64_t *held) {
        return bucket_map_remove(in, key, held);
    }
    static std::uint32_t remove(bucket_handle *in, std::string_view key, std::uint64_t *held) {
        return bucket_text_map_remove(in, bytes_of(key), key.size(), held);
    }
    static std::uint32_t remove_if_equal(bucket_handle *in, std::uint64_t key, std::uint64_t held, std::uint64_t *other) {
        return bucket_map_remove_if_equal(in, key, held, other);
    }
    static std::uint32_t remove_if_equal(bucket_handle *in, std::string_view key, std::uint64_t held, std::uint64_t *other) {
        return bucket_text_map_remove_if_equal(in, bytes_of(key), key.size(), held, other);
    }
};

struct cache_calls {
    static std::uint32_t open(bucket_handle *to, std::size_t room, seed by, std::uint64_t) {
        return bucket_cache_new(to, 0, room, by);
    }
    static std::uint32_t open(bucket_handle *to, std::size_t room, seed by, std::string_view) {
        return bucket_text_cache_new(to, 0, room, by);
    }
    static std::uint32_t find(const bucket_handle *in, std::uint64_t key, std::uint64_t *held) {
        return bucket_cache_peek(in, key, held);
    }
    static std::uint32_t find(const bucket_handle *in, std::string_view key, std::uint64_t *held) {
        return bucket_text_cache_peek(in, bytes_of(key), key.size(), held);
    }
    static std::uint32_t touch(bucket_handle *in, std::uint64_t key, std::uint64_t *held) {
        return bucket_cache_get(in, key, held);
    }
    static std::uint32_t touch(bucket_handle *in, std::string_view key, std::uint64_t *held) {
        return bucket_text_cache_get(in, bytes_of(key), key.size(), held);
    }
    static std::uint32_t write(bucket_handle *in, std::uint64_t key, std::uint64_t held, std::uint64_t *before) {
        std::uint64_t gone = 0;
        return bucket_cache_upsert(in, key, held, &gone, before);
    }
    static std::uint32_t write(bucket_handle *in, std::string_view key, std::uint64_t held, std::uint64_t *before) {
        std::size_t len = 0;
        return bucket_text_cache_upsert(in, bytes_of(key), key.size(), held, nullptr, 0, &len, before);
    }
    static std::uint32_t remove(bucket_handle *in, std::uint64_t key, std::uint64_t *held) {
        return bucket_cache_remove(in, key, held);
    }
    static std::uint32_t remove(bucket_handle *in, std::string_view key, std::uint64_t *held) {
        return bucket_text_cache_remove(in, bytes_of(key), key.size(), held);
    }
};

inline seed drawn_seed() {
    seed drawn{0, 0};
    if (getentropy(&drawn, sizeof drawn) != 0) {
        throw std::system_error(errno, std::generic_category(), "bucket: no random seed");
    }
    return drawn;
}

// A separate seed for each container: one draw per process, plus a counter.
inline seed next_seed() {
    static const seed first = drawn_seed();
    static std::atomic<std::uint64_t> count{0};
    return {first.key0 + count.fetch_add(1, std::memory_order_relaxed), first.key1};
}

// A handle, how many keys it holds, and what it is opened with. It stays closed until the first insertion, so that neither a default
// constructor nor a move allocates.
class holder {
  public:
    using size_type = std::size_t;
    using difference_type = std::ptrdiff_t;

    /// Returns the number of pairs or keys. O(1).
    size_type size() const noexcept { return size_; }
    /// Returns whether there are none. O(1).
    [[nodiscard]] bool empty() const noexcept { return size_ == 0; }
    /// Returns the number of slots. O(1).
    size_type capacity() const noexcept { return bucket_capacity(&handle_); }

  protected:
    holder() noexcept = default;
    holder(size_type room, std::optional<seed> by) noexcept : seed_(by), room_(room) {}
    holder(holder &&other) noexcept
        : handle_(std::exchange(other.handle_, bucket_handle{})), size_(std::exchange(other.size_, 0)), seed_(other.seed_),
          room_(other.room_) {}
    holder &operator=(holder &&) = delete;
    ~holder() = default;

    void swap_held(holder &other) noexcept {
        std::swap(handle_, other.handle_);
        std::swap(size_, other.size_);
        std::swap(seed_, other.seed_);
        std::swap(room_, other.room_);
    }

    static std::uint32_t checked(std::uint32_t code) {
        if (code == BUCKET_NO_MEMORY) {
            throw std::bad_alloc();
        }
        return code;
    }

    template <class Open, class Call> std::uint32_t on_open(Open open, Call call) {
        std::uint32_t code = call();
        if (code == BUCKET_CLOSED) {
            checked(open(seed_ ? *seed_ : next_seed()));
            code = call();
        }
        return checked(code);
    }

    // Up to this many keys, no room is made in advance.
    static constexpr size_type few = 32;

    bucket_handle handle_{};
    size_type size_ = 0;
    std::optional<seed> seed_;
    size_type room_ = 0;
};

// A pair, or a text key of a set, on the heap; the table stores its address. `link` is used only within one call, to list nodes without
// allocating.
template <class Item> struct node {
    template <class... A> explicit node(A &&...from) : item(std::forward<A>(from)...) {}
    Item item;
    node *link = nullptr;
};

// The shape of a node of a map or a cache, and of a set of texts.

template <class K, class V> struct pair_shape {
    static_assert(std::is_object_v<V> && !std::is_array_v<V> && std::is_same_v<V, std::remove_cv_t<V>>,
                  "bucket: a value is an object, neither const nor an array");
    using key = K;
    using item = std::pair<const K, V>;

    static const K &key_of(const item &of) noexcept { return of.first; }

    // The key is moved from only if nothing can throw afterwards.
    template <class Given, class... A> static node<item> *make(const Given &given, A &&...from) {
        return new node<item>(std::piecewise_construct,
                              std::forward_as_tuple(key_traits<K>::own(given, std::is_nothrow_constructible_v<V, A...>)),
                              std::forward_as_tuple(std::forward<A>(from)...));
    }
};

template <class K> struct key_shape {
    using key = K;
    using item = const K;

    static const K &key_of(const item &of) noexcept { return of; }
    template <class Given> static node<item> *make(const Given &given) {
        return new node<item>(key_traits<K>::own(given, true));
    }
};

template <class Item> std::uint64_t word_of(const node<Item> *at) noexcept {
    return static_cast<std::uint64_t>(reinterpret_cast<std::uintptr_t>(at));
}

// An odd word isn't a node: it reserves the place of a pair that is being built.
template <class Item> node<Item> *node_of(std::uint64_t word) noexcept {
    return word % 2 == 0 ? reinterpret_cast<node<Item> *>(static_cast<std::uintptr_t>(word)) : nullptr;
}

// Reads the nodes of a table in pieces, in slot order, without allocating.
template <class Item> class reading {
  public:
    reading() noexcept = default;
    explicit reading(const bucket_handle *in) noexcept : in_(in) { refill(); }
    // For one node only.
    explicit reading(const node<Item> *only) noexcept : count_(1) { words_[0] = word_of(only); }
    reading(const reading &other) noexcept { *this = other; }
    reading &operator=(const reading &other) noexcept {
        in_ = other.in_;
        place_ = other.place_;
        at_ = other.at_;
        count_ = other.count_;
        std::copy(other.words_ + at_, other.words_ + count_, words_ + at_);
        return *this;
    }
    ~reading() = default;

    // Null at the end.
    node<Item> *current() const noexcept { return at_ < count_ ? node_of<Item>(words_[at_]) : nullptr; }
    void next() noexcept {
        if (++at_ == count_) {
            refill();
        }
    }

  private:
    void refill() noexcept {
        do {
            at_ = count_ = 0;
            if (!in_ || bucket_values(in_, &place_, words_, room, &count_) != BUCKET_OK) {
                count_ = 0;
                return;
            }
            count_ = static_cast<std::size_t>(std::remove_if(words_, words_ + count_, [](auto word) { return word % 2 != 0; }) - words_);
        } while (count_ == 0);
    }

    static constexpr std::size_t room = 64;
    const bucket_handle *in_ = nullptr;
    bucket_place place_ = BUCKET_START;
    std::size_t at_ = 0;
    std::size_t count_ = 0;
    std::uint64_t words_[room];
};

// A forward iterator; Seen is Item or const Item.
template <class Item, class Seen> class node_iterator {
  public:
    using iterator_category = std::forward_iterator_tag;
    using value_type = std::remove_const_t<Item>;
    using difference_type = std::ptrdiff_t;
    using pointer = Seen *;
    using reference = Seen &;

    node_iterator() noexcept = default;
    explicit node_iterator(const bucket_handle *in) noexcept : reading_(in) {}
    explicit node_iterator(const node<Item> *only) noexcept : reading_(only) {}
    template <class Other, std::enable_if_t<std::is_same_v<const Other, Seen> && !std::is_same_v<Other, Seen>, int> = 0>
    node_iterator(const node_iterator<Item, Other> &other) noexcept : reading_(other.reading_) {}

    reference operator*() const noexcept { return reading_.current()->item; }
    pointer operator->() const noexcept { return &reading_.current()->item; }
    node_iterator &operator++() noexcept {
        reading_.next();
        return *this;
    }
    node_iterator operator++(int) noexcept {
        node_iterator before = *this;
        reading_.next();
        return before;
    }
    friend bool operator==(const node_iterator &a, const node_iterator &b) noexcept {
        return a.reading_.current() == b.reading_.current();
    }
    friend bool operator!=(const node_iterator &a, const node_iterator &b) noexcept { return !(a == b); }

  private:
    template <class, class> friend class node_iterator;
    template <class, class> friend class nodes;
    reading<Item> reading_;
};

// The members that maps, caches and sets of texts share.
template <class Shape, class Calls> class nodes : public holder {
  public:
    using key_type = typename Shape::key;
    using iterator = node_iterator<typename Shape::item, typename Shape::item>;
    using const_iterator = node_iterator<typename Shape::item, const typename Shape::item>;
    /// The type of look-up arguments: std::string_view for texts, so that no key is copied.
    using key_view = typename key_traits<key_type>::looked_up;

    /// The pairs or keys, in an order that any insertion or erasure changes. All steps together O(n), without allocating.
    iterator begin() noexcept { return iterator(&handle_); }
    /// The same.
    const_iterator begin() const noexcept { return const_iterator(&handle_); }
    /// The same.
    const_iterator cbegin() const noexcept { return begin(); }
    /// The end.
    iterator end() noexcept { return iterator(); }
    /// The same.
    const_iterator end() const noexcept { return const_iterator(); }
    /// The same.
    const_iterator cend() const noexcept { return end(); }

    /// Returns whether a key is present. O(1).
    bool contains(key_view key) const noexcept { return look(traits::view_of(key)) != nullptr; }
    /// Returns 1 if a key is present, else 0. O(1).
    size_type count(key_view key) const noexcept { return contains(key) ? 1 : 0; }

    /// Erases a key, and returns how many were erased: 0 or 1. Allocates nothing. O(1).
    size_type erase(key_view key) {
        std::unique_ptr<node_type> gone(unlink(traits::view_of(key)));
        return gone ? 1 : 0;
    }
    /// Erases a range, and returns how many were erased. Allocates nothing. O(n).
    size_type erase(const_iterator first, const_iterator last) {
        node_type *doomed = nullptr;
        for (; first != last; ++first) {
            node_type *at = first.reading_.current();
            at->link = std::exchange(doomed, at);
        }
        return erase_listed(doomed);
    }

    /// Erases everything for which a predicate holds, and returns how many were erased. Allocates nothing. The predicate must not change
    /// the container. It judges all before one is erased, so if it throws, all stay. O(n).
    /// judged all before one is erased, so if it throws, all stay. O(n).
    template <class Pred> size_type erase_if(Pred pred) {
        node_type *doomed = nullptr;
        for (reading<item> all(&handle_); node_type *at = all.current(); all.next()) {
            if (pred(at->item)) {
                at->link = std::exchange(doomed, at);
            }
        }
        return erase_listed(doomed);
    }

    /// Erases everything; the seed and the slots stay. The shrink_to_fit of a map frees the slots. Allocates nothing. O(n).
    void clear() noexcept {
        node_type *all = list();
        size_ = 0;
        static_cast<void>(bucket_clear(&handle_));
        drop(all);
    }

  protected:
    using traits = key_traits<key_type>;
    using view = typename traits::view;
    using item = typename Shape::item;
    using node_type = node<item>;

    nodes() noexcept = default;
    nodes(size_type room, std::optional<seed> by) noexcept : holder(room, by) {}
    nodes(nodes &&) noexcept = default;
    nodes &operator=(nodes &&other) noexcept {
        nodes moved(std::move(other));
        swap_held(moved);
        return *this;
    }
    ~nodes() {
        node_type *all = list();
        bucket_free(&handle_);
        drop(all);
    }

    static view view_of(const node_type &of) noexcept { return traits::view_of(Shape::key_of(of.item)); }

    // Makes a call, after opening the handle if it is closed.
    template <class Call> std::uint32_t on_open(Call call) {
        return holder::on_open([&](seed by) { return Calls::open(&handle_, room_, by, view()); }, call);
    }

    node_type *look(view key) const noexcept {
        std::uint64_t held = 0;
        return Calls::find(&handle_, key, &held) == BUCKET_OK ? node_of<item>(held) : nullptr;
    }

    // Takes a node out of the table, and returns it, or null.
    node_type *unlink(view key) noexcept {
        std::uint64_t held = 0;
        node_type *gone = Calls::remove(&handle_, key, &held) == BUCKET_OK ? node_of<item>(held) : nullptr;
        size_ -= gone ? 1 : 0;
        return gone;
    }

    node_type *list() const noexcept {
        node_type *all = nullptr;
        for (reading<item> each(&handle_); node_type *at = each.current(); each.next()) {
            at->link = std::exchange(all, at);
        }
        return all;
    }

    // All are removed from the table before one is destroyed.
    size_type erase_listed(node_type *listed) noexcept {
        for (node_type *at = listed; at; at = at->link) {
            unlink(view_of(*at));
        }
        return drop(listed);
    }

    static size_type drop(node_type *listed) noexcept {
        size_type count = 0;
        for (; listed; count++) {
            delete std::exchange(listed, listed->link);
        }
        return count;
    }

    // Inserts a word, and returns null; or returns the node that has the key.
    node_type *enter(view key, std::uint64_t word) {
        std::uint64_t held = 0;
        std::uint32_t code = on_open([&] { return Calls::find_or_insert(&handle_, key, word, &held); });
        node_type *there = code == BUCKET_PRESENT ? node_of<item>(held) : nullptr;
        if (code == BUCKET_PRESENT && !there) {
            // A constructor of the pair inserted the pair's own key: this call wins.
            checked(Calls::write(&handle_, key, word, &held));
        }
        return there;
    }

    // Inserts a node; or returns the one that has its key, and false.
    std::pair<node_type *, bool> link(node_type *at) {
        if (node_type *there = enter(view_of(*at), word_of(at))) {
            return {there, false};
        }
        size_++;
        return {at, true};
    }

    // Reserves the place of a key in the table by an odd word, until its pair is built.
    class claim {
      public:
        claim(nodes &in, view key) : in_(in), key_(key), there_(in.enter(key, word())), is_held_(there_ == nullptr) {}
        claim(const claim &) = delete;
        claim &operator=(const claim &) = delete;
        ~claim() {
            std::uint64_t other = 0;
            if (is_held_) {
                Calls::remove_if_equal(&in_.handle_, key_, word(), &other);
            }
        }

        // The node that had the key before, or null.
        node_type *there() const noexcept { return there_; }

        // Builds the pair from the rest. The pair gets the place, unless its constructor has inserted the key: then that pair stays.
        template <class Given, class... A> std::pair<node_type *, bool> fill(const Given &given, A &&...from) {
            std::unique_ptr<node_type> made(Shape::make(given, std::forward<A>(from)...));
            is_held_ = false;
            std::uint64_t before = 1, ours = 0;
            std::uint32_t code = in_.on_open([&] { return Calls::write(&in_.handle_, view_of(*made), word_of(made.get()), &before); });
            if (node_type *other = code == BUCKET_PRESENT ? node_of<item>(before) : nullptr) {
                checked(Calls::write(&in_.handle_, view_of(*other), before, &ours));
                return {other, false};
            }
            in_.size_++;
            return {made.release(), true};
        }

      private:
        std::uint64_t word() const noexcept { return static_cast<std::uint64_t>(reinterpret_cast<std::uintptr_t>(this)) | 1; }

        nodes &in_;
        view key_;
        node_type *there_;
        bool is_held_;
    };

    // Builds a pair from the rest, if the key is absent; returns where the pair is, and whether it was built. All memory of the table is
    // allocated before anything is moved from.
    // before anything is moved from.
    template <class Given, class... A> std::pair<node_type *, bool> build(const Given &given, A &&...from) {
        claim place(*this, traits::view_given(given));
        if (node_type *there = place.there()) {
            return {there, false};
        }
        return place.fill(given, std::forward<A>(from)...);
    }

    // Moves over the nodes whose keys are absent here. If allocation fails, each node is in one of the two.
    void merge_from(nodes &other) {
        if (this == &other) {
            return;
        }
        expect(other.size());
        for (node_type *at = other.list(); at; at = at->link) {
            if (link(at).second) {
                other.unlink(view_of(*at));
            }
        }
    }

    void make_room(size_type for_all) {
        if (for_all > size_) {
            on_open([&] { return bucket_reserve(&handle_, for_all - size_); });
        }
    }

    // Makes room for many keys that come. If they come in the order of another container's slots, with its seed, they would all collide
    // in the first buckets of a table that grows while it is filled.
    void expect(size_type for_all) {
        if (for_all > few) {
            make_room(for_all);
        }
    }
    // The same for a range. It may have a key many times, so failing to make room is not an error.
    template <class It> void expect(It first, It last) {
        if constexpr (is_read_twice<It>) {
            auto count = static_cast<size_type>(std::distance(first, last));
            static_cast<void>(unless_refused([&] { expect(count); }));
        }
    }
};

// An input iterator over the keys of a set of words, which it returns by value.
template <class K> class word_iterator {
  public:
    using iterator_category = std::input_iterator_tag;
    using value_type = K;
    using difference_type = std::ptrdiff_t;
    using pointer = const K *;
    using reference = K;

    word_iterator() noexcept = default;
    explicit word_iterator(const bucket_handle *in) noexcept : in_(in) { refill(); }
    // For one key only.
    explicit word_iterator(K only) noexcept : count_(1) { pairs_[0] = {key_traits<K>::view_of(only), 0}; }
    word_iterator(const word_iterator &other) noexcept { *this = other; }
    word_iterator &operator=(const word_iterator &other) noexcept {
        in_ = other.in_;
        place_ = other.place_;
        at_ = other.at_;
        count_ = other.count_;
        std::copy(other.pairs_ + at_, other.pairs_ + count_, pairs_ + at_);
        return *this;
    }
    ~word_iterator() = default;

    K operator*() const noexcept { return key_traits<K>::key_of(pairs_[at_].key); }
    word_iterator &operator++() noexcept {
        if (++at_ == count_) {
            refill();
        }
        return *this;
    }
    word_iterator operator++(int) noexcept {
        word_iterator before = *this;
        ++*this;
        return before;
    }
    friend bool operator==(const word_iterator &a, const word_iterator &b) noexcept {
        bool a_ends = a.at_ == a.count_, b_ends = b.at_ == b.count_;
        return a_ends || b_ends ? a_ends == b_ends : a.pairs_[a.at_].key == b.pairs_[b.at_].key;
    }
    friend bool operator!=(const word_iterator &a, const word_iterator &b) noexcept { return !(a == b); }

  private:
    void refill() noexcept {
        at_ = count_ = 0;
        if (!in_ || bucket_read(in_, &place_, pairs_, room, &count_) != BUCKET_OK) {
            count_ = 0;
        }
    }

    static constexpr std::size_t room = 32;
    const bucket_handle *in_ = nullptr;
    bucket_place place_ = BUCKET_START;
    std::size_t at_ = 0;
    std::size_t count_ = 0;
    bucket_pair pairs_[room];
};

// The members of sets of words, like `nodes` for texts.
template <class K> class words : public holder {
  public:
    using key_type = K;
    using iterator = word_iterator<K>;
    using const_iterator = iterator;
    /// The type of look-up arguments.
    using key_view = K;

    /// The keys, in an order that any insertion or erasure changes. All steps together O(n), without allocating.
    iterator begin() const noexcept { return iterator(&handle_); }
    /// The same.
    iterator cbegin() const noexcept { return begin(); }
    /// The end.
    iterator end() const noexcept { return iterator(); }
    /// The same.
    iterator cend() const noexcept { return end(); }

    /// Returns whether a key is present. O(1).
    bool contains(K key) const noexcept { return bucket_set_contains(&handle_, traits::view_of(key)) == BUCKET_OK; }
    /// Returns 1 if a key is present, else 0. O(1).
    size_type count(K key) const noexcept { return contains(key) ? 1 : 0; }

    /// Erases a key, and returns how many were erased: 0 or 1. Allocates nothing. O(1).
    size_type erase(K key) noexcept {
        size_type gone = bucket_set_remove(&handle_, traits::view_of(key)) == BUCKET_OK ? 1 : 0;
        size_ -= gone;
        return gone;
    }
    /// Erases a range, and returns how many were erased. If a list of them can't be allocated, all stay. O(n).
    size_type erase(const_iterator first, const_iterator last) { return erase_listed(std::vector<K>(first, last)); }

    /// Erases everything for which a predicate holds, and returns how many were erased. The predicate must not change the set. It judges
    /// all before one is erased, so if it throws, or a list of the keys to erase can't be allocated, all stay. O(n).
    template <class Pred> size_type erase_if(Pred pred) {
        std::vector<K> doomed;
        for (const K key : *this) {
            if (pred(key)) {
                doomed.push_back(key);
            }
        }
        return erase_listed(doomed);
    }

    /// Erases everything; the seed and the slots stay. shrink_to_fit frees the slots. Allocates nothing. O(n).
    void clear() noexcept {
        static_cast<void>(bucket_clear(&handle_));
        size_ = 0;
    }

  protected:
    using traits = key_traits<K>;

    words() noexcept = default;
    words(size_type room, std::optional<seed> by) noexcept : holder(room, by) {}
    words(words &&) noexcept = default;
    words &operator=(words &&other) noexcept {
        words moved(std::move(other));
        swap_held(moved);
        return *this;
    }
    ~words() { bucket_free(&handle_); }

    template <class Call> std::uint32_t on_open(Call call) {
        return holder::on_open([&](seed by) { return bucket_set_new(&handle_, by); }, call);
    }

    size_type erase_listed(const std::vector<K> &doomed) noexcept {
        for (K key : doomed) {
            erase(key);
        }
        return doomed.size();
    }

    std::pair<K, bool> build(K key) {
        bool is_new = on_open([&] { return bucket_set_insert(&handle_, traits::view_of(key)); }) == BUCKET_OK;
        size_ += is_new ? 1 : 0;
        return {key, is_new};
    }

    void make_room(size_type for_all) {
        if (for_all > size_) {
            on_open([&] { return bucket_reserve(&handle_, for_all - size_); });
        }
    }

    // Makes room for many keys that come. If they come in the order of another container's slots, with its seed, they would all collide
    // in the first buckets of a table that grows while it is filled.
    void expect(size_type for_all) {
        if (for_all > few) {
            make_room(for_all);
        }
    }
    // The same for a range. It may have a key many times, so failing to make room is not an error.
    template <class It> void expect(It first, It last) {
        if constexpr (is_read_twice<It>) {
            auto count = static_cast<size_type>(std::distance(first, last));
            static_cast<void>(unless_refused([&] { expect(count); }));
        }
    }

    // The list of what moves is allocated before anything moves.
    void merge_from(words &other) {
        if (this == &other) {
            return;
        }
        expect(other.size());
        std::vector<K> moved;
        moved.reserve(other.size());
        std::copy(other.begin(), other.end(), std::back_inserter(moved));
        for (K key : moved) {
            if (build(key).second) {
                other.erase(key);
            }
        }
    }
};

template <class K>
inline constexpr bool is_read_twice<word_iterator<K>, std::input_iterator_tag> = true;

template <class K>
using keys = std::conditional_t<std::is_same_v<K, std::string>, nodes<key_shape<std::string>, map_calls>, words<K>>;

} // namespace detail

/// A pair that was taken out of its container, or none. It owns the pair, which hasn't moved: pointers to it remain valid. It is used
/// like a std::optional of the pair, and converts to one.
template <class K, class V> class taken {
  public:
    using key_type = K;
    using mapped_type = V;
    using value_type = std::pair<const K, V>;

    /// No pair.
    taken() noexcept = default;

    /// Returns whether there is a pair.
    bool has_value() const noexcept { return node_ != nullptr; }
    /// The same.
    explicit operator bool() const noexcept { return has_value(); }
    /// Returns whether there is none.
    [[nodiscard]] bool empty() const noexcept { return !has_value(); }

    /// The pair; there must be one.
    value_type &operator*() const noexcept { return node_->item; }
    /// The same.
    value_type *operator->() const noexcept { return &node_->item; }
    /// The pair's key; there must be one. It may be changed: an insertion uses the key that the pair has then.
    K &key() const noexcept { return *std::launder(const_cast<K *>(&node_->item.first)); }
    /// The pair's value; there must be one.
    V &mapped() const noexcept { return node_->item.second; }
    /// The pair; throws std::bad_optional_access if there is none.
    value_type &value() const { return node_ ? node_->item : throw std::bad_optional_access(); }

    /// The pair by value: the key is copied, and the value moved.
    operator std::optional<std::pair<K, V>>() && {
        using pair = std::pair<K, V>;
        return node_ ? std::optional<pair>(std::in_place, key(), std::move(mapped())) : std::optional<pair>();
    }

  private:
    template <class, class> friend class map;
    template <class, class> friend class cache;
    using node = detail::node<value_type>;

    explicit taken(node *owned) noexcept : node_(owned) {}
    std::unique_ptr<node> node_;
};

/// A hash map. It also has the members of its base: size, empty, capacity, begin, end, contains, count, erase, erase_if, clear.
template <class K, class V> class map : public detail::nodes<detail::pair_shape<K, V>, detail::map_calls> {
    using base = detail::nodes<detail::pair_shape<K, V>, detail::map_calls>;
    using given = typename detail::key_traits<K>::given;
    using node = detail::node<std::pair<const K, V>>;

  public:
    using mapped_type = V;
    using value_type = std::pair<const K, V>;
    using reference = value_type &;
    using const_reference = const value_type &;
    using pointer = value_type *;
    using const_pointer = const value_type *;
    using node_type = taken<K, V>;
    using typename base::const_iterator;
    using typename base::iterator;
    using typename base::key_view;
    using typename base::size_type;

    /// The outcome of inserting a pair that was taken out.
    struct insert_return_type {
        V *position;    ///< where the key's value is; null if the pair was none
        bool inserted;  ///< whether the pair is in
        node_type node; ///< the pair, if it isn't in
    };

    /// An empty map. Allocates nothing.
    map() noexcept = default;
    /// An empty map, hashed with a seed. Allocates nothing.
    explicit map(seed by) noexcept : base(0, by) {}
    /// An empty map with room for that many pairs. O(n).
    explicit map(size_type room, std::optional<seed> by = std::nullopt) : base(0, by) { reserve(room); }
    /// Inserts a range of pairs; of pairs with equal keys the first stays. O(n).
    template <class It, class = detail::needs_iterator<It>>
    map(It first, It last, std::optional<seed> by = std::nullopt) : base(0, by) {
        insert(first, last);
    }
    /// The same for a list.
    map(std::initializer_list<value_type> pairs, std::optional<seed> by = std::nullopt) : base(0, by) {
        insert(pairs);
    }
    map(const map &) = delete;
    map &operator=(const map &) = delete;
    /// Takes everything from another map, which is empty afterwards. O(1).
    map(map &&) noexcept = default;
    /// The same; the pairs that were here are destroyed.
    map &operator=(map &&) noexcept = default;
    /// Replaces all pairs by those of a list; if that throws, all stay.
    map &operator=(std::initializer_list<value_type> pairs) {
        map made(pairs, this->seed_);
        swap(made);
        return *this;
    }
    ~map() = default;

    /// Returns a copy, hashed with a seed of its own unless this map's seed was given. O(n).
    [[nodiscard]] map clone() const {
        map copy(this->seed_);
        copy.reserve(this->size());
        for (const auto &[key, value] : *this) {
            copy.try_emplace(key, value);
        }
        return copy;
    }

    /// Returns a pointer to the value of a key, or null. O(1).
    V *find(key_view key) noexcept {
        node *there = this->look(base::traits::view_of(key));
        return there ? &there->item.second : nullptr;
    }
    /// The same.
    const V *find(key_view key) const noexcept {
        const node *there = this->look(base::traits::view_of(key));
        return there ? &there->item.second : nullptr;
    }
    /// Returns the value of a key, or throws std::out_of_range. O(1).
    V &at(key_view key) {
        V *there = find(key);
        return there ? *there : throw std::out_of_range("bucket::map::at");
    }
    /// The same.
    const V &at(key_view key) const {
        const V *there = find(key);
        return there ? *there : throw std::out_of_range("bucket::map::at");
    }
    /// Returns the value of a key; inserts V() if the key is absent. O(1).
    V &operator[](given key) { return this->build(key).first->item.second; }

    /// Inserts V(from...) if the key is absent; else `from` isn't touched. Returns where the value is, and whether it was inserted. O(1).
    template <class... A> std::pair<V *, bool> try_emplace(given key, A &&...from) {
        auto [at, is_new] = this->build(key, std::forward<A>(from)...);
        return {&at->item.second, is_new};
    }
    /// Inserts a pair, or assigns to the present value. Returns where the value is, and whether it was inserted. If the assignment
    /// throws, the earlier value stays, provided that a move assignment of V doesn't throw. O(1).
    template <class M> std::pair<V *, bool> insert_or_assign(given key, M &&value) {
        typename base::claim place(*this, base::traits::view_given(key));
        if (node *there = place.there()) {
            assign(there->item.second, std::forward<M>(value));
            return {&there->item.second, false};
        }
        auto [at, is_new] = place.fill(key, std::forward<M>(value));
        return {&at->item.second, is_new};
    }
    /// Inserts a pair if its key is absent. Returns where the key's value is, and whether it was inserted. O(1).
    std::pair<V *, bool> insert(const value_type &pair) { return try_emplace(pair.first, pair.second); }
    /// The same.
    std::pair<V *, bool> insert(value_type &&pair) { return try_emplace(pair.first, std::move(pair.second)); }
    /// The same for std::inserter: the hint is ignored. Returns an iterator at the key's pair, whose successor is end().
    iterator insert(const_iterator, const value_type &pair) { return iterator(this->build(given(pair.first), pair.second).first); }
    /// The same.
    iterator insert(const_iterator, value_type &&pair) {
        return iterator(this->build(given(pair.first), std::move(pair.second)).first);
    }
    /// Inserts a range of pairs; of pairs with equal keys the first stays. If it throws, those before are in the map. O(n).
    template <class It, class = detail::needs_iterator<It>> void insert(It first, It last) {
        this->expect(first, last);
        for (; first != last; ++first) {
            auto &&pair = *first;
            try_emplace(std::forward<decltype(pair)>(pair).first, std::forward<decltype(pair)>(pair).second);
        }
    }
    /// The same for a list.
    void insert(std::initializer_list<value_type> pairs) { insert(pairs.begin(), pairs.end()); }
    /// Inserts a pair that was taken out of a map or a cache, without allocating for the pair. If it throws, the pair stays with the
    /// caller. O(1).
    insert_return_type insert(node_type &&pair) {
        if (!pair) {
            return {nullptr, false, {}};
        }
        auto [at, is_new] = this->link(pair.node_.get());
        if (is_new) {
            pair.node_.release();
        }
        return {&at->item.second, is_new, std::move(pair)};
    }
    /// Inserts value_type(from...). With a key and the arguments for V it is try_emplace; else the pair is made first, and destroyed if
    /// its key is present or allocation fails. O(1).
    template <class... A> std::pair<V *, bool> emplace(A &&...from) {
        auto [at, is_new] = emplaced(std::forward<A>(from)...);
        return {&at->item.second, is_new};
    }
    /// The same, and returns what an insertion with a hint returns.
    template <class... A> iterator emplace_hint(const_iterator, A &&...from) {
        return iterator(emplaced(std::forward<A>(from)...).first);
    }

    /// Like try_emplace, but doesn't throw std::bad_alloc.
    template <class... A> attempt<V> try_insert(given key, A &&...from) {
        return attempted([&] { return try_emplace(key, std::forward<A>(from)...); });
    }
    /// Like insert, but doesn't throw std::bad_alloc.
    attempt<V> try_insert(const value_type &pair) { return try_insert(pair.first, pair.second); }
    /// The same.
    attempt<V> try_insert(value_type &&pair) { return try_insert(pair.first, std::move(pair.second)); }
    /// Like insert_or_assign, but doesn't throw std::bad_alloc.
    template <class M> attempt<V> try_insert_or_assign(given key, M &&value) {
        return attempted([&] { return insert_or_assign(key, std::forward<M>(value)); });
    }

    /// Takes a pair out, which keeps its address. None if the key is absent. Allocates nothing. O(1).
    node_type extract(key_view key) noexcept { return node_type(this->unlink(base::traits::view_of(key))); }

    /// Moves here the pairs of another map whose keys are absent here; the others stay there. If allocation fails, some have moved, and
    /// each pair is in one of the two. O(n).
    void merge(map &other) { this->merge_from(other); }
    /// The same.
    void merge(map &&other) { this->merge_from(other); }
    /// Like merge; false if allocation failed.
    [[nodiscard]] bool try_merge(map &other) {
        return detail::unless_refused([&] { merge(other); });
    }

    /// Makes room for that many pairs in all. O(n).
    void reserve(size_type for_all) { this->make_room(for_all); }
    /// The same; false if allocation failed.
    [[nodiscard]] bool try_reserve(size_type for_all) {
        return detail::unless_refused([&] { reserve(for_all); });
    }
    /// Leaves as few slots as the pairs need, if memory allows. O(n).
    void shrink_to_fit() noexcept { static_cast<void>(bucket_shrink(&this->handle_)); }
    /// More pairs than fit in memory.
    size_type max_size() const noexcept { return PTRDIFF_MAX / sizeof(node); }

    /// Swaps two maps. O(1).
    void swap(map &other) noexcept { this->swap_held(other); }
    /// The same.
    friend void swap(map &a, map &b) noexcept { a.swap(b); }

    /// Returns whether two maps have equal pairs. O(n).
    friend bool operator==(const map &a, const map &b) {
        return a.size() == b.size() && std::all_of(a.begin(), a.end(), [&](const value_type &pair) {
                   const V *other = b.find(pair.first);
                   return other && *other == pair.second;
               });
    }
    /// Returns whether they differ.
    friend bool operator!=(const map &a, const map &b) { return !(a == b); }

  private:
    explicit map(std::optional<seed> by) noexcept : base(0, by) {}

    // Whether the arguments of an emplace are a key and what one value is made from.
    template <class... A> static constexpr bool is_key_and_value() noexcept {
        if constexpr (sizeof...(A) == 2) {
            return std::is_convertible_v<std::tuple_element_t<0, std::tuple<A...>>, given>;
        } else {
            return false;
        }
    }

    // The node with an emplace's key, and whether it was inserted.
    template <class... A> std::pair<node *, bool> emplaced(A &&...from) {
        if constexpr (is_key_and_value<A...>()) {
            return [this](given key, auto &&value) {
                return this->build(key, std::forward<decltype(value)>(value));
            }(std::forward<A>(from)...);
        } else {
            auto made = std::make_unique<node>(std::forward<A>(from)...);
            auto done = this->link(made.get());
            if (done.second) {
                made.release();
            }
            return done;
        }
    }

    template <class M> static void assign(V &to, M &&value) {
        if constexpr (!std::is_nothrow_assignable_v<V &, M> && std::is_nothrow_move_assignable_v<V>) {
            V made(std::forward<M>(value));
            to = std::move(made);
        } else {
            to = std::forward<M>(value);
        }
    }

    template <class Call> static attempt<V> attempted(Call call) {
        attempt<V> done;
        static_cast<void>(detail::unless_refused([&] {
            auto [at, is_new] = call();
            done.outcome = is_new ? outcome::inserted : outcome::present;
            done.value = at;
        }));
        return done;
    }
};

/// Deduces the types of a map from the pairs that it is made from.
template <class It, class = detail::needs_iterator<It>>
map(It, It, std::optional<seed> = std::nullopt) -> map<detail::key_in<It>, detail::value_in<It>>;
/// The same.
template <class K, class V>
map(std::initializer_list<std::pair<K, V>>, std::optional<seed> = std::nullopt) -> map<std::remove_const_t<K>, V>;

/// The outcome of an insertion into a set: a pair, and a truth value.
template <class Key> struct insertion {
    Key first;   ///< the key that is in: of texts a reference to it
    bool second; ///< whether it was put

    /// Whether it was inserted.
    operator bool() const noexcept { return second; }
};

/// A hash set. If the keys are words, its iterators return keys by value, and a key takes only a slot; if they are texts, they return
/// references that remain valid until the key is erased. It also has the members of its base: size, empty, capacity, begin, end,
/// contains, count, erase, erase_if, clear.
template <class K> class set : public detail::keys<K> {
    using base = detail::keys<K>;
    using given = typename detail::key_traits<K>::given;

  public:
    using value_type = K;
    using reference = typename base::iterator::reference;
    using const_reference = reference;
    using typename base::const_iterator;
    using typename base::iterator;
    using typename base::key_view;
    using typename base::size_type;

    /// An empty set. Allocates nothing.
    set() noexcept = default;
    /// An empty set, hashed with a seed. Allocates nothing.
    explicit set(seed by) noexcept : base(0, by) {}
    /// An empty set with room for that many keys. O(n).
    explicit set(size_type room, std::optional<seed> by = std::nullopt) : base(0, by) { reserve(room); }
    /// Inserts a range of keys. O(n).
    template <class It, class = detail::needs_iterator<It>>
    set(It first, It last, std::optional<seed> by = std::nullopt) : base(0, by) {
        insert(first, last);
    }
    /// The same for a list.
    set(std::initializer_list<K> all, std::optional<seed> by = std::nullopt) : base(0, by) { insert(all); }
    set(const set &) = delete;
    set &operator=(const set &) = delete;
    /// Takes everything from another set, which is empty afterwards. O(1).
    set(set &&) noexcept = default;
    /// The same; the keys that were here are destroyed.
    set &operator=(set &&) noexcept = default;
    /// Replaces all keys by those of a list; if that throws, all stay.
    set &operator=(std::initializer_list<K> all) {
        set made(all, this->seed_);
        swap(made);
        return *this;
    }
    ~set() = default;

    /// Returns a copy, hashed with a seed of its own unless this set's seed was given. O(n).
    [[nodiscard]] set clone() const {
        set copy(this->seed_);
        copy.reserve(this->size());
        copy.insert(this->begin(), this->end());
        return copy;
    }

    /// Inserts a key. Returns the key in the set, and whether it was inserted. O(1).
    insertion<reference> insert(given key) {
        auto [at, is_new] = this->build(key);
        if constexpr (std::is_reference_v<reference>) {
            return {at->item, is_new};
        } else {
            return {at, is_new};
        }
    }
    /// The same for K(from...).
    template <class... A> insertion<reference> emplace(A &&...from) { return insert(K(std::forward<A>(from)...)); }
    /// Like insert, for std::inserter: the hint is ignored. Returns an iterator at the key, whose successor is end().
    iterator insert(const_iterator, given key) { return iterator(this->build(key).first); }
    /// The same for K(from...).
    template <class... A> iterator emplace_hint(const_iterator hint, A &&...from) {
        return insert(hint, K(std::forward<A>(from)...));
    }
    /// Inserts a range of keys. If it throws, those before are in the set. O(n).
    template <class It, class = detail::needs_iterator<It>> void insert(It first, It last) {
        this->expect(first, last);
        for (; first != last; ++first) {
            insert(*first);
        }
    }
    /// The same for a list.
    void insert(std::initializer_list<K> all) { insert(all.begin(), all.end()); }
    /// Like insert, but doesn't throw std::bad_alloc.
    outcome try_insert(given key) {
        outcome done = outcome::no_memory;
        static_cast<void>(detail::unless_refused([&] { done = insert(key) ? outcome::inserted : outcome::present; }));
        return done;
    }

    /// Moves here the keys of another set that are absent here; the others stay there. If allocation fails, some have moved, and each is
    /// in one of the two. O(n).
    void merge(set &other) { this->merge_from(other); }
    /// The same.
    void merge(set &&other) { this->merge_from(other); }
    /// Like merge; false if allocation failed.
    [[nodiscard]] bool try_merge(set &other) {
        return detail::unless_refused([&] { merge(other); });
    }

    /// Makes room for that many keys in all. O(n).
    void reserve(size_type for_all) { this->make_room(for_all); }
    /// The same; false if allocation failed.
    [[nodiscard]] bool try_reserve(size_type for_all) {
        return detail::unless_refused([&] { reserve(for_all); });
    }
    /// Leaves as few slots as the keys need, if memory allows. O(n).
    void shrink_to_fit() noexcept { static_cast<void>(bucket_shrink(&this->handle_)); }
    /// More keys than fit in memory.
    size_type max_size() const noexcept { return PTRDIFF_MAX / sizeof(bucket_pair); }

    /// Swaps two sets. O(1).
    void swap(set &other) noexcept { this->swap_held(other); }
    /// The same.
    friend void swap(set &a, set &b) noexcept { a.swap(b); }

    /// Returns whether each key is in another set. O(n).
    bool is_subset_of(const set &other) const {
        return this->size() <= other.size() &&
               std::all_of(this->begin(), this->end(), [&](const K &key) { return other.contains(key); });
    }
    /// Returns whether two sets have the same keys. O(n).
    friend bool operator==(const set &a, const set &b) { return a.size() == b.size() && a.is_subset_of(b); }
    /// Returns whether they differ.
    friend bool operator!=(const set &a, const set &b) { return !(a == b); }

    /// Inserts all keys of another set. If it throws, those before are in the set. O(n).
    set &operator|=(const set &other) {
        if (this != &other) {
            this->expect(other.size());
            for (auto &&key : other) {
                insert(key);
            }
        }
        return *this;
    }
    /// Erases the keys that another set does not contain. O(n).
    set &operator&=(const set &other) {
        this->erase_if([&](const K &key) { return !other.contains(key); });
        return *this;
    }
    /// Erases the keys that another set contains. O(n).
    set &operator-=(const set &other) {
        this->erase_if([&](const K &key) { return other.contains(key); });
        return *this;
    }

  private:
    explicit set(std::optional<seed> by) noexcept : base(0, by) {}
};

/// Deduces the type of a set's keys from what it is made from.
template <class It, class = detail::needs_iterator<It>> set(It, It, std::optional<seed> = std::nullopt) -> set<detail::item_of<It>>;
/// The same.
template <class K> set(std::initializer_list<K>, std::optional<seed> = std::nullopt) -> set<K>;

/// The outcome of a `put` that doesn't throw.
template <class K, class V> struct [[nodiscard]] put_attempt {
    V *value = nullptr; ///< where the value is; null if allocation failed, and nothing has changed
    taken<K, V> gone;   ///< the pair that was replaced or evicted for it, if any

    /// Whether the pair is in the cache; false if allocation failed.
    explicit operator bool() const noexcept { return value != nullptr; }
};

/// A cache of a bounded number of pairs. Its slots are in buckets of 32: if a key's bucket is full, the pair of that bucket that was put
/// or read by `get` longest ago is evicted. So pairs are evicted before max_size() is reached. It also has the members of its base: size,
/// empty, capacity, begin, end, contains, count, erase, erase_if, clear; none of them touches a pair.
template <class K, class V> class cache : public detail::nodes<detail::pair_shape<K, V>, detail::cache_calls> {
    using base = detail::nodes<detail::pair_shape<K, V>, detail::cache_calls>;
    using given = typename detail::key_traits<K>::given;
    using node = detail::node<std::pair<const K, V>>;

  public:
    using mapped_type = V;
    using value_type = std::pair<const K, V>;
    using reference = value_type &;
    using const_reference = const value_type &;
    using node_type = taken<K, V>;
    using typename base::key_view;
    using typename base::size_type;

    /// An empty cache with that many slots, rounded up to a power of two of at least 64. Allocates nothing.
    explicit cache(size_type most, std::optional<seed> by = std::nullopt) noexcept : base(most, by) {}
    cache(const cache &) = delete;
    cache &operator=(const cache &) = delete;
    /// Takes everything from another cache, which is empty afterwards. O(1).
    cache(cache &&) noexcept = default;
    /// The same; the pairs that were here are destroyed.
    cache &operator=(cache &&) noexcept = default;
    ~cache() = default;

    /// Inserts a pair, and returns the pair that left the cache for it: the one with an equal key, which it replaces, or one that is
    /// evicted; or none. O(1).
    template <class M = V> node_type put(given key, M &&value) {
        node_type gone;
        place(key, std::forward<M>(value), gone);
        return gone;
    }
    /// The same, but doesn't throw std::bad_alloc.
    template <class M = V> put_attempt<K, V> try_put(given key, M &&value) {
        put_attempt<K, V> done;
        static_cast<void>(detail::unless_refused([&] { done.value = place(key, std::forward<M>(value), done.gone); }));
        return done;
    }

    /// Returns a pointer to the value of a key, which is touched; or null. O(1).
    V *get(key_view key) noexcept {
        std::uint64_t held = 0;
        bool is_there = detail::cache_calls::touch(&this->handle_, base::traits::view_of(key), &held) == BUCKET_OK;
        return is_there ? &detail::node_of<value_type>(held)->item.second : nullptr;
    }
    /// Returns a pointer to the value of a key, without touching it; or null. O(1).
    V *peek(key_view key) noexcept {
        node *there = this->look(base::traits::view_of(key));
        return there ? &there->item.second : nullptr;
    }
    /// The same.
    const V *peek(key_view key) const noexcept {
        const node *there = this->look(base::traits::view_of(key));
        return there ? &there->item.second : nullptr;
    }

    /// Takes a pair out, which keeps its address. None if the key is absent. Allocates nothing. O(1).
    node_type extract(key_view key) noexcept { return node_type(this->unlink(base::traits::view_of(key))); }

    /// The maximum number of slots: the least power of two that is at least 64 and the number given.
    size_type max_size() const noexcept {
        size_type slots = 64;
        while (slots < this->room_ && slots <= SIZE_MAX / 2) {
            slots *= 2;
        }
        return slots;
    }

    /// Swaps two caches. O(1).
    void swap(cache &other) noexcept { this->swap_held(other); }
    /// The same.
    friend void swap(cache &a, cache &b) noexcept { a.swap(b); }

  private:
    // The pair is built before the table is called, so that a constructor that throws evicts none. If allocation fails then, a value that
    // was moved from is moved back; the key was copied.
    template <class M> V *place(const given &key, M &&value, node_type &gone) {
        node_type made(new node(std::piecewise_construct, std::forward_as_tuple(detail::key_traits<K>::own(key, false)),
                                std::forward_as_tuple(std::forward<M>(value))));
        std::uint64_t before = 0;
        try {
            std::uint32_t code = this->on_open([&] {
                return detail::cache_calls::write(&this->handle_, this->view_of(*made.node_), detail::word_of(made.node_.get()), &before);
            });
            this->size_ += code == BUCKET_OK ? 1 : 0;
        } catch (...) {
            if constexpr (std::is_same_v<M, V> && std::is_nothrow_move_assignable_v<V>) {
                value = std::move(made.mapped());
            }
            throw;
        }
        gone = node_type(detail::node_of<value_type>(before));
        return &made.node_.release()->item.second;
    }
};

/// Like the member: erases everything for which a predicate holds, and returns how many were erased.
template <class K, class V, class Pred> std::size_t erase_if(map<K, V> &from, Pred pred) {
    return from.erase_if(std::move(pred));
}
/// The same.
template <class K, class Pred> std::size_t erase_if(set<K> &from, Pred pred) {
    return from.erase_if(std::move(pred));
}
/// The same.
template <class K, class V, class Pred> std::size_t erase_if(cache<K, V> &from, Pred pred) {
    return from.erase_if(std::move(pred));
}

} // namespace bucket

#endif
