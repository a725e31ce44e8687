// What the tests share: CHECK, stories, and objects that are counted and can throw.
#ifndef CHECK_HPP
#define CHECK_HPP

#include <cstddef>
#include <cstdio>
#include <stdexcept>
#include <string>

// Counts a check, and prints its line if it fails.
#define CHECK(...) tests::check(static_cast<bool>(__VA_ARGS__), __FILE__, __LINE__, #__VA_ARGS__)

// Checks that a statement throws a given exception.
#define CHECK_THROWS(type, ...) tests::check(tests::throws<type>([&] { __VA_ARGS__; }), __FILE__, __LINE__, #__VA_ARGS__)

namespace tests {

inline long made = 0, failed = 0;

inline void check(bool holds, const char *file, int line, const char *what) {
    made++;
    if (!holds && ++failed <= 20) {
        std::fprintf(stderr, "%s:%d: %s\n", file, line, what);
    }
}

template <class Thrown, class Call> bool throws(Call call) {
    try {
        call();
        return false;
    } catch (const Thrown &) {
        return true;
    }
}

// What is tested, as a sentence, and the test.
struct story {
    const char *says;
    void (*play)();
};

// How many stories were played.
inline std::size_t played = 0;

// Runs all stories of a table, and prints which had a failed check, and what they were played with.
template <std::size_t N> void play_with(const story (&stories)[N], const std::string &with) {
    for (const story &each : stories) {
        long before = failed;
        each.play();
        played++;
        if (failed > before) {
            std::fprintf(stderr, "wrong: %s%s\n", each.says, with.c_str());
        }
    }
}

// Runs all stories of the last table; returns the status of the program.
template <std::size_t N> int play(const story (&stories)[N]) {
    play_with(stories, "");
    std::printf("%zu stories, %ld checks, %ld failed\n", played, made, failed);
    return failed > 0 ? 1 : 0;
}

// The name of a type, as g++ and clang++ write it.
template <class T> std::string name_of() {
    const std::string written = __PRETTY_FUNCTION__;
    const std::size_t from = written.find("T = ") + 4;
    return written.substr(from, written.find_first_of(";]", from) - from);
}

struct thrown : std::runtime_error {
    thrown() : std::runtime_error("thrown by a test") {}
};

// A value that is counted, stores its own address, and throws on demand. After a move from it, it is -1.
class counted {
  public:
    static inline long alive = 0;
    // How many constructions, copies, moves and assignments succeed before one throws; -1: none throws.
    static inline long until_throw = -1;

    counted(int value = 0) : value_(value), self_(this) { begin(); }
    counted(const counted &other) : value_(other.value()), self_(this) { begin(); }
    counted(counted &&other) : value_(other.value()), self_(this) {
        begin();
        other.value_ = -1;
    }
    counted &operator=(const counted &other) {
        step();
        value_ = other.value();
        return *this;
    }
    counted &operator=(counted &&other) {
        step();
        value_ = other.value();
        other.value_ = this == &other ? value_ : -1;
        return *this;
    }
    ~counted() {
        check(self_ == this, __FILE__, __LINE__, "a value is destroyed at its own address");
        self_ = nullptr;
        alive--;
    }

    int value() const {
        check(self_ == this, __FILE__, __LINE__, "a value is read at its own address");
        return value_;
    }
    friend bool operator==(const counted &a, const counted &b) { return a.value() == b.value(); }

  private:
    static void step() {
        if (until_throw == 0) {
            throw thrown();
        }
        until_throw -= until_throw > 0 ? 1 : 0;
    }
    void begin() {
        step();
        alive++;
    }

    int value_;
    const counted *self_;
};

// A random number; the sequence is the same each time.
class chance {
  public:
    explicit chance(unsigned long long start) : state_(start) {}
    unsigned long long below(unsigned long long bound) {
        state_ += 0x9e3779b97f4a7c15u;
        unsigned long long word = (state_ ^ (state_ >> 30)) * 0xbf58476d1ce4e5b9u;
        word = (word ^ (word >> 27)) * 0x94d049bb133111ebu;
        return (word ^ (word >> 31)) % bound;
    }

  private:
    unsigned long long state_;
};

enum class colour : signed char { red = -1, green, blue };

// The i-th key of a type: all differ below 200, except for bool and colour.
template <class K> K key(int i) { return static_cast<K>(i); }
template <> inline std::string key<std::string>(int i) {
    return i == 0 ? std::string() : std::string(i % 3 == 0 ? 40 : 3, 'k') + std::to_string(i);
}
template <> inline bool key<bool>(int i) { return i % 2 == 1; }
template <> inline colour key<colour>(int i) { return static_cast<colour>(i % 3 - 1); }

} // namespace tests

#endif
