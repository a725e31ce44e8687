// Prints an index of a text file: each word, and the numbers of the lines that contain it.
//
//     c++ -std=c++17 -O2 -Ibindings index.cpp libbucket.a -o index && ./index FILE
#include "bucket.hpp"

#include <algorithm>
#include <cctype>
#include <fstream>
#include <iostream>
#include <string>
#include <string_view>
#include <vector>

using index_of_lines = bucket::map<std::string, std::vector<int>>;

// Adds a line's words. They are looked up as parts of the line; only a new word is copied.
static void add_line(index_of_lines &index, std::string_view line, int number) {
    auto is_letter = [](char c) { return std::isalnum(static_cast<unsigned char>(c)) != 0; };
    for (auto from = line.begin(); (from = std::find_if(from, line.end(), is_letter)) != line.end();) {
        auto to = std::find_if_not(from, line.end(), is_letter);
        auto word = line.substr(static_cast<std::size_t>(from - line.begin()), static_cast<std::size_t>(to - from));
        std::vector<int> &lines = index[word];
        if (lines.empty() || lines.back() != number) {
            lines.push_back(number);
        }
        from = to;
    }
}

int main(int argc, char **argv) {
    if (argc != 2) {
        std::cerr << "usage: index FILE\n";
        return 1;
    }
    std::ifstream file(argv[1]);
    index_of_lines index;
    std::string line;
    for (int number = 1; std::getline(file, line); number++) {
        add_line(index, line, number);
    }
    if (!file.eof()) {
        std::cerr << argv[1] << " can't be read\n";
        return 1;
    }

    // The map has no order of its own. Its pairs keep their addresses, so pointers to them can be sorted.
    std::vector<const index_of_lines::value_type *> words;
    for (const auto &entry : index) {
        words.push_back(&entry);
    }
    std::sort(words.begin(), words.end(), [](auto *a, auto *b) { return a->first < b->first; });
    for (auto *entry : words) {
        std::cout << entry->first << ':';
        for (int number : entry->second) {
            std::cout << ' ' << number;
        }
        std::cout << '\n';
    }
    return 0;
}
