// A second translation unit that includes the header: the program links, and both share the inline functions.
#include "bucket.hpp"

std::size_t second_unit();

std::size_t second_unit() {
    bucket::map<std::string, int> all{{"a", 1}};
    return all.size();
}
