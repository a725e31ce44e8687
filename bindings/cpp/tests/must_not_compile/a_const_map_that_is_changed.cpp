// discards qualifiers|not marked const|no matching
#include "bucket.hpp"

const bucket::map<int, int> all;
std::size_t gone = all.erase(1);
