// a key is an integral type or an enum of at most 64 bits, or std::string
#include "bucket.hpp"

bucket::cache<const int, int> all(64);
void put();
void put() { all.put(1, 2); }
