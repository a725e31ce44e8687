// nodiscard|unused
#include "bucket.hpp"

bucket::set<int> all;
void put();
void put() { all.try_insert(1); }
