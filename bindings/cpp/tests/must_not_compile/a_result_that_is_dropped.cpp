// nodiscard|unused
#include "bucket.hpp"

bucket::map<int, int> all;
void put();
void put() { all.try_insert(1, 2); }
