// nodiscard|unused
#include "bucket.hpp"

bucket::cache<int, int> all(64);
void put();
void put() { all.try_put(1, 2); }
