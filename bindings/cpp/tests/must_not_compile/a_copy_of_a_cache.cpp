// deleted
#include "bucket.hpp"

bucket::cache<int, int> a(64), b(64);
void copy();
void copy() { a = b; }
