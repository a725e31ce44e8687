// no matching|cannot convert|invalid conversion|cannot initialize
#include "bucket.hpp"

bucket::map<int, int> all;
bool there = all.contains("a");
