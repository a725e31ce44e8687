// no matching|no viable
#include "bucket.hpp"

struct point { explicit point(int) {} };
bucket::map<int, point> all;
point &there = all[1];
