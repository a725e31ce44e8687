// no matching|cannot convert|could not convert|invalid conversion|no viable
#include "bucket.hpp"

bucket::map<std::string, int> all;
int *there = all.find(5);
