// deleted
#include "bucket.hpp"

bucket::map<int, int> a;
bucket::map<int, int> b = a;
