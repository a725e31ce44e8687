// a value is an object, neither const nor an array
#include "bucket.hpp"

bucket::map<int, int &> all;
