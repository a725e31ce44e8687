// a key is an integral type or an enum of at most 64 bits, or std::string
#include "bucket.hpp"

bucket::set<const char *> all;
