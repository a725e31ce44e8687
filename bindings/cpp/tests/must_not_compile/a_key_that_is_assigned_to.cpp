// read-only|const-qualified|no viable overloaded|discards|const
#include "bucket.hpp"

bucket::map<int, int> all{{1, 2}};
void change();
void change() { all.begin()->first = 2; }
