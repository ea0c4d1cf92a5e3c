// C++'s own sort, the measure of the kernel sort.
#include <algorithm>
#include <cstddef>
#include <cstdint>

extern "C" void sort_rising(std::int64_t *x, std::size_t n) { std::sort(x, x + n); }
