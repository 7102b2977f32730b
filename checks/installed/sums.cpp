#include <cstring>
#include <tbb/parallel_for.h>
#include <tbb/version.h>

static int sum;

int main() {
    tbb::parallel_for(0, 4, [](int i) { sum += i; });
    return sum != 6 || std::strcmp(FOUND, TBB_VERSION_STRING) != 0;
}
