// Every line here that ends with a tag has to be refused, and no other.
#include <cilk/cilk.h>
#include <string>
#include <utility>

struct Place {
    int x;
    Place &set(int n);
};

#ifdef BUILT_IN
void built_in(int x, int *p, Place place, int Place::*member) {
    cilk_spawn x++; // [built in]
    cilk_spawn x += 3; // [built in]
    cilk_spawn p[x]; // [built in]
    cilk_spawn !x; // [built in]
    int y = cilk_spawn x * x; // [built in]
    cilk_spawn (place.*member) += 3; // [built in]
}
#else
int f(int n);
int &there(int n);
Place h();
template <class T> T g(T n);

int refused(int n, int *p) {
    int x = 0, y = 0;
    x += cilk_spawn f(n);
    (void)cilk_spawn f(n);
    there(1) = cilk_spawn f(n);
    if (n)
        x = cilk_spawn g<int>(n);
    else
        cilk_spawn [&](int by) { x = by; }(n);
    int z += cilk_spawn f(n); // [refused]
    x = 1 + cilk_spawn f(n); // [refused]
    x = cilk_spawn f(n) + 1; // [refused]
    x = y = cilk_spawn f(n); // [refused]
    f(cilk_spawn f(n)); // [refused]
    cilk_spawn f(cilk_spawn f(n)); // [refused]
    p[cilk_spawn f(n)] = 1; // [refused]
    x = (cilk_spawn f(n)); // [refused]
    (long)cilk_spawn f(n); // [refused]
    x = n ? cilk_spawn f(1) : 2; // [refused]
    x = 1, y = cilk_spawn f(n); // [refused]
    x = cilk_spawn h().x; // [refused]
    x = static_cast<int>(cilk_spawn f(n)); // [refused]
    x = cilk_spawn static_cast<int>(n); // [refused]
    cilk_spawn x; // [refused]
    cilk_spawn f(n) + n; // [refused]
    x = cilk_spawn y = n; // [refused]
    cilk_spawn x, y; // [refused]
    cilk_spawn (Place)p[n]; // [refused]
    cilk_spawn n ? x : y; // [refused]
    cilk_spawn { x = 1; } // [refused]
    auto made = cilk_spawn new Place(); // [refused]
    int a = cilk_spawn f(1), b; // [refused]
    int c = 1, d = cilk_spawn f(1); // [refused]
    int e[1] = {cilk_spawn f(1)}; // [refused]
    Place one{cilk_spawn f(1), 2}; // [refused]
    int two(cilk_spawn f(1)); // [refused]
    static int s = cilk_spawn f(1); // [refused]
    int &r = cilk_spawn there(1); // [refused]
    const auto &rr = cilk_spawn f(1); // [refused]
    auto [first, second] = cilk_spawn g(std::pair(1, 2)); // [refused]
    for (int i = cilk_spawn f(0); i < n; i++) // [refused]
        y++;
    for (int i : cilk_spawn g(std::string())) // [refused]
        y += i;
    if (int i = cilk_spawn f(0)) // [refused]
        y += i;
    throw cilk_spawn f(1); // [refused]
    cilk_sync;
    return cilk_spawn f(x + y); // [refused]
}

struct Built {
    int x = cilk_spawn f(1); // [refused]
    Built()
    try : x(1) { // [refused]
        cilk_spawn f(1);
    } catch (...) {
    }
};

namespace outside {
int x = cilk_spawn f(1); // [refused]
}
#endif
