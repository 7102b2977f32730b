// For each way to copy a struct for a call, a child copies one, and the parent touches all bytes of that. All of them
// race: expected are the bytes of the object, since a copy is of the whole. A case stands on one line, with the
// functions that write where their caller wants the result, and the program prints the line and how many bytes race.
#include <complex>
#include <cstdarg>
#include <cstdio>
#include <cstdlib>
#include <exception>
#include <initializer_list>
#include <malloc.h>
#include <new>
#include <optional>
#include <string_view>
#include <utility>
#include <vector>

struct Three { char a, b, c; };
struct Small { int a, b; };
struct Padded { char a; int b; };
struct Twelve { int a, b, c; };
struct Floats { float x, y, z; };
struct Doubles { double x, y; };
struct Mixed { double x; long b; };
struct Middle { long a, b, c; };
struct Derived : Small { double x; };
struct Large { long many[12]; };
struct Odd { char many[77]; };
struct Huge { char many[5000]; };
struct Empty {};
struct Bits { unsigned low : 3, high : 29; };
struct Wide { int many __attribute__((vector_size(16))); };
struct Whole { Large large; Small small; };
union Both { double number; char bytes[8]; };
using Pair = std::pair<int, float>;
using Iterator = std::vector<int>::iterator;

static char *room;
template <class T> static T &shared() { return *reinterpret_cast<T *>(room); }
static volatile int sink, zero;
static volatile char seen;

template <class T> static int take(T one) { return sink + (sizeof one > 1000); }
template <class... T> static int take_many(T... all) { return sink + static_cast<int>(sizeof...(all)); }
template <class T> static T pass(T one) { return one; }
static int take_rest(int count, ...) {
    va_list list;
    va_start(list, count);
    Middle found = va_arg(list, Middle);
    va_end(list);
    return static_cast<int>(found.a);
}
static int take_default(Small by = shared<Small>()) { return by.a; }
static int operator+(Small one, int other) { return one.a + other; }
struct Taker {
    int number = 0;
    Taker() = default;
    explicit Taker(Middle by) : number(static_cast<int>(by.b)) {}
    virtual ~Taker() = default;
    int take(Small by) const { return by.b + number; }
    virtual int take_large(Large by, int more) { return static_cast<int>(by.many[1]) + more; }
};
static Taker taker;
static Taker *volatile taking = &taker;
static int (*volatile by_pointer)(Large) = take<Large>;
static bool may_throw(bool throws) {
    if (throws)
        throw 1;
    return true;
}

static void touch(std::size_t bytes, bool writes) {
    for (std::size_t at = 0; at < bytes; at++) {
        if (writes)
            const_cast<volatile char &>(room[at]) = 0; // [write]
        else
            seen = const_cast<volatile char &>(room[at]); // [read]
    }
}

static void try_case(int line, std::size_t bytes, bool writes, void (*does)()) {
    std::printf("%zu %s:%d\n", bytes, __FILE__, line);
    room = static_cast<char *>(std::calloc(2, sizeof(Huge)));
#pragma omp task firstprivate(does)
    does();
    touch(bytes, !writes);
#pragma omp taskwait
}

#define READS(BYTES, ...) try_case(__LINE__, BYTES, false, [] { __VA_ARGS__; });
#define WRITES(BYTES, ...) try_case(__LINE__, BYTES, true, [] { __VA_ARGS__; });
#define TAKES(TYPE) try_case(__LINE__, sizeof(TYPE), false, [] { sink = take(shared<TYPE>()); });
// A function of its own, whose result is written where it is wanted.
#define MADE(TYPE) ([]() -> TYPE { TYPE made{}; return made; }())
#define GIVES(TYPE) try_case(__LINE__, sizeof(TYPE), true, [] { shared<TYPE>() = MADE(TYPE); });
#define PLACES(TYPE) try_case(__LINE__, sizeof(TYPE), true, [] { new (room) TYPE(MADE(TYPE)); });

static void take_all() {
    TAKES(Three)
    TAKES(Small)
    TAKES(Padded)
    TAKES(Twelve)
    TAKES(Floats)
    TAKES(Doubles)
    TAKES(Mixed)
    TAKES(Middle)
    TAKES(Derived)
    TAKES(Large)
    TAKES(Odd)
    TAKES(Huge)
    TAKES(Bits)
    TAKES(Wide)
    TAKES(Whole)
    TAKES(Both)
    TAKES(Pair)
    TAKES(Iterator)
    TAKES(std::string_view)
    TAKES(std::complex<double>)
    TAKES(std::optional<int>)
    TAKES(std::initializer_list<int>)
}

static void take_in_ways() {
    READS(104, sink = take_many(1, shared<Whole>().large, 2.5, shared<Whole>().small))
    READS(8, sink = take((&shared<Small>())[zero]))
    READS(8, sink = take(std::move(shared<Small>())))
    READS(8, sink = pass(shared<Small>()).a)
    READS(96, sink = (int)pass(pass(shared<Large>())).many[0])
    READS(24, sink = take_rest(1, shared<Middle>()))
    READS(8, sink = shared<Small>() + 3)
    READS(8, sink = take_default()) static_assert(sizeof(Small) == 8, "");
    READS(8, sink = taking->take(shared<Small>()))
    READS(96, sink = taking->take_large(shared<Large>(), 2))
    READS(96, sink = by_pointer(shared<Large>()))
    READS(24, Taker made(shared<Middle>()); sink = made.number)
    READS(8, auto taken = [](Small by) { return by.b; }; sink = taken(shared<Small>()))
    READS(8, auto taken = [](auto by) { return by.b; }; sink = taken(shared<Small>()))
    READS(8, Small other{1, 2}; sink = take(sink ? other : shared<Small>()))
    READS(8, for (int i = 0; i < 2; i++) if (take(shared<Small>()) == 1) break)
    READS(8, try { sink = may_throw(take(shared<Small>()) == 1); } catch (int) {})
    READS(96, const Large &bound = shared<Large>(); sink = take(bound) + take(bound))
    READS(0, sink = take(shared<Empty>()))
}

static void give_all() {
    GIVES(Three)
    GIVES(Small)
    GIVES(Padded)
    GIVES(Twelve)
    GIVES(Floats)
    GIVES(Doubles)
    GIVES(Mixed)
    GIVES(Middle)
    GIVES(Derived)
    GIVES(Large)
    GIVES(Odd)
    GIVES(Huge)
    GIVES(Wide)
    GIVES(Whole)
    GIVES(Both)
    GIVES(std::string_view)
    GIVES(std::complex<double>)
    PLACES(Three)
    PLACES(Small)
    PLACES(Twelve)
    PLACES(Floats)
    PLACES(Mixed)
    PLACES(Middle)
    PLACES(Large)
    PLACES(Huge)
    PLACES(Whole)
    PLACES(Iterator)
}

static void give_in_ways() {
    WRITES(8, sink = (shared<Small>() = MADE(Small)).a)
    WRITES(96, sink = (int)(shared<Large>() = MADE(Large)).many[2])
    WRITES(96, (&shared<Large>())[zero] = MADE(Large))
    WRITES(8, sink = take(shared<Small>() = MADE(Small)))
    WRITES(8, while ((shared<Small>() = MADE(Small)).a) sink = 0)
    WRITES(8, sink = 1, shared<Small>() = MADE(Small); sink = 0)
    WRITES(8, Small other{1, 2}; shared<Small>() = sink ? other : MADE(Small))
    WRITES(104, struct Maker { Large l; Small s; Maker() : l(MADE(Large)), s(MADE(Small)) {} }; new (room) Maker)
    WRITES(104, new (room) Whole{MADE(Large), MADE(Small)})
    WRITES(96, auto chain = [] { return MADE(Large); }; new (room) Large(chain()))
    WRITES(96, try { shared<Large>() = MADE(Large); may_throw(sink == 0); } catch (int) {})
    WRITES(8, try { shared<Small>() = MADE(Small); may_throw(sink == 0); } catch (int) {})
}

// The library's own functions, which write where their caller wants it.
static void give_by_library() {
    WRITES(sizeof(struct mallinfo2), new (room) struct mallinfo2(mallinfo2()))
    WRITES(8, new (room) std::exception_ptr(std::current_exception()))
}

int main() {
#pragma omp parallel
#pragma omp single
    {
        take_all();
        take_in_ways();
        give_all();
        give_in_ways();
        give_by_library();
    }
}
