/* Reducers in C++, of OpenCilk and of the older library. Iterations update each at once, which is no race; with the
   word `racy` one of them reads or sets the value as well, on the line behind the update's. The word `own` is for a
   monoid of the program's own, and `views` for a view that has more memory elsewhere. */
#include <cilk/cilk.h>
#include <cilk/opadd_reducer.h>
#include <cilk/ostream_reducer.h>
#include <cilk/reducer_list.h>
#include <cilk/reducer_max.h>
#include <cilk/reducer_min.h>
#include <cilk/reducer_opadd.h>
#include <cilk/reducer_opand.h>
#include <cilk/reducer_opmul.h>
#include <cilk/reducer_opor.h>
#include <cilk/reducer_opxor.h>
#include <cilk/reducer_ostream.h>
#include <cilk/reducer_string.h>
#include <cstdio>
#include <cstring>
#include <iostream>
#include <set>
#include <stdexcept>
#include <string>
#include <vector>

static bool racy;
static long sink;

template <class Update, class Value> static void both(Update update, Value value) {
#pragma cilk grainsize = 1
    cilk_for (int i = 0; i < 4; i++) {
        update(i + 1);
        if (racy && i == 2)
            value();
    }
}

static void zero(void *view) { *static_cast<long *>(view) = 0; }
static void plus(void *left, void *right) { *static_cast<long *>(left) += *static_cast<long *>(right); }
static long cilk_reducer(zero, plus) everywhere = 0;

struct Totals {
    cilk::opadd_reducer<int> sum;
    cilk::reducer_opadd<double> older;
};

template <class T> struct Tally {
    long cilk_reducer(zero, plus) sum = 1;
    void add(T more) { sum += more; }
    T get() const;
};
template <class T> T Tally<T>::get() const { return sum; }

/* Static members, and what refers to reducers. */
struct Shared {
    static long cilk_reducer(zero, plus) total;
    inline static long cilk_reducer(zero, plus) of[2];
    static void add(int more) { total += more; }
    long get();
};
long cilk_reducer(zero, plus) Shared::total = 1;
long Shared::get() { return total; }

template <class T> struct SharedBy {
    static long cilk_reducer(zero, plus) total;
};
template <class T> long cilk_reducer(zero, plus) SharedBy<T>::total = 2;

static void add_to(long cilk_reducer(zero, plus) &to, int more) { to += more; }

class Counts {
    long cilk_reducer(zero, plus) of_[2] = {0, 0};

public:
    void add(int number);
    long get() { return of_[1]; }
};
void Counts::add(int number) { of_[number % 2] += number; }
struct Begun {
    int first;
    long cilk_reducer(zero, plus) sum = 0;
    explicit Begun(int from);
};
Begun::Begun(int from) : first{from} {
    cilk_for (int i = 0; i < 4; i++)
        sum += first + i;
}
template <class T> static long sum_to(T end) noexcept {
    long cilk_reducer(zero, plus) sum = 0;
    cilk_for (T i = 0; i < end; i++)
        sum += i;
    return sum;
}
struct More : Counts {
    long sum = 0;
};

static void opencilk() {
    long cilk_reducer(zero, plus) local = 5;
    cilk::opadd_reducer<long> library = 0;
    cilk::ostream_reducer<char> out(std::cout);
    Totals totals;
    both([&](int i) { everywhere += i; }, /* [update] */
         [&] { sink = everywhere; });
    both([&](int i) { local += i; }, /* [update] */
         [&] { local = 3; });
    both([&](int i) { library += i; }, /* [update] */
         [&] { (void)static_cast<long>(library); });
    both([&](int) { ++totals.sum; }, /* [update] */
         [&] { totals.sum = 1; });
    both([&](int i) { totals.older += i; }, /* [update] */
         [&] { totals.older.get_value(); });
    out << "out " << 7;
    Tally<long> tally;
    More more;
    static long cilk_reducer(zero, plus) table[2][2];
    both([&](int i) { tally.sum += i; }, /* [update] */
         [&] { sink = tally.sum + more.sum; });
    both([&](int i) { table[1][i % 2] += i; }, /* [update] */
         [&] { table[1][0] = table[0][0] + 3; });
    tally.add(1);
    more.add(3);
    std::printf(" %ld %ld %ld %ld %ld\n", tally.get(), more.get(), table[1][1], Begun(5).sum, sum_to(5));
    std::printf("%ld %ld %ld %d %g\n", everywhere, local, static_cast<long>(library), static_cast<int>(totals.sum),
                totals.older.get_value());
}

static void shared() {
    long cilk_reducer(zero, plus) local = 0;
    long cilk_reducer(zero, plus) &reference = local;
    long cilk_reducer(zero, plus) *at = __builtin_addressof(Shared::of[0]);
    Shared one;
    both([&](int i) { Shared::total += i; }, /* [update] */
         [&] { sink = one.total; });
    both([&](int i) { Shared::of[1] += i; }, /* [update] */
         [&] { one.of[1] = 2; });
    both([&](int i) { SharedBy<int>::total += i; }, /* [update] */
         [&] { SharedBy<int>::total = 2; });
    both([&](int i) { *at += i; }, /* [update] */
         [&] { sink = *at; });
    both([&](int i) { reference += i; }, /* [update] */
         [&] { sink = reference; });
    both([&](int i) { Shared::add(i); add_to(local, i); }, [] {});
    std::printf("%ld %ld %ld %ld\n", one.get(), Shared::of[1] + *at, SharedBy<int>::total, local);
}

/* A value of a class that is set whole, or has a part updated. */
struct Point {
    int x, y;
    int get() const { return x; }
};
static void no_point(void *view) { static_cast<Point *>(view)->x = 0; }
static void add_point(void *left, void *right) { static_cast<Point *>(left)->x += static_cast<Point *>(right)->x; }

static void classes() {
    Point cilk_reducer(no_point, add_point) one = {1, 2}, two = {3, 4}, three = {5, 6};
    both([&](int i) { one.x += i; }, /* [update] */
         [&] { one = Point{1, 2}; });
    both([&](int i) { two = Point{two.x + i, 3}; }, /* [update] */
         [&] { sink = two.get(); });
    both([&](int i) { three.x += i; }, /* [update] */
         [&] { new (&three) Point(); });
    std::printf("%d %d %d %d\n", one.x, two.x, two.y, three.x);
}

template <class T> void zero_of(void *view) { *static_cast<T *>(view) = 0; }
template <class T> void plus_of(void *left, void *right) { *static_cast<T *>(left) += *static_cast<T *>(right); }
template <class T> struct Both {
    T cilk_reducer(zero_of<T>, plus_of<T>) sum = 0, product = 1;
};
static void add_plainly(long &to, int more) { to += more; }
static int three() { return 3; }

/* Several in a declaration, functions of templates, lambdas, plain references, and what a child sets. */
static void places() {
    Both<long> one;
    long cilk_reducer([](void *view) { *static_cast<long *>(view) = 0; },
                      [](void *left, void *right) { *static_cast<long *>(left) += *static_cast<long *>(right); })
        sum = 0, set = 0;
    both([&](int i) { add_plainly(one.sum, i); }, /* [update] */
         [&] { sink = one.sum; });
    both([&](int i) { one.product = i * one.product; }, /* [update] */
         [&] { one.product = 1; });
    both([&](int i) { if (sum < i) sum = i; }, /* [update] */
         [&] { sink = sum; });
    both([&](int) { set++; }, /* [update] */
         [&] { set = cilk_spawn three(); });
    auto copy = [sum] { return sum + 1; };
    std::printf("%ld %ld %ld %ld %ld\n", one.sum, one.product, sum, set, copy());
}

static void scalars() {
    cilk::reducer<cilk::op_add<int>> sum(1);
    cilk::reducer<cilk::op_mul<long>> product;
    cilk::reducer<cilk::op_and<unsigned>> bits;
    cilk::reducer<cilk::op_or<unsigned>> some;
    cilk::reducer<cilk::op_xor<unsigned>> odd;
    cilk::reducer<cilk::op_max<int>> most;
    cilk::reducer<cilk::op_min<double>> least;
    cilk::reducer<cilk::op_max_index<int, int>> where;
    cilk::reducer_opadd<int> older(2);
    cilk::reducer_max<int> older_most(0);
    int taken = 0;
    both([&](int i) { *sum += i; }, /* [update] */
         [&] { sum.get_value(); });
    both([&](int i) { *product *= i; }, /* [update] */
         [&] { product.set_value(1); });
    both([&](int i) { *bits &= 0xf0u | static_cast<unsigned>(i); }, /* [update] */
         [&] { bits.get_value(); });
    both([&](int i) { *some = *some | static_cast<unsigned>(i); }, /* [update] */
         [&] { some.get_value(); });
    both([&](int i) { odd.view() ^= static_cast<unsigned>(i); }, /* [update] */
         [&] { odd.get_value(); });
    both([&](int i) { *most = cilk::max_of(*most, i); }, /* [update] */
         [&] { most.move_in(taken); });
    both([&](int i) { least->calc_min(i); }, /* [update] */
         [&] { least.get_value(); });
    both([&](int i) { where->calc_max(i, 10 - i); }, /* [update] */
         [&] { where.get_value(); });
    both([&](int) { older++; }, /* [update] */
         [&] { older.get_value(); });
    both([&](int i) { older_most = cilk::max_of(older_most, i); }, /* [update] */
         [&] { older_most.get_value(); });
    std::printf("%d %ld %x %u %u %d %g %d %d %d\n", sum.get_value(), product.get_value(), bits.get_value(),
                some.get_value(), odd.get_value(), most.get_value(), least.get_value(), where.get_value().first,
                older.get_value(), older_most.get_value());
}

static void owners() {
    cilk::reducer<cilk::op_list_append<int>> list;
    cilk::reducer_list_prepend<std::string> before;
    cilk::reducer<cilk::op_string> text("t");
    cilk::reducer<cilk::op_ostream> out(std::cout);
    std::list<int> taken;
    both([&](int i) { list->push_back(i); }, /* [update] */
         [&] { list.move_out(taken); });
    both([&](int i) { before.push_front(std::string(20, static_cast<char>('a' + i))); }, /* [update] */
         [&] { before.get_value(); });
    both([&](int i) { *text += std::string(10, static_cast<char>('a' + i)); }, /* [update] */
         [&] { text.get_value().size(); });
    *out << " and " << 8 << std::endl;
    std::printf("%zu %s %s\n", list.get_value().size(), before.get_value().front().c_str(), text.get_value().c_str());
}

struct Union : cilk::monoid_base<std::set<int>> {
    static void reduce(std::set<int> *left, std::set<int> *right) { left->insert(right->begin(), right->end()); }
};

static void none(void *view) { new (view) std::vector<int>(); }
static void join(void *, void *) {}
struct Kept {
    int number;
    ~Kept() { number = 0; }
};
static Kept put(std::vector<int> &to, Kept kept, const std::string &text) {
    to.push_back(kept.number);
    if (text == "throw")
        throw std::runtime_error(text);
    return kept;
}

static void views() {
    std::vector<int> cilk_reducer(none, join) all;
    std::vector<int> cilk_reducer(none, join) *at = __builtin_addressof(all);
    cilk_for (int i = 0; i < 4; i++) {
        put(all, Kept{i}, "text");
        at->push_back(i);
        all.insert(all.end(), i);
        try {
            put(*at, Kept{i}, "throw");
        } catch (const std::runtime_error &) {
        }
    }
    int sum = 0;
    for (int one : all)
        sum += one;
    std::printf("%zu\n%d\n", all.size(), sum);
}

static void own() {
    cilk::reducer<Union> all;
    both([&](int i) { all->insert(i); }, /* [own] */
         [&] { all.get_value(); });
    std::printf("%zu\n", all.get_value().size());
}

int main(int, char **words) {
    racy = std::strcmp(words[1], "racy") == 0;
    if (std::strcmp(words[1], "own") == 0) {
        own();
        return 0;
    }
    if (std::strcmp(words[1], "views") == 0) {
        views();
        return 0;
    }
    opencilk();
    shared();
    places();
    classes();
    scalars();
    owners();
}
