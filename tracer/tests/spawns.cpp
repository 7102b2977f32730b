// Spawns of C++. With the word clean there is no race; with racy those of the tags, which say how many bytes race and
// on which lines. With thrown an exception leaves a child whose variable has no default and is returned; with kept others
// do.
#include <cilk/cilk.h>
#include <cstdio>
#include <cstring>
#include <functional>
#include <memory>
#include <string>
#include <utility>
#include <vector>

static bool racy;
static void keep(long value) {
    volatile long kept = value;
    (void)kept;
}
#define WAIT \
    if (!racy) \
        cilk_sync

static int one(int number) { return number; }
static void add(int &to, int number) { to += number; } // [4 ref first] [4 nested first] [4 own first]
static void look(const int &at) { keep(at); }         // [4 look first]
static void use(int number) { keep(number); }

// ---- Results ----
struct Pair {
    int a, b;
};
static Pair pair(int number) { return {number, number}; }
template <class A, class B> struct Both {
    A a;
    B b;
};
static Both<int *, Both<int, int>> both(int number) { return {nullptr, {number, number}}; }

static void results() {
    int declared = cilk_spawn one(1); // [4 declared first]
    auto deduced = cilk_spawn one(2); // [4 deduced first]
    long braced{cilk_spawn one(3)};   // [8 braced first]
    Pair made = cilk_spawn pair(1);   // [4 made first]
    const Pair fixed = cilk_spawn pair(1); // [4 fixed first]
    const Both<int *, Both<int, int>> mixed = cilk_spawn both(1); // [4 mixed first]
    WAIT;
    keep(declared); // [4 declared second]
    keep(deduced);  // [4 deduced second]
    keep(braced);   // [8 braced second]
    keep(made.b);   // [4 made second]
    keep(fixed.a);  // [4 fixed second]
    keep(mixed.b.b); // [4 mixed second]
    cilk_sync;
    int numbers[2] = {0, 5}, at = 0;
    Pair set = {1, 2};
    numbers[at++] = cilk_spawn one(4); // [4 set first]
    numbers[at++] += cilk_spawn one(5); // [4 sum first]
    set = cilk_spawn pair(2);           // [4 struct first]
    WAIT;
    keep(numbers[0]); // [4 set second]
    keep(numbers[1]); // [4 sum second]
    keep(set.a);      // [4 struct second]
    cilk_sync;
    std::printf("%d %d %ld %d %d ", declared, deduced, braced, made.a, fixed.b);
    std::printf("%d %d %d\n", numbers[0], numbers[1], set.b);
}

// ---- Classes: what is constructed, moved and destroyed ----
struct Owner {
    int *at;
    explicit Owner(int number) : at(new int(number)) {} // [8 result first]
    Owner(const Owner &other) : at(new int(*other.at)) {}
    Owner(Owner &&other) noexcept : at(other.at) { other.at = nullptr; } // [8 moved first]
    Owner &operator=(Owner &&other) noexcept {
        delete at; // [8 moved second]
        at = other.at;
        other.at = nullptr;
        return *this;
    }
    ~Owner() { delete at; }
};
static Owner own(int number) { return Owner(number); }
static void take(Owner owner) { keep(*owner.at); }
static void taken_there(Owner &&owner) {
    Owner mine(std::move(owner));
    keep(*mine.at);
}
struct Marks {
    int *at;
    ~Marks() { *at = 1; } // [4 temporary first]
};
static void watch(const Marks &marks) { keep(*marks.at); }

static void classes() {
    Owner result = cilk_spawn own(1);
    WAIT;
    keep(result.at != nullptr); // [8 result second]
    cilk_sync;
    Owner given(1), moved(2);
    cilk_spawn take(given);
    cilk_spawn take(std::move(given)); // the parent moves it
    given = Owner(3);
    cilk_spawn take(given);
    cilk_sync;
    cilk_spawn taken_there(std::move(moved));
    WAIT;
    moved = Owner(4);
    cilk_sync;
    int mark = 0;
    cilk_spawn watch(Marks{&mark});
    WAIT;
    keep(mark); // [4 temporary second]
    cilk_sync;
    std::string words[3];
    for (int i = 0; i < 3; i++)
        words[i] = cilk_spawn std::string(std::string(20, 'a') + std::to_string(i)).substr(i);
    cilk_sync;
    std::printf("%d %d %s\n", *result.at, *moved.at, words[2].c_str());
}

// ---- Arguments: the parent reads what is handed over by value ----
template <class T> static T twice(T value) { return value + value; }
static void use_pair(Pair by) { keep(by.a); }
static void over(Pair by) { keep(by.b); }
static void over(int by) { keep(by); }

static void arguments() {
    int ref = 0, looked = 0, own_place = 0;
    cilk_spawn add(ref, 1);
    cilk_spawn look(looked);
    WAIT;
    keep(ref); // [4 ref second]
    looked = 1; // [4 look second]
    cilk_sync;
    Pair shared = {1, 2};
    cilk_spawn [&] { shared.a = 3; }(); // [4 read first]
    WAIT;
    cilk_spawn use_pair(shared); // [4 read second]
    shared.b = 4;
    cilk_sync;
    long sums[3];
    for (int i = 0; i < 3; i++) {
        cilk_spawn use(i);
        cilk_spawn over(i);
        cilk_spawn over(shared);
        sums[i] = cilk_spawn twice<long>(i);
        cilk_spawn look(i + 1);
        shared.b = i;
    }
    cilk_sync;
    int each[4] = {0};
    std::string text = "text";
    for (int i = 0; i < 4; i++) {
        cilk_spawn add(each[i], i);
        cilk_spawn take(Owner(i));
        cilk_spawn [i, text](const std::string &, int) { keep(i); }(text + "s", each[0] * 0);
    }
    cilk_sync;
    cilk_spawn add(own_place, own_place);
    WAIT;
    cilk_spawn use(own_place); // [4 own second]
    cilk_sync;
    std::printf("%d %d %ld\n", ref, each[3], sums[2]);
}

// ---- What is called ----
struct Counter {
    int n = 0, more = 0, last = 0;
    virtual ~Counter() {}
    virtual void count(int by) { more += by; }
    void raise(int by) { n += by; }     // [4 object first] [4 pointer first]
    void lower(int by) { more -= by; }  // [4 this first]
    void reset(int to) { last = to; }   // [4 implied first]
    void both() {
        cilk_spawn this->lower(1);
        cilk_spawn reset(1);
        WAIT;
        keep(more); // [4 this second]
        keep(last); // [4 implied second]
    }
    template <class T> T plus(T by) { return n + by; }

  private:
    friend void members();
    void hidden(int by) { last = by; } // [4 private first]
};
struct Special : Counter {
    void count(int by) override { n += by; } // [4 virtual first]
};
template <class T> struct Sums {
    T sum{};
    void add(T by) { sum += by; } // [8 template first] [8 template second]
    void all(const std::vector<T> &many) {
        for (const T &each : many) {
            cilk_spawn add(each);
            WAIT;
        }
    }
};

void members() {
    Counter object;
    Special special;
    auto shared = std::make_shared<Counter>();
    Counter &base = special;
    cilk_spawn object.raise(1);
    cilk_spawn shared->raise(1);
    cilk_spawn base.count(1);
    cilk_spawn base.Counter::count(2);
    cilk_spawn (&special)->hidden(3);
    WAIT;
    keep(object.n);     // [4 object second]
    keep(shared->n);    // [4 pointer second]
    keep(special.n);    // [4 virtual second]
    keep(special.last); // [4 private second]
    cilk_sync;
    object.both();
    long sum = cilk_spawn object.plus<long>(1);
    cilk_sync;
    Sums<long> sums;
    sums.all({1, 2, 3});
    std::printf("%d %d %ld %ld\n", special.n, object.n, sum, 0 * sums.sum);
}

static int with_default(int one, int other = 2) { return one + other; }
static void other(int &to, int number) { to -= number; } // [4 address first]

static void callees() {
    int a = 0, b = 0, c = 0, d = 0, e = 0;
    auto counts = [&](int by) { a += by; }; // [4 object_a first]
    auto any = [&](auto by) { b += by; };   // [4 generic first]
    std::function<void(int)> function = [&](int by) { c += by; }; // [4 function first]
    void (*address)(int &, int) = other;
    cilk_spawn counts(1);
    cilk_spawn any(1);
    cilk_spawn function(1);
    cilk_spawn address(d, 1);
    address = add; // the parent has read it
    cilk_spawn (*address)(e, 1);
    WAIT;
    keep(a); // [4 object_a second]
    keep(b); // [4 generic second]
    keep(c); // [4 function second]
    keep(d); // [4 address second]
    cilk_sync;
    int nested = 0, inner = 0;
    cilk_spawn [&] {
        cilk_spawn add(nested, 1);
        cilk_spawn [&] { inner = 1; }(); // [4 inner first]
        WAIT;
        keep(inner); // [4 inner second]
    }();
    WAIT;
    keep(nested); // [4 nested second]
    char bytes[4] = {1, 1, 1, 1};
    cilk_spawn std::memset(bytes, 0, sizeof bytes); // [1 library first]
    WAIT;
    keep(bytes[1]); // [1 library second]
    int sum = cilk_spawn with_default(1);
    cilk_sync;
    std::printf("%d %d %d\n", sum, d, e);
}

// ---- Operators, and pointers to members ----
struct Total {
    int sum = 0, found = 0, more = 0;
    Total &operator+=(int by) {
        sum += by; // [4 sums first]
        return *this;
    }
    int &operator[](int by) { return found += by; } // [4 found first]
    void operator()(int by) { more += by; }         // [4 called first]
    virtual ~Total() {}
    virtual void raise(int by) { more += by; }
    Total operator++(int) { return *this; }
};
struct Special_total : Total {
    void raise(int by) override { more -= by; } // [4 by_pointer first]
    std::function<void(int)> function;
    void (*address)(int &, int) = add;
};
static Total &operator<<(Total &to, int by) {
    to.sum -= by; // [4 shifted first]
    return to;
}
static bool operator!(const Total &total) { return total.sum == 0; } // [4 not first]
static Pair operator-(Pair one, Pair other) { return {one.a - other.a, one.b - other.b}; }
// The parent reads nothing of this, since no operator gets it by value.
struct Row {
    int used, unused;
    Row &operator-=(int by) {
        used -= by;
        return *this;
    }
    Row &operator-=(const Row &by) { return *this -= by.used; }
};

static int next(int &number) { return ++number; }

static void operators() {
    Total sums, found, called, shifted, asked, each[2];
    int at = 0;
    cilk_spawn sums += 1;
    cilk_spawn found[2];
    cilk_spawn called.operator()(3);
    cilk_spawn shifted << 4;
    WAIT;
    keep(sums.sum);     // [4 sums second]
    keep(found.found);  // [4 found second]
    keep(called.more);  // [4 called second]
    keep(shifted.sum);  // [4 shifted second]
    cilk_sync;
    bool is_zero = cilk_spawn !asked;
    WAIT;
    asked.sum = 1; // [4 not second]
    cilk_sync;
    cilk_spawn each[next(at) - 2] += next(at); // the right operand comes first
    cilk_spawn called++;
    cilk_sync;
    Pair pairs[] = {{5, 6}, {1, 2}};
    cilk_spawn [&] { pairs[0].a = 3; }(); // [4 operand first]
    WAIT;
    Pair difference = cilk_spawn pairs[0] - pairs[1]; // [4 operand second]
    pairs[0].b = pairs[1].a = 9;
    cilk_sync;
    Row row = {4, 5};
    cilk_spawn [&] { row.unused = 6; }();
    cilk_spawn row -= 1;
    cilk_sync;
    std::string text = "text";
    cilk_spawn text = text + "s";
    cilk_sync;
    std::printf("%d %d %d %d %s\n", is_zero, each[0].sum, difference.b, row.used, text.c_str());
}

static void pointers() {
    int sum = 0, own = 0;
    Special_total object, *there = &object;
    void (Total::*raise)(int) = &Total::raise;
    auto function = &Special_total::function;
    object.function = [&](int by) { sum += by; }; // [4 pointed first]
    cilk_spawn (there->*raise)(1);
    raise = nullptr; // the parent has read it
    cilk_spawn (object.*function)(2);
    cilk_spawn [&] { object.address = add; }(); // [8 own_pointer first]
    WAIT;
    cilk_spawn (object.*&Special_total::address)(own, 3); // [8 own_pointer second]
    WAIT;
    keep(object.more); // [4 by_pointer second]
    keep(sum);         // [4 pointed second]
    cilk_sync;
    std::printf("%d %d %d\n", object.more, sum, own);
}

// ---- Statements, blocks and exceptions ----
static void statements(int number) {
    int at[4] = {};
    if (number == 0)
        at[0] = 1;
    else
        at[0] = cilk_spawn one(1); // [4 else first]
    do
        at[1] = cilk_spawn one(2); // [4 do first]
    while (number == 0);
    for (int i = 2; i < 3; i++)
        at[i] = cilk_spawn one(3); // [4 for first]
    switch (number) {
    case 1:
        at[3] = cilk_spawn one(4); // [4 case first]
    }
    WAIT;
    keep(at[0]); // [4 else second]
    keep(at[1]); // [4 do second]
    keep(at[2]); // [4 for second]
    keep(at[3]); // [4 case second]
}

static void blocks() {
    int outer = 0, tried = 0, scoped[2] = {};
    cilk_scope {
        scoped[0] = cilk_spawn one(1); // [4 scope first]
        WAIT;
        keep(scoped[0]); // [4 scope second]
        scoped[1] = cilk_spawn one(2);
    }
    keep(scoped[1]);
    cilk_spawn [&] { outer = 1; }(); // [4 outer first]
    WAIT;
    try {
        cilk_spawn [&] { tried = 1; }(); // the block's end waits
        cilk_sync;                       // for the block's own child alone
        keep(outer);                    // [4 outer second]
        cilk_spawn [&] { tried = 2; }();
    } catch (int) {
    }
    keep(tried);
}

static int thrower(int number) {
    if (number > 1)
        throw number; // [throws]
    return number;
}

// None of these has a default. The ends of the second kind are counted.
struct Full {
    int number;
    explicit Full(int from) : number(from) {}
};
static Full full(int number) { return Full(thrower(number)); }
static int ends;
struct Counted {
    std::unique_ptr<int> at;
    explicit Counted(int number) : at(new int(number)) {}
    Counted(Counted &&other) = default;
    ~Counted() { ends++; }
};
static Counted counted(int number) { return Counted(thrower(number)); }

static Counted returned(int number) {
    Counted result = cilk_spawn counted(number); // [thrown]
    cilk_sync;
    return result;
}

// In the end the handler has waited for the other child.
static int caught() {
    int at = 0;
    std::string kept(30, 'k');
    try {
        cilk_spawn [&] { at = 1; }();
        at = *returned(2).at;
    } catch (int number) {
        at += number;
    }
    return at;
}

static int without_default(int number) {
    int at = ends = 0;
    try {
        Full one = cilk_spawn full(number);
        const auto other = cilk_spawn counted(number + 1);
        const Counted last{cilk_spawn counted(1)};
        at = 2;
        cilk_sync;
        at = one.number + *other.at + *last.at;
    } catch (int thrown) {
        at += 10 * thrown;
    }
    return 10 * at + ends;
}

// What a child throws its parent throws at its sync, and goes on until there.
static void store_and_throw(int &to) {
    to = 1; // [4 thrower first]
    throw 1;
}
static void beside_thrower() {
    int at = 0;
    try {
        cilk_spawn store_and_throw(at);
        WAIT;
        keep(at); // [4 thrower second]
    } catch (int) {
    }
    keep(at);
}

static int first_of_two() {
    int result = 0;
    try {
        auto declared = cilk_spawn thrower(5);
        std::string text = cilk_spawn [] { return std::string(40, static_cast<char>('a' + thrower(1))); }();
        std::string none = cilk_spawn [] { return std::string(40, static_cast<char>('a' + thrower(6))); }();
        result = cilk_spawn thrower(7);
        result += 10;
        cilk_sync;
        result += 100 + declared + static_cast<int>(text.size() + none.size());
    } catch (int number) {
        result += number;
    }
    return result;
}

static int ended;
static void throw_at_end() {
    cilk_spawn thrower(7);
    ended++;
}
template <class T> struct Braced {
    T value;
    explicit Braced(int number) : value{number} { cilk_spawn thrower(number); }
};
template <class Function> static int thrown_by(Function function) {
    try {
        function();
    } catch (int number) {
        return number;
    }
    return 0;
}

static void exceptions() {
    std::printf("%d %d %d ", without_default(0), without_default(1), without_default(2));
    std::printf("%d ", first_of_two());
    std::printf("%d ", thrown_by(throw_at_end));
    std::printf("%d ", ended);
    std::printf("%d ", thrown_by([] {
        int at = 0;
        cilk_scope {
            cilk_spawn thrower(8);
            at = cilk_spawn thrower(1);
        }
        ended += at;
    }));
    std::printf("%d ", thrown_by([] { Braced<int>(6); }));
    std::printf("%d\n", thrown_by([] {
        cilk_spawn thrower(9);
        throw 10;
    }));
}

// Arguments that throw are the parent's.
static int before_the_child() {
    try {
        cilk_spawn use(thrower(2));
    } catch (int number) {
        return number;
    }
    return 0;
}

int main(int, char **words) {
    racy = std::strcmp(words[1], "racy") == 0;
    if (std::strcmp(words[1], "thrown") == 0) {
        std::printf("%d\n", caught());
        return 0;
    }
    if (std::strcmp(words[1], "kept") == 0) {
        exceptions();
        std::printf("%d\n", ended);
        return 0;
    }
    results();
    classes();
    arguments();
    members();
    callees();
    operators();
    pointers();
    statements(1);
    blocks();
    beside_thrower();
    std::printf("%d\n", before_the_child());
}
