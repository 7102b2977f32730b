// What programs in C++ do beside C: the tables of virtual functions, new and delete, statics, exceptions and strings.
// With the word clean there is no race. A tag says how many bytes race, and on which lines.
#include <cstdio>
#include <cstring>
#include <mutex>
#include <new>
#include <stdexcept>
#include <string>
#include <vector>

static int lost;

struct Shape {
    int sides;
    explicit Shape(int sides) : sides(sides) {}
    virtual ~Shape() {}
    virtual int corners() const { return sides; }
};

static int corners_of(const Shape &shape) { return shape.corners(); }

struct Square : Shape {
    Square() : Shape(4) {}
    ~Square() override { lost = corners_of(*this); } // [8 table second]
    int corners() const override { return 4; }
};

struct alignas(64) Wide {
    char bytes[64];
};

static bool is_racy;
static std::vector<std::string> early{"early"};
static int seen[8];

static const std::string &late() {
    static const std::string text = "late";
    return text;
}

static void wait() {
    if (!is_racy) {
#pragma omp taskwait
    }
}

static void tables() {
    alignas(Square) static unsigned char room[sizeof(Square)];
    Shape *shape = new (room) Square;
#pragma omp task firstprivate(shape)
    seen[0] = shape->corners(); // [8 table first]
    wait();
    shape->~Shape();
#pragma omp taskwait
}

static void deletes() {
    char *many = new char[16](); // zeroed
    int *one = new int(1);
    Wide *wide = new Wide;
#pragma omp task firstprivate(many, one, wide)
    {
        seen[1] = many[5];  // [1 many first]
        seen[2] = *one;     // [4 one first]
        wide->bytes[3] = 1; // [1 wide first]
    }
    wait();
    delete[] many; // [1 many second]
    delete one;    // [4 one second]
    delete wide;   // [1 wide second]
#pragma omp taskwait
}

// Whoever comes first initialises the static, and calls what is called once.
static std::once_flag is_done;
static void statics() {
    for (int i = 3; i < 6; i++)
#pragma omp task firstprivate(i)
    {
        std::call_once(is_done, [] {});
        seen[i] = static_cast<int>(late().size());
    }
#pragma omp taskwait
}

static int checked(int number) {
    if (number == 2)
        throw std::runtime_error("two threw");
    return number;
}

// Frames that are left by an exception have no memory any more, which comes again for the next task.
static void exceptions(std::string *what) {
    for (int i = 0; i < 4; i++)
#pragma omp task firstprivate(i)
    {
        try {
            int local[4] = {i, i, i, checked(i)};
            if (is_racy)
                seen[6] += local[3]; // [4 sum first] [4 sum second]
        } catch (const std::exception &error) {
            *what = error.what();
        }
    }
#pragma omp taskwait
}

static void strings(std::string *text) {
#pragma omp task
    (*text)[3] = 'x'; // [1 letter first]
    wait();
    if ((*text)[3] == 'y') // [1 letter second]
        seen[7] = 1;
#pragma omp taskwait
}

int main(int, char **words) {
    is_racy = std::strcmp(words[1], "racy") == 0;
    std::string text = "twenty-four letters here", what;
#pragma omp parallel
#pragma omp single
    {
        tables();
        deletes();
        statics();
        exceptions(&what);
        strings(&text);
    }
    std::printf("%s %s: %s, %zu letters, %d sides\n", early[0].c_str(), late().c_str(), what.c_str(), text.size(),
                lost);
}
