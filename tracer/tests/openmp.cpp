// Classes and exceptions in OpenMP. With the word clean there is no race; with racy those of the tags, which say how many
// bytes race and on which lines. What is printed doesn't depend on the number of threads.
#include <cstdio>
#include <cstring>
#include <omp.h>
#include <string>

static bool racy;
static void keep(int value) {
    volatile int kept = value;
    (void)kept;
}

// Where it says so, a value is there as long as it is.
struct Value {
    int number = 0, *ended = nullptr;
    Value() = default;
    explicit Value(int from, int *end = nullptr) : number(from), ended(end) {}
    Value(const Value &other) : number(other.number), ended(other.ended) {} // [4 copied second]
    Value &operator=(const Value &other) {
        number = other.number; // [4 last first]
        return *this;
    }
    ~Value() {
        if (ended)
            *ended = number; // [4 ended first]
    }
};

static void tasks() {
    int ended = 0;
    Value first(1), second(2, &ended);
#pragma omp parallel num_threads(2)
#pragma omp single
    {
#pragma omp task shared(first)
        first.number = 3; // [4 copied first]
        if (!racy) {
#pragma omp taskwait
        }
#pragma omp task firstprivate(first)
        keep(first.number);
#pragma omp task firstprivate(second)
        second.number++;
        if (!racy) {
#pragma omp taskwait
        }
        keep(ended); // [4 ended second]
#pragma omp taskwait
#pragma omp task firstprivate(second) if (0)
        second.number += 2;
    }
    std::printf("%d %d %d\n", first.number, second.number, ended);
}

static void loops_of_tasks() {
    int ended = 0;
    Value last, start(5, &ended);
    std::string text = "text";
#pragma omp parallel
#pragma omp single
#pragma omp taskloop firstprivate(start, text) lastprivate(last)
    for (int i = 0; i < 6; i++) {
        Value here(start.number + i + static_cast<int>(text.size()));
        last = here;
        start.ended = nullptr;
    }
    std::printf("%d\n", last.number);
}

static void lasts() {
    Value last;
#pragma omp parallel
    {
#pragma omp for lastprivate(last) nowait
        for (int i = 0; i < 6; i++)
            last = Value(i);
        if (!racy) {
#pragma omp barrier
        }
        keep(last.number); // [4 last second]
    }
    std::printf("%d\n", last.number);
}

#pragma omp declare reduction(join : std::string : omp_out += omp_in)
#pragma omp declare reduction(+ : Value : omp_out.number += omp_in.number) initializer(omp_priv = Value(0))

static void sums() {
    std::string all;
    Value sum(100);
#pragma omp parallel for reduction(join : all) reduction(+ : sum)
    for (int i = 0; i < 10; i++) {
        all += static_cast<char>('a' + i);
        sum.number += i;
    }
#pragma omp parallel
#pragma omp single
#pragma omp taskgroup task_reduction(+ : sum)
    for (int i = 0; i < 10; i++)
#pragma omp task in_reduction(+ : sum)
        sum.number += i;
    std::printf("%zu %d\n", all.size(), sum.number);
}

static int made;
struct Made {
    int number = 7;
    Made() {
        if (racy)
            made++; // [4 made first] [4 made second]
    }
};

static int begun, ended, copied;
struct Begun {
    int number = 1;
    Begun() {
        if (racy)
            begun++; // [4 begun first] [4 begun second]
    }
};
struct Ended {
    int number = 1;
    ~Ended() {
        if (racy)
            ended++; // [4 end first] [4 end second]
    }
};
struct Copied {
    int number = 1;
    Copied() = default;
    Copied(const Copied &other) : number(other.number) {
        if (racy)
            copied++; // [4 copy first] [4 copy second]
    }
};

// All that a region does is a loop, or sections.
static int looped, sectioned, bounded;
struct Looped {
    int number = 1;
    Looped() {
        if (racy)
            looped++; // [4 looped first] [4 looped second]
    }
};
struct Sectioned {
    int number = 1;
    Sectioned() {
        if (racy)
            sectioned++; // [4 sectioned first] [4 sectioned second]
    }
};

// Its memory is a thread's own, and so is what it counts under the guard of a sum.
struct Block {
    int *number = new int(0);
    Block() = default;
    Block(const Block &other) : number(new int(*other.number)) {}
    ~Block() { delete number; }
    void add(const Block &other) {
        *number += *other.number;
        bounded++;
    }
};
#pragma omp declare reduction(+ : Block : omp_out.add(omp_in))

static void objects_of_threads() {
    Begun one;
    Ended two;
    Copied three;
    Looped four;
    Sectioned five;
    Block six, seven, sum;
    int all = 0;
#pragma omp parallel private(one, two, six) firstprivate(three, seven) reduction(+ : sum)
    *sum.number += one.number + two.number + three.number + ++*six.number + ++*seven.number;
#pragma omp parallel for private(four)
    for (int i = 0; i < 4; i++)
        four.number = i;
#pragma omp parallel sections private(five) reduction(+ : all)
    {
#pragma omp section
        all += five.number;
#pragma omp section
        all += 2;
    }
    std::printf("%d %d\n", *sum.number % 5, all);
}

// Each thread has an object of its own.
static void privates() {
    Made one;
#pragma omp parallel
    {
#pragma omp for private(one)
        for (int i = 0; i < 4; i++)
            one.number = i;
    }
    std::printf("%d\n", one.number);
}

struct Thrown {
    int number;
};
static void throw_if(bool throws) {
    if (throws)
        throw Thrown{6};
}

static void exceptions() {
    int caught = 0, counts[4] = {};
#pragma omp parallel for reduction(+ : caught)
    for (int i = 0; i < 4; i++) {
        Value here(i, &counts[i]);
        try {
            Value inner(1, &counts[i]);
            throw_if(i % 2 == 1);
        } catch (const Thrown &thrown) {
            caught += thrown.number;
        }
    }
#pragma omp parallel
#pragma omp single
    for (int i = 0; i < 4; i++)
#pragma omp task firstprivate(i)
        try {
            throw_if(i % 2 == 1);
        } catch (const Thrown &) {
            counts[i] = 20;
        }
    std::printf("%d %d\n", caught, counts[3]);
}

static void caught_too_late() {
    int count = 0;
#pragma omp parallel
#pragma omp single
    {
#pragma omp task shared(count)
        try {
            throw_if(true);
        } catch (const Thrown &) {
            count = 1; // [4 thrown first]
        }
        if (!racy) {
#pragma omp taskwait
        }
        keep(count); // [4 thrown second]
    }
}

struct Own {
    int number = 3;
};
extern Own own;
#pragma omp threadprivate(own)
Own own;

static void copies() {
    Value handed;
    int sum = 0;
    own.number = 4;
#pragma omp parallel private(handed) copyin(own) num_threads(2)
    {
#pragma omp single copyprivate(handed)
        handed = Value(6);
        own.number++;
#pragma omp master
        sum = handed.number + own.number;
    }
    std::printf("%d\n", sum);
}

int main(int, char **words) {
    racy = std::strcmp(words[1], "racy") == 0;
    tasks();
    loops_of_tasks();
    lasts();
    sums();
    privates();
    objects_of_threads();
    exceptions();
    caught_too_late();
    if (!racy)
        copies();
}
