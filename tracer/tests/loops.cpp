/* Loops of Cilk in C++. The first word says which races there are: `clean` none, and `racy` one on each tagged line.
   With `thrown` exceptions leave iterations alone. */
#include <cilk/cilk.h>
#include <cstdio>
#include <cstring>
#include <string>
#include <vector>

static bool racy;

struct Sums {
    std::vector<long> found;
    long last = 0;

    template <class Number> void fill(const std::vector<Number> &numbers) {
        found.resize(numbers.size());
        cilk_for (auto at = numbers.begin(); at != numbers.end(); ++at) {
            auto doubled = [&](Number more) { return 2 * *at + more; };
            std::string name(20, 'a');
            if (*at == 3)
                continue;
            found[at - numbers.begin()] = doubled(1) + (long)name.size();
            if (racy)
                last = *at; /* [last] */
        }
    }
};

static long nested(void) {
    long sums[3], shared = 0;
    cilk_for (int i = 0; i < 3; i++) {
        long sum[2];
        cilk_for (unsigned j = 0; j < static_cast<unsigned>(2); j += 1)
            sum[j] = i + (racy ? ++shared : 1); /* [shared] */
        sums[i] = sum[0] + sum[1];
    }
    return sums[0] + sums[1] + sums[2] + 0 * shared;
}

/* An iterator that has no more than a loop needs, and one to what is constant. */
struct Step {
    int *at;
    explicit Step(int *at) : at(at) {}
    Step &operator++() { return at++, *this; }
    bool operator!=(const Step &other) const { return at != other.at; }
};

static int iterators(void) {
    int numbers[] = {1, 2, 3, 4}, doubled[4], last = 0;
    cilk_for (Step step(numbers); step != Step(numbers + 4); ++step) {
        *step.at += 1;
        if (racy)
            last = *step.at; /* [step] */
    }
    cilk_for (const int *at = numbers; at != &numbers[4]; at++)
        doubled[at - numbers] = 2 * *at;
    return doubled[3] + 0 * last;
}

static int thrower(int number) {
    if (number > 1)
        throw number;
    return number;
}

/* The other iterations are run, and then the first exception is thrown again. */
static int thrown(void) {
    int done[4] = {}, last = 0, sum = 0;
    try {
        cilk_for (int i = 0; i < 4; i++) {
            done[i] = i + 1;
            if (racy)
                last = i; /* [thrower] */
            thrower(i);
            done[i] += 4;
        }
        sum = 1000;
    } catch (int number) {
        sum = 100 * number + last * 0;
    }
    for (int number : done)
        sum += number;
    return sum;
}

/* Out of a loop inside of another; of a child, at its iteration's sync and at its end; and of a block in an iteration. */
static int nested_thrown(void) {
    int done = 0, handled[3] = {};
    try {
        cilk_for (int i = 0; i < 3; i++)
            cilk_for (int j = 0; j < 3; j++)
                thrower(10 * i + j);
    } catch (int number) {
        done = number;
    }
    try {
        cilk_for (int i = 0; i < 3; i++) {
            cilk_spawn thrower(i + 1);
            if (i > 1) {
                cilk_sync;
                handled[i] = 1;
            }
        }
    } catch (int number) {
        done = 10 * done + number;
    }
    try {
        cilk_for (int i = 0; i < 3; i++)
            cilk_spawn thrower(i);
    } catch (int number) {
        done = 10 * done + number;
    }
    cilk_for (int i = 0; i < 3; i++)
        try {
            cilk_spawn thrower(i);
        } catch (int number) {
            handled[i] += number;
        }
    return 10 * done + handled[0] + handled[1] + handled[2];
}

int main(int, char **words) {
    racy = std::strcmp(words[1], "racy") == 0;
    if (std::strcmp(words[1], "thrown") == 0) {
        std::printf("%d %d %d\n", thrown(), nested_thrown(), iterators());
        return 0;
    }
    Sums sums;
    sums.fill(std::vector<int>{1, 2, 3});
    nested();
    iterators();
    thrown();
    std::printf("%ld %ld %ld\n", sums.found[0], sums.found[1], sums.found[2]);
}
