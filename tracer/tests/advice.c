/* Races for which test_words.py knows what may be missing: the first word says which. The tags name lines. */
#include <cilk/cilk.h>
#include <string.h>

static int swaps, least = 9, scratch, total, row[4], all[4];
static volatile int sink;

/* A wait between the halves would end what is parallel here. */
static void sort(int *numbers, int many) {
    if (many < 2)
        return;
    if (numbers[0] > numbers[1])
        swaps++;
    cilk_spawn sort(numbers, many / 2);
    sort(numbers + many / 2, many - many / 2);
    cilk_sync;
}

static void of_a_counter(void) {
    int numbers[] = {4, 3, 2, 1};
    sort(numbers, 4);
}

static void find(int number) {
    if (number < least)
        least = number;
}

static void of_the_least(void) {
    cilk_spawn find(3);
    find(2);
}

static void make(void) { total = 3; }

static void of_a_result(void) {
    cilk_spawn make();
    sink = total; /* [early] */
    cilk_sync;
}

static void compute(int number) {
    scratch = number;
    sink = scratch;
}

static void of_scratch(void) {
    cilk_spawn compute(1);
    compute(2);
}

static void add(int number) {
    for (int i = 0; i < 4; i++)
        all[i] += number;
}

static void of_elements(void) {
    cilk_spawn add(1);
    add(2); /* [second half] */
}

static void of_a_sum(void) {
    cilk_for(int i = 0; i < 4; i++) /* [sum] */
        total += i;
}

static void of_an_own(void) {
    cilk_for(int i = 0; i < 4; i++) { /* [own] */
        scratch = i;
        row[i] = scratch;
    }
}

static const struct {
    const char *name;
    void (*run)(void);
} runs[] = {{"counter", of_a_counter}, {"least", of_the_least}, {"result", of_a_result}, {"scratch", of_scratch},
            {"elements", of_elements}, {"sum", of_a_sum},       {"own", of_an_own}};

int main(int count, char **words) {
    for (size_t at = 0; at < sizeof runs / sizeof *runs; at++)
        if (strcmp(count > 1 ? words[1] : "", runs[at].name) == 0)
            runs[at].run();
}
