/* Races of OpenMP whose words test_words.py knows: the first word says which. The tags name lines. */
#include <stdio.h>
#include <stdlib.h>
#include <string.h>

int sum, row[20], left;
double *block;

/* A scalar of the function, that no pointer has: gcc copies it into the region's own data. */
static void of_iterations(void) {
    int temporary = 0, total[3] = {0};
#pragma omp parallel for
    for (int i = 7; i < 10; i++) { /* [iterations] */
        temporary = i;
        total[1] = temporary;
    }
    printf("%d %d\n", temporary, total[1]);
}

static void of_steps(void) {
#pragma omp parallel for
    for (long i = 10; i > -10; i -= 5) /* [steps] */
        if (i <= 5)
            left = (int)i;
}

static void of_elements(void) {
    block = calloc(20, sizeof *block);
#pragma omp parallel for
    for (int i = 0; i < 2; i++)
        block[6] += i;
}

static void of_an_atomic(void) {
#pragma omp parallel for
    for (int i = 0; i < 2; i++)
#pragma omp atomic
        sum += i;
}

static void of_sections(void) {
#pragma omp parallel sections
    {
#pragma omp section
        row[0] = 1;
#pragma omp section
        left = 1;
#pragma omp section
        left = 2;
    }
}

static void of_a_task(void) {
    int result;
#pragma omp parallel
#pragma omp single
    {
#pragma omp task shared(result) /* [task] */
        result = 1;
        result = 2; /* [behind task] */
#pragma omp taskwait /* [taskwait] */
    }
    printf("%d\n", result);
}

/* The inner task shares what the outer one has for itself. */
static void of_a_copy(void) {
    int copied = 1;
#pragma omp parallel
#pragma omp single
#pragma omp task firstprivate(copied)
    {
#pragma omp task shared(copied)
        copied = 2;
        copied = 3;
#pragma omp taskwait
    }
}

static void of_tasks(void) {
#pragma omp parallel
#pragma omp single
    for (int i = 0; i < 2; i++)
#pragma omp task /* [tasks] */
        sum += i;
}

static void of_a_taskloop(void) {
#pragma omp parallel
#pragma omp single
#pragma omp taskloop num_tasks(2) /* [taskloop] */
    for (int i = 3; i < 19; i += 2)
        sum = i;
}

static void of_no_barrier(void) {
#pragma omp parallel
    {
#pragma omp for nowait
        for (int i = 0; i < 4; i++) /* [no barrier] */
            row[i] = i;
#pragma omp for
        for (int i = 0; i < 4; i++)
            row[i + 4] = row[3 - i];
    }
}

static void of_a_region(void) {
#pragma omp parallel /* [region] */
    sum++;
}

static void of_a_single(void) {
#pragma omp parallel
    {
#pragma omp single nowait
        left = 1;
#pragma omp for
        for (int i = 0; i < 2; i++)
            row[i] = left;
    }
}

int main(int count, char **words) {
    static const struct {
        const char *name;
        void (*run)(void);
    } all[] = {{"iterations", of_iterations}, {"steps", of_steps}, {"elements", of_elements},
               {"atomic", of_an_atomic},      {"sections", of_sections}, {"task", of_a_task},
               {"copy", of_a_copy},           {"tasks", of_tasks},       {"taskloop", of_a_taskloop},
               {"no barrier", of_no_barrier}, {"region", of_a_region},   {"single", of_a_single}};
    const char *word = count > 1 ? words[1] : "";
    for (size_t at = 0; at < sizeof all / sizeof *all; at++)
        if (strcmp(word, all[at].name) == 0)
            all[at].run();
    return 0;
}
