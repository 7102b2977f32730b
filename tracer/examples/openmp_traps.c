/* What is easily taken for a race in OpenMP and is none, and beside each one that is. RACY: each function has one. */
#include <omp.h>
#include <stdio.h>
#include <stdlib.h>

static int result, row[8], line[8], filled[8], squares[5], sum, old, young, left, right, copies[4];
static int mine;
#pragma omp threadprivate(mine)

static void tasks_that_run_at_once(void) {
    static int x, y;
#pragma omp task if (0)
    x = 1;
    x++;
#pragma omp task final(1)
    {
#pragma omp task
        y = 1; /* [final] */
        y++;
    }
#ifndef RACY
#pragma omp taskwait
#endif
    result += x + y; /* [after_final] */
}

/* A group waits for what was made in it, and not for what is older. */
static void group(void) {
#pragma omp task
    old = 1; /* [old] */
#pragma omp taskgroup
    {
#pragma omp task
        young = 1;
    }
    young++;
#ifndef RACY
#pragma omp taskwait
#endif
    result += old + young; /* [after_old] */
#pragma omp taskwait
}

/* A taskwait inside a group waits for what is older, too. */
static void wait_in_group(void) {
    static int before, inside, last;
#pragma omp task
    before = 1; /* [before_group] */
#pragma omp taskgroup
    {
#pragma omp task
        inside = 1; /* [inside] */
#ifndef RACY
#pragma omp taskwait
#endif
        before++; /* [in_group] */
#pragma omp task
        last = inside; /* [last] */
    }
    result += last;
#pragma omp taskwait
}

static void private_copies(void) {
    int copy[4] = {1, 2, 3, 4};
    for (int i = 0; i < 4; i++)
#pragma omp task firstprivate(copy)
    {
        copy[0] += i;
        copies[i] = copy[0]; /* [copied] */
    }
#ifdef RACY
    copies[3]++; /* [early] */
#endif
#pragma omp taskwait
}

static void taskloops(void) {
#ifdef RACY
#pragma omp taskloop nogroup
#else
#pragma omp taskloop
#endif
    for (int i = 0; i < 8; i++)
        row[i] = i; /* [taskloop] */
    for (int i = 0; i < 8; i++)
        result += row[i]; /* [after_taskloop] */
#pragma omp taskwait
}

static void add(int i) { sum += i; /* [unreduced] */ }

static void reductions(void) {
    int many = 0;
#pragma omp taskgroup task_reduction(+ : many)
    for (int i = 0; i < 4; i++)
#pragma omp task in_reduction(+ : many)
        many += i;
#pragma omp taskloop reduction(+ : many)
    for (int i = 0; i < 4; i++) {
        many += i;
#ifdef RACY
        add(i);
#endif
    }
    result += many;
}

static void iterations(void) {
#pragma omp parallel for schedule(static, 4)
    for (int i = 0; i < 7; i++)
#ifdef RACY
        line[i] = line[i + 1]; /* [shift] */
#else
        line[i] = i;
#endif
}

static void clauses(void) {
    static int total;
    int last = 0;
#ifdef RACY
#pragma omp parallel for collapse(2) lastprivate(last)
#else
#pragma omp parallel for collapse(2) lastprivate(last) reduction(+ : total)
#endif
    for (int i = 0; i < 3; i++)
        for (int j = 0; j < 4; j++) {
            last = i * j;
            total += last; /* [total] */
        }
    result += last + total;
}

/* A variable of the region is one thread's own. */
static void barriers(void) {
#pragma omp parallel
    {
        int own = 0;
#ifdef RACY
#pragma omp for nowait
#else
#pragma omp for
#endif
        for (int i = 0; i < 8; i++) {
            own += i;
            filled[i] = own; /* [fill] */
        }
#pragma omp for
        for (int i = 0; i < 8; i++)
            line[i] = filled[7 - i]; /* [mirror] */
#pragma omp single
        result += line[0];
    }
}

static void order(void) {
    static int turns;
#pragma omp parallel for ordered
    for (int i = 0; i < 5; i++) {
        int square = i * i;
#ifdef RACY
        square += turns; /* [out_of_order] */
#endif
        squares[i] = square;
#pragma omp ordered
        turns += squares[i]; /* [in_order] */
    }
}

static void sections(void) {
#pragma omp parallel sections
    {
#pragma omp section
        left++; /* [section] */
#pragma omp section
#ifdef RACY
        right = left; /* [other_section] */
#else
        right = 2;
#endif
    }
}

static void thread_memory(void) {
#pragma omp parallel for
    for (int i = 0; i < 8; i++) {
        mine = i;
        line[i] = mine;
    }
}

/* Each thread does what stands outside of loops and such; one of them may be late. */
static void each_thread(void) {
    static int all, one;
#pragma omp parallel
    {
        int own = 0, *block = malloc(sizeof *block);
        *block = own;
#pragma omp barrier
#ifndef RACY
#pragma omp single
#endif
        all++; /* [all] */
#ifdef RACY
#pragma omp single nowait
#else
#pragma omp single
#endif
        one = 1; /* [one] */
        own = one + *block; /* [beside_one] */
        free(block);
#pragma omp for reduction(+ : result)
        for (int i = 0; i < 2; i++)
            result += own;
    }
}

#ifdef RACY
/* Which turn is whose depends on the schedule. */
static void turns(omp_lock_t *lock) {
    static int critical, atomic, locked;
#pragma omp parallel for
    for (int i = 0; i < 4; i++) {
#pragma omp critical(name)
        critical = critical * 2 + i; /* [critical] */
#pragma omp atomic
        atomic += i; /* [atomic] */
        omp_set_lock(lock);
        locked = locked * 2 + i; /* [locked] */
        omp_unset_lock(lock);
    }
}
#endif

int main(void) {
#pragma omp parallel
#pragma omp single
    {
        tasks_that_run_at_once();
        group();
        wait_in_group();
        private_copies();
        taskloops();
        reductions();
    }
    iterations();
    clauses();
    barriers();
    order();
    sections();
    thread_memory();
    each_thread();
#ifdef RACY
    omp_lock_t lock;
    omp_init_lock(&lock);
    turns(&lock);
    omp_destroy_lock(&lock);
#endif
    printf("%d %d %d\n", result, left + right, copies[3]);
}
