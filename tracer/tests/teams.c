/* Ways of OpenMP in which several threads do a region. Without a word it prints the name of each, and whether it has a
   race: `none`, `guarded`, or `data`. With a name it does that one, and aborts where a thread sees what it mustn't. */
#include <omp.h>
#include <pthread.h>
#include <stdbool.h>
#include <stdio.h>
#include <stdlib.h>
#include <string.h>

static volatile int one, other;
static int row[100], counts[64], mine;
#pragma omp threadprivate(mine)

static void demand(int holds) {
    if (!holds)
        abort();
}

static void every_thread(void) {
#pragma omp parallel
    one++;
}

static void in_critical(void) {
#pragma omp parallel
#pragma omp critical
    one++;
}

static void in_lock(void) {
    omp_lock_t lock;
    omp_init_lock(&lock);
#pragma omp parallel
    {
        omp_set_lock(&lock);
        one++;
        omp_unset_lock(&lock);
    }
}

/* One thread writes under a lock, and the others read without it, but held it before or will hold it. */
static void beside_lock(bool reads_before) {
    static long written;
    omp_lock_t lock;
    omp_init_lock(&lock);
#pragma omp parallel
    {
        bool reads = omp_get_thread_num() != 0;
        if (reads && reads_before)
            (void)*(volatile long *)&written;
        omp_set_lock(&lock);
        if (!reads)
            written = 1;
        omp_unset_lock(&lock);
        if (reads && !reads_before)
            (void)*(volatile long *)&written;
    }
}

static void after_lock(void) { beside_lock(false); }
static void before_lock(void) { beside_lock(true); }

static void in_nested_lock(void) {
    struct {
        omp_nest_lock_t lock;
        long behind;
    } both = {.behind = 5};
    omp_init_nest_lock(&both.lock);
#pragma omp parallel
    {
        omp_set_nest_lock(&both.lock);
        demand(omp_test_nest_lock(&both.lock) == 2);
        one++;
        omp_unset_nest_lock(&both.lock);
        omp_unset_nest_lock(&both.lock);
    }
    demand(both.behind == 5);
}

static void barriers(void) {
#pragma omp parallel
    {
        if (omp_get_thread_num() == 0)
            one = 1;
#pragma omp barrier
        if (omp_get_thread_num() == 1)
            one++;
#pragma omp barrier
        demand(one == 2);
    }
}

static void wait_for_all(void) {
#pragma omp barrier
}

static void orphaned(void) {
#pragma omp parallel
    {
        int thread = omp_get_thread_num(), threads = omp_get_num_threads();
        row[thread] = thread;
        wait_for_all();
        demand(row[(thread + 1) % threads] == (thread + 1) % threads);
    }
}

static void master_and_barrier(void) {
#pragma omp parallel
    {
#pragma omp master
        one = 1;
#pragma omp barrier
        demand(one == 1);
    }
}

static void master_alone(void) {
#pragma omp parallel
    {
#pragma omp master
        one = 1;
        other = one + 0 * other;
    }
}

static void master_and_loop(void) {
#pragma omp parallel
    {
#pragma omp master
        row[3] = 1;
#pragma omp for
        for (int i = 0; i < 4; i++)
            row[i]++;
    }
}

static void masked(void) {
#pragma omp parallel
    {
        int last = omp_get_num_threads() - 1;
#pragma omp masked filter(last)
        one = omp_get_thread_num();
#pragma omp barrier
        demand(one == last);
    }
}

static void masked_twice(void) {
#pragma omp parallel
    {
#pragma omp masked filter(1)
        one = 1;
#pragma omp masked
        one = 2;
    }
}

static void copied(void) {
#pragma omp parallel
    {
        int value = 0;
#pragma omp single copyprivate(value)
        value = 42;
        demand(value == 42);
#pragma omp single
        one++;
        demand(one == 1);
    }
}

static void nobody_waits(void) {
#pragma omp parallel
    {
#pragma omp single nowait
        one = 1;
        demand(one < 2);
    }
}

static void by_number(void) {
#pragma omp parallel
    row[omp_get_thread_num()]++;
}

static void by_one_number(void) {
#pragma omp parallel
    {
        if (omp_get_thread_num() == 1)
            one = 1;
        else
            demand(one < 2);
    }
}

static void by_hand(void) {
#pragma omp parallel
    {
        int threads = omp_get_num_threads();
        for (int i = omp_get_thread_num(); i < 20; i += threads)
            row[i] = i;
#pragma omp barrier
        for (int i = omp_get_thread_num(); i < 20; i += threads)
            row[19 - i]++;
    }
}

static void sums(void) {
    int sum = 0, threads = 0;
    long all = 0;
#pragma omp parallel reduction(+ : sum, threads)
    {
        sum += omp_get_thread_num();
        threads++;
    }
    demand(sum == threads * (threads - 1) / 2);
#pragma omp parallel
    {
#pragma omp for reduction(+ : all)
        for (int i = 0; i < 10; i++)
            all += i;
        demand(all == 45);
    }
#pragma omp parallel for reduction(max : all)
    for (int i = 0; i < 10; i++)
        all = 10 * i > all ? 10 * i : all;
    demand(all == 90);
}

struct range {
    int least, most;
};
static void join(struct range *to, const struct range *from) {
    to->least = from->least < to->least ? from->least : to->least;
    to->most = from->most > to->most ? from->most : to->most;
}
#pragma omp declare reduction(join : struct range : join(&omp_out, &omp_in)) initializer(omp_priv = omp_orig)

/* Tasks of tasks take part too. */
static void sum_up(int count, bool also_one) {
    int sum = 0, many[count];
    struct range range = {3, 3};
    memset(many, 0, sizeof many);
#pragma omp taskgroup task_reduction(+ : sum, many[1 : count - 1]) task_reduction(join : range)
    for (int i = 0; i < count; i++)
#pragma omp task in_reduction(+ : sum, many[1 : count - 1]) in_reduction(join : range)
    {
        if (also_one)
            one++;
#pragma omp task in_reduction(+ : sum)
        sum += i;
        many[count - 1] += i;
        join(&range, &(struct range){i, i});
    }
    demand(sum == 45 && many[count - 1] == 45 && many[1] == 0 && range.least == 0 && range.most == 9);
}

static void sums_of_tasks(void) {
    int sum = 0, threads = 0;
#pragma omp parallel
#pragma omp master
    sum_up(10, false);
#pragma omp parallel reduction(task, + : sum) reduction(+ : threads)
    {
        threads++;
#pragma omp single
        for (int i = 0; i < 10; i++)
#pragma omp task in_reduction(+ : sum)
            sum += i;
        sum += 100;
    }
    demand(sum == 45 + 100 * threads);
    sum = 0;
#pragma omp parallel
#pragma omp for reduction(task, + : sum)
    for (int i = 0; i < 10; i++)
#pragma omp task in_reduction(+ : sum)
        sum += i;
    demand(sum == 45);
}

static void summed_and_counted(void) {
#pragma omp parallel
#pragma omp master
    sum_up(10, true);
}

static void summed_too_early(void) {
    int sum = 0;
#pragma omp parallel
    {
#pragma omp for reduction(+ : sum) nowait
        for (int i = 0; i < 4; i++)
            sum += i;
        demand(sum < 7);
    }
}

static void last_values(void) {
    int last = 7, both = 3;
#pragma omp parallel
    {
#pragma omp for lastprivate(last)
        for (int i = 0; i < 10; i++)
            last = i;
        demand(last == 9);
#pragma omp for firstprivate(both) lastprivate(both)
        for (int i = 0; i < 10; i++)
            both += i;
    }
    demand(both >= 12);
}

/* Whoever does the single region may come before the last iteration's thread stores its value. */
static void last_and_single(void) {
    int last = 0, sum = 0;
#pragma omp parallel
    {
#pragma omp for lastprivate(last) reduction(+ : sum) nowait
        for (int i = 0; i < 4; i++) {
            last = i;
            sum += i;
        }
#pragma omp single
        demand(last < 4);
    }
    demand(last == 3 && sum == 6);
}

static void last_of_sections(void) {
    int last = 0;
#pragma omp parallel
    {
#pragma omp sections lastprivate(last) nowait
        {
            last = 1;
#pragma omp section
            last = 2;
        }
        demand(last < 3);
    }
    demand(last == 2);
}

static void last_of_sections_waits(void) {
    int last = 0, later = 0;
#pragma omp parallel
    {
#pragma omp sections lastprivate(last) nowait
        {
            last = 1;
#pragma omp section
            last = 2;
        }
#pragma omp barrier
        demand(last == 2);
#pragma omp sections lastprivate(later)
        {
#pragma omp section
            later = 3;
        }
        demand(later == 3);
    }
}

static void loops_of_one_thread(void) {
#pragma omp parallel
    {
#pragma omp for schedule(static) nowait
        for (int i = 0; i < 9; i++)
            row[i] = i;
#pragma omp for schedule(static)
        for (int i = 0; i < 9; i++)
            row[i]++;
    }
}

static void loops_of_any_thread(void) {
#pragma omp parallel
    {
#pragma omp for nowait
        for (int i = 0; i < 9; i++)
            row[i] = i;
#pragma omp for
        for (int i = 0; i < 9; i++)
            row[8 - i]++;
    }
}

static void counted_by_number(void) {
#pragma omp parallel for
    for (int i = 0; i < 9; i++)
        counts[omp_get_thread_num()]++;
#pragma omp parallel
    {
        int thread = omp_get_thread_num();
#pragma omp for nowait
        for (int i = 0; i < 9; i++)
            counts[thread]++;
        counts[thread]--;
    }
}

static void own_variables(void) {
    mine = 5;
#pragma omp parallel copyin(mine)
    {
        demand(mine == 5);
        mine += omp_get_thread_num();
    }
#pragma omp parallel
    demand(mine == 5 + omp_get_thread_num());
}

static void own_memory(void) {
#pragma omp parallel
    {
        int *block = malloc(100), local[10];
        memset(block, 0, 100);
        memcpy(local, block, sizeof local);
        block[3] += local[3];
        free(block);
    }
}

static void tasks(void) {
#pragma omp parallel
    {
#pragma omp single nowait
        {
#pragma omp task
            one = 1;
#pragma omp task
            other = 1;
        }
#pragma omp barrier
        demand(one + other == 2);
    }
}

/* The barrier waits for the group's task, and the group goes on. */
static void barrier_in_group(void) {
#pragma omp parallel
    {
#pragma omp taskgroup
        {
#pragma omp task
            row[omp_get_thread_num()] = 1;
#pragma omp barrier
            demand(row[0] + row[1] == 2);
#pragma omp for
            for (int i = 2; i < 9; i++)
                row[i] = row[0];
            demand(row[8] == 1);
        }
    }
}

static void master_and_single_in_group(void) {
#pragma omp parallel
    {
#pragma omp taskgroup
        {
#pragma omp master
            one = 1;
#pragma omp single
            demand(one < 2);
        }
    }
}

static void set(int *at, int value) { *at = value; }

/* What a thread has on its own stack is its own. */
static void own_in_group(void) {
    int sum = 0;
#pragma omp parallel
    {
        int local = 0;
#pragma omp taskgroup
        {
#pragma omp master
            set(&local, 1);
            demand(local < 2);
#pragma omp for reduction(+ : sum) nowait
            for (int i = 0; i < 4; i++) {
                set(&local, i);
                sum += i;
            }
            local++;
        }
    }
}

static void masters_in_groups(void) {
#pragma omp parallel
    {
#pragma omp master
        one = 1;
#pragma omp taskgroup
        {
#pragma omp master
            one++;
        }
    }
}

static void summed_in_group(void) {
    int sum = 0;
#pragma omp parallel
    {
#pragma omp taskgroup
        {
#pragma omp for reduction(+ : sum) nowait
            for (int i = 0; i < 4; i++)
                sum += i;
#pragma omp single
            demand(sum < 7);
        }
    }
}

static void masked_alone(void) {
#if defined(__clang__) && __clang_major__ < 15
#pragma omp parallel
#pragma omp masked filter(1)
#else
#pragma omp parallel masked filter(1)
#endif
    {
#pragma omp task
        one = 1;
        one = 2;
    }
}

static void shared_local(void) {
    int local = 0;
#pragma omp parallel
    local++;
    one = local;
}

static void sections(void) {
#pragma omp parallel
    {
#pragma omp sections
        {
#pragma omp section
            one = 1;
#pragma omp section
            other = 1;
        }
        demand(one + other == 2 && omp_get_thread_num() < omp_get_num_threads());
#pragma omp sections
        {
#pragma omp section
            row[0] = 1;
#pragma omp section
            row[1] = 1;
#pragma omp section
            row[2] = 1;
#pragma omp section
            row[3] = 1;
        }
        demand(row[0] + row[1] + row[2] + row[3] == 4);
    }
}

static void in_order(void) {
#pragma omp parallel
    {
#pragma omp for ordered
        for (int i = 0; i < 5; i++) {
#pragma omp ordered
            one++;
        }
    }
}

static void inner(void) {
#pragma omp parallel
    {
#pragma omp parallel
        row[omp_get_ancestor_thread_num(1)]++;
        demand(omp_get_level() == 1 && omp_get_team_size(1) == omp_get_num_threads());
    }
}

/* The other members' threads don't keep the process. */
#ifndef __clang__
static void sums_of_scope(void) {
    int sum = 0;
#pragma omp parallel
#pragma omp scope reduction(+ : sum)
    sum += 2;
    demand(sum % 2 == 0 && sum > 0);
}

static void sums_of_scope_too_early(void) {
    int sum = 0;
#pragma omp parallel
    {
#pragma omp scope reduction(+ : sum) nowait
        sum += 2;
#pragma omp single
        one = sum;
    }
}
#endif

static void thread_ends(void) {
#pragma omp parallel
    row[omp_get_thread_num()]++;
    pthread_exit(NULL);
}

static const struct {
    const char *name;
    void (*run)(void);
    const char *race;
} ways[] = {{"every_thread", every_thread, "data"},
            {"in_critical", in_critical, "guarded"},
            {"in_lock", in_lock, "guarded"},
            {"after_lock", after_lock, "data"},
            {"before_lock", before_lock, "data"},
            {"in_nested_lock", in_nested_lock, "guarded"},
            {"barriers", barriers, "none"},
            {"orphaned", orphaned, "none"},
            {"master_and_barrier", master_and_barrier, "none"},
            {"master_alone", master_alone, "data"},
            {"master_and_loop", master_and_loop, "data"},
            {"masked", masked, "none"},
            {"masked_twice", masked_twice, "data"},
            {"copied", copied, "none"},
            {"nobody_waits", nobody_waits, "data"},
            {"by_number", by_number, "none"},
            {"by_one_number", by_one_number, "data"},
            {"by_hand", by_hand, "none"},
            {"sums", sums, "none"},
            {"sums_of_tasks", sums_of_tasks, "none"},
            {"summed_and_counted", summed_and_counted, "data"},
            {"summed_too_early", summed_too_early, "data"},
            {"last_values", last_values, "none"},
            {"last_and_single", last_and_single, "data"},
            {"last_of_sections", last_of_sections, "data"},
            {"last_of_sections_waits", last_of_sections_waits, "none"},
            {"loops_of_one_thread", loops_of_one_thread, "none"},
            {"loops_of_any_thread", loops_of_any_thread, "data"},
            {"counted_by_number", counted_by_number, "none"},
            {"own_variables", own_variables, "none"},
            {"own_memory", own_memory, "none"},
            {"tasks", tasks, "none"},
            {"barrier_in_group", barrier_in_group, "none"},
            {"master_and_single_in_group", master_and_single_in_group, "data"},
            {"own_in_group", own_in_group, "none"},
            {"masters_in_groups", masters_in_groups, "none"},
            {"summed_in_group", summed_in_group, "data"},
            {"masked_alone", masked_alone, "data"},
            {"shared_local", shared_local, "data"},
            {"sections", sections, "none"},
            {"in_order", in_order, "none"},
            {"inner", inner, "none"},
#ifndef __clang__
            {"sums_of_scope", sums_of_scope, "none"},
            {"sums_of_scope_too_early", sums_of_scope_too_early, "data"},
#endif
            {"thread_ends", thread_ends, "none"}};

int main(int count, char **words) {
    for (size_t way = 0; way < sizeof ways / sizeof *ways; way++)
        if (count == 1)
            printf("%s %s\n", ways[way].name, ways[way].race);
        else if (strcmp(words[1], ways[way].name) == 0)
            ways[way].run();
    return 0;
}
