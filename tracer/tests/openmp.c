/* Ways of OpenMP that the report has to say something about, or that end the run. The word names the way, and a second
   one the status. */
#include <omp.h>
#include <stdbool.h>
#include <stdint.h>
#include <stdio.h>
#include <stdlib.h>
#include <string.h>
#include <threads.h>

static int one, other, after, row[9], counts[8];
static int mine;
#pragma omp threadprivate(mine)

/* The outer tasks end before the inner ones, for which the taskwait doesn't wait. */
static void outlives(void) {
    for (int i = 0; i < 2; i++)
#pragma omp task firstprivate(i) /* [makes] */
    {
#pragma omp task firstprivate(i)
        row[i] = i; /* [outlives] */
        one = i; /* [waited for] */
    }
#pragma omp taskwait /* [waits] */
    after = row[0] + one; /* [behind] */
}

/* What a task of a task leaves outlives two waits, and the group's end waits for it. */
static void outlives_twice(void) {
#pragma omp taskgroup
    {
#pragma omp task
        {
#pragma omp task
            {
#pragma omp task
                row[0] = 1; /* [left] */
                row[1] = 1;
            }
#pragma omp taskwait
            row[1] = 2;
        }
#pragma omp taskwait
        row[1] = row[0]; /* [behind both] */
    }
    row[0] = 2;
}

/* A later run makes one task more. */
static void goes_astray(void) {
    FILE *seen = fopen("seen", "r");
#pragma omp task
    {
#pragma omp task
        one = 1;
    }
    if (seen != NULL) {
#pragma omp task
        row[0] = 1;
    }
#pragma omp taskwait
    fclose(seen != NULL ? seen : fopen("seen", "w"));
}

/* A group and a barrier wait for them; and the wait in the inner group waits for what is older. */
static void grouped(void) {
#pragma omp taskgroup
    {
#pragma omp task
        {
#pragma omp task
            one = 1;
        }
    }
    one++;
#pragma omp task
    other = 1;
#pragma omp taskgroup
    {
#pragma omp task
        one++;
#pragma omp taskwait
        other++;
    }
#pragma omp taskwait
    other++;
}

/* What comes after the taskwait runs beside the loop. The one in the single region waits for no iteration. */
static void no_barrier(void) {
#pragma omp parallel
    {
        int mine_too = 0;
#pragma omp for nowait
        for (int i = 0; i < 3; i++)
            row[i] = i;
#pragma omp single nowait
        {
#pragma omp task
            one = 1;
#pragma omp taskwait
            after = one;
        }
#pragma omp task shared(mine_too)
        mine_too = 1;
#pragma omp taskwait /* [waits_on] */
        (void)mine_too;
    }
}

/* No race is left where iterations 2i and 2i + 1 are one share. */
static void neighbours(void) {
#pragma omp parallel for
    for (int i = 0; i < 8; i++)
        row[i / 2]++; /* [turn] */
}

static void numbered(void) {
#pragma omp parallel for
    for (int i = 0; i < 8; i++)
        counts[omp_get_thread_num()]++; /* [numbered] */
}

static void thread_memory(void) {
#pragma omp parallel for
    for (int i = 0; i < 8; i++)
        mine += i;
}

static void nested(void) {
    omp_set_max_active_levels(2);
#pragma omp parallel
#pragma omp single
    {
#pragma omp parallel
        one++; /* [inner thread] */
    }
}

static void lock(void) {
    omp_lock_t lock;
    omp_init_lock(&lock);
    omp_set_lock(&lock);
#pragma omp task shared(lock)
    omp_set_lock(&lock);
#pragma omp taskwait
}

/* ---- What each thread of a team does ---- */

static void each_thread(void) {
#pragma omp parallel /* [team] */
    one++; /* [each] */
}

static void each_task(void) {
#pragma omp parallel
    {
#pragma omp task
        other = 1; /* [each task] */
#pragma omp taskwait
    }
}

static void each_inner(void) {
#pragma omp parallel
    {
#pragma omp parallel
        one = 1; /* [each inner] */
    }
}

/* One thread may be late for the single region, and another one already in it. */
static void late_thread(void) {
#pragma omp parallel
    {
        if (one == 0) /* [late] */
            printf("late\n");
#pragma omp single
        one = 1; /* [single] */
    }
}

static void single_nowait(void) {
#pragma omp parallel
    {
#pragma omp single nowait
        one = 1; /* [nowait] */
        printf("%d\n", one); /* [beside nowait] */
    }
}

static void master(void) {
#pragma omp parallel
    {
#pragma omp master
        one = 1; /* [master] */
        printf("%d\n", one); /* [beside master] */
    }
}

static void master_loop(void) {
#pragma omp parallel
    {
#pragma omp masked filter(1)
        row[3] = 1; /* [masked] */
#pragma omp for
        for (int i = 0; i < 4; i++)
            row[i]++; /* [beside masked] */
    }
}

static void summed_nowait(void) {
    int sum = 0;
#pragma omp parallel
    {
#pragma omp for reduction(+ : sum) nowait /* [summed] */
        for (int i = 0; i < 4; i++)
            sum += i;
        printf("%d\n", sum); /* [sum] */
    }
}

static void guarded(void) {
    omp_lock_t lock;
    omp_init_lock(&lock);
#pragma omp parallel
    {
#pragma omp critical
        one++; /* [critical] */
#pragma omp atomic
        other++; /* [atomic] */
        omp_set_lock(&lock);
        after++; /* [locked] */
        omp_unset_lock(&lock);
    }
}

/* The threads part at each barrier, and what they have of their own is no shared memory. */
static void no_race(void) {
    int sum = 0, all = 0;
#pragma omp parallel reduction(+ : sum)
    {
        int local[4], *block = malloc(sizeof local);
        memset(local, 0, sizeof local);
        memcpy(block, local, sizeof local);
        sum += block[1];
        free(block);
#pragma omp single
        one = 1;
        sum += one;
#pragma omp barrier
#pragma omp master
        one = 2;
#pragma omp barrier
#pragma omp for
        for (int i = 0; i < 9; i++)
            row[i] = one;
#pragma omp for reduction(+ : all)
        for (int i = 0; i < 9; i++)
            all += row[8 - i];
#pragma omp sections
        {
#pragma omp section
            other = all;
#pragma omp section
            after = one;
        }
    }
#pragma omp parallel num_threads(1)
    one++;
#pragma omp parallel if (one == 0)
    one += omp_get_thread_num();
#pragma omp parallel master
    one++;
}

static void by_number(void) {
#pragma omp parallel
    {
        int thread = omp_get_thread_num();
        row[thread] = 1;
        if (thread == 1)
            one++;
    }
}

static void wants_more(void) {
#pragma omp parallel num_threads(9) /* [wants] */
    row[omp_get_thread_num()] = 1;
}

static void wants_four(void) {
#pragma omp parallel num_threads(4) /* [wants four] */
    {
#pragma omp barrier
    }
}

static void sets_four(void) {
    omp_set_num_threads(4);
#pragma omp parallel /* [sets four] */
    {
#pragma omp barrier
    }
}

static void asks_how_many(void) {
#pragma omp parallel /* [asks how many] */
    if (omp_get_num_threads() > 2)
        one++;
}

/* clang 14 copies no section of a global array. */
static void sums_section(void) {
#pragma omp parallel for reduction(+ : counts[0 : 1])
    for (int i = 0; i < 8; i++)
        counts[0] += i; /* [sums section] */
}

static int *of_master;

static void reaches_local(int iterations) {
#pragma omp parallel num_threads(2)
    {
        int local = 0;
#pragma omp master
        of_master = &local;
#pragma omp barrier
#pragma omp for
        for (int i = 0; i < iterations; i++)
            *of_master += i; /* [reaches local] */
#pragma omp master
        row[0] = local;
    }
}

static void reaches_local_often(void) { reaches_local(8); }
static void reaches_local_once(void) { reaches_local(2); }

/* Only some iterations reach it, by a pointer that they read themselves, or that each thread has read before. */
static void some_reach(int first, int end, bool reads_before) {
#pragma omp parallel num_threads(2)
    {
        int local = 0;
#pragma omp single
        of_master = &local;
        int *before = reads_before ? of_master : NULL;
#pragma omp for
        for (int i = 0; i < 8; i++)
            if (i >= first && i < end)
                *(reads_before ? before : of_master) += i; /* [some reach] */
#pragma omp master
        row[0] = local;
    }
}

static void first_reach(void) { some_reach(0, 2, false); }
static void middle_reach(void) { some_reach(3, 5, true); }
static void last_reach(void) { some_reach(6, 8, false); }

/* One iteration reaches it by its name, and one by a pointer: that races where the thread that has it does the first. */
static void named_reach(bool reads_before) {
#pragma omp parallel num_threads(2)
    {
        int local = 0;
#pragma omp single
        of_master = &local;
        int *before = reads_before ? of_master : NULL;
#pragma omp for
        for (int i = 0; i < 8; i++)
            if (i == 1)
                local = i; /* [by name] */
            else if (i == 4)
                *(reads_before ? before : of_master) = i; /* [beside name] */
    }
}

static void named_once(void) { named_reach(false); }
static void named_before(void) { named_reach(true); }

/* The last thread reaches its own by its name: that races where the first one does this. */
static void last_by_name(void) {
#pragma omp parallel num_threads(2)
    {
        int local = 0;
#pragma omp single
        of_master = &local;
#pragma omp for
        for (int i = 0; i < 8; i++)
            if (i == 7)
                local = i; /* [last by name] */
            else if (i == 1)
                *of_master = i; /* [beside last name] */
    }
}

/* No word of the memory is the pointer, or not any more once it has been read. */
enum hiding { TAKEN, UNALIGNED, INVERTED };
static int *to_take[8];
static struct __attribute__((packed)) {
    char before;
    int *pointer;
} unaligned;
static uintptr_t inverted;

static void hide(int *pointer) {
    for (int i = 0; i < 8; i++)
        to_take[i] = pointer;
    unaligned.pointer = pointer;
    inverted = ~(uintptr_t)pointer;
}

static int *hidden(enum hiding way, int i) {
    if (way == TAKEN)
        return __atomic_exchange_n(&to_take[i], NULL, __ATOMIC_RELAXED);
    return way == UNALIGNED ? unaligned.pointer : (int *)~inverted;
}

static void hidden_reach(enum hiding way) {
#pragma omp parallel num_threads(2)
    {
        int local = 0;
#pragma omp single
        hide(&local);
#pragma omp for
        for (int i = 0; i < 8; i++)
            if (i == 3 || i == 4)
                *hidden(way, i) += i; /* [hidden reach] */
#pragma omp master
        row[0] = local;
    }
}

static void taken_reach(void) { hidden_reach(TAKEN); }
static void unaligned_reach(void) { hidden_reach(UNALIGNED); }
static void inverted_reach(void) { hidden_reach(INVERTED); }

static void ordered_reach(void) {
#pragma omp parallel num_threads(2)
    {
        int local = 0;
#pragma omp single
        of_master = &local;
#pragma omp for ordered
        for (int i = 0; i < 8; i++) {
            if (i == 3 || i == 4)
                *of_master += i; /* [ordered reach] */
#pragma omp ordered
            row[0] = i;
        }
    }
}

/* Who does an iteration of the first loop has what one of the second reaches: the last thread does both of these. */
static void last_by_last(void) {
#pragma omp parallel num_threads(2)
    {
        int local = 0;
#pragma omp for schedule(dynamic)
        for (int i = 0; i < 8; i++)
            if (i == 7)
                of_master = &local;
#pragma omp for schedule(dynamic)
        for (int i = 0; i < 8; i++)
            if (i > 5)
                ++*of_master; /* [last by last] */
    }
}

static void set_all(int *of_four, int to) {
    for (int i = 0; i < 4; i++)
        of_four[i] = to;
}

/* No pointer leads a thread to another one's. */
static void scratch(void) {
#pragma omp parallel num_threads(2)
    {
        int own[4], *to_own = own;
#pragma omp barrier
#pragma omp for
        for (int i = 0; i < 8; i++) {
            int of_iteration[4];
            set_all(to_own, i);
            set_all(of_iteration, i);
            counts[i] = own[3] + of_iteration[3];
        }
    }
}

/* A thread has the same iterations of both loops. */
static void static_by_static(void) {
#pragma omp parallel num_threads(2)
    {
        int own[4], done[8] = {0};
#pragma omp for schedule(static)
        for (int i = 0; i < 8; i++) {
            set_all(own, i);
            done[i] = 1;
        }
#pragma omp for schedule(static)
        for (int i = 0; i < 8; i++)
            if (!done[i])
                abort();
    }
}

/* What each iteration has of its own, and sums, need no other run. */
static void of_iteration(void) {
    int sum = 0;
#pragma omp parallel num_threads(2)
    {
#pragma omp for reduction(+ : sum)
        for (int i = 0; i < 8; i++) {
            int own[4];
            set_all(own, i);
            sum += own[3];
        }
    }
}

/* The same thread does both single regions, in this run. */
static void single_by_single(void) {
#pragma omp parallel num_threads(2)
    {
        int local = 0;
#pragma omp single
        of_master = &local;
#pragma omp single nowait
        ++*of_master; /* [single by single] */
        local++;      /* [beside single by single] */
#pragma omp barrier
    }
}

/* The same where another loop before needs a run in which another thread does its iterations. */
static void single_behind_scratch(void) {
#pragma omp parallel num_threads(2)
    {
        int own[4], local = 0;
#pragma omp for
        for (int i = 0; i < 8; i++)
            set_all(own, i);
#pragma omp single
        of_master = &local;
#pragma omp single nowait
        ++*of_master; /* [single behind scratch] */
        local++;      /* [beside single behind scratch] */
#pragma omp barrier
    }
}

/* Iterations of the first loop need such a run too, and one hands a pointer to iterations of the second: in both runs a
   thread has what it reaches. */
static void handed(void) {
#pragma omp parallel num_threads(2)
    {
        int own[4];
#pragma omp for
        for (int i = 0; i < 8; i++) {
            set_all(own, i);
            if (i == 2)
                of_master = own;
        }
#pragma omp for
        for (int i = 0; i < 8; i++)
            if (i == 3 || i == 4)
                of_master[0] += i; /* [handed] */
    }
}

/* One thread accesses a variable of the first one in a construct, by a pointer. Then the first thread does so, or all
   others, or the first one behind a barrier. Or the construct's thread accesses its own variable. */
enum construct { SINGLE, TWO_SINGLES, SECTION, ONE_ITERATION, MASTER, TASK };
enum reacher { FIRST, OTHERS, AFTER_BARRIER, OWN };

static void construct(enum construct way, int *at) {
    switch (way) {
    case TWO_SINGLES:
#pragma omp single nowait
        ++*at; /* [in other single] */
        /* fallthrough */
    case SINGLE:
#pragma omp single nowait
        ++*at; /* [in single] */
        break;
    case SECTION:
#pragma omp sections nowait
        { ++*at; } /* [in section] */
        break;
    case ONE_ITERATION:
#pragma omp for nowait
        for (int i = 0; i < 1; i++)
            ++*at; /* [in iteration] */
        break;
    case MASTER:
#pragma omp master
        ++*at; /* [in master] */
        break;
    case TASK:
#pragma omp single nowait
#pragma omp task
        ++*at; /* [in task] */
    }
}

static void reach(enum construct way, enum reacher reacher) {
#pragma omp parallel num_threads(2)
    {
        int local = 0;
#pragma omp master
        of_master = &local;
#pragma omp barrier
        construct(way, reacher == OWN ? &local : of_master);
        if (reacher == AFTER_BARRIER) {
#pragma omp barrier
        }
        if ((of_master == &local) == (reacher != OTHERS) && way != TWO_SINGLES)
            ++*of_master; /* [beside construct] */
#pragma omp barrier
#pragma omp master
        row[0] = local;
    }
}

static void single_first(void) { reach(SINGLE, FIRST); }
static void single_others(void) { reach(SINGLE, OTHERS); }
static void single_before(void) { reach(SINGLE, AFTER_BARRIER); }
static void single_own(void) { reach(SINGLE, OWN); }
static void two_singles(void) { reach(TWO_SINGLES, FIRST); }
static void section_first(void) { reach(SECTION, FIRST); }
static void section_others(void) { reach(SECTION, OTHERS); }
static void iteration_first(void) { reach(ONE_ITERATION, FIRST); }
static void iteration_others(void) { reach(ONE_ITERATION, OTHERS); }
static void iteration_own(void) { reach(ONE_ITERATION, OWN); }
static void master_first(void) { reach(MASTER, FIRST); }
static void master_others(void) { reach(MASTER, OTHERS); }
static void task_first(void) { reach(TASK, FIRST); }
static void task_others(void) { reach(TASK, OTHERS); }

/* Only where another thread does it isn't all seen. */
static void single_with_lanes(void) {
#pragma omp parallel num_threads(2)
    {
        int local = 0;
#pragma omp master
        of_master = &local;
#pragma omp barrier
#pragma omp single nowait
        if (++local > 0 && of_master != &local) {
#pragma omp simd /* [lanes of single] */
            for (int i = 0; i < 8; i++)
                counts[i]++;
        }
        local++;
    }
}

/* A share that accesses nothing of the kind stands between both. */
static void across_loop(void) {
#pragma omp parallel num_threads(2)
    {
        int local = 0;
#pragma omp master
        of_master = &local;
#pragma omp barrier
        if (of_master == &local)
            ++*of_master; /* [before loop] */
#pragma omp for nowait
        for (int i = 0; i < 4; i++)
            counts[i]++;
        if (of_master != &local)
            ++*of_master; /* [behind loop] */
#pragma omp barrier
#pragma omp master
        row[0] = local;
    }
}

/* Others reach a byte of a variable of the first thread, which has accessed these of its bytes in a loop. */
union bytes {
    int all;
    char each[4];
};

static void first_only(union bytes *own, int i) { own->each[0] = (char)i; /* [first only] */ }

static void by_turns(union bytes *own, int i) { own->each[i % 2] = 1; /* [by turns] */ }

static void third_first(union bytes *own, int i) {
    own->each[2] = (char)i;
    own->each[0] = (char)i; /* [third first] */
}

static void then_all(union bytes *own, int i) {
    own->each[0] = (char)i;
    *(volatile int *)&own->all; /* [then all] */
}

static union bytes *bytes_of_master;

static void reach_byte(void (*iteration)(union bytes *own, int i), int byte) {
#pragma omp parallel num_threads(2)
    {
        union bytes own;
#pragma omp master
        bytes_of_master = &own;
#pragma omp barrier
#pragma omp for nowait
        for (int i = 0; i < 8; i++)
            iteration(&own, i);
        if (bytes_of_master != &own)
            bytes_of_master->each[byte]++; /* [byte of master] */
#pragma omp barrier
    }
}

static void same_byte(void) { reach_byte(first_only, 0); }
static void next_byte(void) { reach_byte(first_only, 1); }
static void byte_of_other_iteration(void) { reach_byte(by_turns, 1); }
static void byte_behind_other(void) { reach_byte(third_first, 0); }
static void byte_between(void) { reach_byte(third_first, 1); }
static void byte_of_all(void) { reach_byte(then_all, 1); }

/* The task is another thread's, or this one's but later. */
static void task_of_single(void) {
#pragma omp parallel num_threads(2)
    {
        int local = 0;
#pragma omp single nowait
#pragma omp task shared(local)
        local++;
        local++; /* [beside task of single] */
    }
}

static void reaches_own(void) {
    of_master = &mine;
#pragma omp parallel num_threads(2)
    ++*of_master; /* [reaches own] */
}

static void reaches_own_in_loop(void) {
    of_master = &mine;
#pragma omp parallel for num_threads(2)
    for (int i = 0; i < 8; i++)
        ++*of_master; /* [reaches own in loop] */
}

static once_flag is_done = ONCE_FLAG_INIT;

static void initialise(void) { one = 1; /* [once] */ }

static void once(void) {
#pragma omp parallel num_threads(2)
    {
        call_once(&is_done, initialise);
        if (one != 1) /* [after once] */
            abort();
    }
}

/* The task alone waits for it. */
static void beside_once(void) {
#pragma omp task
    call_once(&is_done, initialise);
    after = one; /* [beside once] */
#pragma omp taskwait
}

static void copies_own(void) {
    mine = 3;
#pragma omp parallel num_threads(2) copyin(mine)
    if (mine != 3)
        abort();
}

static void exits(void) {
#pragma omp parallel /* [exits] */
    {
        one++;
        exit(0);
    }
}

static void two_masters(void) {
#pragma omp parallel
    {
#pragma omp master
        one = 1;
        if (omp_get_thread_num() == 0)
            one++;
#pragma omp master
        one++;
    }
}

/* One of two threads does the loop. */
static void both_masked(void) {
#pragma omp parallel num_threads(2)
    {
#pragma omp masked filter(0)
        one = 1;
#pragma omp masked filter(1) /* [both masked] */
        row[3] = 1;
#pragma omp for
        for (int i = 0; i < 4; i++)
            row[i]++;
    }
}

/* Each thread copies it, and none waits for that. */
static void copied(void) {
    struct {
        int first[9];
    } shared = {{0}}, *all = &shared;
#pragma omp parallel firstprivate(shared) /* [copied] */
    {
#pragma omp master
        all->first[3] = 1; /* [beside copied] */
        if (shared.first[one] > 1)
            printf("late\n");
    }
}

static void last_of_blocks(void) {
    int last = 0, *all = &last;
#pragma omp parallel
    {
#pragma omp for schedule(static) lastprivate(last) nowait /* [last] */
        for (int i = 0; i < 4; i++)
            last = i;
#pragma omp master
        one = *all; /* [beside last] */
    }
}

/* Thread 1 may do the single region, or add up before thread 0 has read. */
static void beside_number(void) {
    int sum = 0, *all = &sum;
#pragma omp parallel num_threads(2) reduction(+ : sum) /* [asks] */
    {
        if (omp_get_thread_num() == 0)
            one = 1; /* [by number] */
#pragma omp single nowait
        other = one; /* [beside number] */
        sum++;
    }
    one = *all;
}

/* No thread waits for another one's single region, or its iterations, where its own group ends. */
static void left_by_groups(void) {
#pragma omp parallel
    {
#pragma omp taskgroup
        {
#pragma omp for nowait
            for (int i = 0; i < 4; i++)
                row[i] = i;
        }
#pragma omp single
        one = row[0];
    }
}

static void groups_wait(void) {
#pragma omp parallel
    {
#pragma omp taskgroup
        {
#pragma omp single
            one = 1;
#pragma omp for
            for (int i = 0; i < 4; i++)
                row[i] = one;
        }
#pragma omp master
        one = row[3];
    }
}

/* A task that only reads a number of its parent shares it. */
static void task_reads(void) {
    int seen = 1;
#pragma omp task shared(seen)
    row[0] = seen; /* [task reads] */
    seen = 2;      /* [beside task reads] */
#pragma omp taskwait
    row[1] = seen;
}

static void task_has_read(void) {
    for (int i = 0; i < 2; i++) {
        int seen = i;
#pragma omp task shared(seen)
        row[0] = seen;
#pragma omp taskwait
        seen = 2;
        row[1] = seen;
    }
}

/* The compiler's own code asks how many threads there are. */
static void tasks_sum(void) {
    int sum = 0;
#pragma omp taskgroup task_reduction(+ : sum)
    for (int i = 0; i < 4; i++)
#pragma omp task in_reduction(+ : sum)
        sum += i;
    row[0] = sum;
}

static void masked_out(void) {
#pragma omp parallel
    {
#pragma omp masked filter(5) /* [masked out] */
        one++;
    }
#pragma omp parallel num_threads(2)
    {
#pragma omp masked filter(2)
        one++;
    }
}

static void cancels(void) {
#pragma omp parallel
    {
#pragma omp for
        for (int i = 0; i < 4; i++) {
            row[i] = 1;
#pragma omp cancel for if (i == 2) /* [cancels] */
#pragma omp cancellation point for
        }
#pragma omp sections
        {
#pragma omp section
            {
#pragma omp cancel sections
            }
        }
#pragma omp cancel parallel if (row[3] == 0)
#pragma omp barrier
    }
    if (row[3] != 1)
        abort();
}

/* Each thread's task runs later, without what its thread holds. */
static void task_of_critical(void) {
#pragma omp parallel
    {
#pragma omp critical
        {
#pragma omp task
            one++; /* [in a task] */
#pragma omp task if (0)
            other++;
        }
    }
}

static void after_ordered(void) {
#pragma omp parallel for ordered
    for (int i = 0; i < 4; i++) {
#pragma omp ordered
        one++;
        other = i; /* [after ordered] */
    }
}

static void ordered_last(void) {
#pragma omp parallel for ordered
    for (int i = 0; i < 4; i++) {
        row[i] = i;
#pragma omp ordered
        one++;
    }
}

/* The ordered region waits for no task. */
static void ordered_tasks(void) {
#pragma omp parallel for ordered
    for (int i = 0; i < 4; i++) {
#pragma omp task /* [beside ordered] */
        row[i] = i;
#pragma omp ordered
        one += row[i];
    }
}

static void alike(void) {
#pragma omp parallel
    {
#pragma omp for schedule(static) nowait
        for (int i = 0; i < 4; i++)
            row[i] = i;
#pragma omp for schedule(static)
        for (int i = 0; i < 4; i++)
            row[i]++;
    }
}

static void lanes(void) {
    if (one == 0)
#pragma omp simd /* [lanes] */
        for (int i = 1; i < 9; i++)
            row[i] = row[i - 1];
}

/* The last task waits for the first one, and not for the second. */
static void depends(void) {
#pragma omp task depend(in : one)
    printf("%d\n", one); /* [reads first] */
#pragma omp task
    printf("%d\n", one);
#pragma omp task depend(out : one) /* [depends] */
    one = 1; /* [writes last] */
}

static void depends_on_none(void) {
    for (int i = 0; i < 2; i++)
#pragma omp task depend(inout : row[i])
        other = row[i]++; /* [apart] */
}

/* Nor where memory comes again. */
static void depends_on_freed(void) {
    for (int i = 0; i < 40; i++) {
        int *block = malloc(40000);
#pragma omp task depend(inout : block[0])
        other = 1; /* [freed] */
        free(block);
    }
}

/* One by a wait for data, and one by an object that names it. */
static void depends_on_one(void) {
#pragma omp task depend(out : one)
    one = 1;
#pragma omp taskwait depend(in : one)
    one = 2;
    omp_depend_t named;
#pragma omp depobj(named) depend(inout : one)
#pragma omp task depend(depobj : named)
    one = 3;
#pragma omp task depend(depobj : named)
    one = 4;
#pragma omp depobj(named) destroy
}

static void task_number(void) {
#pragma omp task
    counts[omp_get_thread_num()] = 1; /* [task asks] */
}

int main(int count, char **words) {
    static const struct {
        const char *name;
        void (*run)(void);
        bool is_serial;
    } ways[] = {{"neighbours", neighbours, true},
                {"numbered", numbered, true},
                {"thread_memory", thread_memory, true},
                {"no_barrier", no_barrier, true},
                {"nested", nested, true},
                {"outlives", outlives, false},
                {"outlives_twice", outlives_twice, false},
                {"goes_astray", goes_astray, false},
                {"grouped", grouped, false},
                {"lock", lock, false},
                {"each_thread", each_thread, true},
                {"each_task", each_task, true},
                {"each_inner", each_inner, true},
                {"late_thread", late_thread, true},
                {"single_nowait", single_nowait, true},
                {"master", master, true},
                {"master_loop", master_loop, true},
                {"summed_nowait", summed_nowait, true},
                {"guarded", guarded, true},
                {"no_race", no_race, true},
                {"by_number", by_number, true},
                {"wants_more", wants_more, true},
                {"wants_four", wants_four, true},
                {"sets_four", sets_four, true},
                {"asks_how_many", asks_how_many, true},
                {"sums_section", sums_section, true},
                {"reaches_local_often", reaches_local_often, true},
                {"reaches_local_once", reaches_local_once, true},
                {"single_first", single_first, true},
                {"first_reach", first_reach, true},
                {"middle_reach", middle_reach, true},
                {"last_reach", last_reach, true},
                {"named_once", named_once, true},
                {"named_before", named_before, true},
                {"last_by_name", last_by_name, true},
                {"taken_reach", taken_reach, true},
                {"unaligned_reach", unaligned_reach, true},
                {"inverted_reach", inverted_reach, true},
                {"ordered_reach", ordered_reach, true},
                {"last_by_last", last_by_last, true},
                {"scratch", scratch, true},
                {"of_iteration", of_iteration, true},
                {"static_by_static", static_by_static, true},
                {"single_by_single", single_by_single, true},
                {"single_behind_scratch", single_behind_scratch, true},
                {"handed", handed, true},
                {"single_others", single_others, true},
                {"single_before", single_before, true},
                {"single_own", single_own, true},
                {"single_with_lanes", single_with_lanes, true},
                {"two_singles", two_singles, true},
                {"section_first", section_first, true},
                {"section_others", section_others, true},
                {"iteration_first", iteration_first, true},
                {"iteration_others", iteration_others, true},
                {"iteration_own", iteration_own, true},
                {"master_first", master_first, true},
                {"master_others", master_others, true},
                {"task_first", task_first, true},
                {"task_others", task_others, true},
                {"across_loop", across_loop, true},
                {"same_byte", same_byte, true},
                {"next_byte", next_byte, true},
                {"byte_of_other_iteration", byte_of_other_iteration, true},
                {"byte_behind_other", byte_behind_other, true},
                {"byte_between", byte_between, true},
                {"byte_of_all", byte_of_all, true},
                {"task_of_single", task_of_single, true},
                {"reaches_own", reaches_own, true},
                {"reaches_own_in_loop", reaches_own_in_loop, true},
                {"once", once, true},
                {"beside_once", beside_once, true},
                {"copies_own", copies_own, true},
                {"exits", exits, true},
                {"two_masters", two_masters, true},
                {"both_masked", both_masked, true},
                {"copied", copied, true},
                {"last_of_blocks", last_of_blocks, true},
                {"beside_number", beside_number, true},
                {"left_by_groups", left_by_groups, true},
                {"groups_wait", groups_wait, true},
                {"task_reads", task_reads, false},
                {"task_has_read", task_has_read, false},
                {"tasks_sum", tasks_sum, false},
                {"masked_out", masked_out, true},
                {"cancels", cancels, true},
                {"task_of_critical", task_of_critical, true},
                {"after_ordered", after_ordered, true},
                {"ordered_last", ordered_last, true},
                {"ordered_tasks", ordered_tasks, true},
                {"alike", alike, true},
                {"lanes", lanes, true},
                {"depends", depends, false},
                {"depends_on_none", depends_on_none, false},
                {"depends_on_freed", depends_on_freed, false},
                {"depends_on_one", depends_on_one, false},
                {"task_number", task_number, false}};
    const char *word = count > 1 ? words[1] : "";
    for (size_t way = 0; way < sizeof ways / sizeof *ways; way++)
        if (strcmp(word, ways[way].name) == 0) {
            if (ways[way].is_serial)
                ways[way].run();
            else {
#pragma omp parallel
#pragma omp single
                ways[way].run();
            }
            return count > 2 ? atoi(words[2]) : 0;
        }
    return 3;
}
