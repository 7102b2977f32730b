/* Races that test_run.py knows: the first word says which. The tags name lines. */
#include <cilk/cilk.h>
#include <fcntl.h>
#include <pthread.h>
#include <stdatomic.h>
#include <stdint.h>
#include <stdio.h>
#include <stdlib.h>
#include <string.h>
#include <sys/mman.h>
#include <unistd.h>

struct cell {
    int value, other;
};
static volatile int guarded;
static int table[10], cells[1000];
static volatile char letters[8];
static atomic_int hits;
static pthread_mutex_t lock = PTHREAD_MUTEX_INITIALIZER;

static void set(int *at) { *at = 1; } /* [set] */

static void set_below(int *at) {
    set(at); /* [set below] */
}

static void of_a_global(void) {
    cilk_spawn set_below(&table[2]); /* [spawn global] */
    table[2] = 2; /* [global] */
    cilk_sync; /* [sync global] */
}

static void count(void) {
    static volatile int calls = 0;
    calls = 1; /* [count] */
}

static void of_a_static(void) {
    for (int i = 0; i < 2; i++)
        cilk_spawn count(); /* [spawn static] */
}

static struct cell *make(int many) {
    return calloc((size_t)many, sizeof(struct cell)); /* [make] */
}

static void of_the_heap(void) {
    struct cell *made = make(3); /* [made] */
    cilk_spawn set(&made[1].other); /* [spawn heap] */
    made[1].other = 2; /* [heap] */
}

static void of_a_local(int *at) {
    cilk_spawn set(at); /* [spawn local] */
    printf("%d\n", *at); /* [local] */
}

static int of_order(const void *one, const void *other) {
    table[9]++; /* [order] */
    return *(const int *)one - *(const int *)other;
}

static void sort(int *at) {
    qsort(at, 2, sizeof *at, of_order); /* [sort] */
}

static void of_a_library(void) {
    int numbers[] = {2, 1, 4, 3};
    cilk_spawn sort(numbers); /* [spawn sort] */
    sort(numbers + 2); /* [sorts] */
    cilk_sync;
    char *text = strdup("text"); /* [dup] */
    cilk_spawn strcpy(text, "long"); /* [spawn copy] */
    strcpy(text, "next"); /* [copy] */
}

static void set_all(void) {
    for (int i = 0; i < 1000; i++)
        cells[i] = 1; /* [set all] */
}

static void of_a_thousand(void) {
    cilk_spawn set_all(); /* [spawn all] */
    for (int i = 0; i < 1000; i++)
        cells[i] = 2; /* [all] */
}

static void nothing(void) {}

/* Each process has another number, and so another course. */
static void of_another_course(void) {
    for (int i = getpid() % 1000; i >= 0; i--)
        cilk_spawn nothing();
    cilk_sync;
    of_a_global();
}

/* How many units a text has depends on where it lies. */
static void of_the_environment(void) {
    static size_t length;
    length += strlen(getenv("WORDS"));
    of_a_global();
}

static void of_mapped_memory(void) {
    int *mapped = mmap(NULL, 1 << 20, PROT_READ | PROT_WRITE, MAP_PRIVATE | MAP_ANONYMOUS, -1, 0);
    cilk_spawn set(mapped);
    *mapped = 2; /* [mapped] */
}

/* As many races as there are letters in the input. */
static void of_the_input(void) {
    char line[100];
    int many = 0;
    while (fgets(line, sizeof line, stdin))
        many += (int)strlen(line) - 1;
    for (int i = 0; i < many; i++) {
        cilk_spawn set(&cells[i]); /* [spawn input] */
        cells[i] = 2; /* [input] */
    }
}

static void set_letter(int at) {
    letters[at] = 'a'; /* [letter] */
}

static void of_neighbours(void) {
    cilk_spawn set_letter(0);
    set_letter(1);
}

static void of_a_letter(void) {
    of_neighbours();
    cilk_spawn set_letter(5); /* [spawn letter] */
    set_letter(5); /* [calls letter] */
}

static void hit(void) {
    atomic_fetch_add(&hits, 1); /* [hit] */
}

static void turn(void) {
    pthread_mutex_lock(&lock);
    guarded = 1; /* [turn] */
    pthread_mutex_unlock(&lock);
}

static void of_guards(void) {
    cilk_spawn hit(); /* [spawn hit] */
    hit(); /* [hits] */
    cilk_spawn turn(); /* [spawn turn] */
    turn(); /* [turns] */
}

static void of_one_guard(void) {
    cilk_spawn turn();
    guarded = 2; /* [no turn] */
}

/* What the strand goes on with isn't held. */
static void turn_first(void) {
    turn(); /* [turn first] */
    guarded = 2; /* [turn over] */
    table[0] = 1; /* [no lock] */
}

static void of_one_strand(void) {
    cilk_spawn turn_first(); /* [spawn turn first] */
    turn_first(); /* [turns first] */
}

/* Which run this is here: each makes a file longer. */
static off_t run_number(void) {
    int file = open("ran", O_WRONLY | O_CREAT | O_APPEND, 0666);
    ssize_t wrote = write(file, "+", 1);
    off_t length = lseek(file, 0, SEEK_END);
    close(file);
    return wrote == 1 ? length : 0;
}

static int is_first(void) { return run_number() == 1; }

static void of_a_file(void) {
    if (is_first())
        of_a_global();
}

static void of_a_file_later(void) {
    of_a_global();
    if (is_first())
        of_a_static();
}

static void of_a_file_of_guards(void) {
    if (is_first())
        of_guards();
}

/* More records of other lines, in an order that nothing foretells, than a small disk has room for. */
static void of_a_small_disk(void) {
    if (!is_first())
        return;
    of_a_global();
    for (int i = 0; i < 200; i++)
        cilk_spawn set_all();
    cilk_sync;
    for (uint32_t i = 0, random = 1; i < 300000; i++) {
        random = 1664525 * random + 1013904223;
        cilk_spawn nothing();
        if (random >> 31)
            cilk_sync;
    }
    cilk_sync;
    cilk_spawn turn();
    turn();
}

struct flags {
    char first, second, third;
    int number;
};
static volatile struct flags flags;

static void set_flag(volatile char *at) {
    *at = 1; /* [flag] */
}

static void of_two_flags(volatile struct flags *two) {
    cilk_spawn set_flag(&two->first);
    set_flag(&two->second);
    cilk_sync;
}

/* Neighbours of a global, of the heap and of a local, whose children's results are neighbours too. */
static char letter_of(int at) { return (char)('a' + at); }

static void of_more_neighbours(void) {
    volatile struct flags local = {0, 0, 0, 0};
    char results[3];
    of_two_flags(&flags);
    of_two_flags(calloc(1, sizeof local));
    of_two_flags(&local);
    for (int i = 0; i < 3; i++)
        results[i] = cilk_spawn letter_of(i);
    cilk_sync;
    printf("%c\n", results[1]);
}

/* A byte that races, beside one that doesn't. */
static void of_flags(void) {
    of_more_neighbours();
    cilk_spawn set_flag(&flags.third); /* [spawn flag] */
    set_flag(&flags.third); /* [calls flag] */
    set_flag(&flags.second);
}

/* Eight doubles, which are no bytes for the neighbours beside them. */
static volatile double doubles[8];

static void set_doubles(void) {
    for (int i = 0; i < 8; i++)
        doubles[i] = 1; /* [set doubles] */
}

static void of_doubles(void) {
    of_neighbours();
    cilk_spawn set_doubles();
    for (int i = 0; i < 8; i++)
        doubles[i] = 2; /* [doubles] */
}

/* A byte of a unit that nothing else reaches, but for what fills it. */
static void of_a_byte_alone(void) {
    run_number();
    memset((char *)letters + 4, 0, 4);
    cilk_spawn set_letter(5); /* [spawn byte] */
    set_letter(5); /* [calls byte] */
}

/* Another race in the first run than in later ones. */
static void of_a_file_of_others(void) {
    if (is_first())
        of_a_global();
    else
        of_a_static();
}

/* Only later runs hold the lock. */
static void turn_later(int is_later) {
    if (is_later)
        pthread_mutex_lock(&lock);
    guarded = 1; /* [turn later] */
    if (is_later)
        pthread_mutex_unlock(&lock);
}

static void of_a_file_of_locks(void) {
    int is_later = !is_first();
    cilk_spawn turn_later(is_later);
    turn_later(is_later);
}

static void of_a_file_alone(void) { run_number(); }

/* In the first run two children write one byte, in later ones neighbours. */
static void of_a_file_of_letters(void) {
    int at = is_first() ? 5 : 6;
    cilk_spawn set_letter(5);
    set_letter(at);
}

/* Only the fourth run, and those behind it, take another course. */
static void of_a_fourth_run(void) {
    if (run_number() < 4)
        of_a_letter();
}

static void set_in_header(void);

static void of_a_header(void) {
    cilk_spawn set_in_header(); /* [spawn header] */
    set_in_header(); /* [header] */
}

static const struct {
    const char *name;
    void (*run)(void);
} all[] = {
    {"global", of_a_global}, {"static", of_a_static}, {"heap", of_the_heap}, {"library", of_a_library},
    {"thousand", of_a_thousand}, {"course", of_another_course}, {"input", of_the_input},
    {"environment", of_the_environment}, {"mapped", of_mapped_memory},
    {"neighbours", of_neighbours}, {"letter", of_a_letter}, {"guards", of_guards}, {"one guard", of_one_guard},
    {"header", of_a_header}, {"file", of_a_file}, {"later", of_a_file_later}, {"guards file", of_a_file_of_guards},
    {"small disk", of_a_small_disk}, {"more neighbours", of_more_neighbours}, {"flags", of_flags},
    {"doubles", of_doubles}, {"letters file", of_a_file_of_letters}, {"fourth", of_a_fourth_run},
    {"others file", of_a_file_of_others}, {"locks file", of_a_file_of_locks}, {"file alone", of_a_file_alone},
    {"one strand", of_one_strand}, {"byte alone", of_a_byte_alone},
};

/* Runs those that the words name, and ends with their number. */
int main(int count, char **words) {
    int local = 0, runs = 0;
    for (int word = 1; word < count; word++) {
        for (size_t at = 0; at < sizeof all / sizeof *all; at++)
            if (strcmp(words[word], all[at].name) == 0)
                all[at].run(), runs++; /* [run] */
        if (strcmp(words[word], "local") == 0)
            of_a_local(&local), runs++; /* [run local] */
    }
    return runs;
}

#line 5 "/usr/include/own.h"
static void set_in_header(void) { table[3] = 1; }
