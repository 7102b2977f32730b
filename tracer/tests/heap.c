/* Memory of the heap that dies in its strand, that outlives it, and that comes again. The words say what is run. */
#include <cilk/cilk.h>
#include <stdio.h>
#include <stdlib.h>
#include <string.h>
#include <sys/mman.h>

static int *given;
static volatile int sink;
/* With the word `part` the ways that take much memory take a quarter of it. Some of it comes again then too. */
static int share = 1;

static void give_and_end(void) {
    int *block = malloc(10 * sizeof *block); /* [given] */
    given = block;                           /* [give] */
    free(block);                             /* [end] */
}

static void use_given(void) {
    int *block = given; /* [take] */
    sink = block[3];    /* [use] */
}

/* A block that died in one strand is used by a parallel one; and behind a sync. */
static void use_in_parallel(void) {
    cilk_spawn give_and_end();
    use_given();
    cilk_sync;
}

/* Bytes of it, which a run of their own tells apart. */
static void use_bytes(void) {
    const char *bytes = (const char *)given; /* [take bytes] */
    sink = bytes[5] + bytes[9];              /* [bytes] */
}

static void use_bytes_in_parallel(void) {
    cilk_spawn give_and_end();
    use_bytes();
    cilk_sync;
}

__attribute__((unused)) static void zero(void *view) { *(int *)view = 0; }
__attribute__((unused)) static void add(void *left, void *right) { *(int *)left += *(int *)right; }

/* Only gcc traces reducers. */
#ifdef __clang__
#define REDUCED
#else
#define REDUCED cilk_reducer(zero, add)
#endif

static void sum_and_end(void) {
    int *block = calloc(10, sizeof *block);
    int REDUCED *sum = (void *)block;
    given = block;            /* [give sum] */
    free((*sum += 1, block)); /* [end of sum] */
}

static void set_sum(void) {
    int REDUCED *sum = (void *)given; /* [take sum] */
    *sum = 2;                                         /* [set] */
}

/* A reducer in such a block. */
static void sum_in_parallel(void) {
    cilk_spawn sum_and_end();
    set_sum();
    cilk_sync;
}

static void use_later(void) {
    cilk_spawn give_and_end();
    cilk_sync;
    use_given();
}

static void end_block(int *block) { free(block); /* [end of another's] */ }

/* The library frees what it gets a longer block for, and no one knows of that. */
static void give_to_library(void) {
    size_t room = 2;
    char *line = malloc(room);
    line[0] = 1;         /* [library's] */
    given = (int *)line; /* [give to library] */
    FILE *file = fopen("/proc/self/status", "r");
    if (file && getline(&line, &room, file) > 0)
        fclose(file);
    free(line);
}

static void use_of_library(void) {
    cilk_spawn give_to_library();
    *(char *)given = 2; /* [use of library's] */
    cilk_sync;
}

/* A child ends its parent's block, while the parent reads that. */
static void end_in_parallel(void) {
    int *block = calloc(10, sizeof *block); /* [parent's] */
    cilk_spawn end_block(block);
    sink = block[4]; /* [read] */
    cilk_sync;
}

static void move_block(int *block) { given = realloc(block, 100 * sizeof *block); /* [move] */ }

static void move_in_parallel(void) {
    int *block = calloc(10, sizeof *block);
    cilk_spawn move_block(block);
    sink = block[4]; /* [read of moved] */
    cilk_sync;
    free(given);
}

static void end_many(int count) {
    for (int at = 0; at < count; at++) {
        int *block = malloc((size_t)(400 + at % 7 * 100));
        block[0] = block[99] = at;
        free(block);
    }
}

/* Memory comes again in parallel children, which have no race. */
static void end_in_strands(void) {
    for (int child = 0; child < 8; child++)
        cilk_spawn end_many(5000 / share);
    cilk_sync;
}

/* Behind a block for which there is no room. */
static void ask_for_too_much(void) {
    given = malloc((size_t)3 << 40);
    end_in_strands();
}

static void put(int *at) { *at = 1; }

/* Memory comes again in the first strand too, for a block with parts that race with nothing. */
static void live_in_first_strand(void) {
    end_many(40000 / share);
    int *block = malloc(400);
    cilk_spawn put(block);
    put(block + 1);
    cilk_sync;
    free(block);
}

static int *made(void) {
    int *block = malloc(1000 * sizeof *block);
    block[5] = 7;
    return block;
}

static void fill(int *block) { block[5] = 1; /* [fill] */ }

/* So do blocks that outlive their strands. */
static void outlive_strands(void) {
    for (int turn = 0; turn < 1000 / share; turn++) {
        int *one = cilk_spawn made();
        int *other = made();
        cilk_sync;
        cilk_spawn fill(one);
        fill(other);
        cilk_sync;
        free(one);
        free(other);
    }
}

static void race(void) {
    int *block = malloc(1000 * sizeof *block); /* [later] */
    cilk_spawn fill(block);
    block[5] = 2; /* [beside] */
    cilk_sync;
    free(block);
}

static void race_in_a_later_life(void) {
    outlive_strands();
    race();
    outlive_strands();
}

static void grow(void) {
    char *text = NULL;
    for (size_t size = 1; size < 300000; size *= 2) {
        text = realloc(text, size);
        text[size - 1] = 1;
    }
    free(text);
}

/* Blocks of several spans. */
static void grow_in_parallel(void) {
    for (int turn = 0; turn < 40 / share; turn++) {
        cilk_spawn grow();
        grow();
        cilk_sync;
    }
}

static int zeros(int bytes) {
    for (int at = 0; at < 3000 / share; at++) {
        char *block = calloc(1, (size_t)bytes);
        for (int byte = 0; byte < bytes; byte++)
            if (block[byte] != 0)
                return 1;
        memset(block, 1, (size_t)bytes);
        free(block);
    }
    return 0;
}

/* What comes again is zero where calloc gives it, and where the program asks for a multiple it gets one. */
static int keep_promises(void) {
    for (int at = 0; at < 20000; at++) {
        void *block = aligned_alloc(256, 512);
        if ((size_t)block % 256 != 0)
            return 1;
        memset(block, 1, 512);
        free(block);
    }
    return zeros(200) || zeros(20000);
}

static void map_and_end(void) {
    for (int turn = 0; turn < 10; turn++) {
        char *memory = mmap(NULL, 1 << 16, PROT_READ | PROT_WRITE, MAP_PRIVATE | MAP_ANONYMOUS, -1, 0);
        memory[100] = 1;
        munmap(memory, 1 << 16);
    }
}

/* What the system maps doesn't come again at the same addresses. */
static void map_in_parallel(void) {
    cilk_spawn map_and_end();
    map_and_end();
    cilk_sync;
}

static int run(const char *word) {
    static void (*const functions[])(void) = {
        use_in_parallel,      use_bytes_in_parallel, sum_in_parallel, use_later,           end_in_parallel,
        move_in_parallel,     use_of_library,        end_in_strands,  ask_for_too_much,    outlive_strands,
        race_in_a_later_life, grow_in_parallel,      map_in_parallel, live_in_first_strand};
    static const char *const names[] = {"used",    "bytes", "sum",     "later",      "ended", "moved",  "library",
                                        "strands", "vast",  "outlive", "later life", "large", "mapped", "first"};
    for (size_t at = 0; at < sizeof names / sizeof *names; at++)
        if (strcmp(word, names[at]) == 0)
            functions[at]();
    share = strcmp(word, "part") == 0 ? 4 : share;
    return strcmp(word, "promises") == 0 && keep_promises();
}

int main(int count, char **words) {
    for (int at = 1; at < count; at++)
        if (run(words[at]) != 0)
            return 7;
}
