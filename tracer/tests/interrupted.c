/* A handler of a signal runs after one instruction of what is armed, the one with the number of the second word. It
   calls a function, and writes what a parallel child has read: a race, whatever it interrupts. With a third word it does
   something else. The part by which the processor stops after each instruction is compiled by the plain compiler. */
#include <setjmp.h>
#include <signal.h>
#include <stdlib.h>
#include <string.h>
#include <unistd.h>

extern volatile long at, acted;
/* The first character of the third word, or 0. */
extern char way;
extern sigjmp_buf back;
void act(void);
void arm(int is_armed);
void on_trap(int number);

#ifdef PLAIN
volatile long at, acted;
char way;
sigjmp_buf back;

static int use_up_stack(int depth) {
    volatile char much[4096];
    much[0] = (char)depth;
    return use_up_stack(depth + 1) + much[0];
}

static void interrupt(void) {
    switch (way) {
    case 's':
        at = use_up_stack(0);
        break;
    case 'e':
        _exit(7);
    case 'a':
        abort();
    case 't':
        __builtin_trap();
    case 'j':
        siglongjmp(back, 1);
    default:
        act();
    }
}

void on_trap(int number) {
    (void)number;
    if (acted == 0 && at-- == 0) {
        acted = 1;
        interrupt();
    }
}

void arm(int is_armed) {
    if (is_armed)
        __asm__ volatile("pushfq; orq $0x100, (%%rsp); popfq" ::: "memory", "cc");
    else
        __asm__ volatile("pushfq; andq $~0x100, (%%rsp); popfq" ::: "memory", "cc");
}
#else
#include <cilk/cilk.h>

static union {
    _Alignas(256) int one[128];
    long long two[64];
} shared, joined;
static volatile int sink, seen;
/* The handler's write is of this one. */
static int *volatile raced = &shared.one[7];

static int add(int left, int right) { return left + right; }

static void put(volatile int *to, int value) { *to = value; }

void act(void) { put(raced, add(1, 2)); }

static void read_before(void) { seen = shared.one[7]; }

static void write_joined(void) { joined.one[0] = 1; }

/* It waits for its child at its end. */
static void spawn_and_end(void) {
    cilk_spawn write_joined();
    add(1, 2);
}

static void write_local(void) {
    int local;
    put(&local, 5);
}

static void run(const char *word) {
    if (strcmp(word, "one") == 0) {
        arm(1);
        sink = shared.one[7];
    } else if (strcmp(word, "two") == 0) {
        arm(1);
        sink = (int)shared.two[3];
    } else if (strcmp(word, "local") == 0) {
        arm(1);
        write_local();
    } else {
        arm(1);
        spawn_and_end();
    }
    arm(0);
    sink = joined.one[0];
}

/* The handler writes a local variable of the parent's that nothing has touched, beside what its child writes there. */
static void run_with_local(const char *word) {
    int local;
    raced = &local;
    cilk_spawn run(word);
    put(raced, 3);
    cilk_sync;
}

/* A jump may leave the first access, behind which comes another one. */
static void run_with_jump(void) {
    if (sigsetjmp(back, 1) == 0) {
        arm(1);
        put(&shared.one[7], 1);
    }
    arm(0);
    cilk_spawn write_joined();
    put(&shared.one[7], 2);
    cilk_sync;
}

int main(int count, char **words) {
    if (count < 3 || signal(SIGTRAP, on_trap) == SIG_ERR)
        return 2;
    at = atol(words[2]);
    way = count > 3 ? words[3][0] : '\0';
    cilk_spawn read_before();
    if (way == 'j')
        run_with_jump();
    else if (strcmp(words[1], "local") == 0)
        run_with_local(words[1]);
    else
        run(words[1]);
    cilk_sync;
    return acted != 0;
}
#endif
