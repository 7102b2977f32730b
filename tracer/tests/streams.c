/* A child and its parent do what the first word says, at once or with the word `order` one after the other. */
#include <cilk/cilk.h>
#include <fcntl.h>
#include <stdio.h>
#include <string.h>
#include <unistd.h>

static FILE *file, *zeros;
static int descriptor;
static volatile int global;
static char read_by[2][4];

static void use_printf(int who) { printf("%d\n", who); } /* [printf] */
static void use_putchar(int who) { putchar('0' + who); } /* [putchar] */
static void use_file(int who) { fprintf(file, "%d\n", who); } /* [file] */
static void use_fread(int who) {
    if (fread(read_by[who], 1, 4, zeros) != 4) /* [fread] */
        read_by[who][0] = 'x';
}
static void use_write(int who) {
    if (write(descriptor, &who, sizeof who) < 0) /* [write] */
        read_by[who][0] = 'x';
}
static void use_unlocked(int who) { putc_unlocked('0' + who, file); } /* [unlocked] */
static void use_flockfile(int who) {
    flockfile(file);
    putc_unlocked('0' + who, file); /* [flockfile] */
    funlockfile(file);
}
static void use_global(int who) {
    flockfile(stdout);
    global = who; /* [global] */
    funlockfile(stdout);
}
static void mix(int who) {
    if (who == 0)
        fputs("0", file); /* [locked of mix] */
    else
        putc_unlocked('1', file); /* [unlocked of mix] */
}
static void end(int who) {
    if (who == 0)
        fputs("0", file); /* [last] */
    else
        fclose(file); /* [fclose] */
}
static void use_memory(int who) {
    if (who == 0)
        file = fmemopen(read_by, sizeof read_by, "w");
}
static void use_own_file(int who) {
    FILE *own = fopen("/dev/null", "w");
    fprintf(own, "%d\n", who);
    fclose(own);
}
static void use_own_descriptor(int who) {
    int own = open("/dev/null", O_WRONLY);
    if (write(own, &who, sizeof who) < 0)
        read_by[who][0] = 'x';
    close(own);
}
static void use_streams_of_own(int who) { fprintf(who == 0 ? file : stdout, "%d\n", who); }

static const struct {
    const char *name;
    void (*use)(int who);
} uses[] = {
    {"printf", use_printf}, {"putchar", use_putchar}, {"file", use_file}, {"fread", use_fread}, {"write", use_write},
    {"unlocked", use_unlocked}, {"flockfile", use_flockfile}, {"global", use_global}, {"mix", mix}, {"fclose", end},
    {"memory", use_memory}, {"own file", use_own_file}, {"own descriptor", use_own_descriptor}, {"own streams", use_streams_of_own},
};

int main(int count, char **words) {
    file = fopen("/dev/null", "w");
    zeros = fopen("/dev/zero", "r");
    descriptor = open("/dev/null", O_WRONLY);
    for (size_t at = 0; count > 1 && at < sizeof uses / sizeof *uses; at++)
        if (strcmp(words[1], uses[at].name) == 0) {
            cilk_spawn uses[at].use(0);
            if (count > 2)
                cilk_sync;
            uses[at].use(1);
            cilk_sync;
        }
}
