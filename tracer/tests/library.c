/* For each library function that the tracer sees, a child calls it, and the parent touches one byte. The child's call
   reads (R) or writes (W) the bytes that are said here: by what the function means, and not by what the tracer says.
   A byte that it writes races with a read, and one that it reads with a write: the first and the last of each piece.
   The one behind it doesn't race, nor does a byte that both read. Each case stands on one line, and the program prints
   the line and how many bytes of it race. */
#define _GNU_SOURCE
#include "../hooks/base/library_types.h"
#include <cilk/cilk.h>
#include <ctype.h>
#include <dlfcn.h>
#include <errno.h>
#include <error.h>
#include <fcntl.h>
#include <ftw.h>
#include <inttypes.h>
#include <linux/futex.h>
#include <pthread.h>
#include <semaphore.h>
#include <setjmp.h>
#include <signal.h>
#include <stdarg.h>
#include <stdbool.h>
#include <stdio.h>
#include <stdio_ext.h>
#include <stdlib.h>
#include <string.h>
#include <strings.h>
#include <sys/ipc.h>
#include <sys/mman.h>
#include <sys/mount.h>
#include <sys/random.h>
#include <sys/resource.h>
#include <sys/sendfile.h>
#include <sys/inotify.h>
#include <sys/socket.h>
#include <sys/stat.h>
#include <sys/statvfs.h>
#include <sys/swap.h>
#include <sys/syscall.h>
#include <sys/wait.h>
#include <threads.h>
#include <time.h>
#include <unistd.h>
#include <wchar.h>

/* What the calls work on. Each try has memory of its own. */
static char *a, *b, *c, *needle, *set, *space, *digits, *decimals, *two, *format;
static char *pair, *scanned, *hour, *real_format, *path, *other_path, *folder_path, *root, *made, *user, *address;
static char *big, *other, *third, *many, *day, *environment, *random_state, *event, *compiled, *entry, *pieces, *message;
static char *polled, *hints, *name, *page;
static char **rest, **out, **words;
static size_t *size, *room;
static wchar_t *wide, *other_wide, *wide_a, *wide_b, *wide_c, *wide_space, *wide_pair, *wide_digits, *wide_decimals;
static wchar_t **wide_rest;
static FILE *text, *letters, *nothing, *wide_nothing;
static DIR *folder;
static volatile int sink;
static int zeros, sockets[2], events, waiting, terminal, timer_file;
static timer_t timer;
static locale_t locale;
static iconv_t converter;
static int *optind_at = &optind, *signgam_at = &signgam;
static char **optarg_at = &optarg;
static volatile char seen;

enum { ROOM = 64, BIG = 16384 };

static char *zeroed(size_t bytes) { return calloc(1, bytes); }
static wchar_t *wide_block(const wchar_t *content) {
    return wmemcpy(calloc(ROOM, sizeof *content), content, wcslen(content));
}
static FILE *wide_text(void) {
    FILE *made_of = tmpfile();
    pwrite(fileno(made_of), "first line\nsecond\n", 18, 0);
    return made_of;
}
static size_t host_size(void) {
    char host[ROOM] = "";
    return gethostname(host, sizeof host) == 0 ? strlen(host) + 1 : 0;
}
static size_t domain_size(void) {
    char domain[ROOM] = "";
    return getdomainname(domain, sizeof domain) == 0 ? strlen(domain) + 1 : 0;
}
static size_t loop_size(void) {
    char found[IF_NAMESIZE];
    return if_indextoname(1, found) ? strlen(found) + 1 : 0;
}

static char *block(const char *content) { return memcpy(calloc(1, ROOM), content, strlen(content)); }

static void prepare_strings(void) {
    pair = block("42 alph");
    scanned = block("%d %s");
    hour = block("%H");
    real_format = block("%.2f");
    path = block("/no/where/at/all");
    other_path = block("/other");
    folder_path = block("/abc/");
    root = block("/");
    made = block("/no/abcdXXXXXX");
    user = block("root");
    address = block("127.0.0.1");
    wide_a = wide_block(L"alpha");
    wide_b = wide_block(L"beta gamma");
    wide_c = wide_block(L"alps");
    wide_space = wide_block(L" ");
    wide_pair = wide_block(L"42 alph");
    wide_digits = wide_block(L"42x");
    wide_decimals = wide_block(L"1.5x");
    wide_rest = malloc(sizeof *wide_rest);
    *wide_rest = wide_b;
    words = calloc(4, sizeof *words);
    words[0] = block("program");
    words[1] = block("-a");
}

static void prepare_structs(void) {
    *(struct tm *)(day = zeroed(ROOM)) = (struct tm){.tm_mday = 1, .tm_year = 100, .tm_wday = 6};
    fegetenv((fenv_t *)(environment = zeroed(ROOM)));
    static char state[ROOM];
    initstate_r(5, state, sizeof state, (struct random_data *)(random_state = zeroed(ROOM)));
    ((struct sigevent *)(event = zeroed(ROOM)))->sigev_notify = SIGEV_NONE;
    regcomp((regex_t *)(compiled = zeroed(ROOM)), "gam", 0);
    struct dirent *found = (struct dirent *)zeroed(sizeof *found);
    strcpy(found->d_name, "x");
    *(struct dirent **)(entry = zeroed(ROOM)) = found;
    struct iovec *both = (struct iovec *)(pieces = zeroed(ROOM));
    both[0] = (struct iovec){b, 4};
    both[1] = (struct iovec){c, 3};
    *(struct msghdr *)(message = zeroed(ROOM)) = (struct msghdr){.msg_iov = both, .msg_iovlen = 2};
    struct pollfd *files = (struct pollfd *)(polled = zeroed(ROOM));
    files[0].fd = files[1].fd = -1;
    ((struct addrinfo *)(hints = zeroed(ROOM)))->ai_flags = AI_NUMERICHOST;
    ((struct sockaddr_in *)(name = zeroed(ROOM)))->sin_family = AF_INET;
}

static void prepare_more(void) {
    big = zeroed(BIG);
    other = zeroed(BIG);
    third = zeroed(BIG);
    many = zeroed(BIG);
    prepare_strings();
    prepare_structs();
    out = malloc(sizeof *out);
    *out = a;
    room = malloc(sizeof *room);
    *room = ROOM;
    rewinddir(folder);
}

static void prepare(void) {
    a = block("alpha");
    b = block("beta gamma");
    c = block("alps");
    needle = block("gam");
    set = block("abet");
    space = block(" ");
    digits = block("42x");
    decimals = block("1.5x");
    two = block("%s!");
    format = block("%5.1f %ld %-3s|%.*s|%c%%");
    rest = malloc(sizeof *rest);
    *rest = b;
    size = malloc(sizeof *size);
    *size = ROOM;
    wide = wide_block(L"");
    other_wide = wide_block(L"");
    prepare_more();
    text = fmemopen((char *)"first line\nsecond\n", 18, "r");
}

/* Before the cases, some of which have sizes that depend on these. */
__attribute__((constructor(101))) static void prepare_files(void) {
    nothing = fopen("/dev/null", "w");
    zeros = open("/dev/zero", O_RDONLY);
    wide_nothing = fopen("/dev/null", "w");
    folder = opendir("/");
    events = eventfd(0, 0);
    waiting = epoll_create1(0);
    struct epoll_event ready = {.events = EPOLLIN};
    epoll_ctl(waiting, EPOLL_CTL_ADD, eventfd(1, 0), &ready);
    terminal = posix_openpt(O_RDWR | O_NOCTTY);
    timer_file = timerfd_create(CLOCK_MONOTONIC, 0);
    struct sigevent none = {.sigev_notify = SIGEV_NONE};
    timer_create(CLOCK_REALTIME, &none, &timer);
    locale = newlocale(LC_ALL_MASK, "C", NULL);
    converter = iconv_open("UTF-8", "ASCII");
    page = mmap(NULL, 8192, PROT_READ | PROT_WRITE, MAP_PRIVATE | MAP_ANONYMOUS, -1, 0);
}

struct piece {
    char kind;
    void *base;
    size_t first, count;
};
#define R(BASE, ...) {'R', &BASE, __VA_ARGS__}
#define W(BASE, ...) {'W', &BASE, __VA_ARGS__}

/* A variable of the library, written: what stands behind it is another one. */
#define G(BASE, ...) {'G', &BASE, __VA_ARGS__}

enum { MOST_PIECES = 8 };

struct test {
    void (*call)(void);
    const char *file;
    int line;
    struct piece pieces[MOST_PIECES];
};

/* The linker puts all that stand in this section one behind the other. */
extern const struct test __start_tests[], __stop_tests[];

#define CASE_OF(NAME, LINE, CALL, ...) \
    static void NAME(void) { CALL; } \
    __attribute__((section("tests"), aligned(8), used)) static struct test test_of_##NAME = { \
        NAME, __FILE__, LINE, {__VA_ARGS__}};
/* Where a number of bytes is known at run time alone. */
#define LATE_OF(NAME, LINE, CALL, ...) \
    static void NAME(void) { CALL; } \
    __attribute__((section("tests"), aligned(8), used)) static struct test test_of_##NAME; \
    __attribute__((constructor)) static void fill_##NAME(void) { \
        test_of_##NAME = (struct test){NAME, __FILE__, LINE, {__VA_ARGS__}}; \
    }
/* What two calls share inside. */
struct shared {
    void (*call)(void), (*other)(void);
    const char *file;
    int line, bytes;
};
extern const struct shared __start_shares[], __stop_shares[];

#define SHARED_OF(NUMBER, BYTES, CALL, OTHER) \
    static void shared_##NUMBER(void) { CALL; } \
    static void other_##NUMBER(void) { OTHER; } \
    __attribute__((section("shares"), aligned(8), used)) static const struct shared share_of_##NUMBER = { \
        shared_##NUMBER, other_##NUMBER, __FILE__, __LINE__, BYTES};
#define SHARED_AT(NUMBER, BYTES, CALL, OTHER) SHARED_OF(NUMBER, BYTES, CALL, OTHER)
#define SHARED(BYTES, CALL, OTHER) SHARED_AT(__COUNTER__, BYTES, CALL, OTHER)

#define NAMED(OF, NUMBER, CALL, ...) OF(case_##NUMBER, __LINE__, CALL, __VA_ARGS__)
#define AT(OF, NUMBER, CALL, ...) NAMED(OF, NUMBER, CALL, __VA_ARGS__)
#define CASE(CALL, ...) AT(CASE_OF, __COUNTER__, CALL, __VA_ARGS__)
#define LATE(CALL, ...) AT(LATE_OF, __COUNTER__, CALL, __VA_ARGS__)

CASE(memcpy(a, b, 7), R(b, 0, 7), W(a, 0, 7))
CASE(memmove(a, b, 7), R(b, 0, 7), W(a, 0, 7))
CASE(mempcpy(a, b, 7), R(b, 0, 7), W(a, 0, 7))
CASE(memccpy(a, b, 'g', 9), R(b, 0, 6), W(a, 0, 6))
CASE(memccpy(a, b, 'z', 9), R(b, 0, 9), W(a, 0, 9))
CASE(memset(a, 'x', 7), W(a, 0, 7))
CASE(sink = memchr(b, 'g', 10) != NULL, R(b, 0, 6))
CASE(sink = memchr(b, 'z', 9) != NULL, R(b, 0, 9))
CASE(sink = memrchr(b, 't', 9) != NULL, R(b, 2, 7))
CASE(sink = rawmemchr(b, 'g') != NULL, R(b, 0, 6))
CASE(sink = memmem(b, 10, needle, 3) != NULL, R(b, 0, 8), R(needle, 0, 3))
CASE(sink = memmem(b, 9, a, 3) != NULL, R(b, 0, 9), R(a, 0, 3))
CASE(sink = memcmp(a, c, 5), R(a, 0, 5), R(c, 0, 5))
CASE(sink = bcmp(a, c, 5), R(a, 0, 5), R(c, 0, 5))
CASE(bcopy(b, a, 7), R(b, 0, 7), W(a, 0, 7))
CASE(bzero(a, 7), W(a, 0, 7))
CASE(explicit_bzero(a, 7), W(a, 0, 7))
CASE(wmemcpy(wide, other_wide, 2), R(other_wide, 0, 8), W(wide, 0, 8))
CASE(wmemmove(wide, other_wide, 2), R(other_wide, 0, 8), W(wide, 0, 8))
CASE(wmemset(wide, L'x', 2), W(wide, 0, 8))

CASE(strcpy(a, b), R(b, 0, 11), W(a, 0, 11))
CASE(stpcpy(a, b), R(b, 0, 11), W(a, 0, 11))
CASE(strncpy(a, b, 20), R(b, 0, 11), W(a, 0, 20))
CASE(strncpy(a, b, 4), R(b, 0, 4), W(a, 0, 4))
CASE(stpncpy(a, b, 20), R(b, 0, 11), W(a, 0, 20))
CASE(strcat(a, b), R(a, 0, 6), R(b, 0, 11), W(a, 5, 11))
CASE(strncat(a, b, 4), R(a, 0, 6), R(b, 0, 4), W(a, 5, 5))
CASE(sink = strcmp(a, c), R(a, 0, 4), R(c, 0, 4))
CASE(sink = strcmp(a, a), R(a, 0, 6))
CASE(sink = strncmp(a, c, 2), R(a, 0, 2), R(c, 0, 2))
CASE(sink = strcasecmp(a, c), R(a, 0, 4), R(c, 0, 4))
CASE(sink = strncasecmp(a, c, 2), R(a, 0, 2), R(c, 0, 2))
CASE(sink = strcoll(a, c), R(a, 0, 6), R(c, 0, 5))
CASE(sink = (int)strlen(b), R(b, 0, 11))
CASE(sink = (int)strnlen(b, 4), R(b, 0, 4))
CASE(sink = (int)strnlen(b, 40), R(b, 0, 11))
CASE(sink = strchr(b, 'g') != NULL, R(b, 0, 6))
CASE(sink = strchr(b, 'z') != NULL, R(b, 0, 11))
CASE(sink = index(b, 'g') != NULL, R(b, 0, 6))
CASE(sink = strchrnul(b, 'z') != NULL, R(b, 0, 11))
CASE(sink = strrchr(b, 'g') != NULL, R(b, 0, 11))
CASE(sink = rindex(b, 'g') != NULL, R(b, 0, 11))
CASE(sink = strstr(b, needle) != NULL, R(b, 0, 8), R(needle, 0, 4))
CASE(sink = strstr(b, c) != NULL, R(b, 0, 11), R(c, 0, 5))
CASE(sink = strcasestr(b, needle) != NULL, R(b, 0, 8), R(needle, 0, 4))
CASE(sink = (int)strspn(b, set), R(b, 0, 5), R(set, 0, 5))
CASE(sink = (int)strcspn(b, space), R(b, 0, 5), R(space, 0, 2))
CASE(sink = strpbrk(b, space) != NULL, R(b, 0, 5), R(space, 0, 2))
CASE(strtok_r(b, space, rest), R(b, 0, 5), W(b, 4, 1), R(space, 0, 2), W(rest, 0, 8))
CASE(strtok_r(NULL, space, rest), R(b, 0, 5), W(b, 4, 1), R(space, 0, 2), W(rest, 0, 8))
CASE(strtok_r(a, space, rest), R(a, 0, 6), R(space, 0, 2), W(rest, 0, 8))
CASE(strsep(rest, space), R(b, 0, 5), W(b, 4, 1), R(space, 0, 2), W(rest, 0, 8))
CASE(sink = strdup(b) != NULL, R(b, 0, 11))
CASE(sink = strndup(b, 4) != NULL, R(b, 0, 4))
CASE(sink = strdup(b)[3], R(b, 0, 11))

CASE(sink = atoi(digits), R(digits, 0, 3))
CASE(sink = (int)atol(digits), R(digits, 0, 3))
CASE(sink = (int)atoll(digits), R(digits, 0, 3))
CASE(sink = (int)atof(decimals), R(decimals, 0, 4))
CASE(sink = (int)strtol(digits, rest, 10), R(digits, 0, 3), W(rest, 0, 8))
CASE(sink = (int)strtol(digits, NULL, 3), R(digits, 0, 1))
CASE(sink = (int)strtoll(digits, rest, 10), R(digits, 0, 3), W(rest, 0, 8))
CASE(sink = (int)strtoul(digits, rest, 10), R(digits, 0, 3), W(rest, 0, 8))
CASE(sink = (int)strtoull(digits, rest, 10), R(digits, 0, 3), W(rest, 0, 8))
CASE(sink = (int)strtoimax(digits, rest, 10), R(digits, 0, 3), W(rest, 0, 8))
CASE(sink = (int)strtoumax(digits, rest, 10), R(digits, 0, 3), W(rest, 0, 8))
CASE(sink = (int)strtof(decimals, rest), R(decimals, 0, 4), W(rest, 0, 8))
CASE(sink = (int)strtod(decimals, rest), R(decimals, 0, 4), W(rest, 0, 8))
CASE(sink = (int)strtold(decimals, rest), R(decimals, 0, 4), W(rest, 0, 8))

/* What takes a list of arguments: each is called by a function of its own on the same line, with `two` and b. */
#define LISTED_OF(LINE, CALL, ...) \
    static void listed_##LINE(const char *form, ...) { \
        va_list list; \
        va_start(list, form); \
        CALL; \
        va_end(list); \
    } \
    CASE_OF(listed_case_##LINE, LINE, listed_##LINE(two, b), R(b, 0, 11), R(two, 0, 4), __VA_ARGS__)
#define LISTED_AT(LINE, CALL, ...) LISTED_OF(LINE, CALL, __VA_ARGS__)
#define LISTED(CALL, ...) LISTED_AT(__LINE__, CALL, __VA_ARGS__)
#define PRINTED R(b, 0, 11), R(two, 0, 4)
#define NO_MORE {0}

CASE(sprintf(a, two, b), PRINTED, W(a, 0, 12))
CASE(sprintf(a, format, 1.5, 7L, digits, 2, b, 'x'), R(format, 0, 25), R(digits, 0, 4), R(b, 0, 2), W(a, 0, 18))
CASE(snprintf(a, 4, two, b), PRINTED, W(a, 0, 4))
CASE(snprintf(a, ROOM, two, b), PRINTED, W(a, 0, 12))
LISTED(vsprintf(a, form, list), W(a, 0, 12))
LISTED(vsnprintf(a, 4, form, list), W(a, 0, 4))
CASE(sink = asprintf(rest, two, b), PRINTED, W(rest, 0, 8))
LISTED(sink = vasprintf(rest, form, list), W(rest, 0, 8))
CASE(printf(two, b), PRINTED)
LISTED(vprintf(form, list), NO_MORE)
CASE(fprintf(nothing, two, b), PRINTED)
LISTED(vfprintf(nothing, form, list), NO_MORE)
CASE(dprintf(fileno(nothing), two, b), PRINTED)
LISTED(vdprintf(fileno(nothing), form, list), NO_MORE)
CASE(puts(b), R(b, 0, 11))
CASE(fputs(b, nothing), R(b, 0, 11))

CASE(sink = fgets(a, 20, text) != NULL, W(a, 0, 12))
CASE(sink = (int)getline(rest, size, text), W(rest, 0, 8), W(size, 0, 8), W(b, 0, 12))
CASE(sink = (int)getdelim(rest, size, ' ', text), W(rest, 0, 8), W(size, 0, 8), W(b, 0, 7))
CASE(sink = (int)fread(a, 2, 5, text), W(a, 0, 10))
CASE(sink = (int)fwrite(b, 2, 3, nothing), R(b, 0, 6))
CASE(sink = (int)read(zeros, a, 7), W(a, 0, 7))
CASE(sink = (int)write(fileno(nothing), b, 7), R(b, 0, 7))
CASE(sink = (int)pread(zeros, a, 7, 0), W(a, 0, 7))
CASE(sink = (int)pwrite(fileno(nothing), b, 7, 0), R(b, 0, 7))
CASE(sink = (int)recv(sockets[0], a, 7, 0), W(a, 0, 7))
CASE(sink = (int)send(sockets[1], b, 7, 0), R(b, 0, 7))

/* Each on its line with the order that it asks for: what that reads is seen where it reads. */
#define ORDER(NAME, ...) \
    static int NAME(const void *one, const void *other __VA_ARGS__) { \
        return *(const char *)one - *(const char *)other; \
    }
ORDER(by_byte, ) CASE(qsort(a, 5, 1, by_byte), W(a, 0, 5))
ORDER(by_byte_with, , void *with) CASE(qsort_r(a, 5, 1, by_byte_with, NULL), W(a, 0, 5))
ORDER(by_key, ) CASE(sink = bsearch(b + 5, c, 5, 1, by_key) != NULL, R(b, 5, 1), R(c, 2, 1))

void *__memcpy_chk(void *, const void *, size_t, size_t);
void *__memmove_chk(void *, const void *, size_t, size_t);
void *__mempcpy_chk(void *, const void *, size_t, size_t);
void *__memset_chk(void *, int, size_t, size_t);
void __explicit_bzero_chk(void *, size_t, size_t);
char *__strcpy_chk(char *, const char *, size_t);
char *__stpcpy_chk(char *, const char *, size_t);
char *__strncpy_chk(char *, const char *, size_t, size_t);
char *__stpncpy_chk(char *, const char *, size_t, size_t);
char *__strcat_chk(char *, const char *, size_t);
char *__strncat_chk(char *, const char *, size_t, size_t);
int __sprintf_chk(char *, int, size_t, const char *, ...);
int __snprintf_chk(char *, size_t, int, size_t, const char *, ...);
int __vsprintf_chk(char *, int, size_t, const char *, va_list);
int __vsnprintf_chk(char *, size_t, int, size_t, const char *, va_list);
int __asprintf_chk(char **, int, const char *, ...);
int __vasprintf_chk(char **, int, const char *, va_list);
int __printf_chk(int, const char *, ...);
int __vprintf_chk(int, const char *, va_list);
int __fprintf_chk(FILE *, int, const char *, ...);
int __vfprintf_chk(FILE *, int, const char *, va_list);
int __dprintf_chk(int, int, const char *, ...);
int __vdprintf_chk(int, int, const char *, va_list);
char *__fgets_chk(char *, size_t, int, FILE *);
size_t __fread_chk(void *, size_t, size_t, size_t, FILE *);
ssize_t __read_chk(int, void *, size_t, size_t);
ssize_t __pread_chk(int, void *, size_t, off_t, size_t);
ssize_t __recv_chk(int, void *, size_t, size_t, int);
char *__strdup(const char *);
char *__strndup(const char *, size_t);
char *__fgets_unlocked_chk(char *, size_t, int, FILE *);
size_t __fread_unlocked_chk(void *, size_t, size_t, size_t, FILE *);
ssize_t __pread64_chk(int, void *, size_t, off64_t, size_t);

CASE(__memcpy_chk(a, b, 7, ROOM), R(b, 0, 7), W(a, 0, 7))
CASE(__memmove_chk(a, b, 7, ROOM), R(b, 0, 7), W(a, 0, 7))
CASE(__mempcpy_chk(a, b, 7, ROOM), R(b, 0, 7), W(a, 0, 7))
CASE(__memset_chk(a, 'x', 7, ROOM), W(a, 0, 7))
CASE(__explicit_bzero_chk(a, 7, ROOM), W(a, 0, 7))
CASE(__strcpy_chk(a, b, ROOM), R(b, 0, 11), W(a, 0, 11))
CASE(__stpcpy_chk(a, b, ROOM), R(b, 0, 11), W(a, 0, 11))
CASE(__strncpy_chk(a, b, 20, ROOM), R(b, 0, 11), W(a, 0, 20))
CASE(__stpncpy_chk(a, b, 20, ROOM), R(b, 0, 11), W(a, 0, 20))
CASE(__strcat_chk(a, b, ROOM), R(a, 0, 6), R(b, 0, 11), W(a, 5, 11))
CASE(__strncat_chk(a, b, 4, ROOM), R(a, 0, 6), R(b, 0, 4), W(a, 5, 5))
CASE(__sprintf_chk(a, 1, ROOM, two, b), PRINTED, W(a, 0, 12))
CASE(__snprintf_chk(a, 4, 1, ROOM, two, b), PRINTED, W(a, 0, 4))
LISTED(__vsprintf_chk(a, 1, ROOM, form, list), W(a, 0, 12))
LISTED(__vsnprintf_chk(a, 4, 1, ROOM, form, list), W(a, 0, 4))
CASE(__asprintf_chk(rest, 1, two, b), PRINTED, W(rest, 0, 8))
LISTED(__vasprintf_chk(rest, 1, form, list), W(rest, 0, 8))
CASE(__printf_chk(1, two, b), PRINTED)
LISTED(__vprintf_chk(1, form, list), NO_MORE)
CASE(__fprintf_chk(nothing, 1, two, b), PRINTED)
LISTED(__vfprintf_chk(nothing, 1, form, list), NO_MORE)
CASE(__dprintf_chk(fileno(nothing), 1, two, b), PRINTED)
LISTED(__vdprintf_chk(fileno(nothing), 1, form, list), NO_MORE)
CASE(sink = __fgets_chk(a, ROOM, 20, text) != NULL, W(a, 0, 12))
CASE(sink = (int)__fread_chk(a, ROOM, 2, 5, text), W(a, 0, 10))
CASE(sink = (int)__read_chk(zeros, a, 7, ROOM), W(a, 0, 7))
CASE(sink = (int)__pread_chk(zeros, a, 7, 0, ROOM), W(a, 0, 7))
CASE(sink = (int)__recv_chk(sockets[0], a, 7, ROOM, 0), W(a, 0, 7))

CASE(__mempcpy(a, b, 7), R(b, 0, 7), W(a, 0, 7))
CASE(__stpcpy(a, b), R(b, 0, 11), W(a, 0, 11))
CASE(__stpncpy(a, b, 20), R(b, 0, 11), W(a, 0, 20))
CASE(__strtok_r(b, space, rest), R(b, 0, 5), W(b, 4, 1), R(space, 0, 2), W(rest, 0, 8))
CASE(sink = __strdup(b) != NULL, R(b, 0, 11))
CASE(sink = __strndup(b, 4) != NULL, R(b, 0, 4))
CASE(fputs_unlocked(b, nothing), R(b, 0, 11))
CASE(sink = fgets_unlocked(a, 20, text) != NULL, W(a, 0, 12))
CASE(sink = __fgets_unlocked_chk(a, ROOM, 20, text) != NULL, W(a, 0, 12))
CASE(sink = (int)__getdelim(rest, size, ' ', text), W(rest, 0, 8), W(size, 0, 8), W(b, 0, 7))
CASE(sink = (int)(fread_unlocked)(a, 2, 5, text), W(a, 0, 10))
CASE(sink = (int)__fread_unlocked_chk(a, ROOM, 2, 5, text), W(a, 0, 10))
CASE(sink = (int)(fwrite_unlocked)(b, 2, 3, nothing), R(b, 0, 6))
CASE(sink = (int)pread64(zeros, a, 7, 0), W(a, 0, 7))
CASE(sink = (int)__pread64_chk(zeros, a, 7, 0, ROOM), W(a, 0, 7))
CASE(sink = (int)pwrite64(fileno(nothing), b, 7, 0), R(b, 0, 7))

#include "library_cases.h"
#include "language_cases.h"

/* Whether the call touches this byte in one of these ways. */
static bool is_touched(const struct test *test, const char *at, const char *kinds) {
    for (const struct piece *piece = test->pieces; piece->count > 0; piece++) {
        const char *first = *(char **)piece->base + piece->first;
        if (strchr(kinds, piece->kind) && at >= first && at < first + piece->count)
            return true;
    }
    return false;
}

/* The call, and beside it an access of the byte that stands so far from the first of the piece, unless the call touches
   it in one of these ways. */
static void try(const struct test *test, const struct piece *piece, size_t offset, bool writes, const char *unless) {
    prepare();
    char *at = *(char **)piece->base + piece->first + offset;
    if (is_touched(test, at, unless))
        return;
    cilk_spawn test->call();
    if (writes)
        *at = 'x'; /* [write] */
    else
        seen = *at; /* [read] */
    cilk_sync;
    fclose(text);
}

static int races_of(const struct test *test) {
    int races = 0;
    for (const struct piece *piece = test->pieces; piece->count > 0; piece++) {
        bool reads = piece->kind == 'R';
        try(test, piece, 0, reads, "");
        try(test, piece, piece->count - 1, reads, "");
        if (piece->kind != 'G')
            try(test, piece, piece->count, true, "RW");
        if (reads)
            try(test, piece, 0, false, "W");
        races += 2;
    }
    return races;
}

static void share(const struct shared *both) {
    FILE *input = stdin, *output = stdout;
    prepare();
    folder = opendir("/");
    letters = wide_text();
    stdin = stdout = text;
    cilk_spawn both->call();
    both->other();
    cilk_sync;
    stdin = input;
    stdout = output;
}

int main(int words_given, char **word) {
    FILE *listing = fopen(words_given > 1 ? word[1] : "/dev/stdout", "w");
    dup2(open("/dev/null", O_RDONLY), STDIN_FILENO);
    dup2(fileno(nothing), STDERR_FILENO);
    socketpair(AF_UNIX, SOCK_STREAM, 0, sockets);
    char many[ROOM * 1000] = {0};
    send(sockets[1], many, sizeof many, 0);
    for (const struct test *test = __start_tests; test < __stop_tests; test++)
        fprintf(listing, "%d %s:%d\n", races_of(test), test->file, test->line);
    fflush(listing);
    for (const struct shared *both = __start_shares; both < __stop_shares; both++) {
        share(both);
        fprintf(listing, "%d %s:%d %s:%d\n", both->bytes, both->file, both->line, both->file, both->line);
    }
    fclose(listing);
}
