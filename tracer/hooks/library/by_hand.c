/* Functions whose accesses no row of library.table says. */
#include "base/doing.h"
#include "base/openmp.h"
#include "records/guards.h"
#include "library/library.h"
#include "library/streams.h"
#include "base/tell.h"
#include "program/hidden.h"
#include "program/procedures.h"

#define BY_HAND(RESULT, NAME, ...) \
    __attribute__((weak)) RESULT __real_##NAME(__VA_ARGS__); \
    RESULT __wrap_##NAME(__VA_ARGS__)

/* The library's own state of it can't be told from outside, so this stands for it. */
static char *library_state_of_strtok;
char *__wrap_strtok(char *from, const char *set) {
    char *at = from ? from : library_state_of_strtok;
    if (doing.tracing) {
        NOTE_READ(set, all(set), __wrap_strtok);
        NOTE_READ(state(strtok), from ? 0 : sizeof(char *), __wrap_strtok);
        NOTE_WRITE(state(strtok), sizeof(char *), __wrap_strtok);
        NOTE_READ(at, token(at, set), __wrap_strtok);
        NOTE_WRITE(cut(at, token(at, set)), 1, __wrap_strtok);
    }
    return strtok_r(from, set, state(strtok));
}

/* What its order reads is seen where it reads. */
BY_HAND(void *, lsearch, const void *key, void *at, size_t *n, size_t size, int (*order)(const void *, const void *)) {
    size_t before = *n;
    if (doing.tracing)
        NOTE_READ(n, sizeof *n, __wrap_lsearch);
    void *result = __real_lsearch(key, at, n, size, order);
    if (doing.tracing && *n != before) {
        NOTE_READ(key, size, __wrap_lsearch);
        NOTE_WRITE((char *)at + before * size, size, __wrap_lsearch);
        NOTE_WRITE(n, sizeof *n, __wrap_lsearch);
    }
    return result;
}

BY_HAND(ENTRY *, hsearch, ENTRY item, ACTION action) {
    if (doing.tracing) {
        NOTE_READ(item.key, all(item.key), __wrap_hsearch);
        NOTE_READ(state(hsearch), sizeof(int), __wrap_hsearch);
        NOTE_WRITE(state(hsearch), action == ENTER ? sizeof(int) : 0, __wrap_hsearch);
    }
    return __real_hsearch(item, action);
}

/* Of all that depends on the locale localeconv alone says so. */
BY_HAND(char *, setlocale, int which, const char *name) {
    if (doing.tracing) {
        NOTE_READ(name, all(name), __wrap_setlocale);
        NOTE_READ(state(locale), sizeof(int), __wrap_setlocale);
        NOTE_WRITE(state(locale), name ? sizeof(int) : 0, __wrap_setlocale);
    }
    if (name && procedures_run_beside())
        hidden_tell_not_run("setlocale is called where something else may run: races with what depends on the locale, "
                            "such as printf, aren't seen");
    return __real_setlocale(which, name);
}

/* One side of a conversion: where it stood, and how much was left. */
static void note_converted(bool writes, char *at, size_t before, char **now, size_t *left, struct caller by) {
    if (!now)
        return;
    accesses_note_by(writes, (uintptr_t)at, before - *left, by);
    accesses_note_by(true, (uintptr_t)now, sizeof *now, by);
    accesses_note_by(true, (uintptr_t)left, sizeof *left, by);
}

BY_HAND(size_t, iconv, iconv_t with, char **from, size_t *n, char **to, size_t *m) {
    char *first = from ? *from : NULL, *first_to = to ? *to : NULL;
    size_t before = from ? *n : 0, before_to = to ? *m : 0;
    size_t result = __real_iconv(with, from, n, to, m);
    if (doing.tracing) {
        note_converted(false, first, before, from, n, BY(__wrap_iconv));
        note_converted(true, first_to, before_to, to, m, BY(__wrap_iconv));
        NOTE_WRITE(with, sizeof(int), __wrap_iconv);
    }
    return result;
}

/* ---- Those that take more arguments for some flags ---- */

#define LAST(TYPE, BEFORE) \
    va_list list; \
    va_start(list, BEFORE); \
    TYPE last = va_arg(list, TYPE); \
    va_end(list)

#define OPENS(NAME) \
    BY_HAND(int, NAME, const char *path, int flags, ...) { \
        LAST(unsigned, flags); \
        if (doing.tracing) \
            NOTE_READ(path, all(path), __wrap_##NAME); \
        return __real_##NAME(path, flags, last); \
    }
OPENS(open)
OPENS(open64)

#define OPENS_AT(NAME) \
    BY_HAND(int, NAME, int folder, const char *path, int flags, ...) { \
        LAST(unsigned, flags); \
        if (doing.tracing) \
            NOTE_READ(path, all(path), __wrap_##NAME); \
        return __real_##NAME(folder, path, flags, last); \
    }
OPENS_AT(openat)
OPENS_AT(openat64)

BY_HAND(mqd_t, mq_open, const char *path, int flags, ...) {
    va_list list;
    va_start(list, flags);
    unsigned mode = va_arg(list, unsigned);
    const struct mq_attr *with = va_arg(list, const struct mq_attr *);
    va_end(list);
    if (doing.tracing) {
        NOTE_READ(path, all(path), __wrap_mq_open);
        NOTE_READ(with, (flags & O_CREAT) && with ? sizeof *with : 0, __wrap_mq_open);
    }
    return __real_mq_open(path, flags, mode, with);
}

BY_HAND(sem_t *, sem_open, const char *path, int flags, ...) {
    va_list list;
    va_start(list, flags);
    unsigned mode = va_arg(list, unsigned), number = va_arg(list, unsigned);
    va_end(list);
    if (doing.tracing)
        NOTE_READ(path, all(path), __wrap_sem_open);
    return __real_sem_open(path, flags, mode, number);
}

/* The struct that a command of fcntl reads, and the one that it writes. */
static size_t control_reads(int command) {
    bool locks = command == F_GETLK || command == F_SETLK || command == F_SETLKW || command == F_OFD_GETLK ||
                 command == F_OFD_SETLK || command == F_OFD_SETLKW;
    return locks ? sizeof(struct flock) : command == F_SETOWN_EX ? sizeof(struct f_owner_ex) : 0;
}
static size_t control_writes(int command) {
    bool tells = command == F_GETLK || command == F_OFD_GETLK;
    return tells ? sizeof(struct flock) : command == F_GETOWN_EX ? sizeof(struct f_owner_ex) : 0;
}

#define CONTROLS(NAME) \
    BY_HAND(int, NAME, int file, int command, ...) { \
        LAST(uintptr_t, command); \
        if (doing.tracing) \
            NOTE_READ(last, control_reads(command), __wrap_##NAME); \
        int result = __real_##NAME(file, command, last); \
        if (doing.tracing && result == 0) \
            NOTE_WRITE(last, control_writes(command), __wrap_##NAME); \
        return result; \
    }
CONTROLS(fcntl)
CONTROLS(fcntl64)

/* ---- Buffers of streams ---- */

/* The stream reads and writes it later. */
static void note_buffer(const char *name, void *buffer, size_t size, struct caller by) {
    if (!doing.tracing || !buffer)
        return;
    accesses_note_by(true, (uintptr_t)buffer, size, by);
    tell_incomplete("%s gives a stream a buffer of the program's, and what the stream does there later isn't seen",
                    name);
}

BY_HAND(int, setvbuf, FILE *stream, char *buffer, int mode, size_t size) {
    note_buffer("setvbuf", mode == _IONBF ? NULL : buffer, size, BY(__wrap_setvbuf));
    return __real_setvbuf(stream, buffer, mode, size);
}

BY_HAND(void, setbuffer, FILE *stream, char *buffer, size_t size) {
    note_buffer("setbuffer", buffer, size, BY(__wrap_setbuffer));
    __real_setbuffer(stream, buffer, size);
}

BY_HAND(void, setbuf, FILE *stream, char *buffer) {
    note_buffer("setbuf", buffer, BUFSIZ, BY(__wrap_setbuf));
    __real_setbuf(stream, buffer);
}

/* Whatever is written by such a stream goes to the program's memory, or comes from there. */
#define STREAM_OF_MEMORY(NAME) \
    static bool told; \
    if (doing.tracing && !told) \
        tell_incomplete(NAME " makes a stream of the program's memory, and what it does there later isn't seen"); \
    told = doing.tracing

BY_HAND(FILE *, fmemopen, void *at, size_t size, const char *mode) {
    STREAM_OF_MEMORY("fmemopen");
    return __real_fmemopen(at, size, mode);
}

BY_HAND(FILE *, open_memstream, char **to, size_t *size) {
    STREAM_OF_MEMORY("open_memstream");
    return __real_open_memstream(to, size);
}

BY_HAND(FILE *, open_wmemstream, wchar_t **to, size_t *size) {
    STREAM_OF_MEMORY("open_wmemstream");
    return __real_open_wmemstream(to, size);
}

/* ---- Streams and descriptors ---- */

BY_HAND(int, close, int file) {
    streams_end_file(file);
    return __real_close(file);
}

BY_HAND(int, dup2, int from, int to) {
    if (from != to)
        streams_end_file(to);
    return __real_dup2(from, to);
}

BY_HAND(int, dup3, int from, int to, int flags) {
    streams_end_file(to);
    return __real_dup3(from, to, flags);
}

/* What another child still does with the stream comes before its end, or it fails. */
BY_HAND(int, fclose, FILE *stream) {
    if (doing.tracing && streams_judged && stream)
        NOTE_WRITE(stream, sizeof(uint64_t), __wrap_fclose);
    if (stream)
        streams_end_file(fileno(stream));
    return __real_fclose(stream);
}

BY_HAND(void, flockfile, FILE *stream) {
    __real_flockfile(stream);
    guards_enter((uintptr_t)stream, streams_lock_of(stream));
}

BY_HAND(int, ftrylockfile, FILE *stream) {
    int answer = __real_ftrylockfile(stream);
    if (answer == 0)
        guards_enter((uintptr_t)stream, streams_lock_of(stream));
    return answer;
}

BY_HAND(void, funlockfile, FILE *stream) {
    guards_leave((uintptr_t)stream);
    __real_funlockfile(stream);
}

/* Of std::ios_base. */
BY_HAND(bool, _ZNSt8ios_base15sync_with_stdioEb, bool shares) {
    streams_shared = shares;
    return __real__ZNSt8ios_base15sync_with_stdioEb(shares);
}

/* ---- Others ---- */

/* What the system maps for the program it doesn't map there again, where it would be other memory: its addresses stay
   taken. */
static void keep_addresses(uintptr_t first, uintptr_t end) {
    int flags = MAP_PRIVATE | MAP_ANONYMOUS | MAP_NORESERVE | MAP_FIXED_NOREPLACE;
    if (doing.tracing && first < end)
        mmap((void *)first, end - first, PROT_NONE, flags, -1, 0);
}

static uintptr_t end_of_pages(void *at, size_t size) { return ((uintptr_t)at + size + 4095) & ~(uintptr_t)4095; }

BY_HAND(int, munmap, void *at, size_t size) {
    if (doing.tracing)
        NOTE_WRITE(at, least(size, 1 << 20), __wrap_munmap);
    int result = __real_munmap(at, size);
    if (result == 0)
        keep_addresses((uintptr_t)at, end_of_pages(at, size));
    return result;
}

BY_HAND(void *, mremap, void *at, size_t before, size_t size, int flags, ...) {
    va_list rest;
    va_start(rest, flags);
    void *wish = (flags & MREMAP_FIXED) != 0 ? va_arg(rest, void *) : NULL;
    va_end(rest);
    void *result = __real_mremap(at, before, size, flags, wish);
    if (result == MAP_FAILED)
        return result;
    if (doing.tracing && result != at)
        NOTE_WRITE(at, least(before, 1 << 20), __wrap_mremap);
    keep_addresses(result == at ? end_of_pages(at, size) : (uintptr_t)at, end_of_pages(at, before));
    return result;
}

/* Each thread has a value of its own for a key. A child may run on any, so it depends on that which one it gets; a team's
   members are threads. */
static int library_state_of_key[PTHREAD_KEYS_MAX];

static void note_key(bool writes, unsigned key, struct caller by) {
    if (!doing.tracing || openmp_is_here || key >= PTHREAD_KEYS_MAX)
        return;
    const uintptr_t at = (uintptr_t)&library_state_of_key[key];
    guards_enter(at, "the thread whose value it is");
    accesses_note_by(writes, at, sizeof(int), by);
    guards_leave(at);
}

#define KEYS(GET, SET, KEY, CONST) \
    BY_HAND(void *, GET, KEY key) { \
        note_key(false, key, BY(__wrap_##GET)); \
        return __real_##GET(key); \
    } \
    BY_HAND(int, SET, KEY key, CONST void *value) { \
        note_key(true, key, BY(__wrap_##SET)); \
        return __real_##SET(key, value); \
    }
KEYS(pthread_getspecific, pthread_setspecific, pthread_key_t, const)
KEYS(tss_get, tss_set, tss_t, )

extern unsigned error_message_count;
/* The library has no form of it that takes a list. */
__attribute__((weak)) void __real_error(int status, int number, const char *format, ...);
void __wrap_error(int status, int number, const char *format, ...) {
    va_list list, copy;
    va_start(list, format);
    va_copy(copy, list);
    if (doing.tracing) {
        NOTE_READ(format, all(format), __wrap_error);
        NOTE_STRINGS(format, copy, __wrap_error);
    }
    char *text = NULL;
    if (vasprintf(&text, format, list) < 0)
        text = NULL;
    va_end(copy);
    va_end(list);
    __real_error(status, number, "%s", text ? text : format);
    if (doing.tracing)
        NOTE_VARIABLE(WRITE, error_message_count, __wrap_error);
}
