/* The ways of the language itself to touch memory, as more cases of library.c: by value, and by the compiler's own means.
   Expected are the bytes of the object, since what is read or written is the whole of it. */
struct small {
    int one, two;
};
struct middle {
    long one, two;
};
struct large {
    long many[12];
};
union both {
    double number;
    char bytes[8];
};
struct fields {
    unsigned low : 3, high : 29;
};
typedef int vector __attribute__((vector_size(16)));
typedef int wide_vector __attribute__((vector_size(32)));
typedef struct large large;

/* ---- A value of each type ---- */
#define VALUE(TYPE) \
    CASE(*AS(TYPE, big) = (TYPE)1, W(big, ONE(TYPE))) CASE(sink = *AS(TYPE, big) != 0, R(big, ONE(TYPE))) \
    CASE(*AS(volatile TYPE, big) = (TYPE)1, W(big, ONE(TYPE)))
VALUE(_Bool) VALUE(char) VALUE(short) VALUE(int) VALUE(long) VALUE(long long) VALUE(unsigned __int128) VALUE(float)
VALUE(double) VALUE(char *) VALUE(float _Complex) VALUE(double _Complex) VALUE(long double)
#define CHANGED(TYPE, CHANGE) CASE(CHANGE, W(big, ONE(TYPE)))
CHANGED(int, *AS(int, big) += 2) CHANGED(int, (*AS(int, big))++) CHANGED(long, *AS(long, big) <<= 1)
CHANGED(double, *AS(double, big) *= 2) CHANGED(vector, *AS(vector, big) += 1)
CASE(*AS(vector, big) = ((vector){1, 2, 3, 4}), W(big, ONE(vector)))
CHANGED(wide_vector, *AS(wide_vector, big) += 1) CASE(*AS(wide_vector, big) = *AS(wide_vector, other), R(other, 0, 32), W(big, 0, 32))
CASE(AS(struct fields, big)->high = 5, W(big, 0, 4)) CASE(sink = (int)AS(struct fields, big)->high, R(big, 0, 4))
CASE(sink = AS(struct large, big)->many[3] ? 1 : 2, R(big, 24, 8))
static _Thread_local volatile int own_number;
CASE(own_number = *AS(int, big), R(big, 0, 4))

/* ---- Structs and arrays ---- */
static struct small make_small(int number) { return (struct small){number, 1}; }
static long take_small(struct small by) { return by.one; }
static long take_middle(struct middle by) { return by.one; }
static long take_large(struct large by) { return by.many[0]; }
static long take_named(large by, int more) { return by.many[0] + more; }
static long take_union(union both by) { return by.bytes[0]; }
static long (*const taking)(struct large) = take_large;
static struct {
    long (*take)(struct large);
} taker = {take_large};
typedef long (*takes_large)(struct large);
static const takes_large taken_by = take_large, takers[] = {take_large, take_large};
CASE(*AS(struct large, big) = *AS(struct large, other), R(other, ONE(struct large)), W(big, ONE(struct large)))
CASE(*AS(union both, big) = *AS(union both, other), R(other, ONE(union both)), W(big, ONE(union both)))
CASE(*AS(struct large, big) = ((struct large){{1, 2}}), W(big, ONE(struct large)))
static struct large make(void); /* on one line with the call, since it may write where its caller wants the result */
CASE(*AS(struct large, big) = make(), W(big, ONE(struct large))) static struct large make(void) { return (struct large){{3, 4}}; }
CASE(*AS(struct small, big) = make_small(5), W(big, ONE(struct small)))
static struct large given(void); /* on one line with the call, since the read is in the function */
CASE(sink = (int)given().many[0], R(big, ONE(struct large))) static struct large given(void) { return *AS(struct large, big); }
CASE(NUMBER(take_small(*AS(struct small, big))), R(big, ONE(struct small)))
CASE(NUMBER(take_middle(*AS(struct middle, big))), R(big, ONE(struct middle)))
CASE(NUMBER(take_large(*AS(struct large, big))), R(big, ONE(struct large)))
CASE(NUMBER(take_large(AS(struct large, big)[1])), R(big, sizeof(struct large), sizeof(struct large)))
CASE(NUMBER(take_named(*AS(large, big), 1)), R(big, ONE(struct large)))
CASE(NUMBER(take_union(*AS(union both, big))), R(big, ONE(union both)))
CASE(NUMBER(taking(*AS(struct large, big))), R(big, ONE(struct large)))
CASE(NUMBER(taker.take(*AS(struct large, big))), R(big, ONE(struct large)))
CASE(NUMBER((*taking)(*AS(struct large, big))), R(big, ONE(struct large)))
CASE(NUMBER(taken_by(*AS(struct large, big))), R(big, ONE(struct large)))
CASE(NUMBER(takers[sink > 0](*AS(struct large, big))), R(big, ONE(struct large)))
CASE(__typeof__(take_large) *f = take_large; NUMBER(f(*AS(struct large, big))), R(big, ONE(struct large)))
CASE(__typeof__(take_small) *f = take_small; NUMBER(f(*AS(struct small, big))), R(big, ONE(struct small)))

/* ---- A call's struct inside a larger expression; the last function writes it where its caller wants it ---- */
CASE(sink = (*AS(struct small, big) = make_small(5)).one, W(big, ONE(struct small)))
CASE(NUMBER(take_small(*AS(struct small, big) = make_small(5))), W(big, ONE(struct small)))
CASE(while ((*AS(struct small, big) = make_small(0)).one) sink = 0, W(big, ONE(struct small)))
CASE(for (int i = 0; i < 1; *AS(struct small, big) = make_small(5)) i++, W(big, ONE(struct small)))
CASE(sink > 1000 ? *AS(struct small, big) : (*AS(struct small, big) = make_small(5)), W(big, ONE(struct small)))
CASE(sink = (make_small(3), *AS(struct small, big) = make_small(5), 1), W(big, ONE(struct small)))
CASE(AS(struct small, big)[1] = AS(struct small, big)[0] = make_small(5), W(big, 0, 2 * sizeof(struct small)))
static struct large placed(void); /* on one line with the call */
CASE(sink = (int)(*AS(struct large, big) = placed()).many[1], W(big, ONE(struct large))) static struct large placed(void) { return (struct large){{3}}; }

/* ---- Arguments without a number, and memory of the stack that another one gets ---- */
static int taken_from(int count, ...) {
    va_list list;
    va_start(list, count);
    int first = va_arg(list, int);
    va_end(list);
    return first;
}
CASE(sink = taken_from(1, *AS(int, big)), R(big, 0, 4))
static int taken_struct(int count, ...) {
    va_list list;
    va_start(list, count);
    struct middle first = va_arg(list, struct middle);
    va_end(list);
    return (int)first.two;
}
CASE(sink = taken_struct(1, *AS(struct middle, big)), R(big, ONE(struct middle)))
static void begin_list(va_list *list, int count, ...); /* on one line with the call */
CASE(begin_list(AS(va_list, big), 1, 2), W(big, 0, 24)) static void begin_list(va_list *list, int count, ...) { va_start(*list, count); va_end(*list); }
CASE(va_copy(*AS(va_list, big), *AS(va_list, other)), R(other, 0, 24), W(big, 0, 24))
CASE(long many[sink + 4]; many[sink] = *AS(long, big); sink = (int)many[sink], R(big, 0, 8))
CASE(long *many = __builtin_alloca(64); many[sink] = *AS(long, big); sink = (int)many[sink], R(big, 0, 8))

/* ---- Functions whose own code a compiler is told to leave alone ---- */
static void unsanitized(int *at); /* on one line with its store */
CASE(unsanitized(AS(int, big)), W(big, 0, 4)) __attribute__((noinline, no_sanitize_thread)) static void unsanitized(int *at) { *at = 5; }
static void without_sanitizers(int *at);
CASE(without_sanitizers(AS(int, big)), W(big, 0, 4)) __attribute__((no_sanitize("thread", "address"))) static void without_sanitizers(int *at) { *at = 5; }
#ifdef __clang__
#pragma clang attribute push(__attribute__((no_sanitize("coverage", "thread"))), apply_to = function)
CASE(*AS(int, big) = 6, W(big, 0, 4))
#pragma clang attribute pop
#pragma clang attribute push
#pragma clang attribute (__attribute__((__always_inline__)), apply_to = function)
#pragma clang attribute (__attribute__((disable_sanitizer_instrumentation)), apply_to = any(function))
CASE(*AS(int, big) = 6, W(big, 0, 4))
#pragma clang attribute pop
#endif

/* ---- Functions that are said only to read, whose results nobody uses ---- */
static __attribute__((pure)) int only_reads(int *at); /* on one line with its read */
CASE(only_reads(AS(int, big)), R(big, 0, 4)) static int only_reads(int *at) { return *at; }
static __attribute__((const)) int reads_nothing(int *at) { return *at; } CASE(reads_nothing(AS(int, big)), R(big, 0, 4))
typedef int (*reader)(int *) __attribute__((const));
static int reads_by_type(int *at);
static reader reader_of(int (*read)(int *) __attribute__((const))) { return read; }
CASE(reader_of(reads_by_type)(AS(int, big)), R(big, 0, 4)) static int reads_by_type(int *at) { return *at; }

/* ---- What is asked and not computed ---- */
CASE(if (!__builtin_constant_p(*AS(int, big) + 1)) sink = AS(int, big)[1], R(big, 4, 4))

/* ---- Atomic ---- */
#define ATOMIC_INT AS(_Atomic int, big)
CASE(*ATOMIC_INT = 3, W(big, 0, 4)) CASE(sink = *ATOMIC_INT, R(big, 0, 4)) CASE(*ATOMIC_INT += 3, W(big, 0, 4))
CASE(__atomic_store_n(AS(int, big), 3, __ATOMIC_RELAXED), W(big, 0, 4)) CASE(sink = __atomic_load_n(AS(int, big), __ATOMIC_RELAXED), R(big, 0, 4))
CASE(__atomic_fetch_add(AS(long, big), 3, __ATOMIC_SEQ_CST), W(big, 0, 8)) CASE(__sync_fetch_and_or(AS(short, big), 3), W(big, 0, 2))
CASE(__sync_bool_compare_and_swap(AS(int, big), 0, 3), W(big, 0, 4)) CASE(__sync_lock_test_and_set(AS(int, big), 3), W(big, 0, 4))
CASE(__atomic_exchange_n(AS(char, big), 3, __ATOMIC_SEQ_CST), W(big, 0, 1)) CASE(__sync_lock_release(AS(int, big)), W(big, 0, 4))
#ifdef __clang__
CASE(__atomic_fetch_max(AS(int, big), 3, __ATOMIC_RELAXED), W(big, 0, 4)) CASE(__atomic_fetch_min(AS(long, big), 3, __ATOMIC_SEQ_CST), W(big, 0, 8))
CASE(__atomic_max_fetch(AS(unsigned short, big), 3, __ATOMIC_RELAXED), W(big, 0, 2)) CASE(__sync_fetch_and_umin(AS(unsigned, big), 3), W(big, 0, 4))
CASE(__c11_atomic_fetch_max(ATOMIC_INT, 3, __ATOMIC_RELAXED), W(big, 0, 4)) CASE(__atomic_fetch_min(big, 3, __ATOMIC_RELAXED), W(big, 0, 1))
#endif

/* ---- Builtins, of sizes that the compiler knows ---- */
CASE(__builtin_memcpy(big, other, 8), R(other, 0, 8), W(big, 0, 8)) CASE(__builtin_memset(big, 0, 8), W(big, 0, 8))
CASE(__builtin_memmove(big, other, 16), R(other, 0, 16), W(big, 0, 16)) CASE(__builtin_strcpy(a, b), R(b, 0, 11), W(a, 0, 11))
CASE(__builtin_strcpy(a, "four"), W(a, 0, 5)) CASE(sink = __builtin_memcmp(big, other, 8), R(big, 0, 8), R(other, 0, 8))
CASE(sink = (int)__builtin_strlen(b), R(b, 0, 11)) CASE(__builtin_strcat(a, "four"), R(a, 0, 6), W(a, 5, 5))
CASE(__builtin___memcpy_chk(big, other, 8, 64), R(other, 0, 8), W(big, 0, 8)) CASE(__builtin_sprintf(a, "four"), W(a, 0, 5))
CASE(NUMBER(__builtin_frexp(2.5, AS(int, big))), W(big, 0, 4)) CASE(__builtin_bzero(big, 4), W(big, 0, 4))
CASE((__builtin_memcpy)(big, other, 40), R(other, 0, 40), W(big, 0, 40)) CASE(((__builtin_memset) (big, 0, 24)), W(big, 0, 24))
#ifdef __clang__
CASE(__builtin_memcpy_inline(big, other, 16), R(other, 0, 16), W(big, 0, 16)) CASE((__builtin_memcpy_inline)(big, other, 8), R(other, 0, 8), W(big, 0, 8))
#else
CASE(__builtin_ia32_fnstenv(big), W(big, 0, 28))
CASE(char own[28]; __builtin_ia32_fnstenv(own); __builtin_ia32_fldenv(big); __builtin_ia32_fldenv(own), R(big, 0, 28))
CASE((__builtin_ia32_movnti)(AS(int, big), 3), W(big, 0, 4)) CASE((( __builtin_ia32_movnti64 ))(AS(long long, big), 3), W(big, 0, 8))
#endif

/* ---- Assembly ---- */
CASE(__asm__("movl $5, %0" : "=m"(*AS(int, big))), W(big, 0, 4)) CASE(__asm__("incl %0" : "+m"(*AS(int, big)) : : "cc"), W(big, 0, 4))
CASE(int got; __asm__("movl %1, %0" : "=r"(got) : "m"(*AS(int, big))); sink = got, R(big, 0, 4))
CASE(__asm__("movl $5, %0" : "=r"(*AS(int, big))), W(big, 0, 4)) CASE(__asm__("incl %0" : "+r"(*AS(int, big))), W(big, 0, 4))
CASE(int got; __asm__("movl %1, %0" : "=r"(got) : "r"(*AS(int, big))); sink = got, R(big, 0, 4))
CASE(int got; __asm__("movl %1, %0" : "=r"(got) : "g"(*AS(int, big))); sink = got, R(big, 0, 4))
CASE(__asm__ volatile("lock; incl %[it]" : [it] "+m"(AS(int, big)[1]) : : "memory", "cc"), W(big, 4, 4))
CASE(if (sink >= 0) __asm__("movl $5, %0" : "=m"(*AS(int, big))); else sink = 1, W(big, 0, 4))
CASE(int value; __asm__("movl %1, %0" : "=&r"(value) : "0"(*AS(int, big)) : "memory"); sink = value, R(big, 0, 4))
