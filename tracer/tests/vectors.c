/* Instructions that go to memory by a pointer: a child accesses the bytes of a block that are said here, by what the
   instruction means. Its parent accesses the whole block. Each write of the parent there races, and each read of what
   the child writes. Nothing else of the block does. Each case stands on one line, and the program prints how many races
   it has. */
#include <cilk/cilk.h>
#include <immintrin.h>
#include <stdbool.h>
#include <stdint.h>
#include <stdio.h>
#include <stdlib.h>
#include <string.h>

enum { BLOCK = 256, MOST = 100 };

struct piece {
    size_t first, count;
};
static struct test {
    void (*call)(char *at);
    int line;
    bool writes;
    const struct piece *pieces;
} tests[MOST];
static int count;
static volatile __m512i sink;
static volatile char seen;

#define CASE_OF(NUMBER, LINE, WRITES, CALL, ...) \
    static void call_##NUMBER(char *at) { CALL; } \
    static const struct piece pieces_##NUMBER[] = {__VA_ARGS__, {0, 0}}; \
    __attribute__((constructor)) static void add_##NUMBER(void) { \
        tests[count++] = (struct test){call_##NUMBER, LINE, WRITES, pieces_##NUMBER}; \
    }
#define CASE_AT(NUMBER, LINE, WRITES, CALL, ...) CASE_OF(NUMBER, LINE, WRITES, CALL, __VA_ARGS__)
#define WRITES(CALL, ...) CASE_AT(__COUNTER__, __LINE__, true, CALL, __VA_ARGS__)
#define READS(CALL, ...) CASE_AT(__COUNTER__, __LINE__, false, sink = (CALL), __VA_ARGS__)

/* What is read becomes one type. */
#define WIDE(X) _mm512_castps_si512(_mm512_castps128_ps512(X))
#define WIDE_D(X) WIDE(_mm_castpd_ps(X))
#define WIDE_I(X) _mm512_castsi128_si512(X)
#define WIDE_256(X) _mm512_castsi256_si512(X)
#define INTS(...) _mm_setr_epi32(__VA_ARGS__)
#define EIGHT(...) _mm256_setr_epi32(__VA_ARGS__)
#define AS(TYPE) ((TYPE *)(void *)at)

/* ---- All of it ---- */
WRITES(_mm_stream_ps(AS(float), _mm_set1_ps(1)), {0, 16})
WRITES(_mm_stream_pd(AS(double) + 2, _mm_set1_pd(1)), {16, 16})
WRITES(_mm_stream_si128(AS(__m128i), _mm_set1_epi8(1)), {0, 16})
WRITES(_mm_stream_si32(AS(int) + 1, 5), {4, 4})
WRITES((__builtin_ia32_movnti)(AS(int) + 2, 5), {8, 4})
WRITES(_mm_stream_si64(AS(long long) + 1, 5), {8, 8})
WRITES(_mm256_stream_ps(AS(float), _mm256_set1_ps(1)), {0, 32})
WRITES(_mm512_stream_si512(AS(__m512i), _mm512_set1_epi8(1)), {0, 64})
WRITES(_mm_storeh_pi(AS(__m64) + 1, _mm_set1_ps(1)), {8, 8})
WRITES(unsigned long long sum; _addcarry_u64(0, 1, 2, AS(unsigned long long)); (void)sum, {0, 8})
READS(WIDE_I(_mm_stream_load_si128(AS(__m128i) + 1)), {16, 16})
READS(WIDE_I(_mm_lddqu_si128((__m128i *)(at + 3))), {3, 16})
READS(WIDE(_mm_loadh_pi(_mm_set1_ps(1), AS(__m64))), {0, 8})
READS(WIDE_D(_mm_loadl_pd(_mm_set1_pd(1), AS(double))), {0, 8})
READS(_mm512_castps_si512(_mm512_castps256_ps512(_mm256_broadcast_ss(AS(float) + 3))), {12, 4})
READS(_mm512_castpd_si512(_mm512_castpd256_pd512(_mm256_broadcast_pd(AS(__m128d)))), {0, 16})

/* ---- What a mask chooses ---- */
WRITES(_mm_maskstore_ps(AS(float), INTS(-1, 0, 0, -1), _mm_set1_ps(1)), {0, 4}, {12, 4})
WRITES(_mm256_maskstore_epi64(AS(long long), _mm256_setr_epi64x(0, -1, -1, 1), _mm256_set1_epi8(1)), {8, 16})
WRITES(_mm_maskmoveu_si128(_mm_set1_epi8(1), INTS(0x80, 0, 0, 0x7f008000), at), {0, 1}, {13, 1})
WRITES(_mm512_mask_storeu_epi32(at, 0x8001, _mm512_set1_epi8(1)), {0, 4}, {60, 4})
WRITES(_mm512_mask_storeu_epi8(at + 1, 0x8000000000000002, _mm512_set1_epi8(1)), {2, 1}, {64, 1})
WRITES(_mm_mask_store_sd(AS(double), 1, _mm_set1_pd(1)), {0, 8})
WRITES(_mm256_mask_store_pd(AS(double), 6, _mm256_set1_pd(1)), {8, 16})
WRITES(_mm512_mask_cvtepi32_storeu_epi8(at, 0x8002, _mm512_set1_epi8(1)), {1, 1}, {15, 1})
WRITES(_mm512_mask_compressstoreu_ps(at, 0x8421, _mm512_set1_ps(1)), {0, 16})
WRITES(_mm256_mask_compressstoreu_pd(at, 0xf2, _mm256_set1_pd(1)), {0, 8})
READS(WIDE(_mm_maskload_ps(AS(float), INTS(0, -1, 0, 0))), {4, 4})
READS(WIDE_256(_mm256_maskload_epi32(AS(int), EIGHT(-1, 0, 0, 0, 0, 0, -1, -1))), {0, 4}, {24, 8})
READS(_mm512_maskz_loadu_epi64(0x81, at), {0, 8}, {56, 8})
READS(WIDE_256(_mm256_mask_loadu_epi16(_mm256_set1_epi8(1), 0x8001, at)), {0, 2}, {30, 2})
READS(_mm512_maskz_expandloadu_epi32(0xf000, at), {0, 16})

/* ---- At the places of an index ---- */
READS(WIDE_I(_mm_i32gather_epi32(AS(int), INTS(9, 1, 9, 0), 4)), {0, 8}, {36, 4})
READS(WIDE_D(_mm_i32gather_pd(AS(double), INTS(2, 0, 7, 7), 8)), {0, 8}, {16, 8})
READS(WIDE(_mm_i64gather_ps(AS(float) + 8, _mm_set_epi64x(-2, 1), 4)), {24, 4}, {36, 4})
READS(WIDE_256(_mm256_mask_i32gather_epi32(_mm256_set1_epi8(1), AS(int), EIGHT(0, 1, 2, 3, 4, 5, 6, 9), EIGHT(-1, 0, 0, 0, 0, 0, 0, -1), 2)), {0, 4}, {18, 4})
READS(_mm512_mask_i32gather_epi32(_mm512_set1_epi8(1), 0x8001, _mm512_set1_epi32(5), at, 4), {20, 4})
READS(WIDE_256(_mm256_mmask_i32gather_epi32(_mm256_set1_epi8(1), 3, EIGHT(5, 8, 0, 0, 0, 0, 0, 0), at, 4)), {20, 4}, {32, 4})
WRITES(_mm512_i32scatter_ps(at, _mm512_set1_epi32(3), _mm512_set1_ps(1), 4), {12, 4})
WRITES(_mm_mask_i64scatter_epi64(at, 2, _mm_set_epi64x(4, 1), _mm_set1_epi8(1), 8), {32, 8})

static bool is_in(const struct test *test, size_t at) {
    for (const struct piece *piece = test->pieces; piece->count > 0; piece++)
        if (at >= piece->first && at < piece->first + piece->count)
            return true;
    return false;
}

static void write_expected(char *at) { *at = 'x'; } /* [write] */
static void read_expected(char *at) { seen = *at; } /* [read] */
static void write_other(char *at) { *at = 'x'; }
static void read_other(char *at) { seen = *at; }

static int races_of(const struct test *test, bool writes) {
    char *block = aligned_alloc(64, BLOCK);
    int races = 0;
    cilk_spawn test->call(block);
    for (size_t at = 0; at < BLOCK; at++) {
        bool is_expected = is_in(test, at);
        void (*const touch[2][2])(char *) = {{read_other, read_expected}, {write_other, write_expected}};
        touch[writes][is_expected](block + at);
        races += is_expected && (writes || test->writes);
    }
    cilk_sync;
    return races;
}

static void save(void *at) { _xsave(at, 0); }

/* Writes what it expects into the file of this name; or with the word `unknown` has an instruction that no hook knows. */
int main(int words, char **word) {
    if (words > 1 && strcmp(word[1], "unknown") == 0) {
        cilk_spawn save(aligned_alloc(64, 4096));
        cilk_sync;
        return 0;
    }
    FILE *wanted = fopen(words > 1 ? word[1] : "/dev/stdout", "w");
    for (int at = 0; at < count; at++)
        fprintf(wanted, "%d " __FILE__ ":%d\n", races_of(&tests[at], true) + races_of(&tests[at], false),
                tests[at].line);
    fclose(wanted);
}
