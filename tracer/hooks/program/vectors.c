/* What stands beside an instruction of the compiler's that goes to memory by a pointer. */
#include "program/procedures.h"
#include "program/accesses.h"
#include "base/tell.h"

void __spbags_vector(const volatile void *at, unsigned long size, int writes) { NOTE(writes, at, size); }

unsigned long __spbags_bits(const void *mask, unsigned long size, unsigned long element) {
    uint64_t bits = 0;
    if (size <= sizeof bits)
        __real_memcpy(&bits, mask, size);
    else
        for (size_t at = 0; at < size / element; at++)
            bits |= (uint64_t)(((const uint8_t *)mask)[(at + 1) * element - 1] >> 7) << at;
    return bits;
}

void __spbags_masked(const volatile void *at, unsigned long element, unsigned long count, unsigned long bits,
                     int writes) {
    for (size_t number = 0; number < count; number++)
        if (bits >> number & 1)
            NOTE(writes, (uintptr_t)at + number * element, element);
}

void __spbags_packed(const volatile void *at, unsigned long element, unsigned long count, unsigned long bits,
                     int writes) {
    uint64_t chosen = count < 64 ? bits & (((uint64_t)1 << count) - 1) : bits;
    size_t size = (size_t)__builtin_popcountll(chosen) * element;
    if (size > 0)
        NOTE(writes, at, size);
}

void __spbags_indexed(const volatile void *at, unsigned long element, unsigned long count, const void *index,
                      unsigned long size, unsigned long each, int scale, unsigned long bits, int writes) {
    for (size_t number = 0; number < count && number < size / each; number++) {
        int64_t place = each == sizeof place ? ((const int64_t *)index)[number] : ((const int32_t *)index)[number];
        if (bits >> number & 1)
            NOTE(writes, (uintptr_t)at + (uintptr_t)(place * scale), element);
    }
}

/* Each place tells once. An address of the program has no more than 48 bits. */
void __spbags_vector_unseen(const char *function, const char *file, int line) {
    if (procedures_run_beside() && tell_is_first((uintptr_t)file | (uintptr_t)line << 48))
        tell_incomplete("%s:%d: the instruction here, in %s, may access memory that isn't seen", file, line, function);
}
