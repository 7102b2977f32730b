#include "base/memory.h"

#include "base/tell.h"

void *memory_reserve_or_none(size_t size) {
    static uintptr_t wish = (uintptr_t)1 << 46;
    int flags = MAP_PRIVATE | MAP_ANONYMOUS | MAP_NORESERVE;
    void *memory = mmap((void *)wish, size, PROT_READ | PROT_WRITE, flags, -1, 0);
    if (memory == MAP_FAILED)
        return NULL;
    wish += (size + 0xfff) & ~(size_t)0xfff;
    return memory;
}

void *memory_reserve(size_t size) {
    void *memory = memory_reserve_or_none(size);
    if (!memory)
        tell_fault("out of memory: %s", strerror(errno));
    return memory;
}

const uint64_t *memory_read_numbers(enum setting setting, int file, size_t *count) {
    struct stat about;
    if (fstat(file, &about) != 0)
        tell_fault("%s: %s", settings_name(setting), strerror(errno));
    size_t size = (size_t)about.st_size, got = 0;
    char *numbers = memory_reserve(size + 1);
    for (ssize_t piece = 1; piece > 0; got += piece > 0 ? (size_t)piece : 0)
        piece = pread(file, numbers + got, size - got, (off_t)got);
    if (got != size)
        tell_fault("%s: %s", settings_name(setting), strerror(errno));
    *count = size / sizeof(uint64_t);
    return (const uint64_t *)numbers;
}
