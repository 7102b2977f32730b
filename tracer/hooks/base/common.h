/* The hooks write a trace, or hand its records to the detector inside. `spbags-cc` compiles a program with a plugin of
   the compiler, which puts a call beside each access and at each function's entry and exit. It links the program with
   these files. The program runs on one thread, in the serial order: a spawned child runs at once, as an ordinary call.

   Each module is a .c file with a header of what others may call; what is on the way of each access is inline there.
   What a header declares begins with the module's name, constants with that of one. Only the words in which hooks are
   written don't: macros, and what stands here and in library/words.h. Each folder stands on those before it:

      base/          what all may use: settings, the run's state, lines for the user, output
     shadow/        what is known of the program's memory, and of the functions that are active
     records/       what goes out, when and where
     program/       the hooks that the program's own code calls
     library/       those in place of functions of the library
     openmp/        those in place of OpenMP's runtimes
     openmp/clang/  those that only clang calls
     run/           how a run begins and ends, and the detector

   Where one calls what stands on it, it does so by base/callbacks.h, or base/openmp.h says so.

   Here is what each part may use: the system's headers, and the library's real functions. */
#ifndef SPBAGS_BASE_COMMON_H
#define SPBAGS_BASE_COMMON_H
#define _GNU_SOURCE
#include <ctype.h>
#include <dlfcn.h>
#include <emmintrin.h>
#include <errno.h>
#include <fcntl.h>
#include <inttypes.h>
#include <limits.h>
#include <link.h>
#include <linux/futex.h>
#include <pthread.h>
#include <semaphore.h>
#include <setjmp.h>
#include <signal.h>
#include <stdarg.h>
#include <stdbool.h>
#include <stddef.h>
#include <stdint.h>
#include <stdio.h>
#include <stdlib.h>
#include <string.h>
#include <sys/mman.h>
#include <sys/resource.h>
#include <sys/socket.h>
#include <sys/stat.h>
#include <sys/statvfs.h>
#include <sys/syscall.h>
#include <sys/wait.h>
#include <threads.h>
#include <time.h>
#include <ucontext.h>
#include <unistd.h>
#include <unwind.h>
#include <wchar.h>

#include "base/library_types.h"
/* The real functions of library.table: what is called here by its own name is called in truth. */
#include "library_names.h"

#if !defined(__x86_64__) || !defined(__linux__)
#error "programs can be traced only on x86-64 Linux"
#endif

/* For what is on the way of each call: a compiler leaves it out of line where a file is small. */
#define ALWAYS_INLINE static inline __attribute__((always_inline))

/* The real function and the hook for a name that a macro holds. */
#define NAMED(PREFIX, NAME) PREFIX##NAME
#define REAL(NAME) NAMED(__real_, NAME)
#define WRAP(NAME) NAMED(__wrap_, NAME)

int __real_sem_wait(sem_t *semaphore);
long __real_syscall(long number, ...);
int __real_pthread_create(pthread_t *, const pthread_attr_t *, void *(*)(void *), void *);
void __real__exit(int status) __attribute__((noreturn));

static inline size_t least(size_t a, size_t b) { return a < b ? a : b; }

static inline void wait_for(sem_t *semaphore) {
    while (__real_sem_wait(semaphore) != 0)
        continue;
}

#endif
