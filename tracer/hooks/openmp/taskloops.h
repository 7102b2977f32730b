/* Taskloops: a task for each iteration where the program doesn't say how many there are to be. */
#ifndef SPBAGS_OPENMP_TASKLOOPS_H
#define SPBAGS_OPENMP_TASKLOOPS_H

#include "openmp/loops.h"
#include "openmp/tasks.h"

/* The task does this loop. FLAGS are those of gcc, and say what is WANTED: tasks, or iterations of each. */
void taskloops_do(const struct task *task, struct loop loop, unsigned flags, uint64_t wanted, uintptr_t stack_pointer,
                  uintptr_t code);

#endif
