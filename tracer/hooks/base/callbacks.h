/* What a folder calls of one that stands on it. run/run.c has this table; no access and no spawn goes by it but where
   it finds one of these. */
#ifndef SPBAGS_BASE_CALLBACKS_H
#define SPBAGS_BASE_CALLBACKS_H

#include "base/common.h"

extern const struct callbacks {
    /* The run ends behind the newest record. */
    void (*end_run)(void);
    /* A signal that has waited ends the program. */
    void (*end_by_signal)(int number);
    /* The numbers of strands begin again, for what has marks beside the stack's own. */
    void (*forget_strands)(void);
    /* An access of a heap block that died in the strand of its birth. */
    void (*use_dead)(bool writes, uintptr_t address, uintptr_t code);
    /* Which local static was being initialised when the heap block with this address was born, or 0. */
    uint32_t (*static_of)(uintptr_t address);
    /* Whether a reducer's view has this byte. */
    bool (*is_of_view)(uintptr_t address);
    /* The groups of tasks end whose frames end with the newest one. */
    void (*leave_groups)(uintptr_t code);
} callbacks;

#endif
