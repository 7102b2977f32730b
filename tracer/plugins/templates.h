/* Whether an assembler's template goes to no memory but that of its operands: so it is where each instruction has only
   registers, constants and such operands, and is none that goes elsewhere without an operand. */
#ifndef SPBAGS_TEMPLATES_H
#define SPBAGS_TEMPLATES_H

#include <string>

struct template_facts {
    /* Without an instruction; wholly understood; with an instruction that is atomic. */
    bool is_empty, is_understood, is_locked;
    /* The bytes of a vector that an instruction accesses whole, or 0: an operand's type may be a part of it. */
    unsigned vector_bytes;
};

/* HAS_OPERANDS says whether `%` has a meaning of its own, and IN_MEMORY whether an operand may be there. The dialect is 0
   or, of Intel, 1. */
template_facts template_facts_of(const std::string &text, bool has_operands, bool in_memory, int dialect);

#endif
