#include "assembly.h"

#include "../templates.h"

/* What is in memory but may be handed over in a register is stored behind the statement, whatever the template does. */
static void find_in_output(accesses &all, gasm *assembly, unsigned number, const template_facts &facts, way made) {
    tree link = gimple_asm_output_op(assembly, number);
    const char *constraint = TREE_STRING_POINTER(TREE_VALUE(TREE_PURPOSE(link)));
    bool allows_memory, allows_register, is_changed;
    if (!parse_output_constraint(&constraint, number, gimple_asm_ninputs(assembly), gimple_asm_noutputs(assembly),
                                 &allows_memory, &allows_register, &is_changed))
        return;
    if (allows_register || !facts.is_empty)
        all.note_reference(assembly, TREE_VALUE(link), true, allows_memory ? made : PLAINLY);
}

/* The bytes of the smallest operand that may be in memory, or 0. */
static HOST_WIDE_INT least_memory(gasm *assembly) {
    HOST_WIDE_INT least = 0;
    auto look = [&](tree link) {
        tree value = TREE_VALUE(link);
        HOST_WIDE_INT size = is_gimple_val(value) ? 0 : int_size_in_bytes(TREE_TYPE(value));
        if (size > 0 && (least == 0 || size < least))
            least = size;
    };
    for (unsigned at = 0; at < gimple_asm_noutputs(assembly); at++)
        look(gimple_asm_output_op(assembly, at));
    for (unsigned at = 0; at < gimple_asm_ninputs(assembly); at++)
        look(gimple_asm_input_op(assembly, at));
    return least;
}

void judge_assembly_outside(gcall *call) {
    const char *text = c_getstr(gimple_call_arg(call, 1));
    if (text && template_facts_of(text, false, false, ASSEMBLER_DIALECT).is_understood)
        gimple_call_set_arg(call, 0, null_pointer_node);
}

void find_in_assembly(accesses &all, gasm *assembly) {
    HOST_WIDE_INT least = least_memory(assembly);
    template_facts facts =
        template_facts_of(gimple_asm_string(assembly), !gimple_asm_input_p(assembly), least > 0, ASSEMBLER_DIALECT);
    if (!facts.is_understood || (least > 0 && least < facts.vector_bytes)) {
        gimple_seq sequence = nullptr;
        gimple_seq_add_stmt(&sequence, call_hook("__spbags_asm_unseen", {place_of(gimple_location(assembly))}));
        all.put_before(assembly, sequence);
    }
    way made = facts.is_locked ? BY_LOCKED_ASSEMBLY : BY_ASSEMBLY;
    /* A value that isn't in memory is loaded before. */
    for (unsigned at = 0; at < gimple_asm_ninputs(assembly) && !facts.is_empty; at++)
        all.note_reference(assembly, TREE_VALUE(gimple_asm_input_op(assembly, at)), false, made);
    for (unsigned at = 0; at < gimple_asm_noutputs(assembly); at++)
        find_in_output(all, assembly, at, facts, made);
}
