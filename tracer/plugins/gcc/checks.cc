#include "checks.h"
#include "lives.h"

#include "../inline_checks.h"

static bool checks_wanted;

/* The macros come before all code. */
static void put_macros(void *, void *) {
    std::string text = std::string(flag_shlib ? "\t.set __spbags_is_shared, 1\n" : "") + inline_checks;
    if (ASSEMBLER_DIALECT == ASM_INTEL)
        text = "\t.att_syntax prefix\n" + text + "\t.intel_syntax noprefix\n";
    symtab->finalize_toplevel_asm(build_string(text.size() + 1, text.c_str()));
}

void checks_begin(const char *plugin) {
    checks_wanted = true;
    register_callback(plugin, PLUGIN_START_UNIT, put_macros, nullptr);
}

/* ---- Memory of the function alone ---- */

static bool is_local(tree base) {
    if (!DECL_P(base) || is_global_var(base) || TREE_CODE(base) == RESULT_DECL)
        return false;
    if (!may_be_aliased(base))
        return true;
    pt_solution shared;
    memset(&shared, 0, sizeof shared);
    shared.escaped = 1;
    shared.ipa_escaped = flag_ipa_pta != 0;
    return !pt_solution_includes(&shared, base);
}

static bool points_to_local(tree pointer) {
    ptr_info_def *known = TREE_CODE(pointer) == SSA_NAME ? SSA_NAME_PTR_INFO(pointer) : nullptr;
    if (!known)
        return false;
    const pt_solution &to = known->pt;
    /* What is given in memory is in the caller's. */
    tree result = DECL_RESULT(cfun->decl);
    if (to.vars && result && bitmap_bit_p(to.vars, DECL_PT_UID(result)))
        return false;
    return !to.anything && !to.nonlocal && !to.escaped && !to.ipa_escaped && !to.vars_contains_nonlocal &&
           !to.vars_contains_escaped && !to.vars_contains_escaped_heap && to.vars && !bitmap_empty_p(to.vars);
}

static bool is_of_own_memory(gimple *statement) {
    const char *name = called_hook(statement);
    if (!name || !(begins_with(name, "__tsan_read") || begins_with(name, "__tsan_write") ||
                   strcmp(name, "__spbags_argument") == 0))
        return false;
    tree address = gimple_call_arg(statement, 0);
    if (TREE_CODE(address) != ADDR_EXPR)
        return points_to_local(address);
    tree base = get_base_address(TREE_OPERAND(address, 0));
    if (base && TREE_CODE(base) == MEM_REF)
        return points_to_local(TREE_OPERAND(base, 0));
    return base && is_local(base);
}

static bool note_address(gimple *, tree base, tree, void *found) {
    static_cast<std::set<tree> *>(found)->insert(base);
    return false;
}

/* Adds the variables whose addresses the program's own statements of a block take. */
static void find_addressed(basic_block block, std::set<tree> *found) {
    for (gphi_iterator at = gsi_start_phis(block); !gsi_end_p(at); gsi_next(&at))
        walk_stmt_load_store_addr_ops(at.phi(), found, nullptr, nullptr, note_address);
    for (gimple_stmt_iterator at = gsi_start_bb(block); !gsi_end_p(at); gsi_next(&at))
        if (!called_hook(gsi_stmt(at)))
            walk_stmt_load_store_addr_ops(gsi_stmt(at), found, nullptr, nullptr, note_address);
}

/* The end of a variable's life that no other function accesses by a pointer. */
static bool is_needless_end(gimple *statement, const std::set<tree> &addressed) {
    const char *name = called_hook(statement);
    tree address = name && strcmp(name, "__spbags_dies") == 0 ? gimple_call_arg(statement, 0) : NULL_TREE;
    return address && TREE_CODE(address) == ADDR_EXPR && addressed.count(TREE_OPERAND(address, 0)) == 0;
}

static void remove_hook(gimple_stmt_iterator *at) {
    gimple *hook = gsi_stmt(*at);
    unlink_stmt_vdef(hook);
    gsi_remove(at, true);
    release_defs(hook);
}

bool checks_drop_own(function *fun) {
    bool dropped = false;
    std::set<tree> addressed;
    basic_block block;
    if (lives_are_wanted)
        FOR_EACH_BB_FN (block, fun)
            find_addressed(block, &addressed);
    FOR_EACH_BB_FN (block, fun)
        for (gimple_stmt_iterator at = gsi_start_bb(block); !gsi_end_p(at);) {
            bool is_needless = is_of_own_memory(gsi_stmt(at)) || is_needless_end(gsi_stmt(at), addressed);
            dropped |= is_needless;
            if (is_needless)
                remove_hook(&at);
            else
                gsi_next(&at);
        }
    return dropped;
}

/* ---- Tests ---- */

static tree operand(const char *constraint, tree value) {
    return build_tree_list(build_tree_list(NULL_TREE, build_string(strlen(constraint) + 1, constraint)), value);
}

/* All that a call changes: the text calls the hook where the test doesn't do. */
static vec<tree, va_gc> *changed_by_calls() {
    vec<tree, va_gc> *changed = nullptr;
    auto add = [&](const std::string &name) {
        vec_safe_push(changed, build_tree_list(NULL_TREE, build_string(name.size() + 1, name.c_str())));
    };
    for (const char *name : {"rax", "rcx", "rdx", "rsi", "r8", "r9", "r10", "r11"})
        add(name);
    /* A function may be for general registers alone. */
    int vectors = !TARGET_SSE ? 0 : TARGET_AVX512F ? 32 : 16;
    for (int number = 0; number < vectors; number++)
        add("xmm" + std::to_string(number));
    for (int number = 0; number < 8 && TARGET_AVX512F; number++)
        add("k" + std::to_string(number));
    return changed;
}

/* A statement with this text, which gets a value in %rdi. */
static gasm *test(const std::string &text, tree value) {
    std::string whole =
        ASSEMBLER_DIALECT == ASM_INTEL ? ".att_syntax prefix\n" + text + "\n\t.intel_syntax noprefix" : text;
    vec<tree, va_gc> *inputs = nullptr, *outputs = nullptr;
    vec_safe_push(outputs, operand("=D", NULL_TREE));
    vec_safe_push(inputs, operand("0", value));
    gasm *made = gimple_build_asm_vec(whole.c_str(), inputs, outputs, changed_by_calls(), nullptr);
    TREE_VALUE(gimple_asm_output_op(made, 0)) = make_ssa_name(TREE_TYPE(value), made);
    gimple_asm_set_volatile(made, true);
    return made;
}

/* A part of a variable in the function's own stack memory, at a constant place. */
static bool is_in_frame(function *fun, tree address, HOST_WIDE_INT size) {
    poly_int64 offset;
    tree base =
        TREE_CODE(address) == ADDR_EXPR ? get_addr_base_and_unit_offset(TREE_OPERAND(address, 0), &offset) : NULL_TREE;
    return base && VAR_P(base) && auto_var_in_fn_p(base, fun->decl) && !DECL_HARD_REGISTER(base) &&
           !DECL_HAS_VALUE_EXPR_P(base) && DECL_SIZE_UNIT(base) && tree_fits_shwi_p(DECL_SIZE_UNIT(base)) &&
           known_ge(offset, 0) && known_le(offset + size, tree_to_shwi(DECL_SIZE_UNIT(base)));
}

void checks_put(function *fun) {
    static const struct {
        const char *hook, *text, *local;
        HOST_WIDE_INT size;
    } tests[] = {{"__tsan_read4", "\t__spbags_read 4", "\t__spbags_read_local 4", 4},
                 {"__tsan_read8", "\t__spbags_read 8", "\t__spbags_read_local 8", 8},
                 {"__tsan_write4", "\t__spbags_write 4", "\t__spbags_write_local 4", 4},
                 {"__tsan_write8", "\t__spbags_write 8", "\t__spbags_write_local 8", 8}};
    basic_block block;
    FOR_EACH_BB_FN (block, fun)
        for (gimple_stmt_iterator at = gsi_start_bb(block); !gsi_end_p(at); gsi_next(&at)) {
            const char *name = called_hook(gsi_stmt(at));
            for (auto &row : tests)
                if (name && checks_wanted && strcmp(name, row.hook) == 0) {
                    gimple *call = gsi_stmt(at);
                    tree address = gimple_call_arg(call, 0);
                    gasm *made = test(is_in_frame(fun, address, row.size) ? row.local : row.text, address);
                    gimple_set_location(made, gimple_location(call));
                    unlink_stmt_vdef(call);
                    gsi_replace(&at, made, true);
                }
        }
}

/* As where a function takes memory from the stack. */
void checks_keep_stack(function *fun) {
    if (!checks_wanted)
        return;
    fun->calls_alloca = 1;
    crtl->stack_alignment_needed = MAX(crtl->stack_alignment_needed, PREFERRED_STACK_BOUNDARY);
    crtl->preferred_stack_boundary = MAX(crtl->preferred_stack_boundary, PREFERRED_STACK_BOUNDARY);
}

/* It gets the frame pointer, so that it stands behind what sets that: the compiler puts what needs no frame before. */
static gimple_seq frame_test(const char *text, location_t location) {
    gimple_seq sequence = nullptr;
    gcall *frame = gimple_build_call(builtin_decl_implicit(BUILT_IN_FRAME_ADDRESS), 1, integer_zero_node);
    tree pointer = make_ssa_name(ptr_type_node, frame);
    gimple_call_set_lhs(frame, pointer);
    gimple_seq_add_stmt(&sequence, frame);
    gimple_seq_add_stmt(&sequence, test(text, pointer));
    locate(sequence, location);
    return sequence;
}

static gimple_seq frame_call(gcall *call, location_t location) {
    gimple_seq sequence = nullptr;
    gimple_set_location(call, location);
    gimple_seq_add_stmt(&sequence, call);
    return sequence;
}

gimple_seq check_of_entry(location_t location) {
    return checks_wanted ? frame_test("\t__spbags_entry", location)
                         : frame_call(call_hook("__tsan_func_entry", {null_pointer_node}), location);
}

gimple_seq check_of_exit(location_t location) {
    return checks_wanted ? frame_test("\t__spbags_exit", location)
                         : frame_call(call_hook("__tsan_func_exit", {}), location);
}
