#include "accesses.h"

#include "assembly.h"
#include "calls.h"
#include "lives.h"

/* Memory of this function alone: nothing takes its address. */
bool accesses::is_own(tree base) const {
    if (!DECL_P(base))
        return false;
    if (VAR_P(base) && DECL_HARD_REGISTER(base))
        return true;
    if (is_global_var(base))
        return false;
    /* What is given in memory is in the caller's. */
    if (TREE_CODE(base) == RESULT_DECL && aggregate_value_p(base, fun->decl))
        return false;
    return !may_be_aliased(base);
}

/* Nothing writes there. */
static bool is_constant(tree base) {
    return TREE_CODE(base) == STRING_CST || CONSTANT_CLASS_P(base) || TREE_CODE(base) == CONSTRUCTOR ||
           (DECL_P(base) && TREE_READONLY(base) && is_global_var(base) && !TREE_SIDE_EFFECTS(base));
}

/* The variable whose address a reference has been given, or the reference's base itself. */
static tree variable_behind(tree base) {
    tree pointer = TREE_CODE(base) == MEM_REF ? TREE_OPERAND(base, 0) : NULL_TREE;
    if (!pointer || TREE_CODE(pointer) != SSA_NAME || !gimple_assign_single_p(SSA_NAME_DEF_STMT(pointer)))
        return base;
    tree address = gimple_assign_rhs1(SSA_NAME_DEF_STMT(pointer));
    return TREE_CODE(address) == ADDR_EXPR ? TREE_OPERAND(address, 0) : base;
}

/* What the compiler itself keeps, of whether a variable is initialised, and std::call_once: who comes later waits, or has
   its own. */
static bool is_of_initialisation(tree reference) {
    tree base = variable_behind(reference);
    if (!VAR_P(base) || !is_global_var(base) || !DECL_NAME(base))
        return false;
    const char *name = IDENTIFIER_POINTER(DECL_NAME(base));
    if (DECL_ARTIFICIAL(base))
        return begins_with(name, "_ZGV") || strcmp(name, "__tls_guard") == 0;
    return DECL_THREAD_LOCAL_P(base) && DECL_IN_SYSTEM_HEADER(base) && begins_with(name, "__once_call");
}

/* A child's result is stored there on its way to the parent, and then a hook of its own says so. */
static bool is_target_of_spawn(tree base) {
    tree pointer = TREE_CODE(base) == MEM_REF ? TREE_OPERAND(base, 0) : NULL_TREE;
    tree name = pointer && TREE_CODE(pointer) == SSA_NAME ? SSA_NAME_IDENTIFIER(pointer) : NULL_TREE;
    return name && strcmp(IDENTIFIER_POINTER(name), "__spbags_target") == 0;
}

static tree without_views(tree reference) {
    while (TREE_CODE(reference) == VIEW_CONVERT_EXPR)
        reference = TREE_OPERAND(reference, 0);
    return reference;
}

static bool is_reference(tree value) {
    return DECL_P(value) || handled_component_p(value) || TREE_CODE(value) == MEM_REF ||
           TREE_CODE(value) == TARGET_MEM_REF;
}

/* What has no address of its own. */
static bool is_part(tree reference) {
    return TREE_CODE(reference) == BIT_FIELD_REF ||
           (TREE_CODE(reference) == COMPONENT_REF && DECL_BIT_FIELD(TREE_OPERAND(reference, 1)));
}

static gcall *call_of(tree address, tree size, unsigned alignment, bool writes, way made) {
    static const char *const usual[2][17] = {{0, "__tsan_read1", "__tsan_read2", 0, "__tsan_read4", 0, 0, 0,
                                              "__tsan_read8", 0, 0, 0, 0, 0, 0, 0, "__tsan_read16"},
                                             {0, "__tsan_write1", "__tsan_write2", 0, "__tsan_write4", 0, 0, 0,
                                              "__tsan_write8", 0, 0, 0, 0, 0, 0, 0, "__tsan_write16"}};
    if (made == AS_ARGUMENT)
        return call_hook("__spbags_argument", {address, size});
    if (made == ATOMICALLY)
        return call_hook("__spbags_atomic", {address, size, number_of(writes)});
    if (made != PLAINLY)
        return call_hook("__spbags_asm", {address, size, number_of(writes), number_of(made == BY_LOCKED_ASSEMBLY)});
    HOST_WIDE_INT bytes = tree_fits_shwi_p(size) ? tree_to_shwi(size) : 0;
    const char *name = bytes > 0 && bytes <= 16 ? usual[writes][bytes] : nullptr;
    if (name && alignment >= MIN(bytes, 8) * BITS_PER_UNIT)
        return call_hook(name, {address});
    return call_hook(writes ? "__tsan_write_range" : "__tsan_read_range", {address, size});
}

void accesses::put_before(gimple *statement, gimple_seq sequence) {
    locate(sequence, gimple_location(statement));
    hooks.push_back({statement, sequence, false});
}

/* ADDRESS is an expression. */
void accesses::add(gimple *statement, tree address, tree size, unsigned alignment, bool writes, way made, bool behind) {
    gimple_seq sequence = nullptr;
    tree value = force_gimple_operand(address, &sequence, true, NULL_TREE);
    tree bytes = as_number(size, &sequence);
    gimple_seq_add_stmt(&sequence, call_of(value, bytes, alignment, writes, made));
    locate(sequence, gimple_location(statement));
    hooks.push_back({statement, sequence, behind});
}

void accesses::note_memory(gimple *statement, tree address, tree size, bool writes, way made, bool behind) {
    if (!integer_zerop(size))
        add(statement, unshare_expr(address), size, get_pointer_alignment(address), writes, made, behind);
}

void accesses::note_unseen(gimple *statement) {
    gimple_seq sequence = nullptr;
    gimple_seq_add_stmt(&sequence, call_hook("__spbags_unseen", {place_of(gimple_location(statement))}));
    put_before(statement, sequence);
}

/* In bits, of what stands so many bytes behind something aligned. */
static unsigned alignment_behind(unsigned alignment, unsigned HOST_WIDE_INT bytes) {
    return bytes == 0 ? alignment : MIN(alignment, least_bit_hwi(bytes) * BITS_PER_UNIT);
}

/* Some bits, of which the compiler takes no address: the bytes that have them. A bit field is written together with its
   neighbours. Of what isn't at a constant place it is the whole. */
void accesses::note_part(gimple *statement, tree reference, bool writes, way made, bool behind) {
    tree whole = without_views(TREE_OPERAND(reference, 0));
    tree first, bits;
    if (TREE_CODE(reference) == COMPONENT_REF) {
        tree field = TREE_OPERAND(reference, 1);
        if (writes && DECL_BIT_FIELD_REPRESENTATIVE(field))
            field = DECL_BIT_FIELD_REPRESENTATIVE(field);
        first = bit_position(field);
        bits = DECL_SIZE(field);
    } else {
        first = TREE_OPERAND(reference, 2);
        bits = TREE_OPERAND(reference, 1);
    }
    if (is_part(whole) || !tree_fits_uhwi_p(first) || !tree_fits_uhwi_p(bits)) {
        note_reference(statement, whole, writes, made, behind);
        return;
    }
    unsigned HOST_WIDE_INT from = tree_to_uhwi(first), end = from + tree_to_uhwi(bits);
    unsigned HOST_WIDE_INT begins = from / BITS_PER_UNIT, bytes = (end + BITS_PER_UNIT - 1) / BITS_PER_UNIT - begins;
    unsigned alignment = alignment_behind(get_object_alignment(whole), begins);
    tree address = fold_build_pointer_plus_hwi(address_of(whole), begins);
    add(statement, address, number_of(bytes), alignment, writes, made, behind);
}

void accesses::note_reference(gimple *statement, tree reference, bool writes, way made, bool behind) {
    tree size = NULL_TREE;
    if (TREE_CODE(reference) == WITH_SIZE_EXPR) {
        size = TREE_OPERAND(reference, 1);
        reference = TREE_OPERAND(reference, 0);
    }
    reference = without_views(reference);
    tree base = is_reference(reference) ? get_base_address(reference) : NULL_TREE;
    if (!base || is_gimple_reg(base) || is_own(base) || is_of_initialisation(base) || is_target_of_spawn(base) ||
        (is_constant(base) && !writes))
        return;
    tree type = TREE_TYPE(reference);
    size = size ? size : TYPE_SIZE_UNIT(type);
    if (is_empty_type(type))
        return;
    if (is_part(reference))
        note_part(statement, reference, writes, made, behind);
    else if (!ADDR_SPACE_GENERIC_P(TYPE_ADDR_SPACE(type)) || !size || !is_gimple_val(size))
        note_unseen(statement);
    else if (!integer_zerop(size))
        add(statement, address_of(reference), size, get_object_alignment(reference), writes, made, behind);
}

/* Whether a value serves only for the question of whether it is a constant: the program doesn't compute that. */
static bool is_only_asked(tree value) {
    use_operand_p use;
    imm_use_iterator uses;
    bool is_asked = false;
    FOR_EACH_IMM_USE_FAST(use, uses, value) {
        gimple *by = USE_STMT(use);
        bool is_computed = is_gimple_assign(by) && TREE_CODE(gimple_assign_lhs(by)) == SSA_NAME;
        if (!is_gimple_debug(by) && !gimple_call_builtin_p(by, BUILT_IN_CONSTANT_P) &&
            !(is_computed && is_only_asked(gimple_assign_lhs(by))))
            return false;
        is_asked |= !is_gimple_debug(by);
    }
    return is_asked;
}

/* Where OpenMP's atomic construct has no instruction, as of a long double, gcc makes a load and a store, which have no
   place of their own; of one that reads a store of what was loaded. */
static void locate_atomic(gimple *statement, tree reference) {
    if (!gimple_has_location(statement) && TREE_CODE(reference) == MEM_REF)
        gimple_set_location(statement, EXPR_LOCATION(TREE_OPERAND(reference, 0)));
}

static bool is_of_atomic_read(gimple *store) {
    tree value = gimple_assign_rhs1(store);
    gimple *load = TREE_CODE(value) == SSA_NAME ? SSA_NAME_DEF_STMT(value) : nullptr;
    return !gimple_has_location(store) && load && gimple_assign_load_p(load) &&
           operand_equal_p(gimple_assign_lhs(store), gimple_assign_rhs1(load), 0);
}

/* What the compiler hands over to a task has no life behind that. */
void accesses::note_end(gimple *clobber) {
    tree variable = gimple_assign_lhs(clobber);
    gimple_seq sequence = nullptr;
    if (!lives_are_wanted || !VAR_P(variable) || is_own(variable) || !DECL_SIZE_UNIT(variable) ||
        !tree_fits_shwi_p(DECL_SIZE_UNIT(variable)))
        return;
    gimple_seq_add_stmt(&sequence, call_hook("__spbags_dies", {address_of(variable),
                                                               number_of(tree_to_shwi(DECL_SIZE_UNIT(variable)))}));
    put_before(clobber, sequence);
}

void accesses::find_in(gimple *statement) {
    if (is_gimple_debug(statement))
        return;
    if (gimple_clobber_p(statement)) {
        note_end(statement);
        return;
    }
    if (gcall *call = dyn_cast<gcall *>(statement)) {
        find_in_call(*this, call);
    } else if (gasm *assembly = dyn_cast<gasm *>(statement)) {
        find_in_assembly(*this, assembly);
    } else if (greturn *returns = dyn_cast<greturn *>(statement)) {
        tree value = gimple_return_retval(returns);
        if (value && TREE_CODE(value) != RESULT_DECL)
            note_reference(statement, value, false);
    } else if (is_gimple_assign(statement)) {
        tree from = gimple_assign_rhs1(statement), to = gimple_assign_lhs(statement);
        bool is_needless = TREE_CODE(to) == SSA_NAME && !gimple_has_volatile_ops(statement) && is_only_asked(to);
        bool is_atomic_read = is_of_atomic_read(statement);
        locate_atomic(statement, gimple_store_p(statement) ? to : from);
        if (gimple_assign_single_p(statement) && !is_needless)
            note_reference(statement, from, false);
        if (gimple_store_p(statement) && !is_atomic_read)
            note_reference(statement, to, true);
    }
}

void accesses::find() {
    basic_block block;
    FOR_EACH_BB_FN (block, fun)
        for (gimple_stmt_iterator at = gsi_start_bb(block); !gsi_end_p(at); gsi_next(&at))
            find_in(gsi_stmt(at));
}

static void put_behind(gimple *statement, gimple_seq sequence) {
    gimple_stmt_iterator at = gsi_for_stmt(statement);
    if (!stmt_ends_bb_p(statement))
        gsi_insert_seq_after(&at, sequence, GSI_SAME_STMT);
    else if (edge goes_on = find_fallthru_edge(gimple_bb(statement)->succs))
        gsi_insert_seq_on_edge_immediate(goes_on, sequence);
}

void accesses::put() {
    for (hook &one : hooks) {
        gimple_stmt_iterator at = gsi_for_stmt(one.statement);
        if (one.behind)
            put_behind(one.statement, one.sequence);
        else
            gsi_insert_seq_before(&at, one.sequence, GSI_SAME_STMT);
    }
}
