#include "calls.h"

#include "../statics.h"
#include "assembly.h"
#include "vectors.h"

/* ---- Atomic operations ---- */

/* An operation that writes where the value there is the one that is expected. Where that is given by its address the value
   is stored there else. */
static void note_compare(accesses &all, gcall *call, tree address, tree expected, tree size) {
    gimple_seq sequence = nullptr;
    bool is_address = POINTER_TYPE_P(TREE_TYPE(expected));
    if (is_address)
        all.note_memory(call, expected, size, false);
    else
        expected = in_memory(expected, &sequence);
    gimple_seq_add_stmt(&sequence,
                        call_reading_hook("__spbags_compare", {address, expected, size, number_of(is_address)}));
    all.put_before(call, sequence);
}

/* A call of `__atomic_NAME` or `__sync_NAME`, by whose name the compiler's documentation says what it does. */
class atomic_operation {
  public:
    atomic_operation(accesses &all, gcall *call, const char *name) : all(all), call(call), name(name) {
        size_t end = this->name.find_last_not_of("0123456789");
        bool is_sized = end != std::string::npos && this->name[end] == '_' && end + 1 < this->name.size();
        size = is_sized ? number_of(std::atoi(name + end + 1)) : NULL_TREE;
        if (is_sized)
            this->name.erase(end);
    }
    void find();

  private:
    accesses &all;
    gcall *call;
    std::string name;
    /* Of a general operation the first argument. */
    tree size;

    bool is(const char *one) const { return name == one; }
    tree argument(unsigned number) const { return gimple_call_arg(call, number); }
    void touch(unsigned number, bool writes, way made) const {
        all.note_memory(call, argument(number), size, writes, made);
    }
    void update() const {
        touch(0, false, ATOMICALLY);
        touch(0, true, ATOMICALLY);
    }
    void find_general();
    void find_sized();
};

/* The operation of any size, which a library has: its pointers come behind the size. */
void atomic_operation::find_general() {
    size = argument(0);
    if (is("__atomic_compare_exchange")) {
        touch(3, false, PLAINLY);
        note_compare(all, call, argument(1), argument(2), size);
        return;
    }
    bool exchanges = is("__atomic_exchange");
    if (exchanges || is("__atomic_load"))
        touch(1, false, ATOMICALLY);
    if (exchanges || is("__atomic_store"))
        touch(2, false, PLAINLY), touch(1, true, ATOMICALLY);
    if (exchanges)
        touch(3, true, PLAINLY);
    if (is("__atomic_load"))
        touch(2, true, PLAINLY);
}

void atomic_operation::find_sized() {
    if (name.find("compare") != std::string::npos)
        note_compare(all, call, argument(0), argument(1), size);
    else if (is("__atomic_load"))
        touch(0, false, ATOMICALLY);
    else if (is("__atomic_store") || is("__sync_lock_release"))
        touch(0, true, ATOMICALLY);
    else
        update();
}

void atomic_operation::find() {
    if (is("__atomic_test_and_set") || is("__atomic_clear")) {
        size = number_of(1);
        if (is("__atomic_clear"))
            touch(0, true, ATOMICALLY);
        else
            update();
    } else if (size)
        find_sized();
    else if (is("__atomic_load") || is("__atomic_store") || is("__atomic_exchange") || is("__atomic_compare_exchange"))
        find_general();
    /* Fences access nothing. */
}

/* ---- Other builtins ---- */

/* The list of arguments is a variable of the program like any other: what is read of it, and what is set, depends on where
   the next argument is. */
static void find_next_argument(accesses &all, gcall *call) {
    tree type = TREE_TYPE(TREE_TYPE(gimple_call_arg(call, 1)));
    enum { IN_GENERAL, IN_VECTOR, IN_MEMORY, IN_ANY } kind = IN_ANY;
    if (TYPE_MODE(type) == XFmode || COMPLEX_MODE_P(TYPE_MODE(type)))
        kind = TYPE_MODE(type) == XFmode ? IN_MEMORY : IN_ANY;
    else if (SCALAR_FLOAT_TYPE_P(type) || VECTOR_TYPE_P(type))
        kind = IN_VECTOR;
    else if (INTEGRAL_TYPE_P(type) || POINTER_TYPE_P(type))
        kind = IN_GENERAL;
    else if (tree_fits_shwi_p(TYPE_SIZE_UNIT(type)) && tree_to_shwi(TYPE_SIZE_UNIT(type)) > 16)
        kind = IN_MEMORY;
    gimple_seq sequence = nullptr;
    gimple_seq_add_stmt(&sequence,
                        call_reading_hook("__spbags_next_argument", {gimple_call_arg(call, 0), number_of(kind)}));
    all.put_before(call, sequence);
}

/* A jump's buffer is five pointers, and a list of arguments three. */
static void find_in_own_builtin(accesses &all, gcall *call, tree callee) {
    tree jump_buffer = number_of(5 * UNITS_PER_WORD), list = number_of(3 * UNITS_PER_WORD);
    auto touch = [&](unsigned number, tree size, bool writes) {
        all.note_memory(call, gimple_call_arg(call, number), size, writes);
    };
    switch (DECL_FUNCTION_CODE(callee)) {
    case BUILT_IN_SETJMP_SETUP:
        touch(0, jump_buffer, true);
        break;
    case BUILT_IN_LONGJMP:
        touch(0, jump_buffer, false);
        break;
    case BUILT_IN_VA_START:
        touch(0, list, true);
        break;
    case BUILT_IN_VA_COPY:
        touch(1, list, false);
        touch(0, list, true);
        break;
    default:
        break;
    }
}

static bool has_pointer(gcall *call) {
    for (unsigned at = 0; at < gimple_call_num_args(call); at++)
        if (POINTER_TYPE_P(TREE_TYPE(gimple_call_arg(call, at))))
            return true;
    return false;
}

/* Those of a compiler's own libraries are called in any case, and aren't the program's. */
static bool is_of_compiler(const char *name) {
    static const char *const beginnings[] = {"__builtin_", "GOMP_",        "GOACC_",  "_Unwind_",
                                             "__cxa_",     "__emutls_",    "__tsan_", "__asan_",
                                             "__ubsan_",   "__sanitizer_", "__cyg_",  "__clear_cache"};
    for (const char *beginning : beginnings)
        if (begins_with(name, beginning))
            return true;
    return false;
}

/* Whether the call is of a builtin that gets nothing in memory but by pointers. A function of a library is called in
   truth: the compiler would put it into the program, where its wrapper doesn't see it. */
static bool find_in_builtin(accesses &all, gcall *call) {
    tree callee = gimple_call_fndecl(call);
    if (!callee || !fndecl_built_in_p(callee))
        return false;
    const char *name = IDENTIFIER_POINTER(DECL_ASSEMBLER_NAME(callee));
    name += *name == '*';
    if (fndecl_built_in_p(callee, BUILT_IN_MD)) {
        find_in_instruction(all, call);
    } else if (!fndecl_built_in_p(callee, BUILT_IN_NORMAL)) {
        return false;
    } else if (begins_with(name, "__atomic_") || begins_with(name, "__sync_")) {
        atomic_operation(all, call, name).find();
    } else if (is_of_compiler(name)) {
        find_in_own_builtin(all, call, callee);
    } else if (has_pointer(call)) {
        gimple_call_set_fndecl(call, library_function(callee));
        update_stmt(call);
        return false;
    }
    return true;
}

static bool calls(gcall *call, const char *name) {
    tree callee = gimple_call_fndecl(call);
    return callee && DECL_NAME(callee) && id_equal(DECL_NAME(callee), name);
}

static const char *name_for_assembler(tree decl) {
    return DECL_ASSEMBLER_NAME_SET_P(decl) ? IDENTIFIER_POINTER(DECL_ASSEMBLER_NAME(decl)) : "";
}

/* Before a guard is acquired: what the local static has. */
static void note_static(accesses &all, gcall *call) {
    tree guard = gimple_call_arg(call, 0);
    if (TREE_CODE(guard) != ADDR_EXPR || !VAR_P(TREE_OPERAND(guard, 0)))
        return;
    const char *name = name_for_assembler(TREE_OPERAND(guard, 0));
    gimple_seq sequence = nullptr;
    varpool_node *variable;
    FOR_EACH_VARIABLE(variable) {
        tree size = DECL_SIZE_UNIT(variable->decl);
        if (size && tree_fits_shwi_p(size) && statics_have(name, name_for_assembler(variable->decl)))
            gimple_seq_add_stmt(&sequence, call_hook("__spbags_static", {guard, address_of(variable->decl),
                                                                         number_of(tree_to_shwi(size))}));
    }
    all.put_before(call, sequence);
}

/* A function that is declared to do nothing but compute calls hooks too. */
static void forget_type(gcall *call) {
    if (gimple_call_internal_p(call) || gimple_call_fndecl(call) || !TYPE_READONLY(gimple_call_fntype(call)))
        return;
    gimple_call_set_fntype(call, TYPE_MAIN_VARIANT(gimple_call_fntype(call)));
    update_stmt(call);
}

void find_in_call(accesses &all, gcall *call) {
    forget_type(call);
    if (gimple_call_internal_p(call)) {
        if (gimple_call_internal_fn(call) == IFN_VA_ARG)
            find_next_argument(all, call);
        else if (gimple_call_internal_fn(call) == IFN_ATOMIC_COMPARE_EXCHANGE)
            /* OpenMP's atomic updates. The lowest byte is the size. */
            note_compare(all, call, gimple_call_arg(call, 0), gimple_call_arg(call, 1),
                         number_of(tree_to_shwi(gimple_call_arg(call, 3)) & 255));
    } else if (calls(call, "__spbags_asm_outside")) {
        judge_assembly_outside(call);
    } else if (calls(call, "__cxa_guard_acquire")) {
        note_static(all, call);
    } else if (!find_in_builtin(all, call)) {
        for (unsigned at = 0; at < gimple_call_num_args(call); at++)
            if (!is_gimple_reg_type(TREE_TYPE(gimple_call_arg(call, at))))
                all.note_reference(call, gimple_call_arg(call, at), false, AS_ARGUMENT);
    }
    /* What is given where it is wanted is stored by the function that is called. */
    tree result = gimple_call_lhs(call);
    if (result && gimple_store_p(call) && !gimple_call_return_slot_opt_p(call) && !gimple_call_noreturn_p(call))
        all.note_reference(call, result, true, PLAINLY, true);
}
