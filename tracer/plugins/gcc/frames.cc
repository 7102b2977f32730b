#include "frames.h"

#include "checks.h"

/* Of a header of the C++ library, and not made by the compiler itself. */
static bool is_of_library(tree function) {
    const char *file = DECL_SOURCE_FILE(function);
    return !DECL_ARTIFICIAL(function) && DECL_IN_SYSTEM_HEADER(function) && file && strstr(file, "/include/") &&
           strstr(file, "/c++/");
}

/* As the attribute optimize("inline") does: such functions go into each other. None of them spawns. */
static void allow_inlining(tree function) {
    if (is_of_library(function) && optimize && !DECL_FUNCTION_SPECIFIC_OPTIMIZATION(function)) {
        tree option = build_tree_list(NULL_TREE, build_string(strlen("inline"), "inline"));
        decl_attributes(&function, build_tree_list(get_identifier("optimize"), option), 0);
    }
}

static bool is_of_hooks(tree decl) {
    return decl && DECL_NAME(decl) && begins_with(IDENTIFIER_POINTER(DECL_NAME(decl)), "__spbags_");
}

/* Sees whether a statement is of those that stand for a spawn, a sync or the like. */
static tree see_waiting(gimple_stmt_iterator *at, bool *, walk_stmt_info *info) {
    gimple *statement = gsi_stmt(*at);
    bool waits = is_gimple_call(statement) && is_of_hooks(gimple_call_fndecl(statement));
    gbind *block = dyn_cast<gbind *>(statement);
    for (tree decl = block ? gimple_bind_vars(block) : NULL_TREE; decl; decl = DECL_CHAIN(decl))
        waits |= is_of_hooks(decl);
    *static_cast<bool *>(info->info) |= waits;
    return NULL_TREE;
}

static bool waits(tree function) {
    bool found = false;
    walk_stmt_info info;
    memset(&info, 0, sizeof info);
    info.info = &found;
    walk_gimple_seq(gimple_body(function), see_waiting, nullptr, &info);
    return found;
}

/* A function that waits for its children is no part of its caller. Others may have to be one: the compiler knows only
   then that what they get is a constant. */
static void forbid_inlining(tree function) {
    if (DECL_IN_SYSTEM_HEADER(function) || !lookup_attribute("always_inline", DECL_ATTRIBUTES(function)) ||
        !waits(function))
        return;
    DECL_ATTRIBUTES(function) = remove_attribute("always_inline", DECL_ATTRIBUTES(function));
    DECL_DISREGARD_INLINE_LIMITS(function) = 0;
}

/* As gcc itself does for -fsanitize=thread: so the mark is known to all that deals with the code. */
void frames_mark(function *fun) {
    allow_inlining(fun->decl);
    forbid_inlining(fun->decl);
    gcall *mark = gimple_build_call_internal(IFN_TSAN_FUNC_EXIT, 0);
    gimple *whole = gimple_build_try(gimple_body(fun->decl), mark, GIMPLE_TRY_FINALLY);
    gimple_seq sequence = nullptr;
    gimple_seq_add_stmt(&sequence, gimple_build_bind(NULL_TREE, whole, NULL_TREE));
    gimple_set_body(fun->decl, sequence);
}

/* What matters of a function. */
struct found {
    std::vector<gimple *> exits;
    bool does_something;
};

static found found_in(function *fun) {
    found all = {{}, false};
    basic_block block;
    FOR_EACH_BB_FN (block, fun)
        for (gimple_stmt_iterator at = gsi_start_bb(block); !gsi_end_p(at); gsi_next(&at)) {
            gimple *statement = gsi_stmt(at);
            if (gimple_call_internal_p(statement, IFN_TSAN_FUNC_EXIT))
                all.exits.push_back(statement);
            else if (gimple_code(statement) == GIMPLE_ASM)
                all.does_something = true;
            else if (is_gimple_call(statement))
                all.does_something |= !gimple_call_internal_p(statement);
        }
    return all;
}

void frames_put(function *fun) {
    found all = found_in(fun);
    for (gimple *exit : all.exits) {
        gimple_stmt_iterator at = gsi_for_stmt(exit);
        if (all.does_something)
            gsi_insert_seq_before(&at, check_of_exit(fun->function_end_locus), GSI_SAME_STMT);
        unlink_stmt_vdef(exit);
        gsi_remove(&at, true);
    }
    if (!all.does_something)
        return;
    basic_block first = split_edge(single_succ_edge(ENTRY_BLOCK_PTR_FOR_FN(fun)));
    gimple_stmt_iterator at = gsi_start_bb(first);
    gsi_insert_seq_before(&at, check_of_entry(DECL_SOURCE_LOCATION(fun->decl)), GSI_SAME_STMT);
}
