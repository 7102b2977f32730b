#include "plain.h"

static const char ASKS[] = "__spbags_is_plain";
bool plain_is_asked;

/* What plain functions name, all by their numbers. Those that touch more name one that isn't here; and so do those that
   compute addresses, by a number of its own. */
enum { TOUCHES_MORE, COMPUTES_ADDRESSES };
typedef std::vector<unsigned> numbers_of_functions;
static std::map<unsigned, numbers_of_functions> plain;

/* Sees a function that is named, and what that names. */
static tree see_function(tree *at, int *, void *named) {
    if (TREE_CODE(*at) == FUNCTION_DECL) {
        static_cast<numbers_of_functions *>(named)->push_back(DECL_UID(*at));
        tree *body = &DECL_SAVED_TREE(*at);
        if (*body && *body != error_mark_node && !plain.count(DECL_UID(*at))) {
            numbers_of_functions &inside = plain[DECL_UID(*at)];
            if (walk_tree_without_duplicates(body, see_function, &inside))
                inside.push_back(TOUCHES_MORE);
        }
    } else if (TREE_CODE(*at) == POINTER_PLUS_EXPR) {
        static_cast<numbers_of_functions *>(named)->push_back(COMPUTES_ADDRESSES);
    }
    bool touches_more = (TREE_CODE(*at) == CALL_EXPR && !get_callee_fndecl(*at)) || TREE_CODE(*at) == ASM_EXPR ||
                        (VAR_P(*at) && is_global_var(*at)) || TREE_CODE(*at) == STRING_CST;
    return touches_more ? *at : NULL_TREE;
}

/* One that names itself is as what else it names. */
static bool are_plain(const numbers_of_functions &named, std::set<unsigned> *seen) {
    return std::all_of(named.begin(), named.end(), [&](unsigned function) {
        auto found = plain.find(function);
        return !seen->insert(function).second || (found != plain.end() && are_plain(found->second, seen));
    });
}

bool plain_is(tree *expression, bool may_compute_addresses) {
    numbers_of_functions named;
    std::set<unsigned> seen;
    if (may_compute_addresses)
        seen.insert(COMPUTES_ADDRESSES);
    return !walk_tree_without_duplicates(expression, see_function, &named) && !named.empty() && are_plain(named, &seen);
}

static tree answer_call(gimple_stmt_iterator *at, bool *, walk_stmt_info *) {
    gimple *call = gsi_stmt(*at);
    tree callee = is_gimple_call(call) ? gimple_call_fndecl(call) : NULL_TREE, asked = gimple_get_lhs(call);
    if (callee && asked && DECL_NAME(callee) && id_equal(DECL_NAME(callee), ASKS)) {
        bool is_plain = plain_is(gimple_call_arg_ptr(call, 0), false);
        gsi_replace(at, gimple_build_assign(asked, build_int_cst(TREE_TYPE(asked), is_plain)), false);
    }
    return NULL_TREE;
}

void plain_put(function *fun) {
    walk_stmt_info info;
    memset(&info, 0, sizeof info);
    gimple_seq body = gimple_body(fun->decl);
    walk_gimple_seq_mod(&body, answer_call, nullptr, &info);
    gimple_set_body(fun->decl, body);
}

static void read_function(void *function, void *) {
    tree decl = static_cast<tree>(function);
    numbers_of_functions named;
    if (plain_is_asked)
        see_function(&decl, nullptr, &named);
}

static void read_name(void *given, void *) {
    tree name = DECL_NAME(static_cast<tree>(given));
    plain_is_asked |= name && id_equal(name, ASKS);
}

void plain_begin(const char *plugin) {
    register_callback(plugin, PLUGIN_FINISH_DECL, read_name, nullptr);
    register_callback(plugin, PLUGIN_PRE_GENERICIZE, read_function, nullptr);
}
