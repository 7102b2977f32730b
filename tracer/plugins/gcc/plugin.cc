/* A plugin of gcc that puts the tracer's hooks into the code of a program: beside each load and store of its text, and
   at each function's entry and exit. gcc loads it by -fplugin; by -fplugin-arg-spbags-checks tests stand inline,
   without it hooks are called.

   Each function goes through passes: reducers.h puts the hooks of reducers there, lives.h those of what iterations have
   of their own, and plain.h answers what headers ask;
   frames.h marks the ways out; accesses.h puts the hooks of accesses before any optimization; checks.h drops those of
   what turns out to be the function's alone; at last ranges.h makes one of those of a loop, and checks.h puts tests in
   place of calls. */
#include "accesses.h"
#include "checks.h"
#include "frames.h"
#include "lives.h"
#include "plain.h"
#include "ranges.h"
#include "reducers.h"

int plugin_is_GPL_compatible;

/* The tracer's own headers have functions that need no hooks. */
static const char UNTRACED[] = "spbags_untraced";

static void register_untraced(void *, void *) {
    static const attribute_spec specification = {UNTRACED, 0, 0, true, false, false, false, nullptr, nullptr};
    register_attribute(&specification);
}

static bool is_traced(function *fun) {
    tree attributes = DECL_ATTRIBUTES(fun->decl);
    return !lookup_attribute(UNTRACED, attributes) && !lookup_attribute("naked", attributes) && !fun->is_thunk;
}

/* A call of a function of the program that is declared to do nothing but read is a call like others: else the compiler
   leaves out one whose result nobody uses. */
static void read_declaration(void *given, void *) {
    tree decl = static_cast<tree>(given);
    if (TREE_CODE(decl) != FUNCTION_DECL || fndecl_built_in_p(decl) || DECL_IN_SYSTEM_HEADER(decl))
        return;
    DECL_PURE_P(decl) = 0;
    TREE_READONLY(decl) = 0;
}

static bool is_by_pointer(tree call) {
    tree pointer = CALL_EXPR_FN(call) ? TREE_TYPE(CALL_EXPR_FN(call)) : NULL_TREE;
    return pointer && POINTER_TYPE_P(pointer) && TYPE_READONLY(TREE_TYPE(pointer)) && !get_callee_fndecl(call);
}

/* The same where the call is by a pointer of such a type. Whether one is in this expression, which is needed then. */
static bool read_calls(tree expression, std::set<tree> *seen) {
    bool found = false;
    if (!expression || !(EXPR_P(expression) || TREE_CODE(expression) == STATEMENT_LIST) ||
        !seen->insert(expression).second)
        return false;
    if (TREE_CODE(expression) == STATEMENT_LIST)
        for (tree_stmt_iterator at = tsi_start(expression); !tsi_end_p(at); tsi_next(&at))
            found |= read_calls(tsi_stmt(at), seen);
    else
        for (int number = 0; number < TREE_OPERAND_LENGTH(expression); number++)
            found |= read_calls(TREE_OPERAND(expression, number), seen);
    found |= TREE_CODE(expression) == CALL_EXPR && is_by_pointer(expression);
    if (found)
        TREE_SIDE_EFFECTS(expression) = 1;
    return found;
}

static void read_body(void *given, void *) {
    std::set<tree> seen;
    read_calls(DECL_SAVED_TREE(static_cast<tree>(given)), &seen);
}

/* A compiler that puts an inline function of C into its callers needs no other definition of it. Here it has one, which
   gives way to another; but not in a system's header, where its code may differ from that. */
static void define_inline(void *, void *) {
    cgraph_node *node;
    FOR_EACH_FUNCTION_WITH_GIMPLE_BODY(node)
    if (DECL_EXTERNAL(node->decl) && DECL_DECLARED_INLINE_P(node->decl) && !lang_GNU_CXX() && !flag_gnu89_inline &&
        !lookup_attribute("gnu_inline", DECL_ATTRIBUTES(node->decl)) && !DECL_IN_SYSTEM_HEADER(node->decl)) {
        DECL_EXTERNAL(node->decl) = 0;
        DECL_WEAK(node->decl) = 1;
    }
}

static unsigned put_reducers(function *fun) {
    if (plain_is_asked)
        plain_put(fun);
    reducers_put(fun);
    lives_put(fun);
    return 0;
}

static unsigned mark_frames(function *fun) {
    frames_mark(fun);
    return 0;
}

static unsigned put_accesses(function *fun) {
    accesses all(fun);
    all.find();
    all.put();
    return TODO_update_ssa | TODO_cleanup_cfg;
}

static unsigned drop_own(function *fun) {
    return checks_drop_own(fun) ? TODO_update_ssa | TODO_update_address_taken : 0;
}

static unsigned put_checks(function *fun) {
    if (optimize) {
        checks_drop_own(fun);
        ranges_put(fun);
    }
    checks_put(fun);
    frames_put(fun);
    return TODO_update_ssa | TODO_cleanup_cfg;
}

static unsigned keep_stack(function *fun) {
    checks_keep_stack(fun);
    return 0;
}

/* One of the passes, and where it stands. */
struct place {
    const char *name, *beside;
    pass_positioning_ops where;
    int instance;
    unsigned properties;
    unsigned (*does)(function *fun);
    enum { ALWAYS, OPTIMIZING, NOT_OPTIMIZING } when;
};
static const place places[] = {
    {"spbags_reducers", "omplower", PASS_POS_INSERT_BEFORE, 1, PROP_gimple_any, put_reducers, place::ALWAYS},
    {"spbags_frames", "lower", PASS_POS_INSERT_BEFORE, 1, PROP_gimple_any, mark_frames, place::ALWAYS},
    /* Behind the compiler's early warnings, which hooks would mislead. */
    {"spbags_accesses", "nothrow", PASS_POS_INSERT_BEFORE, 1, PROP_ssa | PROP_cfg, put_accesses, place::ALWAYS},
    /* Once it is known what pointers point to. This stands in place of a pass that has a function store its result where
       the text has its caller store it. */
    {"spbags_own", "retslot", PASS_POS_REPLACE, 1, PROP_ssa | PROP_cfg, drop_own, place::OPTIMIZING},
    /* Where the sanitizer's passes stand: there are several courses through the others. */
    {"spbags_checks", "tsan", PASS_POS_INSERT_BEFORE, 0, PROP_ssa | PROP_cfg, put_checks, place::OPTIMIZING},
    {"spbags_checks", "tsan0", PASS_POS_INSERT_BEFORE, 1, PROP_ssa | PROP_cfg, put_checks, place::NOT_OPTIMIZING},
    {"spbags_stack", "expand", PASS_POS_INSERT_AFTER, 1, PROP_rtl, keep_stack, place::ALWAYS}};

static pass_data data_of(const place &where) {
    opt_pass_type type = where.properties == PROP_rtl ? RTL_PASS : GIMPLE_PASS;
    return {type, where.name, OPTGROUP_NONE, TV_NONE, where.properties, 0, 0, 0, 0};
}

class pass : public opt_pass {
  public:
    explicit pass(const place &where) : opt_pass(data_of(where), g), where(where) {}
    opt_pass *clone() final override { return new pass(where); }
    bool gate(function *fun) final override {
        bool is_wanted = where.when == place::ALWAYS || (where.when == place::OPTIMIZING) == (optimize > 0);
        return is_wanted && is_traced(fun);
    }
    unsigned execute(function *fun) final override { return where.does(fun); }

  private:
    const place &where;
};

int plugin_init(plugin_name_args *given, plugin_gcc_version *version) {
    if (!plugin_default_version_check(version, &gcc_version)) {
        error("the plugin is for gcc %s", gcc_version.basever);
        return 1;
    }
    for (int at = 0; at < given->argc; at++) {
        if (strcmp(given->argv[at].key, "checks") == 0)
            checks_begin(given->base_name);
        lives_are_wanted |= strcmp(given->argv[at].key, "lives") == 0;
    }
    hooks_begin(given->base_name);
    plain_begin(given->base_name);
    reducers_begin(given->base_name);
    register_callback(given->base_name, PLUGIN_ATTRIBUTES, register_untraced, nullptr);
    register_callback(given->base_name, PLUGIN_FINISH_DECL, read_declaration, nullptr);
    register_callback(given->base_name, PLUGIN_FINISH_PARSE_FUNCTION, read_declaration, nullptr);
    register_callback(given->base_name, PLUGIN_PRE_GENERICIZE, read_body, nullptr);
    register_callback(given->base_name, PLUGIN_ALL_IPA_PASSES_START, define_inline, nullptr);
    for (const place &where : places) {
        register_pass_info made = {new pass(where), where.beside, where.instance, where.where};
        register_callback(given->base_name, PLUGIN_PASS_MANAGER_SETUP, nullptr, &made);
    }
    return 0;
}
