#include "lives.h"

bool lives_are_wanted;

typedef std::vector<tree> variables;

/* Of a part of a function: the variables of its blocks, and what it hands over to tasks. */
struct part {
    variables all;
    std::set<tree> handed;
};
/* How often statements name each variable that the compiler made for a value. */
typedef std::map<tree, unsigned> mentions;

static bool has_place(tree variable) {
    return VAR_P(variable) && auto_var_p(variable) && !DECL_HAS_VALUE_EXPR_P(variable) && DECL_SIZE_UNIT(variable) &&
           tree_fits_shwi_p(DECL_SIZE_UNIT(variable));
}

static void find_handed(const gimple *task, std::set<tree> *handed) {
    for (tree clause = gimple_omp_task_clauses(task); clause; clause = OMP_CLAUSE_CHAIN(clause))
        if (OMP_CLAUSE_CODE(clause) == OMP_CLAUSE_FIRSTPRIVATE || OMP_CLAUSE_CODE(clause) == OMP_CLAUSE_SHARED)
            handed->insert(OMP_CLAUSE_DECL(clause));
}

/* What becomes a function has variables of its own. */
static tree find_variables(gimple_stmt_iterator *at, bool *is_done, walk_stmt_info *info) {
    gimple *statement = gsi_stmt(*at);
    part *all = static_cast<part *>(info->info);
    gbind *block = dyn_cast<gbind *>(statement);
    for (tree variable = block ? gimple_bind_vars(block) : NULL_TREE; variable; variable = DECL_CHAIN(variable))
        all->all.push_back(variable);
    if (gimple_code(statement) == GIMPLE_OMP_TASK)
        find_handed(statement, &all->handed);
    *is_done = gimple_code(statement) == GIMPLE_OMP_TASK || gimple_code(statement) == GIMPLE_OMP_PARALLEL;
    return NULL_TREE;
}

static tree count_mention(tree *operand, int *, void *with) {
    if (VAR_P(*operand) && DECL_ARTIFICIAL(*operand) && !DECL_NAME(*operand))
        ++(*static_cast<mentions *>(static_cast<walk_stmt_info *>(with)->info))[*operand];
    return NULL_TREE;
}

template <class All> static All walked(gimple_seq body, walk_stmt_fn statement, walk_tree_fn operand) {
    All all;
    walk_stmt_info info;
    memset(&info, 0, sizeof info);
    info.info = &all;
    walk_gimple_seq(body, statement, operand, &info);
    return all;
}

/* Those in memory that have their lives in this part of a function: its own, and values that are named nowhere else. A
   task is handed the address of what is no number. */
static variables ending_in(gimple_seq body, const mentions &everywhere) {
    part all = walked<part>(body, find_variables, nullptr);
    for (auto [variable, count] : walked<mentions>(body, nullptr, count_mention))
        if (everywhere.at(variable) == count && std::find(all.all.begin(), all.all.end(), variable) == all.all.end())
            all.all.push_back(variable);
    variables ending;
    std::copy_if(all.all.begin(), all.all.end(), std::back_inserter(ending), [&](tree variable) {
        bool is_handed = all.handed.count(variable) > 0 && !is_gimple_reg_type(TREE_TYPE(variable));
        return has_place(variable) && (TREE_ADDRESSABLE(variable) || is_handed);
    });
    return ending;
}

static bool has_parts(const gimple *statement) {
    return gimple_code(statement) == GIMPLE_OMP_SECTION ||
           (gimple_code(statement) == GIMPLE_OMP_FOR && gimple_omp_for_kind(statement) == GF_OMP_FOR_KIND_FOR);
}

/* A task would get a copy of a number that it shares and only reads: then no hook sees who else writes the number. */
static void share_numbers(const gimple *task) {
    for (tree clause = gimple_omp_task_clauses(task); clause; clause = OMP_CLAUSE_CHAIN(clause))
        if (OMP_CLAUSE_CODE(clause) == OMP_CLAUSE_SHARED)
            OMP_CLAUSE_SHARED_READONLY(clause) = 0;
}

static tree end_lives(gimple_stmt_iterator *at, bool *, walk_stmt_info *info) {
    gimple *statement = gsi_stmt(*at);
    if (gimple_code(statement) == GIMPLE_OMP_TASK)
        share_numbers(statement);
    if (!has_parts(statement))
        return NULL_TREE;
    gimple_seq hooks = nullptr;
    for (tree variable : ending_in(gimple_omp_body(statement), *static_cast<mentions *>(info->info)))
        gimple_seq_add_stmt(&hooks, call_hook("__spbags_dies", {address_of(variable),
                                                                number_of(tree_to_shwi(DECL_SIZE_UNIT(variable)))}));
    locate(hooks, gimple_location(statement));
    gimple_seq_add_seq(gimple_omp_body_ptr(statement), hooks);
    return NULL_TREE;
}

void lives_put(function *fun) {
    if (!lives_are_wanted)
        return;
    mentions everywhere = walked<mentions>(gimple_body(fun->decl), nullptr, count_mention);
    walk_stmt_info info;
    memset(&info, 0, sizeof info);
    info.info = &everywhere;
    walk_gimple_seq(gimple_body(fun->decl), end_lives, nullptr, &info);
}
