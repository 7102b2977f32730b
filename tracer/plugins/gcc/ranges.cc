#include "ranges.h"

#include "cfgloop.h"
#include "tree-data-ref.h"
#include "tree-scalar-evolution.h"
#include "tree-ssa-loop-ivopts.h"
#include "tree-ssa-loop-manip.h"
#include "tree-ssa-loop-niter.h"
#include "tree-ssa-loop.h"

enum { MOST_DIMENSIONS = 3 };

/* The calls of a hook: of accesses of SIZE bytes at START and, in each dimension, at so many steps from there. */
struct range {
    gimple *hook;
    tree start;
    HOST_WIDE_INT size;
    bool writes;
    unsigned dimensions;
    tree steps[MOST_DIMENSIONS], counts[MOST_DIMENSIONS];
    /* The loop that the hook is in, and the one behind which the range is noted. */
    class loop *within, *behind;
};

/* ---- Loops ---- */

/* An access of so many bytes whose hook this statement calls, or 0. */
static HOST_WIDE_INT size_of_access(gimple *statement, bool *writes) {
    const char *name = called_hook(statement);
    *writes = name && begins_with(name, "__tsan_write");
    if (!*writes && !(name && begins_with(name, "__tsan_read")))
        return 0;
    if (gimple_call_num_args(statement) == 1)
        return std::atoi(name + strlen(*writes ? "__tsan_write" : "__tsan_read"));
    tree size = gimple_call_arg(statement, 1);
    return tree_fits_shwi_p(size) ? tree_to_shwi(size) : 0;
}

/* Nothing there ends a strand or throws: no access but those of hooks is told of. */
static bool is_quiet(function *fun, gimple *statement) {
    bool writes;
    if (gimple_code(statement) == GIMPLE_ASM || stmt_could_throw_p(fun, statement))
        return false;
    return !is_gimple_call(statement) || size_of_access(statement, &writes) > 0 ||
           (gimple_call_flags(statement) & (ECF_CONST | ECF_LOOPING_CONST_OR_PURE)) == ECF_CONST;
}

static bool is_quiet(function *fun, basic_block block) {
    edge way;
    edge_iterator ways;
    if (block->flags & BB_IRREDUCIBLE_LOOP)
        return false;
    FOR_EACH_EDGE(way, ways, block->succs)
    if (way->flags & (EDGE_EH | EDGE_ABNORMAL))
        return false;
    for (gimple_stmt_iterator at = gsi_start_bb(block); !gsi_end_p(at); gsi_next(&at))
        if (!is_quiet(fun, gsi_stmt(at)))
            return false;
    return true;
}

/* An expression's value before a loop. */
static tree before(class loop *loop, tree value) {
    if (is_gimple_min_invariant(value))
        return value;
    gimple_seq sequence = nullptr;
    tree made = force_gimple_operand(unshare_expr(value), &sequence, true, NULL_TREE);
    if (sequence)
        gsi_insert_seq_on_edge_immediate(loop_preheader_edge(loop), sequence);
    return made;
}

/* A loop with one exit that is taken after a known number of runs. */
class counted_loop {
  public:
    counted_loop(function *fun, class loop *loop);
    bool is_known() const { return latches != NULL_TREE; }
    /* How often a block is run whose every iteration runs it, or null. */
    tree runs(basic_block block) const;
    std::vector<basic_block> blocks;
    class loop *const loop;

  private:
    edge exit;
    /* How often the end of an iteration is reached, and its start. */
    tree latches, starts;
};

counted_loop::counted_loop(function *fun, class loop *loop)
    : loop(loop), exit(loop->latch ? single_exit(loop) : nullptr), latches(NULL_TREE), starts(NULL_TREE) {
    basic_block *body = get_loop_body_in_dom_order(loop);
    bool is_quiet_loop = true;
    for (unsigned at = 0; at < loop->num_nodes; at++) {
        blocks.push_back(body[at]);
        is_quiet_loop &= is_quiet(fun, body[at]);
    }
    free(body);
    class tree_niter_desc count;
    if (!is_quiet_loop || !exit || !number_of_iterations_exit(loop, exit, &count, false) ||
        !integer_onep(count.assumptions) || TREE_CODE(count.niter) == SCEV_NOT_KNOWN ||
        chrec_contains_undetermined(count.niter))
        return;
    tree known = fold_convert(sizetype, count.niter);
    if (!integer_zerop(count.may_be_zero))
        known = fold_build3(COND_EXPR, sizetype, count.may_be_zero, size_zero_node, known);
    latches = before(loop, known);
    /* In sizetype, since in its own type one more may be 0. */
    starts = before(loop, fold_build2(PLUS_EXPR, sizetype, latches, size_one_node));
}

tree counted_loop::runs(basic_block block) const {
    if (!dominated_by_p(CDI_DOMINATORS, loop->latch, block))
        return NULL_TREE;
    if (dominated_by_p(CDI_DOMINATORS, exit->src, block))
        return starts;
    return dominated_by_p(CDI_DOMINATORS, block, exit->src) ? latches : NULL_TREE;
}

/* ---- Ranges ---- */

/* A value that grows by a step in each iteration, or stays. It doesn't wrap. */
static bool is_affine(class loop *loop, tree value, affine_iv *found) {
    if (is_gimple_min_invariant(value)) {
        found->base = value;
        found->step = size_zero_node;
        return true;
    }
    return simple_iv(loop, loop, value, found, false) && expr_invariant_in_loop_p(loop, found->base) &&
           expr_invariant_in_loop_p(loop, found->step);
}

static bool is_invariant(class loop *loop, tree value, tree *found) {
    affine_iv known;
    if (!is_affine(loop, value, &known) || !integer_zerop(known.step))
        return false;
    *found = known.base;
    return true;
}

/* Whether this is a range in a loop, of which it tells. */
static bool begin_range(const counted_loop &in, gimple *hook, HOST_WIDE_INT size, bool writes, range *made) {
    tree runs = in.runs(gimple_bb(hook));
    affine_iv address;
    if (!runs || !is_affine(in.loop, gimple_call_arg(hook, 0), &address))
        return false;
    *made = {hook, before(in.loop, address.base), size, writes, 1, {}, {}, in.loop, in.loop};
    made->steps[0] = before(in.loop, fold_convert(ssizetype, address.step));
    made->counts[0] = runs;
    return true;
}

/* All hooks of a loop that stand in no inner one, or none: their order stays that of the program. */
static void add_ranges(const counted_loop &in, std::vector<range> *ranges) {
    size_t first = ranges->size();
    for (basic_block block : in.blocks)
        for (gimple_stmt_iterator at = gsi_start_bb(block); !gsi_end_p(at) && block->loop_father == in.loop;
             gsi_next(&at)) {
            bool writes;
            range made;
            HOST_WIDE_INT size = size_of_access(gsi_stmt(at), &writes);
            if (size == 0)
                continue;
            if (!begin_range(in, gsi_stmt(at), size, writes, &made)) {
                ranges->resize(first);
                return;
            }
            ranges->push_back(made);
        }
}

/* Makes a range of a loop one of the loop around it, if it can. */
static void extend(const counted_loop &around, range *what) {
    if (loop_outer(what->behind) != around.loop || what->dimensions == MOST_DIMENSIONS)
        return;
    tree runs = around.runs(loop_preheader_edge(what->behind)->src);
    affine_iv start;
    tree steps[MOST_DIMENSIONS], counts[MOST_DIMENSIONS];
    if (!runs || !is_affine(around.loop, what->start, &start))
        return;
    for (unsigned at = 0; at < what->dimensions; at++)
        if (!is_invariant(around.loop, what->steps[at], &steps[at]) ||
            !is_invariant(around.loop, what->counts[at], &counts[at]))
            return;
    for (unsigned at = 0; at < what->dimensions; at++) {
        what->steps[at] = before(around.loop, steps[at]);
        what->counts[at] = before(around.loop, counts[at]);
    }
    what->start = before(around.loop, start.base);
    what->steps[what->dimensions] = before(around.loop, fold_convert(ssizetype, start.step));
    what->counts[what->dimensions++] = runs;
    what->behind = around.loop;
}

/* Whether one hook costs less than one for each element: these touch each other, or there are several loops. */
static bool is_worth_it(const range &what) {
    return what.dimensions > 1 || (tree_fits_shwi_p(what.steps[0]) &&
                                   absu_hwi(tree_to_shwi(what.steps[0])) <= (unsigned HOST_WIDE_INT)what.size);
}

static gimple_seq hook_of(const range &what) {
    static const char *const names[2][MOST_DIMENSIONS] = {
        {"__spbags_read_range1", "__spbags_read_range2", "__spbags_read_range3"},
        {"__spbags_write_range1", "__spbags_write_range2", "__spbags_write_range3"}};
    gimple_seq sequence = nullptr;
    tree given[2 * MOST_DIMENSIONS];
    for (unsigned at = 0; at < what.dimensions; at++) {
        given[2 * at] = as_number(what.steps[at], &sequence);
        given[2 * at + 1] = as_number(what.counts[at], &sequence);
    }
    const char *name = names[what.writes][what.dimensions - 1];
    tree size = number_of(what.size);
    gcall *call = what.dimensions == 1 ? call_hook(name, {what.start, size, given[0], given[1]})
                  : what.dimensions == 2
                      ? call_hook(name, {what.start, size, given[0], given[1], given[2], given[3]})
                      : call_hook(name, {what.start, size, given[0], given[1], given[2], given[3], given[4], given[5]});
    gimple_seq_add_stmt(&sequence, call);
    locate(sequence, gimple_location(what.hook));
    return sequence;
}

/* Those of a loop of which all are worth it, behind the loops, each loop's in the order of the program. */
static void put(std::vector<range> &ranges) {
    std::map<class loop *, bool> wanted;
    std::map<class loop *, gimple_seq> behind;
    for (const range &what : ranges)
        wanted.emplace(what.within, true).first->second &= is_worth_it(what);
    for (const range &what : ranges) {
        if (!wanted[what.within])
            continue;
        gimple_seq_add_seq(&behind[what.behind], hook_of(what));
        gimple_stmt_iterator at = gsi_for_stmt(what.hook);
        unlink_stmt_vdef(what.hook);
        gsi_remove(&at, true);
    }
    for (auto &one : behind)
        gsi_insert_seq_on_edge_immediate(single_exit(one.first), one.second);
}

void ranges_put(function *fun) {
    loop_optimizer_init(LOOPS_NORMAL | LOOPS_HAVE_RECORDED_EXITS);
    calculate_dominance_info(CDI_DOMINATORS);
    scev_initialize();
    std::vector<class loop *> loops;
    for (unsigned number = 1; number < number_of_loops(fun); number++)
        if (class loop *loop = get_loop(fun, number))
            loops.push_back(loop);
    std::stable_sort(loops.begin(), loops.end(),
                     [](class loop *one, class loop *other) { return loop_depth(one) > loop_depth(other); });
    std::vector<range> ranges;
    for (class loop *loop : loops) {
        counted_loop in(fun, loop);
        if (!in.is_known())
            continue;
        for (range &what : ranges)
            extend(in, &what);
        add_ranges(in, &ranges);
    }
    put(ranges);
    scev_finalize();
    loop_optimizer_finalize();
    free_dominance_info(CDI_DOMINATORS);
}
