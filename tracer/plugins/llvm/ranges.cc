#include "ranges.h"

#include "llvm/ADT/PostOrderIterator.h"
#include "llvm/Analysis/LoopInfo.h"
#include "llvm/Analysis/ScalarEvolution.h"
#include "llvm/Analysis/ScalarEvolutionExpressions.h"
#include "llvm/IR/Dominators.h"
#include "llvm/Transforms/Utils/LoopSimplify.h"
#include "llvm/Transforms/Utils/ScalarEvolutionExpander.h"

using namespace llvm;

/* The calls of a hook: of accesses of so many bytes at START and, in each dimension, at so many steps from there. */
struct range {
    CallInst *hook;
    uint64_t size;
    bool writes;
    const SCEV *start;
    std::vector<const SCEV *> steps, counts;
    /* The loop that the hook is in, and the one behind which the range is noted. */
    Loop *within, *behind;
};

/* The bytes of an access whose hook this instruction calls, or 0. */
static uint64_t size_of_access(const Instruction &one, bool *writes) {
    StringRef name = called_hook(one);
    *writes = begins_with(name, "__tsan_write");
    if (!*writes && !begins_with(name, "__tsan_read"))
        return 0;
    auto &call = cast<CallInst>(one);
    if (call.arg_size() == 1)
        return std::stoul(name.substr(strlen(*writes ? "__tsan_write" : "__tsan_read")).str());
    auto *size = dyn_cast<ConstantInt>(call.getArgOperand(1));
    return size ? size->getZExtValue() : 0;
}

/* Nothing there ends a strand or throws: no access but those of hooks is told of. */
static bool stays_in_strand(const Instruction &one) {
    bool writes;
    auto *call = dyn_cast<CallBase>(&one);
    if (!call || one.isAtomic())
        return !one.isAtomic();
    return isa<DbgInfoIntrinsic>(call) || call->isLifetimeStartOrEnd() || size_of_access(one, &writes) > 0 ||
           (isa<IntrinsicInst>(call) && call->doesNotAccessMemory() && call->doesNotThrow());
}

class ranges {
  public:
    ranges(Function &function, FunctionAnalysisManager &analyses)
        : function(function), loops(analyses.getResult<LoopAnalysis>(function)),
          dominators(analyses.getResult<DominatorTreeAnalysis>(function)),
          values(analyses.getResult<ScalarEvolutionAnalysis>(function)),
          number(Type::getInt64Ty(function.getContext())) {}
    void find();
    void put();

  private:
    Function &function;
    LoopInfo &loops;
    DominatorTree &dominators;
    ScalarEvolution &values;
    Type *const number;
    std::vector<range> all;

    bool is_counted(Loop *loop);
    bool is_known_before(const SCEV *value, Loop *loop);
    const SCEV *runs(Loop *loop, BasicBlock *block);
    bool add_dimension(range *what, Loop *loop, BasicBlock *block);
    void add(Loop *loop, const std::vector<CallInst *> &hooks);
    void put(const range &what, Instruction *before);
};

/* One with one exit that is taken after a known number of runs. */
bool ranges::is_counted(Loop *loop) {
    for (BasicBlock *block : loop->blocks())
        if (!all_of(*block, stays_in_strand))
            return false;
    const SCEV *count = values.getBackedgeTakenCount(loop);
    return loop->isLoopSimplifyForm() && loop->getExitingBlock() && loop->getExitBlock() &&
           !isa<SCEVCouldNotCompute>(count) && values.getTypeSizeInBits(count->getType()) <= 64;
}

/* How often a block is run whose every iteration runs it, or null. */
const SCEV *ranges::runs(Loop *loop, BasicBlock *block) {
    BasicBlock *exiting = loop->getExitingBlock();
    if (!dominators.dominates(block, loop->getLoopLatch()))
        return nullptr;
    /* In 64 bits, since in its own type one more may be 0. */
    const SCEV *latches = values.getNoopOrZeroExtend(values.getBackedgeTakenCount(loop), number);
    if (dominators.dominates(block, exiting))
        return values.getAddExpr(latches, values.getOne(number));
    return dominators.dominates(exiting, block) ? latches : nullptr;
}

/* Whether a value is the same in all iterations, and can be computed outside. */
bool ranges::is_known_before(const SCEV *value, Loop *loop) {
#if LLVM_VERSION_MAJOR >= 15
    SCEVExpander expander(values, function.getParent()->getDataLayout(), "spbags");
    return values.isLoopInvariant(value, loop) && expander.isSafeToExpand(value);
#else
    return values.isLoopInvariant(value, loop) && isSafeToExpand(value, values);
#endif
}

/* Makes a range, which a block of the loop makes, one of all the loop's iterations, if it can. */
bool ranges::add_dimension(range *what, Loop *loop, BasicBlock *block) {
    enum { MOST_DIMENSIONS = 3 };
    const SCEV *start = what->start, *step = values.getZero(number), *count = runs(loop, block);
    auto *grows = dyn_cast<SCEVAddRecExpr>(start);
    if (grows && grows->getLoop() == loop && grows->isAffine()) {
        start = grows->getStart();
        step = values.getNoopOrSignExtend(grows->getStepRecurrence(values), number);
    }
    auto is_fixed = [&](const SCEV *value) { return is_known_before(value, loop); };
    if (!count || what->steps.size() == MOST_DIMENSIONS || !is_fixed(start) || !is_fixed(step) || !is_fixed(count) ||
        !all_of(what->steps, is_fixed) || !all_of(what->counts, is_fixed))
        return false;
    what->start = start;
    what->steps.push_back(step);
    what->counts.push_back(count);
    what->behind = loop;
    return true;
}

/* All hooks of a loop that stand in no inner one, or none: their order stays that of the program. */
void ranges::add(Loop *loop, const std::vector<CallInst *> &hooks) {
    size_t first = all.size();
    for (CallInst *hook : hooks) {
        range made = {hook, 0, false, values.getSCEV(hook->getArgOperand(0)), {}, {}, loop, loop};
        made.size = size_of_access(*hook, &made.writes);
        if (!add_dimension(&made, loop, hook->getParent())) {
            all.resize(first);
            return;
        }
        all.push_back(made);
    }
}

void ranges::find() {
    std::map<Loop *, std::vector<CallInst *>> hooks;
    bool writes;
    for (BasicBlock *block : ReversePostOrderTraversal<Function *>(&function))
        for (Instruction &one : *block)
            if (Loop *loop = loops.getLoopFor(block); loop && size_of_access(one, &writes) > 0)
                hooks[loop].push_back(cast<CallInst>(&one));
    /* Inner loops come first, and those beside each other in the order of the program. */
    auto inner_last = loops.getLoopsInReverseSiblingPreorder();
    for (Loop *loop : reverse(inner_last)) {
        if (!is_counted(loop))
            continue;
        for (range &what : all)
            if (what.behind->getParentLoop() == loop)
                add_dimension(&what, loop, what.behind->getLoopPreheader());
        add(loop, hooks[loop]);
    }
}

void ranges::put(const range &what, Instruction *before) {
    Module &module = *function.getParent();
    SCEVExpander expander(values, module.getDataLayout(), "spbags", false);
    Type *pointer = pointer_type(module.getContext());
    std::vector<Value *> given = {expander.expandCodeFor(what.start, pointer, before), number_of(module, what.size)};
    for (size_t at = 0; at < what.steps.size(); at++)
        for (const SCEV *value : {what.steps[at], what.counts[at]})
            given.push_back(expander.expandCodeFor(value, number, before));
    std::string name = what.writes ? "__spbags_write_range" : "__spbags_read_range";
    call_hook(before, name + std::to_string(what.steps.size()), given)->setDebugLoc(what.hook->getDebugLoc());
}

/* Whether one hook costs less than one for each element: these touch each other, or there are several loops. */
static bool is_worth_it(const range &what) {
    auto *step = dyn_cast<SCEVConstant>(what.steps[0]);
    return what.steps.size() > 1 || (step && step->getAPInt().abs().ule(what.size));
}

/* Those of a loop of which all are worth it, behind the loops, each loop's in the order of the program. */
void ranges::put() {
    std::map<Loop *, bool> wanted;
    for (const range &what : all)
        wanted.emplace(what.within, true).first->second &= is_worth_it(what);
    std::map<BasicBlock *, Instruction *> places;
    for (const range &what : all) {
        BasicBlock *exit = what.behind->getExitBlock();
        if (wanted[what.within])
            put(what, places.emplace(exit, &*exit->getFirstInsertionPt()).first->second);
    }
    for (const range &what : all)
        if (wanted[what.within])
            what.hook->eraseFromParent();
}

void ranges_put(Function &function, FunctionAnalysisManager &analyses) {
    analyses.invalidate(function, PreservedAnalyses::none());
    auto &loops = analyses.getResult<LoopAnalysis>(function);
    if (loops.empty())
        return;
    std::vector<Loop *> outer(loops.begin(), loops.end());
    for (Loop *loop : outer)
        simplifyLoop(loop, &analyses.getResult<DominatorTreeAnalysis>(function), &loops,
                     &analyses.getResult<ScalarEvolutionAnalysis>(function), nullptr, nullptr, false);
    ranges all(function, analyses);
    all.find();
    all.put();
}
