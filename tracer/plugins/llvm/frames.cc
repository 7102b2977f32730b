#include "frames.h"

#include "llvm/Transforms/Utils/EscapeEnumerator.h"

#include "checks.h"

using namespace llvm;

static bool calls_something(Function &function) {
    for (Instruction &one : instructions(function))
        if (auto *call = dyn_cast<CallBase>(&one);
            call && !isa<DbgInfoIntrinsic>(call) && !call->isLifetimeStartOrEnd())
            return true;
    return false;
}

void frames_put(Function &function) {
    if (!calls_something(function))
        return;
    EscapeEnumerator ways_out(function, "spbags_exit");
    while (IRBuilder<> *way_out = ways_out.Next())
        check_of_exit(&*way_out->GetInsertPoint());
    check_of_entry(&*function.getEntryBlock().getFirstInsertionPt());
}
