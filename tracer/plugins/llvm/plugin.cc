/* A plugin of clang that puts the tracer's hooks into the code of a program: beside each load and store of its text, and
   at each function's entry and exit. clang loads it by -fpass-plugin, and by -Xclang -load too before -mllvm
   -spbags-checks: then tests stand inline, and without that hooks are called.

   accesses.h puts the hooks of accesses before any optimization; at last own.h drops those of what turns out to be a
   function's alone, ranges.h makes one of those of a loop, frames.h puts those of entry and exit, and checks.h tests in
   place of calls. */
#include "accesses.h"
#include "checks.h"
#include "frames.h"
#include "names.h"
#include "own.h"
#include "ranges.h"

#include "llvm/Passes/PassBuilder.h"
#include "llvm/Passes/PassPlugin.h"

using namespace llvm;

static bool is_traced(const Function &function) {
    return !function.isDeclaration() && !function.hasFnAttribute(Attribute::Naked);
}

/* Whatever is said of what a function reads and writes, it calls hooks: so no call of it is needless. */
template <class Code> static void forget_memory(Code &code) {
#if LLVM_VERSION_MAJOR >= 16
    code.removeFnAttr(Attribute::Memory);
#else
    for (auto kind : {Attribute::ReadNone, Attribute::ReadOnly, Attribute::WriteOnly, Attribute::ArgMemOnly,
                      Attribute::InaccessibleMemOnly, Attribute::InaccessibleMemOrArgMemOnly})
        code.removeFnAttr(kind);
#endif
}

/* Nor does a call say that the function goes into its caller, as the attribute `flatten` has it. */
static void forget_attributes_of_calls(Function &function) {
    for (Instruction &one : instructions(function))
        if (auto *call = dyn_cast<CallBase>(&one); call && !isa<IntrinsicInst>(call) && !call->isInlineAsm()) {
            forget_memory(*call);
            call->removeFnAttr(Attribute::AlwaysInline);
        }
}

class early : public PassInfoMixin<early> {
  public:
    static bool isRequired() { return true; }
    PreservedAnalyses run(Module &module, ModuleAnalysisManager &) {
        names_put(module);
        std::vector<Function *> all;
        for (Function &function : module)
            if (!function.isIntrinsic())
                all.push_back(&function);
        for (Function *function : all) {
            forget_memory(*function);
            forget_attributes_of_calls(*function);
        }
        for (Function *function : all)
            if (is_traced(*function))
                accesses(*function).put();
        return PreservedAnalyses::none();
    }
};

class late : public PassInfoMixin<late> {
  public:
    static bool isRequired() { return true; }
    PreservedAnalyses run(Module &module, ModuleAnalysisManager &analyses) {
        auto &of_functions = analyses.getResult<FunctionAnalysisManagerModuleProxy>(module).getManager();
        checks_begin(module);
        for (Function &function : module)
            if (is_traced(function)) {
                own_drop(function);
                if (!function.hasOptNone())
                    ranges_put(function, of_functions);
                frames_put(function);
                of_functions.invalidate(function, PreservedAnalyses::none());
                checks_put(function, of_functions.getResult<BlockFrequencyAnalysis>(function));
            }
        return PreservedAnalyses::none();
    }
};

static void put_passes(PassBuilder &builder) {
    builder.registerPipelineStartEPCallback([](ModulePassManager &passes, auto...) { passes.addPass(early()); });
    builder.registerOptimizerLastEPCallback([](ModulePassManager &passes, auto...) { passes.addPass(late()); });
}

extern "C" LLVM_ATTRIBUTE_WEAK PassPluginLibraryInfo llvmGetPassPluginInfo() {
    return {LLVM_PLUGIN_API_VERSION, "spbags", LLVM_VERSION_STRING, put_passes};
}
