#include "checks.h"

#include "llvm/Support/CommandLine.h"

#include "../inline_checks.h"

using namespace llvm;

/* The entry of a function is run more than so many times as often as a block that is cold. */
enum { COLD = 16 };

static cl::opt<bool> are_wanted("spbags-checks", cl::desc("Tests stand inline"));

void checks_begin(Module &module) {
    if (!are_wanted)
        return;
    /* What may become a part of a shared library has addresses in a table. */
    bool is_shared = module.getPICLevel() != PICLevel::NotPIC && module.getPIELevel() == PIELevel::Default;
    std::string text = is_shared ? "\t.set __spbags_is_shared, 1\n" : "";
    module.setModuleInlineAsm(text + inline_checks + module.getModuleInlineAsm());
}

/* All that a call changes: the text calls the hook where the test doesn't do. */
static std::string changed_by_calls(const Function &function) {
    std::string made = "~{rax},~{rcx},~{rdx},~{rsi},~{r8},~{r9},~{r10},~{r11},~{dirflag},~{fpsr},~{flags}";
    bool is_wide = function.getFnAttribute("target-features").getValueAsString().contains("+avx512f");
    for (int number = 0; number < (is_wide ? 32 : 16); number++)
        made += ",~{xmm" + std::to_string(number) + "}";
    for (int number = 0; number < 8 && is_wide; number++)
        made += ",~{k" + std::to_string(number) + "}";
    return made;
}

/* A statement with this text, which gets an address in %rdi, where the stack is as for a call. */
static CallInst *test(Instruction *before, StringRef text, Value *address) {
    Type *type = address->getType();
    std::string constraints = "={di},0," + changed_by_calls(*before->getFunction());
    InlineAsm *made = InlineAsm::get(FunctionType::get(type, {type}, false), text, constraints, true, true);
    CallInst *call = IRBuilder<>(before).CreateCall(made, {address});
    call->setDoesNotThrow();
    return call;
}

/* Whether a block is run so seldom, by the program's own word or by what it leads to, that a call does as well. */
static bool is_cold(const BasicBlock *block, const BlockFrequencyInfo &frequencies) {
    return frequencies.getBlockFreq(block) < BlockFrequency(frequencies.getEntryFreq()) * BranchProbability(1, COLD);
}

void checks_put(Function &function, const BlockFrequencyInfo &frequencies) {
    static const std::map<StringRef, StringRef> tests = {{"__tsan_read4", "\t__spbags_read 4"},
                                                         {"__tsan_read8", "\t__spbags_read 8"},
                                                         {"__tsan_write4", "\t__spbags_write 4"},
                                                         {"__tsan_write8", "\t__spbags_write 8"}};
    std::vector<CallInst *> replaced;
    for (Instruction &one : instructions(function))
        if (are_wanted && tests.count(called_hook(one)) > 0 && !is_cold(one.getParent(), frequencies))
            replaced.push_back(cast<CallInst>(&one));
    for (CallInst *call : replaced) {
        test(call, tests.at(called_hook(*call)), call->getArgOperand(0))->setDebugLoc(call->getDebugLoc());
        call->eraseFromParent();
    }
}

/* It gets the frame pointer, so that it stands behind what sets that: the compiler may put what needs no frame before. */
static void put(Instruction *before, StringRef text, StringRef hook, ArrayRef<Value *> arguments,
                const DebugLoc &where) {
    CallInst *call;
    if (are_wanted) {
        IRBuilder<> builder(before);
        Type *pointer = pointer_type(before->getContext());
        Value *frame = builder.CreateIntrinsic(Intrinsic::frameaddress, {pointer}, {builder.getInt32(0)});
        call = test(before, text, frame);
    } else
        call = call_hook(before, hook, arguments);
    call->setDebugLoc(where);
}

void check_of_entry(Instruction *before) {
    DISubprogram *program = before->getFunction()->getSubprogram();
    DebugLoc where;
    if (program)
        where = DILocation::get(before->getContext(), program->getLine(), 0, program);
    put(before, "\t__spbags_entry", "__tsan_func_entry", {ConstantPointerNull::get(pointer_type(before->getContext()))},
        where);
}

void check_of_exit(Instruction *before) {
    DebugLoc where = before->getDebugLoc();
    if (DISubprogram *program = before->getFunction()->getSubprogram(); program && !where)
        where = DILocation::get(before->getContext(), 0, 0, program);
    put(before, "\t__spbags_exit", "__tsan_func_exit", {}, where);
}
