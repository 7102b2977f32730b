#include "calls.h"

#include "../statics.h"
#include "assembly.h"
#include "vectors.h"

using namespace llvm;

/* ---- Atomic operations ---- */

/* A call of a library's function `__atomic_NAME`, where the processor has no such operation: of a size that its name
   ends with, or of any, which is the first argument then. */
class atomic_operation {
  public:
    atomic_operation(accesses &all, CallBase *call, StringRef name) : all(all), call(call), name(name.str()) {
        size_t end = this->name.find_last_not_of("0123456789");
        bool is_sized = end != std::string::npos && this->name[end] == '_' && end + 1 < this->name.size();
        size = is_sized ? all.number(std::stoul(this->name.substr(end + 1))) : nullptr;
        if (is_sized)
            this->name.erase(end);
    }
    void find();

  private:
    accesses &all;
    CallBase *call;
    std::string name;
    Value *size;

    bool is(const char *one) const { return name == one; }
    Value *argument(unsigned number) const { return call->getArgOperand(number); }
    void touch(unsigned number, bool writes, way made) const { all.note(call, argument(number), size, writes, made); }
    void find_general();
    void find_sized();
};

/* Its pointers come behind the size. */
void atomic_operation::find_general() {
    size = argument(0);
    if (is("__atomic_compare_exchange")) {
        touch(3, false, PLAINLY);
        touch(2, false, PLAINLY);
        all.note_compare(call, argument(1), argument(2), size, true);
        return;
    }
    bool exchanges = is("__atomic_exchange");
    if (exchanges || is("__atomic_load"))
        touch(1, false, ATOMICALLY);
    if (exchanges || is("__atomic_store"))
        touch(2, false, PLAINLY), touch(1, true, ATOMICALLY);
    if (exchanges)
        touch(3, true, PLAINLY);
    if (is("__atomic_load"))
        touch(2, true, PLAINLY);
}

void atomic_operation::find_sized() {
    if (is("__atomic_compare_exchange")) {
        touch(1, false, PLAINLY);
        all.note_compare(call, argument(0), argument(1), size, true);
        return;
    }
    if (!is("__atomic_store"))
        touch(0, false, ATOMICALLY);
    if (!is("__atomic_load"))
        touch(0, true, ATOMICALLY);
}

void atomic_operation::find() {
    if (size)
        find_sized();
    else if (is("__atomic_load") || is("__atomic_store") || is("__atomic_exchange") || is("__atomic_compare_exchange"))
        find_general();
}

/* ---- Intrinsics ---- */

static void find_in_copy(accesses &all, AnyMemIntrinsic *copy) {
    if (auto *transfer = dyn_cast<AnyMemTransferInst>(copy))
        all.note(copy, transfer->getRawSource(), copy->getLength(), false);
    all.note(copy, copy->getRawDest(), copy->getLength(), true);
}

/* These access nothing, or nothing of the program's. */
static bool is_quiet(const IntrinsicInst *call) {
    static const char *const beginnings[] = {
        "llvm.dbg.",        "llvm.lifetime.",      "llvm.invariant.",     "llvm.eh.",
        "llvm.coro.",       "llvm.stack",          "llvm.assume",         "llvm.prefetch",
        "llvm.va_end",      "llvm.var.annotation", "llvm.ptr.annotation", "llvm.experimental.noalias.scope.decl",
        "llvm.clear_cache", "llvm.trap",           "llvm.debugtrap",      "llvm.instrprof.",
        "llvm.local"};
    for (const char *beginning : beginnings)
        if (begins_with(call->getCalledFunction()->getName(), beginning))
            return true;
    return call->doesNotAccessMemory() || call->onlyAccessesInaccessibleMemory();
}

/* A jump's buffer is five pointers, and a list of arguments three. */
static void find_in_intrinsic(accesses &all, IntrinsicInst *call) {
    uint64_t word = all.layout.getPointerSize();
    Value *jump_buffer = all.number(5 * word), *list = all.number(3 * word);
    switch (call->getIntrinsicID()) {
    case Intrinsic::vastart:
        all.note(call, call->getArgOperand(0), list, true);
        break;
    case Intrinsic::vacopy:
        all.note(call, call->getArgOperand(1), list, false);
        all.note(call, call->getArgOperand(0), list, true);
        break;
    case Intrinsic::lifetime_end:
        all.note_end(call, call->getArgOperand(1), call->getArgOperand(0));
        break;
    case Intrinsic::eh_sjlj_setjmp:
        all.note(call, call->getArgOperand(0), jump_buffer, true);
        break;
    case Intrinsic::eh_sjlj_longjmp:
        all.note(call, call->getArgOperand(0), jump_buffer, false);
        break;
    default:
        if (!is_quiet(call))
            find_in_instruction(all, call);
    }
}

/* ---- Calls ---- */

/* What the call copies for the function. */
static void find_in_arguments(accesses &all, CallBase *call) {
    for (unsigned at = 0; at < call->arg_size(); at++)
        if (call->isByValArgument(at)) {
            Type *type = call->getParamByValType(at);
            all.note(call, call->getArgOperand(at), all.number(all.layout.getTypeAllocSize(type)), false, AS_ARGUMENT);
        }
}

/* Before a guard is acquired: what the local static has. */
static void note_static(const accesses &all, CallBase *call) {
    Value *guard = call->getArgOperand(0)->stripPointerCasts();
    for (GlobalVariable &one : all.module.globals())
        if (statics_have(std::string_view(guard->getName()), std::string_view(one.getName()))) {
            TypeSize size = all.layout.getTypeAllocSize(one.getValueType());
            call_hook(call, "__spbags_static", {guard, &one, all.number(size.getFixedValue())});
        }
}

void find_in_call(accesses &all, CallBase *call) {
    Function *callee = call->getCalledFunction();
    if (call->isInlineAsm())
        find_in_assembly(all, call);
    else if (auto *copy = dyn_cast<AnyMemIntrinsic>(call))
        find_in_copy(all, copy);
    else if (auto *intrinsic = dyn_cast<IntrinsicInst>(call))
        find_in_intrinsic(all, intrinsic);
    else if (callee && callee->isDeclaration() && begins_with(callee->getName(), "__atomic_"))
        atomic_operation(all, call, callee->getName()).find();
    else if (callee && callee->getName() == "__spbags_asm_outside")
        judge_assembly_outside(call);
    else if (callee && callee->getName() == "__cxa_guard_acquire")
        note_static(all, call);
    else
        find_in_arguments(all, call);
}
