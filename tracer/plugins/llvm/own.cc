#include "own.h"

using namespace llvm;

StringRef name_of_called(const CallBase &call) {
    return call.getCalledFunction() ? call.getCalledFunction()->getName() : StringRef();
}

/* What a use makes of an address. */
enum class use { PLAIN, AGAIN, SHARED };

static bool is_about_life(const CallBase &call) {
    return call.isLifetimeStartOrEnd() || isa<DbgInfoIntrinsic>(call) || call.isDroppable();
}

/* The runtime writes there where a loop's iterations begin and end, and keeps no address. */
static bool asks_for_iterations(const CallBase &call) {
    StringRef name = name_of_called(call);
    return begins_with(name, "__kmpc_dispatch_next_") || begins_with(name, "__kmpc_for_static_init_");
}

static bool is_stored_to(const Use &address) {
    return isa<StoreInst>(address.getUser()) && address.getOperandNo() == StoreInst::getPointerOperandIndex();
}

/* Whether this is a list of sums: of a thread's own variables, which it combines with others' by a call of the runtime,
   and no address is taken out of that. */
static bool is_list_of_sums(const Value *address) {
    bool is_given = false;
    std::vector<const Value *> left = {getUnderlyingObject(address)};
    while (!left.empty()) {
        const Value *value = left.back();
        left.pop_back();
        for (const Use &one : value->uses()) {
            const User *user = one.getUser();
            const auto *call = dyn_cast<CallBase>(user);
            const bool gives = call && begins_with(name_of_called(*call), "__kmpc_reduce");
            is_given |= gives;
            if (isa<GetElementPtrInst>(user) || isa<BitCastInst>(user))
                left.push_back(user);
            else if (!gives && !is_stored_to(one) && !(call && (is_about_life(*call) || !called_hook(*call).empty())))
                return false;
        }
    }
    return is_given && isa<AllocaInst>(getUnderlyingObject(address));
}

static use use_of(const Use &address) {
    const auto *user = cast<Instruction>(address.getUser());
    if (isa<LoadInst>(user) || isa<ICmpInst>(user))
        return use::PLAIN;
    if (isa<StoreInst>(user))
        return is_stored_to(address) || is_list_of_sums(cast<StoreInst>(user)->getPointerOperand()) ? use::PLAIN
                                                                                                    : use::SHARED;
    if (isa<GetElementPtrInst>(user) || isa<BitCastInst>(user) || isa<PHINode>(user) || isa<SelectInst>(user))
        return use::AGAIN;
    if (auto *call = dyn_cast<CallBase>(user))
        return isa<AnyMemIntrinsic>(call) || is_about_life(*call) || asks_for_iterations(*call) ||
                       !called_hook(*call).empty()
                   ? use::PLAIN
                   : use::SHARED;
    return use::SHARED;
}

/* Whether all that comes of an address stays here. */
static bool stays(const Value *address) {
    std::set<const Value *> seen = {address};
    std::vector<const Value *> left = {address};
    while (!left.empty()) {
        const Value *value = left.back();
        left.pop_back();
        for (const Use &one : value->uses()) {
            use made = use_of(one);
            if (made == use::SHARED)
                return false;
            if (made == use::AGAIN && seen.insert(one.getUser()).second)
                left.push_back(one.getUser());
        }
    }
    return true;
}

/* A thread's own, by which std::call_once knows what to call. */
static bool is_of_call_once(const GlobalVariable *global) {
    return global->isThreadLocal() && begins_with(global->getName(), "_ZSt") &&
           global->getName().contains("__once_call");
}

static bool is_own(const Value *base) {
    if (auto *global = dyn_cast<GlobalVariable>(base))
        return global->isConstant() || is_of_call_once(global);
    auto *argument = dyn_cast<Argument>(base);
    return (isa<AllocaInst>(base) || (argument && argument->hasByValAttr())) && stays(base);
}

bool own_memory::has(Value *address) {
    const Value *base = getUnderlyingObject(address);
    auto found = known.find(base);
    if (found == known.end())
        found = known.emplace(base, is_own(base)).first;
    return found->second;
}

void own_drop(Function &function) {
    own_memory own;
    std::vector<Instruction *> needless;
    for (Instruction &one : instructions(function)) {
        StringRef name = called_hook(one);
        bool is_access = begins_with(name, "__tsan_read") || begins_with(name, "__tsan_write") ||
                         name == "__spbags_argument" || name == "__spbags_dies";
        if (is_access && own.has(cast<CallInst>(one).getArgOperand(0)))
            needless.push_back(&one);
    }
    for (Instruction *one : needless)
        one->eraseFromParent();
}
