#include "accesses.h"

#include "calls.h"

using namespace llvm;

void accesses::note(Instruction *by, Value *address, Value *size, bool writes, way made) {
    auto *constant = dyn_cast<ConstantInt>(size);
    if ((constant && constant->isZero()) || own.has(address))
        return;
    if (is_elsewhere(address)) {
        note_unseen(by);
    } else if (made == AS_ARGUMENT) {
        call_hook(by, "__spbags_argument", {address, size});
    } else if (made == ATOMICALLY) {
        call_hook(by, "__spbags_atomic", {address, size, number(writes)});
    } else if (made != PLAINLY) {
        call_hook(by, "__spbags_asm", {address, size, number(writes), number(made == BY_LOCKED_ASSEMBLY)});
    } else {
        std::string name = writes ? "__tsan_write" : "__tsan_read";
        uint64_t bytes = constant ? constant->getZExtValue() : 0;
        if (bytes == 1 || bytes == 2 || bytes == 4 || bytes == 8 || bytes == 16)
            call_hook(by, name + std::to_string(bytes), {address});
        else
            call_hook(by, name + "_range", {address, size});
    }
}

void accesses::note(Instruction *by, Value *address, Type *type, bool writes, way made) {
    /* The compiler's number of 10 bytes fills 16 in C. */
    TypeSize size = type->isX86_FP80Ty() ? layout.getTypeAllocSize(type) : layout.getTypeStoreSize(type);
    note(by, address, number(size.getFixedValue()), writes, made);
}

void accesses::note_compare(Instruction *by, Value *address, Value *expected, Value *size, bool is_stored) {
    if (is_elsewhere(address))
        note_unseen(by);
    else
        call_reading_hook(by, "__spbags_compare", {address, expected, size, number(is_stored)});
}

void accesses::note_unseen(Instruction *by) { call_hook(by, "__spbags_unseen", {place_of(*by)}); }

void accesses::note_end(Instruction *by, Value *address, Value *size) {
    auto *bytes = dyn_cast<ConstantInt>(size);
    if (has_parts && bytes && !bytes->isMinusOne() && !own.has(address))
        call_hook(by, "__spbags_dies", {address, size});
}

/* Whether the function asks for iterations, sections or a single region of OpenMP. */
static bool asks_for_parts(const Instruction &one) {
    auto *call = dyn_cast<CallBase>(&one);
    StringRef name = call ? name_of_called(*call) : StringRef();
    return begins_with(name, "__kmpc_dispatch_next_") || name == "__spbags_goes_on";
}

/* Whether a value serves only for the question of whether it is a constant: the program doesn't compute that. */
static bool is_only_asked(const Value *value) {
    for (const User *by : value->users()) {
        auto *call = dyn_cast<IntrinsicInst>(by);
        bool is_question = call && call->getIntrinsicID() == Intrinsic::is_constant;
        if (!is_question && (isa<PHINode>(by) || isa<CallBase>(by) || !is_only_asked(by)))
            return false;
    }
    return !value->use_empty();
}

void accesses::find_in(Instruction *instruction) {
    if (auto *load = dyn_cast<LoadInst>(instruction)) {
        if (!load->isSimple() || !is_only_asked(load))
            note(load, load->getPointerOperand(), load->getType(), false, load->isAtomic() ? ATOMICALLY : PLAINLY);
    } else if (auto *store = dyn_cast<StoreInst>(instruction)) {
        note(store, store->getPointerOperand(), store->getValueOperand()->getType(), true,
             store->isAtomic() ? ATOMICALLY : PLAINLY);
    } else if (auto *update = dyn_cast<AtomicRMWInst>(instruction)) {
        for (bool writes : {false, true})
            note(update, update->getPointerOperand(), update->getType(), writes, ATOMICALLY);
    } else if (auto *exchange = dyn_cast<AtomicCmpXchgInst>(instruction)) {
        Value *expected = exchange->getCompareOperand();
        note_compare(exchange, exchange->getPointerOperand(), in_memory(expected, exchange),
                     number(layout.getTypeStoreSize(expected->getType())), false);
    } else if (auto *call = dyn_cast<CallBase>(instruction)) {
        find_in_call(*this, call);
    } else if (isa<VAArgInst>(instruction)) {
        note_unseen(instruction);
    }
}

void accesses::put() {
    std::vector<Instruction *> all;
    for (Instruction &one : instructions(function)) {
        all.push_back(&one);
        has_parts |= asks_for_parts(one);
    }
    for (Instruction *one : all)
        find_in(one);
}
