#include "vectors.h"

#include "llvm/Support/Regex.h"

using namespace llvm;

/* The size of what is accessed: of what the call gives, or of an argument. */
enum { OF_RESULT = -1, OF_ARGUMENT = -2 };

/* By name: so many bytes at the argument POINTER. */
struct whole_row {
    const char *names;
    unsigned pointer;
    int bytes;
    bool writes;
    /* The argument whose size it is. */
    unsigned like;
};
static const whole_row whole_rows[] = {{"sse3.ldu.dq|avx.ldu.dq.256", 0, OF_RESULT, false, 0},
                                       {"sse.stmxcsr", 0, 4, true, 0},
                                       {"sse.ldmxcsr", 0, 4, false, 0},
                                       {"mmx.movnt.dq|directstore(32|64)", 0, OF_ARGUMENT, true, 1},
                                       {"fxsave(64)?", 0, 512, true, 0},
                                       {"fxrstor(64)?", 0, 512, false, 0},
                                       {"movdir64b", 0, 64, true, 0},
                                       {"movdir64b", 1, 64, false, 0}};

/* Elements that a mask chooses: at their places, one behind the other, at those of an index, or each at its own address.
   Arguments have their numbers, or -1: then the vector is what the call gives. */
enum form { AT_PLACES, PACKED, AT_INDEX, AT_ADDRESSES };
struct chosen_row {
    const char *names;
    form where;
    int pointer, mask, value, index;
    bool writes;
};
enum { NONE = -1, SCALE = 4 };
static const chosen_row chosen_rows[] = {
    {"llvm.masked.load.*", AT_PLACES, 0, 2, NONE, NONE, false},
    {"llvm.masked.store.*", AT_PLACES, 1, 3, 0, NONE, true},
    {"llvm.masked.expandload.*", PACKED, 0, 1, NONE, NONE, false},
    {"llvm.masked.compressstore.*", PACKED, 1, 2, 0, NONE, true},
    {"llvm.masked.gather.*", AT_ADDRESSES, 0, 2, NONE, NONE, false},
    {"llvm.masked.scatter.*", AT_ADDRESSES, 1, 3, 0, NONE, true},
    {"llvm.x86.avx2?.maskload.*", AT_PLACES, 0, 1, NONE, NONE, false},
    {"llvm.x86.avx2?.maskstore.*", AT_PLACES, 0, 1, 2, NONE, true},
    {"llvm.x86.sse2.maskmov.dqu", AT_PLACES, 2, 1, 0, NONE, true},
    {"llvm.x86.avx512.mask.pmovu?s?.*.mem.*", AT_PLACES, 0, 2, 1, NONE, true},
    {"llvm.x86.avx2.gather.*|llvm.x86.avx512.(mask.)?gather[.0-9].*", AT_INDEX, 1, 3, NONE, 2, false},
    {"llvm.x86.avx512.(mask.)?scatter([.]|[sd]i).*", AT_INDEX, 0, 1, 3, 2, true}};

/* These access nothing. */
static const char nothing_row[] = "llvm.x86.(avx512.(gather|scatter)pf.*|sse2.clflush|clflushopt|clwb|cldemote|"
                                  "sse3.monitor|umonitor|monitorx|mwaitx|llwpcb|seh.*)";

static bool matches(const std::string &names, StringRef name) { return Regex("^(" + names + ")$").match(name); }

/* The elements of the vector that a row is about: their number and the bytes of each in memory. */
struct elements {
    uint64_t count, bytes;
};

static elements elements_of(const accesses &all, IntrinsicInst *call, const chosen_row &row) {
    auto *type = dyn_cast<FixedVectorType>(row.value < 0 ? call->getType() : call->getArgOperand(row.value)->getType());
    if (!type)
        return {0, 0};
    uint64_t bytes = all.layout.getTypeStoreSize(type->getElementType());
    /* What is stored is narrower, as the name's last letter but the ending says. */
    StringRef name = call->getCalledFunction()->getName();
    if (size_t end = name.find(".mem."); end != StringRef::npos)
        bytes = name[end - 1] == 'b' ? 1 : name[end - 1] == 'w' ? 2 : 4;
    return {type->getNumElements(), bytes};
}

/* The mask as a number, a bit for an element. */
static Value *bits_of(IRBuilder<> &builder, Value *mask) {
    if (auto *type = dyn_cast<FixedVectorType>(mask->getType())) {
        Type *element = type->getElementType();
        Type *number = builder.getIntNTy(element->getPrimitiveSizeInBits().getFixedValue());
        if (!element->isIntegerTy(1)) {
            Value *numbers = builder.CreateBitCast(mask, FixedVectorType::get(number, type->getNumElements()));
            mask = builder.CreateICmpSLT(numbers, Constant::getNullValue(numbers->getType()));
        }
        mask = builder.CreateBitCast(mask, builder.getIntNTy(type->getNumElements()));
    }
    return builder.CreateZExtOrTrunc(mask, builder.getInt64Ty());
}

static void find_chosen(accesses &all, IntrinsicInst *call, const chosen_row &row) {
    elements of = elements_of(all, call, row);
    IRBuilder<> builder(call);
    Value *pointer = call->getArgOperand(row.pointer), *count = all.number(of.count), *element = all.number(of.bytes);
    Value *bits = bits_of(builder, call->getArgOperand(row.mask)), *writes = all.number(row.writes);
    if (row.where == AT_PLACES || row.where == PACKED) {
        call_hook(call, row.where == PACKED ? "__spbags_packed" : "__spbags_masked",
                  {pointer, element, count, bits, writes});
        return;
    }
    Value *index, *scale;
    if (row.where == AT_INDEX) {
        index = call->getArgOperand(row.index);
        scale = builder.CreateZExt(call->getArgOperand(SCALE), builder.getInt64Ty());
    } else {
        index = builder.CreatePtrToInt(pointer, FixedVectorType::get(builder.getInt64Ty(), of.count));
        scale = all.number(1);
        pointer = ConstantPointerNull::get(pointer_type(call->getContext()));
    }
    Value *size = all.number(all.layout.getTypeStoreSize(index->getType()));
    Value *each = all.number(all.layout.getTypeStoreSize(index->getType()->getScalarType()));
    call_reading_hook(call, "__spbags_indexed",
                      {pointer, element, count, in_memory(index, call), size, each, scale, bits, writes});
}

/* Of what no row has it is said, where it gets a pointer. */
static void note_unknown(accesses &all, IntrinsicInst *call) {
    DILocation *where = call->getDebugLoc();
    DISubprogram *program = all.function.getSubprogram();
    StringRef function = program ? program->getName() : all.function.getName();
    call_hook(call, "__spbags_vector_unseen",
              {text_of(all.module, function), text_of(all.module, where ? where->getFilename() : "?"),
               all.number(where ? where->getLine() : 0)});
}

/* Whether a row has it. */
static bool find_known(accesses &all, IntrinsicInst *call, StringRef name) {
    bool is_known = false;
    for (const whole_row &row : whole_rows)
        if (matches(std::string("llvm.x86.(") + row.names + ")", name)) {
            Type *type = row.bytes == OF_RESULT ? call->getType() : call->getArgOperand(row.like)->getType();
            uint64_t bytes = row.bytes > 0 ? row.bytes : uint64_t(all.layout.getTypeStoreSize(type));
            all.note(call, call->getArgOperand(row.pointer), all.number(bytes), row.writes);
            is_known = true;
        }
    for (const chosen_row &row : chosen_rows)
        if (matches(row.names, name)) {
            find_chosen(all, call, row);
            is_known = true;
        }
    return is_known;
}

void find_in_instruction(accesses &all, IntrinsicInst *call) {
    StringRef name = call->getCalledFunction()->getName();
    bool has_pointer = false, is_usual = true;
    for (Value *given : call->args())
        if (given->getType()->isPtrOrPtrVectorTy()) {
            has_pointer = true;
            is_usual &= !is_elsewhere(given);
        }
    if (!has_pointer || matches(nothing_row, name))
        return;
    if (!is_usual || !find_known(all, call, name))
        note_unknown(all, call);
}
