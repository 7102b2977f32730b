#include "hooks.h"

using namespace llvm;

/* Who has it is a hook. */
static const char mark[] = "spbags-hook";

Value *number_of(Module &module, uint64_t value) {
    return ConstantInt::get(Type::getInt64Ty(module.getContext()), value);
}

static Function *declared(Module &module, StringRef name, ArrayRef<Value *> arguments, bool reads) {
    std::vector<Type *> types;
    for (Value *argument : arguments)
        types.push_back(argument->getType());
    FunctionType *type = FunctionType::get(Type::getVoidTy(module.getContext()), types, false);
    Function *made = module.getFunction(name);
    if (made && made->hasFnAttribute(mark))
        return made;
    made = cast<Function>(module.getOrInsertFunction(name, type).getCallee()->stripPointerCasts());
    made->addFnAttr(mark);
    made->addFnAttr(Attribute::NoUnwind);
    made->addFnAttr(Attribute::WillReturn);
    made->addFnAttr(Attribute::NoMerge);
    if (reads)
        made->setOnlyAccessesInaccessibleMemOrArgMem();
    else
        made->setOnlyAccessesInaccessibleMemory();
    return made;
}

static CallInst *called(Instruction *before, StringRef name, ArrayRef<Value *> arguments, bool reads) {
    Module &module = *before->getModule();
    IRBuilder<> builder(before);
    std::vector<Value *> given;
    for (Value *argument : arguments)
        given.push_back(argument->getType()->isPointerTy()
                            ? builder.CreatePointerCast(argument, pointer_type(module.getContext()))
                            : builder.CreateZExtOrTrunc(argument, builder.getInt64Ty()));
    CallInst *call = builder.CreateCall(declared(module, name, given, reads), given);
    /* A call has to have a place in a function that has one itself. */
    if (DISubprogram *program = before->getFunction()->getSubprogram(); program && !call->getDebugLoc())
        call->setDebugLoc(DILocation::get(module.getContext(), 0, 0, program));
    return call;
}

CallInst *call_hook(Instruction *before, StringRef name, ArrayRef<Value *> arguments) {
    return called(before, name, arguments, false);
}

CallInst *call_reading_hook(Instruction *before, StringRef name, ArrayRef<Value *> arguments) {
    return called(before, name, arguments, true);
}

StringRef called_hook(const Instruction &instruction) {
    auto *call = dyn_cast<CallInst>(&instruction);
    Function *callee = call ? call->getCalledFunction() : nullptr;
    return callee && callee->hasFnAttribute(mark) ? callee->getName() : StringRef();
}

Value *text_of(Module &module, StringRef text) {
    Constant *letters = ConstantDataArray::getString(module.getContext(), text);
    auto *made = new GlobalVariable(module, letters->getType(), true, GlobalValue::PrivateLinkage, letters);
    made->setUnnamedAddr(GlobalValue::UnnamedAddr::Global);
    return made;
}

Value *place_of(const Instruction &instruction) {
    Module &module = *const_cast<Module *>(instruction.getModule());
    const DebugLoc &where = instruction.getDebugLoc();
    std::string file = where ? cast<DIScope>(where.getScope())->getFilename().str() : "?";
    return text_of(module, file + ":" + std::to_string(where ? where.getLine() : 0));
}

Value *in_memory(Value *value, Instruction *before) {
    BasicBlock &first = before->getFunction()->getEntryBlock();
    auto *variable = IRBuilder<>(&first, first.begin()).CreateAlloca(value->getType());
    IRBuilder<>(before).CreateStore(value, variable);
    return variable;
}
