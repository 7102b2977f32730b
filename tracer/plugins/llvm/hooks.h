/* Calls of the tracer's hooks in the code of a function. */
#ifndef SPBAGS_HOOKS_H
#define SPBAGS_HOOKS_H

#include "compiler.h"

llvm::Value *number_of(llvm::Module &module, uint64_t value);

/* A call of the hook with this name before an instruction, where that is in the source. Arguments are pointers and
   numbers. It accesses nothing that the compiler knows of: values of memory stay known over it, and yet it stays where it
   is. */
llvm::CallInst *call_hook(llvm::Instruction *before, llvm::StringRef name, llvm::ArrayRef<llvm::Value *> arguments);

/* The same of one that reads what its arguments point to. */
llvm::CallInst *call_reading_hook(llvm::Instruction *before, llvm::StringRef name,
                                  llvm::ArrayRef<llvm::Value *> arguments);

/* The name of the hook that is called, or nothing for any other instruction. */
llvm::StringRef called_hook(const llvm::Instruction &instruction);

/* `FILE:LINE`, as the address of a constant. */
llvm::Value *place_of(const llvm::Instruction &instruction);
llvm::Value *text_of(llvm::Module &module, llvm::StringRef text);

/* The address of a variable that gets this value before an instruction. */
llvm::Value *in_memory(llvm::Value *value, llvm::Instruction *before);

#endif
