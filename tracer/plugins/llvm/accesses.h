/* What a function's code reads and writes, and the hooks beside it. This is asked before any optimization: so each load
   and store of the program's text has its hook, whatever is removed later. */
#ifndef SPBAGS_ACCESSES_H
#define SPBAGS_ACCESSES_H

#include "hooks.h"
#include "own.h"

/* How an access is made: a usual one; by an atomic operation; by assembly, perhaps in one atomic instruction; or as a
   copy of an argument for a call. */
enum way { PLAINLY, ATOMICALLY, BY_ASSEMBLY, BY_LOCKED_ASSEMBLY, AS_ARGUMENT };

/* Whether an address, or each of a vector, counts from the beginning of a segment. */
static inline bool is_elsewhere(const llvm::Value *address) {
    return address->getType()->getPointerAddressSpace() != 0;
}

/* The accesses of a function. A hook stands before what it is of. */
class accesses {
  public:
    explicit accesses(llvm::Function &function)
        : function(function), module(*function.getParent()), layout(module.getDataLayout()) {}
    /* So many bytes at an address, if that may be another function's too. */
    void note(llvm::Instruction *by, llvm::Value *address, llvm::Value *size, bool writes, way made = PLAINLY);
    /* The same of a value's type. */
    void note(llvm::Instruction *by, llvm::Value *address, llvm::Type *type, bool writes, way made = PLAINLY);
    /* An operation that writes where the value there is the expected one. */
    void note_compare(llvm::Instruction *by, llvm::Value *address, llvm::Value *expected, llvm::Value *size,
                      bool is_stored);
    /* That an instruction accesses memory which can't be told. */
    void note_unseen(llvm::Instruction *by);
    /* That a variable of an iteration or the like has no life any more. */
    void note_end(llvm::Instruction *by, llvm::Value *address, llvm::Value *size);
    void put();
    llvm::Value *number(uint64_t value) const { return number_of(module, value); }

    llvm::Function &function;
    llvm::Module &module;
    const llvm::DataLayout &layout;

  private:
    own_memory own;
    bool has_parts = false;

    void find_in(llvm::Instruction *instruction);
};

#endif
