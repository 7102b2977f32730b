/* Memory of a function alone, whose hooks aren't needed: its variables and what it is given as a copy, whose address it
   only loads from, stores to, copies and compares. What is called might hand it to a child. */
#ifndef SPBAGS_OWN_H
#define SPBAGS_OWN_H

#include "hooks.h"

/* The name of the function that is called, if it has one. */
llvm::StringRef name_of_called(const llvm::CallBase &call);

class own_memory {
  public:
    /* Whether this address is in such memory, or in a constant. */
    bool has(llvm::Value *address);

  private:
    std::map<const llvm::Value *, bool> known;
};

/* Drops the hooks of what has turned out to be the function's alone. */
void own_drop(llvm::Function &function);

#endif
