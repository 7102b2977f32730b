/* The compiler's headers, and names that its versions write in different ways. */
#ifndef SPBAGS_COMPILER_H
#define SPBAGS_COMPILER_H

#include <functional>
#include <initializer_list>
#include <map>
#include <set>
#include <string>
#include <tuple>
#include <utility>
#include <vector>

#include "llvm/Analysis/BlockFrequencyInfo.h"
#include "llvm/Analysis/ValueTracking.h"
#include "llvm/BinaryFormat/Dwarf.h"
#include "llvm/Config/llvm-config.h"
#include "llvm/IR/Constants.h"
#include "llvm/IR/DataLayout.h"
#include "llvm/IR/DebugInfoMetadata.h"
#include "llvm/IR/Function.h"
#include "llvm/IR/IRBuilder.h"
#include "llvm/IR/InlineAsm.h"
#include "llvm/IR/InstIterator.h"
#include "llvm/IR/Instructions.h"
#include "llvm/IR/IntrinsicInst.h"
#include "llvm/IR/Module.h"
#include "llvm/Support/BranchProbability.h"
#include "llvm/Support/raw_ostream.h"

/* A pointer to memory of which no type is known. */
static inline llvm::PointerType *pointer_type(llvm::LLVMContext &context) {
#if LLVM_VERSION_MAJOR >= 17
    return llvm::PointerType::get(context, 0);
#else
    return llvm::Type::getInt8PtrTy(context);
#endif
}

static inline bool begins_with(llvm::StringRef text, llvm::StringRef beginning) {
    return text.substr(0, beginning.size()) == beginning;
}

#endif
