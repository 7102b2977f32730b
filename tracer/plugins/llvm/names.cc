#include "names.h"

using namespace llvm;

/* A function's file, its line and its name. */
typedef std::tuple<std::string, unsigned, std::string> place;
/* Where a description of a function has its names. */
enum { NAME = 2, LINKAGE_NAME = 3 };

static StringRef name_of(const DISubprogram *program) {
    return program->getName().empty() ? program->getLinkageName() : program->getName();
}

static bool is_made(StringRef name) { return begins_with(name, ".omp") || begins_with(name, ".red_"); }

static std::string file_of(const DISubprogram *program) {
    return (program->getDirectory() + "/" + program->getFilename()).str();
}

/* Whether it only calls a function with the program's code. */
static bool is_caller(const Function &function) {
    if (begins_with(function.getName(), ".omp_task_entry."))
        return true;
    for (const Instruction &one : instructions(function))
        if (auto *call = dyn_cast<CallBase>(&one);
            call && call->getCalledFunction() &&
            begins_with(call->getCalledFunction()->getName(), ".omp_outlined._debug__"))
            return begins_with(function.getName(), ".omp_outlined.");
    return false;
}

static void rename(DISubprogram *program, StringRef name) {
    program->replaceOperandWith(NAME, MDString::get(program->getContext(), name));
    program->replaceOperandWith(LINKAGE_NAME, nullptr);
}

static bool is_of_system(const DISubprogram *program) {
    for (const char *folder : {"/usr/include/", "/usr/local/include/", "/usr/lib"})
        if (program && begins_with(program->getFilename(), folder))
            return true;
    return false;
}

/* A compiler that puts an inline function of C into its callers needs no other definition of it. Here it has one, which
   gives way to another; but not in a system's header, where its code may differ from that. */
static void define_inline(Function &function) {
    const DISubprogram *program = function.getSubprogram();
    const DICompileUnit *unit = program ? program->getUnit() : nullptr;
    if (function.hasAvailableExternallyLinkage() && unit && !is_of_system(program) &&
        !dwarf::isCPlusPlus(static_cast<dwarf::SourceLanguage>(unit->getSourceLanguage())))
        function.setLinkage(GlobalValue::WeakAnyLinkage);
}

/* One that spawns and is put into its caller would have no end to sync at. Those of the compiler's headers have no place,
   and some that it makes itself for OpenMP neither. */
static void keep_apart(Function &function) {
    const DISubprogram *program = function.getSubprogram();
    bool is_of_program = program ? !is_of_system(program) : is_made(function.getName());
    if (!is_of_program || !function.hasFnAttribute(Attribute::AlwaysInline))
        return;
    function.removeFnAttr(Attribute::AlwaysInline);
    function.addFnAttr(Attribute::NoInline);
}

void names_put(Module &module) {
    std::set<place> places;
    for (Function &function : module)
        if (DISubprogram *program = function.getSubprogram(); program && !is_made(name_of(program)))
            places.emplace(file_of(program), program->getLine(), name_of(program).str());
    for (Function &function : module) {
        define_inline(function);
        keep_apart(function);
        DISubprogram *program = function.getSubprogram();
        if (!program || !is_made(name_of(program)))
            continue;
        auto found = places.lower_bound({file_of(program), program->getLine() + 1, ""});
        if (found == places.begin() || std::get<0>(*--found) != file_of(program))
            continue;
        rename(program, is_caller(function) ? "__spbags_outlined" : std::get<2>(*found));
    }
}
