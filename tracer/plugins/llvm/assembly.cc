#include "assembly.h"

#include <cctype>

#include "../templates.h"

using namespace llvm;

/* The template as the source has it, in which an operand is `%` and its number. The compiler writes `$` for that, `$$` for
   a dollar, `$(`, `$|` and `$)` around the text of each dialect, and `%` for a percent. */
static std::string as_in_source(StringRef text) {
    std::string made;
    for (size_t at = 0; at < text.size(); at++) {
        char letter = text[at], next = at + 1 < text.size() ? text[at + 1] : '\0';
        if (letter == '%') {
            made += "%%";
        } else if (letter == '{' || letter == '|' || letter == '}') {
            made += std::string("%") + letter;
        } else if (letter != '$') {
            made += letter;
        } else if (next == '{') {
            /* A number, and perhaps a modifier: `${0:b}`; or `${:uid}`. */
            size_t end = text.find('}', at), colon = text.find(':', at);
            std::string number = text.slice(at + 2, std::min(colon, end)).str();
            std::string modifier = colon < end ? text.slice(colon + 1, end).str() : "";
            made += number.empty() ? "%=" : "%" + modifier + number;
            at = end;
        } else {
            made += next == '$' ? "$" : next == '(' ? "{" : next == '|' ? "|" : next == ')' ? "}" : "%";
            at += std::isdigit(static_cast<unsigned char>(next)) == 0;
        }
    }
    return made;
}

/* An operand of a statement: what is handed over for it, or null for a value that it gives. */
struct operand {
    const InlineAsm::ConstraintInfo &constraint;
    Value *given;
    Type *type;

    bool is_memory() const { return constraint.isIndirect; }
    bool is_output() const { return constraint.Type == InlineAsm::isOutput; }
    /* Memory's address, to which the template goes. */
    bool is_address() const {
        if (is_memory() || !given)
            return false;
        bool has_register = false, is_place = false;
        for (const std::string &code : constraint.Codes) {
            has_register |= code == "r" || code[0] == '{' || std::isdigit(static_cast<unsigned char>(code[0]));
            is_place |= code == "p" || (code == "m" && given->getType()->isPointerTy());
        }
        return is_place && !has_register;
    }
};

static Type *type_behind(const CallBase *assembly, unsigned number) {
#if LLVM_VERSION_MAJOR < 15
    if (!assembly->getAttributes().getParamElementType(number))
        return assembly->getArgOperand(number)->getType()->getPointerElementType();
#endif
    return assembly->getAttributes().getParamElementType(number);
}

static std::vector<operand> operands_of(CallBase *assembly, const InlineAsm::ConstraintInfoVector &constraints) {
    std::vector<operand> found;
    unsigned number = 0;
    for (const InlineAsm::ConstraintInfo &constraint : constraints) {
        if (constraint.Type != InlineAsm::isInput && constraint.Type != InlineAsm::isOutput)
            continue;
        bool is_given = constraint.Type == InlineAsm::isInput || constraint.isIndirect;
        Type *type = constraint.isIndirect ? type_behind(assembly, number) : nullptr;
        found.push_back({constraint, is_given ? assembly->getArgOperand(number) : nullptr, type});
        number += is_given;
    }
    return found;
}

void judge_assembly_outside(CallBase *call) {
    StringRef text;
    if (getConstantStringInfo(call->getArgOperand(1), text) &&
        template_facts_of(text.str(), false, false, 0).is_understood)
        call->setArgOperand(0, Constant::getNullValue(call->getArgOperand(0)->getType()));
}

void find_in_assembly(accesses &all, CallBase *assembly) {
    auto *text = cast<InlineAsm>(assembly->getCalledOperand());
    InlineAsm::ConstraintInfoVector constraints = text->ParseConstraints();
    std::vector<operand> operands = operands_of(assembly, constraints);
    uint64_t least = 0;
    bool is_plain = true;
    for (const operand &one : operands) {
        uint64_t size = one.is_memory() ? all.layout.getTypeStoreSize(one.type).getFixedValue() : 0;
        least = size > 0 && (least == 0 || size < least) ? size : least;
        is_plain &= !one.is_address();
    }
    int dialect = text->getDialect() == InlineAsm::AD_Intel;
    template_facts facts = template_facts_of(as_in_source(text->getAsmString()), true, least > 0, dialect);
    if (!facts.is_understood || !is_plain || (least > 0 && least < facts.vector_bytes))
        call_hook(assembly, "__spbags_asm_unseen", {place_of(*assembly)});
    /* A template without instructions leaves what is in memory there. */
    for (bool writes : {false, true})
        for (const operand &one : operands)
            if (one.is_memory() && one.is_output() == writes && !facts.is_empty)
                all.note(assembly, one.given, one.type, writes, facts.is_locked ? BY_LOCKED_ASSEMBLY : BY_ASSEMBLY);
}
