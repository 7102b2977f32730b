#include "templates.h"

#include <algorithm>
#include <cstdlib>
#include <cstring>
#include <regex.h>
#include <set>
#include <vector>

/* ---- Texts ---- */

/* A pattern of the whole of a text. */
class pattern {
  public:
    explicit pattern(const char *text) {
        std::string whole = std::string("^(") + text + ")$";
        if (regcomp(&compiled, whole.c_str(), REG_EXTENDED | REG_NOSUB) != 0)
            abort();
    }
    bool matches(const std::string &text) const { return regexec(&compiled, text.c_str(), 0, nullptr, 0) == 0; }

  private:
    regex_t compiled;
};

static const char blanks[] = " \t\r\f\v";

static std::string stripped(const std::string &text) {
    size_t first = text.find_first_not_of(blanks), last = text.find_last_not_of(blanks);
    return first == std::string::npos ? "" : text.substr(first, last - first + 1);
}

static std::string lower(std::string text) {
    for (char &letter : text)
        letter = letter >= 'A' && letter <= 'Z' ? (char)(letter - 'A' + 'a') : letter;
    return text;
}

/* The parts between these marks outside of brackets and quotes. */
static std::vector<std::string> parts_of(const std::string &text, const char *marks) {
    std::vector<std::string> found(1);
    int depth = 0;
    bool is_quoted = false;
    for (char letter : text) {
        is_quoted ^= letter == '"';
        depth += (letter == '(') - (letter == ')');
        if (strchr(marks, letter) && (letter == '\n' || (depth <= 0 && !is_quoted)))
            found.emplace_back();
        else
            found.back() += letter;
    }
    for (std::string &part : found)
        part = stripped(part);
    return found;
}

static std::string without_comments(std::string text) {
    for (size_t at; (at = text.find("/*")) != std::string::npos;) {
        size_t end = text.find("*/", at + 2);
        text.replace(at, end == std::string::npos ? end : end + 2 - at, " ");
    }
    for (size_t at; (at = text.find('#')) != std::string::npos;)
        text.erase(at, std::min(text.find('\n', at), text.size()) - at);
    return text;
}

/* The template in this dialect. A register has one `%` then, and an operand two. */
static std::string in_dialect(const std::string &text, int dialect) {
    std::string made;
    int alternative = -1;
    for (size_t at = 0; at < text.size(); at++) {
        char letter = text[at], next = at + 1 < text.size() ? text[at + 1] : '\0';
        bool is_left_out = alternative >= 0 && alternative != dialect;
        if (letter == '%' && next != '\0') {
            at++;
            std::string shown = strchr("%{|}", next) ? std::string(1, next)
                                : next == '='        ? "0"
                                                     : std::string("%%") + next;
            made += is_left_out ? "" : shown;
        } else if (letter == '{' || letter == '}' || (letter == '|' && alternative >= 0)) {
            alternative = letter == '{' ? 0 : letter == '|' ? alternative + 1 : -1;
        } else if (!is_left_out)
            made += letter;
    }
    return made;
}

/* ---- Operands ---- */

/* One of the statement's, perhaps a part of it. */
static bool is_of_statement(const std::string &text) {
    static const pattern of_statement("%%[bhwkqxtg]?([0-9]+|\\[[A-Za-z_0-9]+\\])");
    return of_statement.matches(text);
}

static bool is_stack_pointer(const std::string &text) {
    static const pattern stack_pointer("%?[er]?spl?");
    return stack_pointer.matches(lower(text));
}

/* Neither memory nor the stack pointer. */
static bool is_plain_operand(const std::string &text, int dialect) {
    static const pattern usual("%[a-z][a-z_0-9]*(\\([0-9]\\))?|\\$[^,'\"]*"),
        of_intel("([re]?[abcd]x|[abcd][lh]|[re]?[sd]i|[sd]il|[re]?bp|bpl|r[0-9]+[bwd]?|[xyz]?mm[0-9]+|k[0-7]|"
                 "st(\\([0-7]\\))?|[cdefgs]s|-?(0x[0-9a-f]+|[0-9]+))");
    return is_of_statement(text) ||
           (!is_stack_pointer(text) && (dialect ? of_intel : usual).matches(text[0] == '$' ? text : lower(text)));
}

/* ---- Instructions ---- */

/* What matters of a whole template. */
struct reading {
    bool in_memory;
    int dialect;
    std::set<std::string> labels;
};

static bool is_target(const std::string &text, const reading &in) {
    static const pattern target("[0-9]+[bf]|\\.L[A-Za-z_0-9.$]*|%%l([0-9]+|\\[[A-Za-z_0-9]+\\])");
    return target.matches(text) || in.labels.count(text) > 0;
}

/* Those of the first kind access nothing; the others go to memory by registers that they don't name, to more than an
   operand says, or to other code. Some of these do so only without operands. */
static const pattern no_access("lea[wlq]?|nop[wlq]?|prefetch[a-z0-9]*|clflush(opt)?|clwb|cldemote"),
    elsewhere("xlatb?|v?maskmov(q|dqu)|movdir64b|enqcmds?|clzero|(ins|outs|stos|lods|scas)[bwlqd]?|[fg]s|[sl]lwpcb|"
              "f?x(save|rstor).*|fn?(save|stenv)|f(rstor|ldenv)|(ld|st)tilecfg|encl[suv]|x(store|crypt|sha).*|montmul|"
              "leave[wlq]?|enter[wlq]?|l?call.*|ljmp.*|lret.*|iret.*|int.*|sys.+|bound.*"),
    strings("(cmps|movs)[bwlqd]?"), jumps("j[a-z]+|loop[a-z]*|xbegin"), bits("bt[src]?[wlq]?"),
    prefixes("lock|rep(n?[ez])?|data16|bnd|notrack|xacquire|xrelease"), label("[A-Za-z_0-9.$]+");

static bool is_plain_instruction(const std::string &name, const std::vector<std::string> &operands, const reading &in) {
    if (no_access.matches(name))
        return true;
    if (jumps.matches(name))
        return operands.size() == 1 && is_target(operands[0], in);
    if (elsewhere.matches(name) || (strings.matches(name) && operands.empty()))
        return false;
    /* The bit may lie behind the operand. */
    if (bits.matches(name) && in.in_memory && !operands.empty() &&
        operands[in.dialect ? operands.size() - 1 : 0][0] != '$')
        return false;
    /* The stack pointer is read alone. */
    size_t read = in.dialect ? 1 : 0;
    for (size_t at = 0; at < operands.size(); at++)
        if (!is_plain_operand(operands[at], in.dialect) &&
            !(name.compare(0, 3, "mov") == 0 && operands.size() == 2 && at == read && is_stack_pointer(operands[at])))
            return false;
    return true;
}

/* ---- Vectors ---- */

/* Those that access a whole vector. */
static bool is_whole_vector(const std::string &name) {
    static const pattern whole("v?(mov(dq[au]|ntdq|ntq).*|lddqu|[a-z0-9]+p[sd]|p[a-z0-9]+)"),
        parts("v?(mov[lh]p[sd]|cvt(ps2pd|dq2pd|pi2p[sd])|p(refetch|op|ush|ause|ext|dep|insr|mov|broadcast).*)");
    return whole.matches(name) && !parts.matches(name);
}

static unsigned vector_bytes_of(const std::string &line) {
    static const std::pair<const char *, unsigned> registers[] = {{"zmm", 64}, {"ymm", 32}, {"xmm", 16}, {"%mm", 8}};
    for (auto [letters, bytes] : registers)
        if (line.find(letters) != std::string::npos)
            return bytes;
    return 16;
}

/* ---- Lines ---- */

/* A directive that makes no code; one that does, or data; and where the latter stand. */
static const pattern
    quiet("\\.(globa?l|weak|hidden|protected|internal|local|symver|type|size|file|loc|ident|cfi_[a-z_]+|"
          "p2align|b?align|set|equ)"),
    data(
        "\\.([248]?byte|short|word|value|int|long|quad|octa|float|double|string|asci[iz]|zero|space|skip|fill|incbin)"),
    sections("\\.((push)?section|data|bss|text|popsection|previous)"),
    code("\\.(text|popsection|previous)|\\.(push)?section[ \t]+(\\.text.*|[^,]*,[ \t]*\"[^\"]*x.*)");

/* A word, and what is behind it. */
static std::pair<std::string, std::string> split(const std::string &text) {
    size_t end = std::min(text.find_first_of(blanks), text.size());
    return {text.substr(0, end), stripped(text.substr(end))};
}

/* Behind its labels. */
static std::string without_labels(std::string line, std::set<std::string> *labels) {
    for (size_t at; (at = line.find(':')) != std::string::npos && label.matches(stripped(line.substr(0, at)));
         line = stripped(line.substr(at + 1)))
        if (labels)
            labels->insert(stripped(line.substr(0, at)));
    return line;
}

static bool is_plain_line(const std::string &line, const reading &in, bool *is_code) {
    auto [name, rest] = split(line);
    if (name[0] != '.')
        return is_plain_instruction(lower(name), rest.empty() ? std::vector<std::string>() : parts_of(rest, ","), in);
    if (sections.matches(name)) {
        *is_code = code.matches(line);
        return true;
    }
    return quiet.matches(name) || (!*is_code && data.matches(name));
}

template_facts template_facts_of(const std::string &text, bool has_operands, bool in_memory, int dialect) {
    template_facts facts = {true, true, false, 0};
    reading in = {in_memory, dialect, {}};
    std::vector<std::string> lines = parts_of(without_comments(has_operands ? in_dialect(text, dialect) : text), "\n;");
    for (const std::string &line : lines)
        without_labels(line, &in.labels);
    bool is_code = true;
    for (std::string line : lines) {
        line = without_labels(line, nullptr);
        facts.is_empty &= line.empty();
        while (!line.empty() && prefixes.matches(lower(split(line).first))) {
            facts.is_locked |= lower(split(line).first) == "lock";
            line = without_labels(split(line).second, nullptr);
        }
        facts.is_locked |= lower(line).compare(0, 4, "xchg") == 0;
        facts.is_understood &= line.empty() || is_plain_line(line, in, &is_code);
        if (is_whole_vector(lower(split(line).first)))
            facts.vector_bytes = std::max(facts.vector_bytes, vector_bytes_of(line));
    }
    return facts;
}
