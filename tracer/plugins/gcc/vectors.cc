#include "vectors.h"

#include <regex.h>

/* By name: so many bytes at the argument POINTER, a number or as many as an argument has. */
struct whole_row {
    const char *names;
    unsigned pointer;
    int bytes, like_argument;
    bool writes;
};

/* Elements of a vector that a mask chooses, which HOOK notes. VALUE is the argument that has as many elements as the vector,
   or -1. Parts of the name, by their numbers or 0, have the letters of an element, of one of VALUE's, and of a number of
   the index. */
struct chosen_row {
    const char *names, *hook;
    unsigned pointer, mask;
    int value;
    bool writes;
    unsigned element, each, index;
};

struct letters_row {
    const char *letters;
    int bytes;
};

static const whole_row whole_rows[] = {
    {"movnt(q|dq|pd|ps)(256|512)?", 0, 0, 1, true},
    {"movnti64|directstoreu?_u64|movntsd|store[hl]ps", 0, 8, -1, true},
    {"movnti|directstoreu?_u32|movntss|rdtscp|rdrand32_step|rdseed(32|_si)_step", 0, 4, -1, true},
    {"rdrand64_step|rdseed(64|_di)_step", 0, 8, -1, true},
    {"rdrand16_step|rdseed(16|_hi)_step", 0, 2, -1, true},
    {"(addcarryx?|sbb|subborrow)_u32", 3, 4, -1, true},
    {"(addcarryx?|sbb|subborrow)_u64", 3, 8, -1, true},
    {"lddqu|movntdqa|vbroadcastf128_p[sd]256", 0, 16, -1, false},
    {"lddqu256|movntdqa256", 0, 32, -1, false},
    {"movntdqa512", 0, 64, -1, false},
    {"load[hl]p[sd]", 1, 8, -1, false},
    {"vbroadcastss(256)?", 0, 4, -1, false},
    {"vbroadcastsd256", 0, 8, -1, false},
    {"movdir64b", 0, 64, -1, true},
    {"movdir64b", 1, 64, -1, false},
    {"fnstenv", 0, 28, -1, true},
    {"fldenv", 0, 28, -1, false},
    {"fxsave(64)?", 0, 512, -1, true},
    {"fxrstor(64)?", 0, 512, -1, false}};

static const chosen_row chosen_rows[] = {
    {"maskload(ps|pd|d|q)(256)?", "__spbags_masked", 0, 1, 1, false, 2, 0, 0},
    {"maskstore(ps|pd|d|q)(256)?", "__spbags_masked", 0, 1, 1, true, 2, 0, 0},
    {"maskmovdqu", "__spbags_masked", 2, 1, 1, true, 0, 0, 0},
    {"load[ua](ps|pd)(128|256|512)_mask", "__spbags_masked", 0, 2, 1, false, 2, 0, 0},
    {"loaddqu(qi|hi|si|di)(128|256|512)_mask", "__spbags_masked", 0, 2, 1, false, 2, 0, 0},
    {"movdqa(32|64)load(128|256|512)_mask", "__spbags_masked", 0, 2, 1, false, 2, 0, 0},
    {"store[ua](ps|pd)(128|256|512)_mask", "__spbags_masked", 0, 2, 1, true, 2, 0, 0},
    {"storedqu(qi|hi|si|di)(128|256|512)_mask", "__spbags_masked", 0, 2, 1, true, 2, 0, 0},
    {"movdqa(32|64)store(128|256|512)_mask", "__spbags_masked", 0, 2, 1, true, 2, 0, 0},
    {"load(ss|sd|sh)(128)?_mask", "__spbags_masked", 0, 2, -1, false, 2, 0, 0},
    {"store(ss|sd|sh)(128)?_mask", "__spbags_masked", 0, 2, -1, true, 2, 0, 0},
    {"pmov(s|us)?([wdq])([bwd])(128|256|512)mem_mask", "__spbags_masked", 0, 2, 1, true, 4, 3, 0},
    {"expandload(qi|hi|si|di|sf|df)(128|256|512)_maskz?", "__spbags_packed", 0, 2, 1, false, 2, 0, 0},
    {"compressstoreu?(qi|hi|si|di|sf|df)(128|256|512)_mask", "__spbags_packed", 0, 2, 1, true, 2, 0, 0},
    {"gather3?(si|di)v[0-9]+(si|di|sf|df)(256)?", "__spbags_indexed", 1, 3, 0, false, 3, 0, 2},
    {"gather([dq])_(ps|pd|d|q)(256)?", "__spbags_indexed", 1, 3, 0, false, 3, 0, 2},
    {"scatter(si|di)v[0-9]+(si|di|sf|df)", "__spbags_indexed", 0, 1, 3, true, 3, 0, 2}};

static const letters_row letters_rows[] = {{"qi", 1}, {"hi", 2}, {"si", 4}, {"di", 8}, {"sf", 4}, {"df", 8},
                                           {"ps", 4}, {"pd", 8}, {"ss", 4}, {"sd", 8}, {"sh", 2}, {"b", 1},
                                           {"w", 2},  {"d", 4},  {"q", 8},  {"32", 4}, {"64", 8}};

/* These access nothing. */
static const char nothing_row[] =
    "(gather|scatter)pf[a-z0-9_]+|prefetch[a-z0-9_]*|clflush(opt)?|clwb|cldemote|u?monitorx?|mwaitx?|llwpcb";

enum { INDEX = 2, SCALE = 4, MOST_GROUPS = 10 };

static const char prefix[] = "__builtin_ia32_";

/* The name of a builtin with the parts that a pattern names. */
class matched {
  public:
    matched(const char *pattern, const char *name) : name(name) {
        regex_t *&made = compiled[pattern];
        if (!made) {
            made = new regex_t;
            std::string whole = std::string("^(") + pattern + ")$";
            if (regcomp(made, whole.c_str(), REG_EXTENDED))
                fatal_error(UNKNOWN_LOCATION, "a pattern of the plugin is wrong: %s", pattern);
        }
        is_found = regexec(made, name, MOST_GROUPS, groups, 0) == 0;
    }
    bool is_found;
    /* The bytes of what has these letters. */
    HOST_WIDE_INT bytes(unsigned number) const {
        std::string letters;
        if (number != 0 && groups[number].rm_so >= 0)
            letters.assign(name + groups[number].rm_so, name + groups[number].rm_eo);
        for (const letters_row &row : letters_rows)
            if (letters == row.letters)
                return row.bytes;
        return 1;
    }

  private:
    static std::map<std::string, regex_t *> compiled;
    const char *name;
    regmatch_t groups[MOST_GROUPS];
};
std::map<std::string, regex_t *> matched::compiled;

static HOST_WIDE_INT size_of_argument(gcall *call, unsigned number) {
    return int_size_in_bytes(TREE_TYPE(gimple_call_arg(call, number)));
}

static void find_whole(accesses &all, gcall *call, const whole_row &row) {
    HOST_WIDE_INT bytes = row.like_argument >= 0 ? size_of_argument(call, row.like_argument) : row.bytes;
    gimple_seq sequence = nullptr;
    tree pointer = gimple_call_arg(call, row.pointer);
    gimple_seq_add_stmt(&sequence, call_hook("__spbags_vector", {pointer, number_of(bytes), number_of(row.writes)}));
    all.put_before(call, sequence);
}

/* The mask's bits, a bit for an element. */
static tree bits_of(tree mask, HOST_WIDE_INT element, gimple_seq *sequence) {
    tree size = number_of(int_size_in_bytes(TREE_TYPE(mask)));
    gcall *call = call_reading_hook("__spbags_bits", {in_memory(mask, sequence), size, number_of(element)});
    tree bits = make_ssa_name(long_integer_type_node, call);
    gimple_call_set_lhs(call, bits);
    gimple_seq_add_stmt(sequence, call);
    return bits;
}

static void find_chosen(accesses &all, gcall *call, const chosen_row &row, const matched &name) {
    HOST_WIDE_INT element = name.bytes(row.element), each = row.each ? name.bytes(row.each) : element;
    tree count = number_of(row.value < 0 ? 1 : size_of_argument(call, row.value) / each);
    gimple_seq sequence = nullptr;
    tree bits = bits_of(gimple_call_arg(call, row.mask), element, &sequence);
    tree pointer = gimple_call_arg(call, row.pointer), writes = number_of(row.writes);
    if (row.index) {
        tree index = gimple_call_arg(call, INDEX);
        /* A constant once functions of the headers are inlined. */
        tree scale = as_number(gimple_call_arg(call, SCALE), &sequence);
        gimple_seq_add_stmt(
            &sequence, call_reading_hook(row.hook, {pointer, number_of(element), count, in_memory(index, &sequence),
                                                    number_of(int_size_in_bytes(TREE_TYPE(index))),
                                                    number_of(name.bytes(row.index)), scale, bits, writes}));
    } else
        gimple_seq_add_stmt(&sequence, call_hook(row.hook, {pointer, number_of(element), count, bits, writes}));
    all.put_before(call, sequence);
}

/* Of what no row has it is said, where it gets a pointer. */
static void find_unknown(accesses &all, gcall *call) {
    bool has_pointer = false;
    for (unsigned at = 0; at < gimple_call_num_args(call); at++)
        has_pointer |= POINTER_TYPE_P(TREE_TYPE(gimple_call_arg(call, at)));
    if (!has_pointer)
        return;
    expanded_location where = expand_location(gimple_location(call));
    const char *file = where.file ? where.file : "?", *function = function_name(all.fun);
    gimple_seq sequence = nullptr;
    gimple_seq_add_stmt(&sequence, call_hook("__spbags_vector_unseen",
                                             {build_string_literal(strlen(function) + 1, function),
                                              build_string_literal(strlen(file) + 1, file), number_of(where.line)}));
    all.put_before(call, sequence);
}

void find_in_instruction(accesses &all, gcall *call) {
    const char *name = IDENTIFIER_POINTER(DECL_NAME(gimple_call_fndecl(call)));
    if (!begins_with(name, prefix) || matched(nothing_row, name += strlen(prefix)).is_found)
        return;
    bool is_known = false;
    for (const whole_row &row : whole_rows)
        if (row.pointer < gimple_call_num_args(call) && matched(row.names, name).is_found) {
            find_whole(all, call, row);
            is_known = true;
        }
    for (const chosen_row &row : chosen_rows) {
        matched found(row.names, name);
        if (found.is_found)
            find_chosen(all, call, row, found);
        is_known |= found.is_found;
    }
    if (!is_known)
        find_unknown(all, call);
}
