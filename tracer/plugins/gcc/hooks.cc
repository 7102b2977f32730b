#include "hooks.h"

/* What the compiler's collector of memory has to know of; and by name, for hooks and for functions of libraries, which of
   these it is. */
enum { MOST_DECLARED = 1024 };
static tree declared[MOST_DECLARED];
static unsigned declared_count;
typedef std::map<std::string, unsigned> numbers_by_name;
static numbers_by_name hooks, functions;

static const ggc_root_tab roots[] = {
    {declared, MOST_DECLARED, sizeof declared[0], &gt_ggc_mx_tree_node, &gt_pch_nx_tree_node}, LAST_GGC_ROOT_TAB};

void hooks_begin(const char *plugin) {
    register_callback(plugin, PLUGIN_REGISTER_GGC_ROOTS, nullptr, const_cast<ggc_root_tab *>(roots));
}

tree number_of(HOST_WIDE_INT value) { return build_int_cst(long_integer_type_node, value); }

tree as_number(tree value, gimple_seq *sequence) {
    gimple_seq computed = nullptr;
    tree made =
        force_gimple_operand(fold_convert(long_integer_type_node, unshare_expr(value)), &computed, true, NULL_TREE);
    gimple_seq_add_seq(sequence, computed);
    return made;
}

/* The function of this name among these, which has the type that TYPE makes. */
template <class Type> static tree function_named(numbers_by_name &among, const char *name, Type type) {
    auto found = among.find(name);
    if (found != among.end())
        return declared[found->second];
    gcc_assert(declared_count < MOST_DECLARED);
    tree made = build_fn_decl(name, type());
    /* C++ would make another name of it. */
    SET_DECL_ASSEMBLER_NAME(made, get_identifier(name));
    declared[declared_count] = made;
    among[name] = declared_count++;
    return made;
}

static tree type_for(tree result, std::initializer_list<tree> arguments) {
    tree parameters = void_list_node;
    for (auto argument = arguments.end(); argument != arguments.begin();) {
        tree type = TREE_TYPE(*--argument);
        parameters = tree_cons(NULL_TREE, POINTER_TYPE_P(type) ? ptr_type_node : type, parameters);
    }
    return build_function_type(result, parameters);
}

static tree type_of_hook(std::initializer_list<tree> arguments, bool reads) {
    tree type = type_for(reads ? long_integer_type_node : void_type_node, arguments);
    if (reads)
        return type;
    /* As a constant function but for what it does unseen; of each argument nothing is used. */
    std::string specification = ".c";
    for (size_t at = 0; at < arguments.size(); at++)
        specification += "X ";
    tree text = build_string(specification.size(), specification.c_str());
    return build_type_attribute_variant(
        type, tree_cons(get_identifier("fn spec"), build_tree_list(NULL_TREE, text), NULL_TREE));
}

static gcall *called(const char *name, std::initializer_list<tree> arguments, bool reads) {
    tree function = function_named(hooks, name, [&] { return type_of_hook(arguments, reads); });
    TREE_NOTHROW(function) = 1;
    auto_vec<tree> given;
    for (tree argument : arguments)
        given.safe_push(argument);
    return gimple_build_call_vec(function, given);
}

gcall *call_hook(const char *name, std::initializer_list<tree> arguments) { return called(name, arguments, false); }

gcall *call_reading_hook(const char *name, std::initializer_list<tree> arguments) {
    return called(name, arguments, true);
}

tree library_function(tree builtin) {
    const char *name = IDENTIFIER_POINTER(DECL_ASSEMBLER_NAME(builtin));
    tree function = function_named(functions, name, [&] { return TREE_TYPE(builtin); });
    TREE_NOTHROW(function) = TREE_NOTHROW(builtin);
    /* Whether it returns. */
    TREE_THIS_VOLATILE(function) = TREE_THIS_VOLATILE(builtin);
    return function;
}

const char *called_hook(const gimple *statement) {
    if (!is_gimple_call(statement))
        return nullptr;
    tree callee = gimple_call_fndecl(statement);
    if (!callee || !DECL_NAME(callee))
        return nullptr;
    auto found = hooks.find(IDENTIFIER_POINTER(DECL_NAME(callee)));
    return found != hooks.end() && declared[found->second] == callee ? found->first.c_str() : nullptr;
}

std::string text_of_place(location_t location) {
    expanded_location where = expand_location(location);
    return std::string(where.file ? where.file : "?") + ":" + std::to_string(where.line);
}

tree literal_of(const std::string &text) { return build_string_literal(text.size() + 1, text.c_str()); }

tree place_of(location_t location) { return literal_of(text_of_place(location)); }

tree in_memory(tree value, gimple_seq *sequence) {
    tree variable = create_tmp_var(TREE_TYPE(value), "spbags");
    TREE_ADDRESSABLE(variable) = 1;
    gimple_seq_add_stmt(sequence, gimple_build_assign(variable, value));
    return build_fold_addr_expr(variable);
}

tree address_of(tree reference) {
    tree base = get_base_address(reference);
    if (base && DECL_P(base))
        mark_addressable(base);
    return build_fold_addr_expr(unshare_expr(reference));
}

void locate(gimple_seq sequence, location_t location) {
    for (gimple_stmt_iterator at = gsi_start(sequence); !gsi_end_p(at); gsi_next(&at))
        gimple_set_location(gsi_stmt(at), location);
}
