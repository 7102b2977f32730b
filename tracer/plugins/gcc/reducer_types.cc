#include "plain.h"
#include "reducers.h"

static const char NAME[] = "spbags_reducer";
bool reducer_types_any;

/* ---- Types ---- */

tree reducer_types_of(tree type) {
    tree name = TYPE_NAME(strip_array_types(type));
    return name && DECL_P(name) ? lookup_attribute(NAME, DECL_ATTRIBUTES(name)) : NULL_TREE;
}

bool reducer_types_is_pointer(tree type) { return POINTER_TYPE_P(type) && reducer_types_of(TREE_TYPE(type)); }

tree reducer_types_attribute(tree named) {
    while (TREE_CODE(named) == ARRAY_REF)
        named = TREE_OPERAND(named, 0);
    if (TREE_CODE(named) == MEM_REF)
        return reducer_types_of(TREE_TYPE(named));
    bool is_member = TREE_CODE(named) == COMPONENT_REF;
    tree decl = is_member ? TREE_OPERAND(named, 1) : named;
    tree own = DECL_P(decl) ? lookup_attribute(NAME, DECL_ATTRIBUTES(decl)) : NULL_TREE;
    /* A nested function has its parent's variables as members. */
    return own || !is_member || lang_GNU_CXX() ? own : reducer_types_of(TREE_TYPE(decl));
}

bool reducer_types_has_pointers(tree type) {
    type = strip_array_types(type);
    if (!RECORD_OR_UNION_TYPE_P(type))
        return POINTER_TYPE_P(type);
    for (tree member = TYPE_FIELDS(type); member; member = DECL_CHAIN(member))
        if (TREE_CODE(member) == FIELD_DECL && reducer_types_has_pointers(TREE_TYPE(member)))
            return true;
    return false;
}

/* Whether this is a type around another, by the declaration's own text. */
static bool is_around(tree type) {
    return (POINTER_TYPE_P(type) && !TYPE_NAME(type)) || FUNC_OR_METHOD_TYPE_P(type) || TREE_CODE(type) == ARRAY_TYPE;
}

/* The same type around another one. */
static tree rebuilt(tree whole, tree type, tree instead) {
    if (whole == type)
        return instead;
    /* The compiler's own function would go into pointers that have a name. */
    if (!POINTER_TYPE_P(type))
        return lang_hooks.types.reconstruct_complex_type(whole, instead);
    tree inner = rebuilt(TREE_TYPE(whole), type, instead);
    tree made = TREE_CODE(whole) == ARRAY_TYPE       ? build_array_type(inner, TYPE_DOMAIN(whole))
                : TREE_CODE(whole) == REFERENCE_TYPE ? build_reference_type(inner)
                                                     : build_pointer_type(inner);
    return build_qualified_type(made, TYPE_QUALS(whole));
}

/* A variant whose name has the attribute: that of a class has none of its own in C++. */
static tree variant_of(tree type, tree name, tree arguments) {
    tree variant = build_variant_type_copy(type);
    tree named = build_decl(input_location, TYPE_DECL, TYPE_IDENTIFIER(type), variant);
    DECL_ORIGINAL_TYPE(named) = type;
    DECL_ATTRIBUTES(named) = tree_cons(name, arguments, NULL_TREE);
    DECL_CONTEXT(named) = TYPE_CONTEXT(type);
    DECL_ARTIFICIAL(named) = 1;
    TYPE_NAME(variant) = named;
    return variant;
}

/* ---- The identity and the reduce function ---- */

/* A lambda is named by the function that gives its address. */
static bool are_plain(tree arguments) {
    for (int number = 0; arguments && number < 2; number++)
        if (tree *given = &CALL_EXPR_ARG(TREE_VALUE(arguments), number);
            !plain_is(given, true) && !integer_zerop(*given))
            return false;
    return arguments;
}

std::string reducer_types_name(tree decl) {
    return DECL_P(decl) && DECL_NAME(decl) ? IDENTIFIER_POINTER(DECL_NAME(decl)) : "?";
}

tree reducer_types_note(tree decl, tree type, tree attribute) {
    tree arguments = TREE_VALUE(attribute);
    bool has_pointers = reducer_types_has_pointers(type);
    if (!has_pointers && are_plain(arguments))
        return null_pointer_node;
    tree reduce = arguments ? tree_strip_nop_conversions(CALL_EXPR_ARG(TREE_VALUE(arguments), 1)) : NULL_TREE;
    bool is_named = reduce && TREE_CODE(reduce) == ADDR_EXPR && TREE_CODE(TREE_OPERAND(reduce, 0)) == FUNCTION_DECL;
    return literal_of(text_of_place(DECL_P(decl) ? DECL_SOURCE_LOCATION(decl) : input_location) + ": what " +
                      (is_named ? reducer_types_name(TREE_OPERAND(reduce, 0)) : "the reduce function") +
                      " does for the reducer " + reducer_types_name(decl) + " in another schedule isn't run" +
                      (has_pointers ? ", nor is it seen what updates of the reducer access inside of functions" : ""));
}

/* ---- The attribute ---- */

/* The type with a variant of the one that it is made of, which has the attribute; or null if that can't be traced. */
static tree with_attribute(tree node, tree name, tree arguments, int flags) {
    tree whole = DECL_P(node) ? TREE_TYPE(node) : node, type = whole, around = NULL_TREE;
    for (; is_around(type); type = TREE_TYPE(type))
        around = type;
    bool is_defined = !DECL_P(node) && (flags & ATTR_FLAG_TYPE_IN_PLACE);
    bool is_value = !around || FUNC_OR_METHOD_TYPE_P(around);
    if (is_defined || (is_value && DECL_P(node) && !VAR_P(node) && TREE_CODE(node) != FIELD_DECL))
        return NULL_TREE;
    return rebuilt(whole, type, variant_of(type, name, arguments));
}

/* A variable, a member or an array has the attribute itself; of all else it is the type of what is pointed to. */
static tree read_attribute(tree *node, tree name, tree arguments, int flags, bool *leaves_out) {
    reducer_types_any = plain_is_asked = true;
    /* Which has seen the functions that are known already. */
    are_plain(arguments);
    *leaves_out = true;
    location_t location = DECL_P(*node) ? DECL_SOURCE_LOCATION(*node) : input_location;
    tree type = with_attribute(*node, name, arguments, flags);
    if (!type) {
        error_at(location, "this reducer cannot be traced: declare a variable, a member or a pointer");
    } else if (!DECL_P(*node)) {
        *node = type;
    } else {
        TREE_TYPE(*node) = type;
        *leaves_out = !reducer_types_of(type);
        if (VAR_P(*node) && !*leaves_out) {
            /* Each use of it is a load or a store. */
            TREE_ADDRESSABLE(*node) = 1;
            if (DECL_THREAD_LOCAL_P(*node))
                error_at(location, "a reducer that is local to a thread cannot be traced");
        }
    }
    return NULL_TREE;
}

static void register_attributes(void *, void *) {
    static const attribute_spec specification = {NAME, 0, 1, false, false, false, false, read_attribute, nullptr};
    register_attribute(&specification);
}

void reducer_types_begin(const char *plugin) {
    register_callback(plugin, PLUGIN_ATTRIBUTES, register_attributes, nullptr);
}
