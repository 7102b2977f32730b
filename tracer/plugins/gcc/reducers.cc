#include "reducers.h"

/* What is done to a view: its value is read, or set; or it is updated. */
enum usage { READS, SETS, UPDATES };

/* The uses on which something depends, by their numbers. */
typedef std::set<size_t> numbers;

static bool is_temporary(tree value) {
    return TREE_CODE(value) == SSA_NAME || (VAR_P(value) && DECL_ARTIFICIAL(value) && !is_global_var(value));
}

/* Whether its name begins so. */
static bool is_named(tree decl, const char *beginning) {
    return decl && DECL_P(decl) && DECL_NAME(decl) && begins_with(IDENTIFIER_POINTER(DECL_NAME(decl)), beginning);
}

/* ---- Hooks ---- */

static void put_before(gimple_stmt_iterator *at, const char *name, std::initializer_list<tree> arguments) {
    gcall *hook = call_hook(name, arguments);
    gimple_set_location(hook, gimple_location(gsi_stmt(*at)));
    gsi_insert_before(at, hook, GSI_SAME_STMT);
}

/* A block whose last statement is a hook of what is named; a note is for some. */
static gbind *block_of(const char *name, tree named, tree note, location_t location) {
    gimple_seq made = nullptr;
    push_gimplify_context();
    tree address = address_of(named), size = unshare_expr(TYPE_SIZE_UNIT(TREE_TYPE(named)));
    gimplify_expr(&address, &made, nullptr, is_gimple_val, fb_rvalue);
    gimplify_expr(&size, &made, nullptr, is_gimple_val, fb_rvalue);
    gimple_seq_add_stmt(&made, note ? call_hook(name, {address, size, note}) : call_hook(name, {address, size}));
    locate(made, location);
    gbind *block = gimple_build_bind(NULL_TREE, made, NULL_TREE);
    pop_gimplify_context(block);
    return block;
}

/* What the function does isn't recorded, since views have more memory elsewhere. */
static void hide(gimple_stmt_iterator *at) {
    gimple *call = gimple_copy(gsi_stmt(*at)), *show = call_hook("__spbags_show", {});
    if (tree result = gimple_get_lhs(call); result && TREE_CODE(result) == SSA_NAME)
        SSA_NAME_DEF_STMT(result) = call;
    put_before(at, "__spbags_hide", {});
    gimple_set_location(show, gimple_location(call));
    gsi_replace(at, gimple_build_try(call, show, GIMPLE_TRY_FINALLY), false);
}

/* The variables of a block that are reducers begin and end with it. Elements, and one whose memory isn't there yet,
   begin with their first use. */
static void put_around(gbind *block) {
    for (tree decl = gimple_bind_vars(block); decl; decl = DECL_CHAIN(decl)) {
        tree attribute = VAR_P(decl) && !is_global_var(decl) ? reducer_types_attribute(decl) : NULL_TREE;
        if (!attribute)
            continue;
        tree named = DECL_HAS_VALUE_EXPR_P(decl) ? DECL_VALUE_EXPR(decl) : decl, type = TREE_TYPE(decl);
        location_t location = DECL_SOURCE_LOCATION(decl);
        gbind *end = block_of("__spbags_reducers_end", named, NULL_TREE, location);
        gimple_seq body = nullptr;
        if (named == decl && TREE_CODE(type) != ARRAY_TYPE)
            body = block_of("__spbags_reducer", decl, reducer_types_note(decl, type, attribute), location);
        gimple_seq_add_stmt(&body, gimple_build_try(gimple_bind_body(block), end, GIMPLE_TRY_FINALLY));
        gimple_bind_set_body(block, body);
    }
}

/* ---- Uses ---- */

static tree add_temporary(tree *at, int *, void *found) {
    if (is_temporary(*at))
        static_cast<std::set<tree> *>(found)->insert(*at);
    return NULL_TREE;
}

static std::set<tree> temporaries_of(gimple *statement) {
    std::set<tree> found;
    for (unsigned number = 0; number < gimple_num_ops(statement); number++)
        walk_tree(gimple_op_ptr(statement, number), add_temporary, &found, nullptr);
    return found;
}

/* All uses of a function, in the order of its text. What is computed of a view's value and sets it, or depends on a
   condition with that value, updates the view; so does who gets its address. */
class reducer_uses {
  public:
    /* The temporary variables whose values are used. */
    std::set<tree> used;

    /* Sees a statement, and tells whether its inner ones needn't be. */
    bool see(gimple_stmt_iterator *at) {
        gimple *statement = gsi_stmt(*at);
        bool is_call = is_gimple_call(statement);
        if (gbind *block = dyn_cast<gbind *>(statement))
            put_around(block);
        else if (glabel *named = dyn_cast<glabel *>(statement))
            label(gimple_label_label(named));
        else if (gcond *whole = dyn_cast<gcond *>(statement))
            condition(whole);
        else if (is_call)
            call(at);
        else if (is_gimple_assign(statement) && !gimple_clobber_p(statement))
            assignment(at);
        else if (gimple_code(statement) == GIMPLE_ASM)
            assembly(at);
        else if (greturn *returns = dyn_cast<greturn *>(statement); returns && gimple_return_retval(returns))
            keep(at, gimple_return_retval(returns), DECL_RESULT(cfun->decl), depends_on(returns));
        last = statement;
        return is_call;
    }

    /* The view that is what is named here, or holds it; or null. */
    tree view_of(tree named) const {
        while (!reducer_types_attribute(named)) {
            tree pointer = TREE_CODE(named) == MEM_REF ? origin(TREE_OPERAND(named, 0)) : NULL_TREE;
            if (!handled_component_p(named) && !(pointer && TREE_CODE(pointer) == ADDR_EXPR))
                return NULL_TREE;
            named = TREE_OPERAND(pointer ? pointer : named, 0);
        }
        return named;
    }

  private:
    /* The view, what that is by variables of the program, and the hook before the statement that uses it. */
    struct use {
        tree view, named;
        gcall *hook;
    };
    std::vector<use> all;
    /* What sets a temporary variable, what it is by those of the program, and on what its value depends. */
    std::map<tree, gimple *> made_by;
    std::map<tree, tree> computed;
    std::map<tree, numbers> flows;
    /* A condition guards what stands before these labels. */
    struct guard {
        std::set<tree> labels;
        numbers depends;
    };
    std::vector<guard> guards;
    std::set<tree> passed;
    gimple *last = nullptr;
    /* The last value that is built in parts: where, and on what it depends. */
    location_t built_at = UNKNOWN_LOCATION;
    numbers built;

    /* What a temporary variable gets, or the value itself. */
    tree origin(tree value) const {
        auto found = made_by.find(value);
        return found != made_by.end() && is_gimple_assign(found->second) ? gimple_assign_rhs1(found->second) : value;
    }

    /* The view whose address this is, or null. */
    tree view_pointed(tree value) const {
        tree from = origin(value), type = TREE_TYPE(reducer_types_is_pointer(TREE_TYPE(value)) ? value : from);
        if (TREE_CODE(from) == ADDR_EXPR)
            return view_of(TREE_OPERAND(from, 0));
        return reducer_types_is_pointer(type) ? build2(MEM_REF, TREE_TYPE(type), value, build_zero_cst(type))
                                              : NULL_TREE;
    }

    tree declaration(tree view) const {
        while (TREE_CODE(view) != COMPONENT_REF && (EXPR_P(view) || origin(view) != view))
            view = EXPR_P(view) ? TREE_OPERAND(view, 0) : origin(view);
        view = TREE_CODE(view) == COMPONENT_REF ? TREE_OPERAND(view, 1) : view;
        return TREE_CODE(view) == SSA_NAME && SSA_NAME_VAR(view) ? SSA_NAME_VAR(view) : view;
    }

    static tree put_computed(tree *at, int *walks_on, void *computed) {
        auto &all = *static_cast<std::map<tree, tree> *>(computed);
        if (auto found = all.find(*at); found != all.end())
            *at = unshare_expr(found->second), *walks_on = 0;
        return NULL_TREE;
    }

    /* What is named, by variables of the program alone. */
    tree whole(tree named) {
        named = unshare_expr(named);
        walk_tree(&named, put_computed, &computed, nullptr);
        return named;
    }

    numbers depends_on(gimple *statement) {
        numbers found;
        for (tree one : temporaries_of(statement))
            if (one != gimple_get_lhs(statement))
                found.insert(flows[one].begin(), flows[one].end());
        for (const guard &around : guards)
            found.insert(around.depends.begin(), around.depends.end());
        return found;
    }

    /* The end of what a condition guards, but that a jump around an `else` goes on to that one's end. */
    void label(tree name) {
        passed.insert(name);
        for (guard &around : guards) {
            around.labels.erase(name);
            if (around.labels.empty() && last && gimple_code(last) == GIMPLE_GOTO &&
                gimple_do_not_emit_location_p(last))
                around.labels.insert(gimple_goto_dest(last));
        }
        guards.erase(std::remove_if(guards.begin(), guards.end(), [](const guard &one) { return one.labels.empty(); }),
                     guards.end());
    }

    /* That of a loop guards nothing. */
    void condition(gcond *whole) {
        tree labels[] = {gimple_cond_true_label(whole), gimple_cond_false_label(whole)};
        numbers depends = depends_on(whole);
        if (!depends.empty() && !passed.count(labels[0]) && !passed.count(labels[1]))
            guards.push_back({{labels[0], labels[1]}, depends});
    }

    void update(size_t number) {
        gcall *hook = all[number].hook;
        tree address = gimple_call_arg(hook, 0), size = gimple_call_arg(hook, 1), note = gimple_call_arg(hook, 2);
        gimple_call_set_fndecl(hook, gimple_call_fndecl(call_hook("__spbags_update", {address, size, note})));
    }

    /* Its number. */
    size_t add(gimple_stmt_iterator *at, tree view, usage made, const numbers &depends) {
        location_t location = gimple_location(gsi_stmt(*at));
        tree type = TREE_TYPE(view), decl = declaration(view);
        std::string name = reducer_types_name(decl);
        if (TREE_CODE(type) == ARRAY_TYPE)
            error_at(location, "this cannot be traced: name one element of the reducers %s", name.c_str());
        else if (TREE_CODE(view) == COMPONENT_REF && DECL_BIT_FIELD_TYPE(decl))
            error_at(location, "the reducer %s cannot be traced: it is a bit field", name.c_str());
        numbers same;
        tree named = whole(view);
        std::copy_if(depends.begin(), depends.end(), std::inserter(same, same.end()),
                     [&](size_t number) { return operand_equal_p(all[number].named, named, 0); });
        tree note = reducer_types_note(decl, type, reducer_types_attribute(view));
        gbind *block = block_of("__spbags_value", view, note, location);
        gsi_insert_before(at, block, GSI_SAME_STMT);
        all.push_back({view, named, as_a<gcall *>(gimple_seq_last_stmt(gimple_bind_body(block)))});
        if (made == UPDATES || (made == SETS && !same.empty()))
            update(all.size() - 1);
        if (made != READS)
            std::for_each(same.begin(), same.end(), [&](size_t number) { update(number); });
        return all.size() - 1;
    }

    /* An address that is put where it isn't known for that of a reducer. It may be an argument of a child. */
    void keep(gimple_stmt_iterator *at, tree value, tree to, const numbers &depends) {
        tree view = reducer_types_is_pointer(TREE_TYPE(to)) ? NULL_TREE : view_pointed(value);
        if (!view)
            return;
        add(at, view, UPDATES, depends);
        if (is_named(to, "__spbags_"))
            return;
        std::string text = text_of_place(gimple_location(gsi_stmt(*at))) +
                           ": what is done by this address of the reducer " + reducer_types_name(declaration(view)) +
                           " counts as an update";
        put_before(at, "__spbags_not_seen", {literal_of(text)});
    }

    void store(gimple_stmt_iterator *at, tree to, const numbers &depends) {
        tree view = view_of(to), base = get_base_address(to);
        /* What no text names is a part of a value that is built in its place. */
        bool is_built = !EXPR_HAS_LOCATION(to);
        if (!is_built || built_at != gimple_location(gsi_stmt(*at)))
            built.clear();
        built_at = gimple_location(gsi_stmt(*at));
        built.insert(depends.begin(), depends.end());
        /* A whole array is only begun. */
        if (view && TREE_CODE(TREE_TYPE(view)) != ARRAY_TYPE)
            add(at, view, view == to || is_built ? SETS : UPDATES, built);
        /* Where a view points to. */
        if (!view && base && TREE_CODE(base) == MEM_REF)
            for (size_t number : flows[TREE_OPERAND(base, 0)])
                if (POINTER_TYPE_P(TREE_TYPE(all[number].view)))
                    update(number);
    }

    void assignment(gimple_stmt_iterator *at) {
        gimple *statement = gsi_stmt(*at);
        tree to = gimple_assign_lhs(statement), from = gimple_assign_rhs1(statement);
        numbers depends = depends_on(statement);
        if (tree view = gimple_assign_single_p(statement) ? view_of(from) : NULL_TREE)
            depends.insert(add(at, view, READS, depends));
        store(at, to, depends);
        /* What a conditional expression gives is set twice. */
        bool is_either = is_named(to, "iftmp");
        if (is_temporary(to) && !is_either) {
            made_by[to] = statement;
            computed[to] = whole(gimple_assign_rhs_to_tree(statement));
            flows[to].clear();
        } else if (gimple_num_ops(statement) == 2 || gimple_assign_rhs_code(statement) == POINTER_PLUS_EXPR) {
            keep(at, from, to, depends);
        }
        if (is_temporary(to))
            flows[to].insert(depends.begin(), depends.end());
    }

    /* What stands in memory is read or set. */
    void assembly(gimple_stmt_iterator *at) {
        for (unsigned number = 0; number < gimple_num_ops(gsi_stmt(*at)); number++)
            if (tree operand = gimple_op(gsi_stmt(*at), number); TREE_CODE(operand) == TREE_LIST)
                if (tree view = view_of(TREE_VALUE(operand)))
                    add(at, view, READS, {});
    }

    /* How an argument's address is used. */
    usage handed(gcall *call, unsigned number, tree parameter) const {
        tree type = gimple_call_fntype(call);
        if (type && TREE_CODE(type) == METHOD_TYPE && number == 0)
            return has_use(gimple_call_lhs(call)) ? READS : UPDATES;
        /* An object is built there. */
        if (is_named(gimple_call_fndecl(call), "operator new"))
            return SETS;
        bool is_constant = parameter && TREE_CODE(parameter) == REFERENCE_TYPE && TYPE_READONLY(TREE_TYPE(parameter));
        return is_constant ? READS : UPDATES;
    }

    bool has_use(tree result) const { return result && (!is_temporary(result) || used.count(result)); }

    /* What is done to the arguments; whether the function may access what else views have. */
    bool arguments(gimple_stmt_iterator *at, gcall *call, numbers *depends) {
        tree callee = gimple_call_fndecl(call), type = gimple_call_fntype(call);
        tree parameters = type ? TYPE_ARG_TYPES(type) : NULL_TREE;
        bool begins = callee && (DECL_CXX_CONSTRUCTOR_P(callee) || DECL_CXX_DESTRUCTOR_P(callee)), reaches = false;
        for (unsigned number = 0; number < gimple_call_num_args(call); number++) {
            tree argument = gimple_call_arg(call, number), parameter = parameters ? TREE_VALUE(parameters) : NULL_TREE;
            parameters = parameters ? TREE_CHAIN(parameters) : NULL_TREE;
            tree value = view_of(argument), view = value ? value : view_pointed(argument);
            if (!view || (begins && number == 0) || (parameter && reducer_types_is_pointer(parameter)))
                continue;
            usage made = value ? READS : handed(call, number, parameter);
            depends->insert(add(at, view, made, *depends));
            reaches |= made == UPDATES && reducer_types_has_pointers(TREE_TYPE(view));
        }
        return reaches;
    }

    void call(gimple_stmt_iterator *at) {
        gcall *call = as_a<gcall *>(gsi_stmt(*at));
        numbers depends = depends_on(call);
        tree callee = gimple_call_fndecl(call);
        bool is_use = !is_named(callee, "__spbags_") && !is_named(callee, "operator delete");
        bool reaches = is_use && arguments(at, call, &depends);
        tree result = gimple_call_lhs(call);
        if (result) {
            store(at, result, depends);
            made_by[result] = call;
            computed.erase(result);
            flows[result].clear();
        }
        /* What it gives, and what it may set. */
        for (tree one : temporaries_of(call))
            if (one == result || !is_gimple_reg(one))
                flows[one].insert(depends.begin(), depends.end());
        if (reaches && !has_use(result))
            hide(at);
    }
};

static tree see_statement(gimple_stmt_iterator *at, bool *is_done, walk_stmt_info *info) {
    *is_done = static_cast<reducer_uses *>(info->info)->see(at);
    return NULL_TREE;
}

static tree note_used(tree *at, int *, void *data) {
    walk_stmt_info *info = static_cast<walk_stmt_info *>(data);
    gimple *statement = gsi_stmt(info->gsi);
    tree callee = is_gimple_call(statement) ? gimple_call_fndecl(statement) : NULL_TREE;
    /* What ends a variable is no use of its value. */
    bool ends = callee && DECL_CXX_DESTRUCTOR_P(callee);
    if (is_temporary(*at) && *at != gimple_get_lhs(statement) && !ends)
        static_cast<reducer_uses *>(info->info)->used.insert(*at);
    return NULL_TREE;
}

void reducers_put(function *fun) {
    if (!reducer_types_any)
        return;
    reducer_uses all;
    walk_stmt_info info;
    memset(&info, 0, sizeof info);
    info.info = &all;
    gimple_seq body = gimple_body(fun->decl);
    walk_gimple_seq(body, nullptr, note_used, &info);
    walk_gimple_seq_mod(&body, see_statement, nullptr, &info);
    gimple_set_body(fun->decl, body);
}

/* ---- Constants ---- */

/* One may have the address of a reducer only where that is known as one. */
static void check_constant(tree value, tree type, location_t location) {
    for (unsigned number = 0; TREE_CODE(value) == CONSTRUCTOR && number < CONSTRUCTOR_NELTS(value); number++) {
        constructor_elt *each = CONSTRUCTOR_ELT(value, number);
        bool is_member = each->index && TREE_CODE(each->index) == FIELD_DECL;
        check_constant(each->value, TREE_TYPE(is_member ? each->index : TREE_TYPE(value)), location);
    }
    while (CONVERT_EXPR_P(value) || TREE_CODE(value) == POINTER_PLUS_EXPR)
        value = TREE_OPERAND(value, 0);
    bool is_address = TREE_CODE(value) == ADDR_EXPR && reducer_uses().view_of(TREE_OPERAND(value, 0));
    if (is_address && !reducer_types_is_pointer(type))
        error_at(location, "the address of a reducer cannot be traced in a constant");
}

static void check_constants(void *, void *) {
    for (varpool_node *node = symtab->first_variable(); node && reducer_types_any; node = symtab->next_variable(node))
        if (tree value = DECL_INITIAL(node->decl))
            check_constant(value, TREE_TYPE(node->decl), DECL_SOURCE_LOCATION(node->decl));
}

void reducers_begin(const char *plugin) {
    reducer_types_begin(plugin);
    register_callback(plugin, PLUGIN_ALL_IPA_PASSES_START, check_constants, nullptr);
}
