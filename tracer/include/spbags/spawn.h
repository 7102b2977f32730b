/* What a rewritten spawn of C++ calls; spawns_cplusplus.py has the text around it. A spawn's statement becomes a
   function, in which first the parent evaluates what is called and the arguments. What stands here then opens the
   child, and calls: from there on all that is left of the statement is the child's. What is handed over by value, the
   type says of that which is called, if it has one. Overloaded functions and templates get references. All names are
   reserved, as in spbags_cilk.h. */
#ifndef SPBAGS_SPAWN_H
#define SPBAGS_SPAWN_H

extern "C" {
/* The function that called the caller of this is a child from here on. Its code is there, as in the others. */
void __spbags_detach(const void *__code);
/* The parent reads an argument. */
void __spbags_passed(const volatile void *__at, unsigned long __size, const void *__code);
/* The child of a statement has ended, if it was opened, and its function is of no use any more. It has stored its
   result here, if it has one; or an exception leaves it, at this place of the source. */
void __spbags_end_child(const volatile void *__function, unsigned long __size, const void *__code);
void __spbags_stored_by(const volatile void *__at, unsigned long __size, const void *__code);
void __spbags_leave_child(const volatile void *__function, unsigned long __size, const char *__place,
                          const void *__code);
/* The same of an exception that is kept, and so is no reason for a line; gives 0 if there was no child yet. */
int __spbags_left_child(const volatile void *__function, unsigned long __size, const void *__code);
}

#if __cplusplus >= 201103L
/* What such a function does isn't in the trace. By clang no C++ spawns. */
#ifdef __clang__
#define __SPBAGS_OUTSIDE __attribute__((__noinline__))
#else
#define __SPBAGS_OUTSIDE __attribute__((__spbags_untraced__, __noinline__))
#endif
#define __SPBAGS_CODE __builtin_return_address(0)

/* The end of a child, also by an exception. */
struct __spbags_ending {
    const char *__place;
    const volatile void *__function;
    unsigned long __size;
    __SPBAGS_OUTSIDE ~__spbags_ending() {
        if (__place)
            __spbags_leave_child(__function, __size, __place, __SPBAGS_CODE);
    }
    __SPBAGS_OUTSIDE void __end(const volatile void *__result, unsigned long __result_size) {
        if (!__place)
            return;
        __place = nullptr;
        if (__result_size > 0)
            __spbags_stored_by(__result, __result_size, __SPBAGS_CODE);
        __spbags_end_child(__function, __size, __SPBAGS_CODE);
    }
    __SPBAGS_OUTSIDE bool __leaves() {
        __place = nullptr;
        return __spbags_left_child(__function, __size, __SPBAGS_CODE);
    }
};
#endif

#if __cplusplus >= 201402L
/* A parameter of the functions that a spawn is made of, by which reports know them. */
struct __spbags_spawned {};

template <class __T> struct __spbags_referent { typedef __T __type; };
template <class __T> struct __spbags_referent<__T &> : __spbags_referent<__T> {};
template <class __T> struct __spbags_referent<__T &&> : __spbags_referent<__T> {};
template <class __T> struct __spbags_plain : __spbags_referent<__T> {};
template <class __T> struct __spbags_plain<const __T> : __spbags_referent<__T> {};
template <class __T> struct __spbags_plain<volatile __T> : __spbags_referent<__T> {};
template <class __T> struct __spbags_plain<const volatile __T> : __spbags_referent<__T> {};
template <class __T> struct __spbags_plain<__T &> : __spbags_plain<__T> {};
template <class __T> struct __spbags_plain<__T &&> : __spbags_plain<__T> {};
template <class __T> __T &&__spbags_any();

template <class __T> constexpr bool __spbags_is_struct() { return __is_class(__T) || __is_union(__T); }
template <class __T> constexpr bool __spbags_is_copied() {
    return __is_trivially_copyable(__T) && __is_constructible(__T, const __T &);
}

/* ---- The result ---- */

/* No hook sees the read of a constant, and a reference is no variable that gets a result. */
template <class __T> struct __spbags_is_local { enum { __value = true }; };
template <class __T> struct __spbags_is_local<const __T> { enum { __value = false }; };
template <class __T> struct __spbags_is_local<__T &> { enum { __value = false }; };
template <class __T> struct __spbags_is_local<__T &&> { enum { __value = false }; };
template <class __T> constexpr void __spbags_check_local() {
    static_assert(__spbags_is_local<__T>::__value,
                  "a spawn can't be traced in this declaration: declare the variable before it");
}

/* ---- The parameters of what is called ---- */

template <class __R, class... __P> struct __spbags_signature {};
struct __spbags_no_signature {};

template <class __R, class... __P> __spbags_signature<__R, __P...> __spbags_signature_of(__R (*)(__P...));
#define __SPBAGS_MEMBER(__QUALIFIERS) \
    template <class __R, class __C, class... __P> \
    __spbags_signature<__R, __P...> __spbags_signature_of(__R (__C::*)(__P...) __QUALIFIERS);
#define __SPBAGS_MEMBERS(__QUALIFIERS) __SPBAGS_MEMBER(__QUALIFIERS)
#if __cpp_noexcept_function_type
#undef __SPBAGS_MEMBERS
#define __SPBAGS_MEMBERS(__QUALIFIERS) __SPBAGS_MEMBER(__QUALIFIERS) __SPBAGS_MEMBER(__QUALIFIERS noexcept)
#endif
__SPBAGS_MEMBERS() __SPBAGS_MEMBERS(const) __SPBAGS_MEMBERS(volatile) __SPBAGS_MEMBERS(const volatile)
__SPBAGS_MEMBERS(&) __SPBAGS_MEMBERS(const &) __SPBAGS_MEMBERS(volatile &) __SPBAGS_MEMBERS(const volatile &)
__SPBAGS_MEMBERS(&&) __SPBAGS_MEMBERS(const &&) __SPBAGS_MEMBERS(volatile &&) __SPBAGS_MEMBERS(const volatile &&)

/* Those of a function, or of an object that can be called in one way alone. */
template <class __F> auto __spbags_taken(__F *__function, int) -> decltype(__spbags_signature_of(__function));
template <class __C>
auto __spbags_taken(__C &&, int) -> decltype(__spbags_signature_of(&__spbags_plain<__C>::__type::operator()));
template <class __F> __spbags_no_signature __spbags_taken(__F &&, long);

/* Those of a member that is an object itself. */
template <class __T, class __C>
auto __spbags_signature_of(__T __C::*) -> decltype(__spbags_taken(__spbags_any<__T &>(), 0));

/* The first n, as the others have defaults. */
enum : unsigned { __spbags_all = ~0u };
template <unsigned __n, class __Taken, class __Left> struct __spbags_first { typedef __Taken __type; };
template <unsigned __n, class __R, class... __Taken, class __P, class... __Left>
struct __spbags_first<__n, __spbags_signature<__R, __Taken...>, __spbags_signature<__R, __P, __Left...>>
    : __spbags_first<__n - 1, __spbags_signature<__R, __Taken..., __P>, __spbags_signature<__R, __Left...>> {};
template <class __R, class... __Taken, class __P, class... __Left>
struct __spbags_first<0, __spbags_signature<__R, __Taken...>, __spbags_signature<__R, __P, __Left...>> {
    typedef __spbags_signature<__R, __Taken...> __type;
};
template <unsigned __n, class __Signature> struct __spbags_cut { typedef __Signature __type; };
template <unsigned __n, class __R, class... __P>
struct __spbags_cut<__n, __spbags_signature<__R, __P...>>
    : __spbags_first<__n, __spbags_signature<__R>, __spbags_signature<__R, __P...>> {};

/* ---- How arguments are handed over ---- */

/* Where no type says it, what is small may be handed over by value. A read of it by the parent is none too many, as
   long as the child uses it. */
template <class __T, bool __is_copied = __spbags_is_copied<__T>()> struct __spbags_small {
    template <class __A> static void __pass(const __A &, const void *) {}
};
template <class __T> struct __spbags_small<__T, true> {
    __SPBAGS_OUTSIDE static void __pass(const volatile __T &__argument, const void *__code) {
        if (sizeof(__T) <= 16)
            __spbags_passed(&reinterpret_cast<const volatile char &>(__argument), sizeof(__T), __code);
    }
};

/* ---- The child, which is called with the arguments ---- */

template <class __Call, class __Signature> struct __spbags_child;

template <class __Call, class __R, class... __P> struct __spbags_child<__Call, __spbags_signature<__R, __P...>> {
    __Call __call;
    __SPBAGS_OUTSIDE __R operator()(__P... __arguments) {
        __spbags_detach(__SPBAGS_CODE);
        return __call(static_cast<__P &&>(__arguments)...);
    }
};

/* The parent reads these arguments, and of an object the table of virtual functions. */
template <class... __A> __SPBAGS_OUTSIDE void __spbags_pass(const void *__code, const __A &...__arguments) {
    const int __passed[] = {0, (__spbags_small<__A>::__pass(__arguments, __code), 0)...};
    (void)__passed, (void)__code;
}
template <class __O> __SPBAGS_OUTSIDE void __spbags_pass_table(const void *__code, const __O &__object) {
    if (__is_polymorphic(__O))
        __spbags_passed(&reinterpret_cast<const volatile char &>(__object), sizeof(void *), __code);
}

/* A call by an address or a reference; by the program's text, and by its text behind an object; by an operator, and
   whether that is a member; and by a pointer to a member. */
#define __SPBAGS_CALL(__CALL) \
    template <class... __A> __SPBAGS_OUTSIDE decltype(auto) operator()(__A &&...__arguments) { return __CALL; }
template <class __F> struct __spbags_direct {
    __F __function;
    __SPBAGS_CALL(static_cast<__F &&>(__function)(static_cast<__A &&>(__arguments)...))
};
template <class __Text> struct __spbags_by_text {
    __Text __text;
    __SPBAGS_CALL(__text(__spbags_spawned(), static_cast<__A &&>(__arguments)...))
};
template <class __O, class __Text> struct __spbags_of_object {
    __O __object;
    __Text __text;
    __SPBAGS_CALL(__text(__spbags_spawned(), static_cast<__O &&>(__object), static_cast<__A &&>(__arguments)...))
};
template <class __O, class __Text, class __Member> struct __spbags_by_operator {
    __spbags_of_object<__O, __Text> __of;
    __Member __member;
    __SPBAGS_CALL(__of(static_cast<__A &&>(__arguments)...))
};
template <class __O, class __F> struct __spbags_by_pointer {
    __O __object;
    __F __pointer;
    __SPBAGS_CALL((static_cast<__O &&>(__object).*__pointer)(static_cast<__A &&>(__arguments)...))
};
#undef __SPBAGS_CALL

/* The left operand is an argument too, unless the operator is its member. */
template <class __O, class __Member, class... __A>
constexpr auto __spbags_is_member(int)
    -> decltype(__spbags_any<const __Member &>()(__spbags_spawned(), __spbags_any<__O>(), __spbags_any<__A>()...),
                true) {
    return true;
}
template <class __O, class __Member, class... __A> constexpr bool __spbags_is_member(long) { return false; }
template <class... __A, class __Call> __SPBAGS_OUTSIDE void __spbags_pass_left(const void *, const __Call &) {}
template <class... __A, class __O, class __Text, class __Member>
__SPBAGS_OUTSIDE void __spbags_pass_left(const void *__code,
                                         const __spbags_by_operator<__O, __Text, __Member> &__call) {
    if (!__spbags_is_member<__O, __Member, __A...>(0))
        __spbags_pass(__code, __call.__of.__object);
}

template <class __Call> struct __spbags_child<__Call, __spbags_no_signature> {
    __Call __call;

    template <class... __A> __SPBAGS_OUTSIDE decltype(auto) operator()(__A &&...__arguments) {
        __spbags_pass_left<__A &&...>(__SPBAGS_CODE, __call);
        __spbags_pass(__SPBAGS_CODE, __arguments...);
        __spbags_detach(__SPBAGS_CODE);
        return __call(static_cast<__A &&>(__arguments)...);
    }
};

/* The same by an operator that assigns. */
template <class __Child> struct __spbags_assigning;
template <class __Call, class __R, class __P>
struct __spbags_assigning<__spbags_child<__Call, __spbags_signature<__R, __P>>> {
    __spbags_child<__Call, __spbags_signature<__R, __P>> __child;
    __SPBAGS_OUTSIDE __R operator+=(__P __argument) {
        __spbags_detach(__SPBAGS_CODE);
        return __child.__call(static_cast<__P &&>(__argument));
    }
};
template <class __Call> struct __spbags_assigning<__spbags_child<__Call, __spbags_no_signature>> {
    __spbags_child<__Call, __spbags_no_signature> __child;
    template <class __A> __SPBAGS_OUTSIDE decltype(auto) operator+=(__A &&__argument) {
        __spbags_pass_left<__A &&>(__SPBAGS_CODE, __child.__call);
        __spbags_pass(__SPBAGS_CODE, __argument);
        __spbags_detach(__SPBAGS_CODE);
        return __child.__call(static_cast<__A &&>(__argument));
    }
};
template <class __Child> __SPBAGS_OUTSIDE auto __spbags_assigned(const __Child &__child) {
    return __spbags_assigning<__Child>{__child};
}

/* ---- What a statement calls, with n arguments or with any number behind ---- */

/* A function's address, or an object. */
template <unsigned __n, class __F> __SPBAGS_OUTSIDE auto __spbags_expression(__F *__function) {
    typedef decltype(__spbags_taken(__function, 0)) __signature;
    return __spbags_child<__spbags_direct<__F *>, typename __spbags_cut<__n, __signature>::__type>{{__function}};
}
template <unsigned __n, class __C> __SPBAGS_OUTSIDE auto __spbags_expression(__C &&__object) {
    typedef decltype(__spbags_taken(__object, 0)) __signature;
    typedef __spbags_child<__spbags_direct<__C &&>, typename __spbags_cut<__n, __signature>::__type> __child;
    return __child{{static_cast<__C &&>(__object)}};
}

/* What a name names, where that has one type: a function, a variable that has one's address, or an object. */
template <class __R, class... __P>
__SPBAGS_OUTSIDE auto __spbags_one(__R (&__function)(__P...), int) -> __R (&)(__P...) {
    return __function;
}
template <class __F>
__SPBAGS_OUTSIDE auto __spbags_one(__F *__function, long)
    -> decltype(__spbags_signature_of(__function), static_cast<__F *>(__function)) {
    return __function;
}
template <class __C> __SPBAGS_OUTSIDE auto __spbags_one(__C &__object, long) -> decltype(&__C::operator(), __object) {
    return __object;
}

template <unsigned __n, class __R, class... __P, class __Seen>
__SPBAGS_OUTSIDE auto __spbags_name_call(__R (&)(__P...), const __Seen &__seen) {
    typedef typename __spbags_cut<__n, __spbags_signature<__R, __P...>>::__type __signature;
    return __spbags_child<__spbags_by_text<__Seen>, __signature>{{__seen}};
}
template <unsigned __n, class __F, class __Seen>
__SPBAGS_OUTSIDE auto __spbags_name_call(__F *&&__function, const __Seen &) {
    return __spbags_expression<__n>(__function);
}
template <unsigned __n, class __C, class __Seen>
__SPBAGS_OUTSIDE auto __spbags_name_call(__C &__object, const __Seen &__seen) {
    typedef typename __spbags_cut<__n, decltype(__spbags_taken(__object, 0))>::__type __signature;
    return __spbags_child<__spbags_by_text<__Seen>, __signature>{{__seen}};
}

template <unsigned __n, class __One, class __Seen, class __Unseen>
__SPBAGS_OUTSIDE auto __spbags_name(const __One &__one, const __Seen &__seen, const __Unseen &, int)
    -> decltype(__spbags_name_call<__n>(__one(__spbags_spawned(), 0), __seen)) {
    return __spbags_name_call<__n>(__one(__spbags_spawned(), 0), __seen);
}
template <unsigned __n, class __One, class __Seen, class __Unseen>
__SPBAGS_OUTSIDE auto __spbags_name(const __One &, const __Seen &, const __Unseen &__unseen, long) {
    return __spbags_child<__spbags_by_text<__Unseen>, __spbags_no_signature>{{__unseen}};
}

/* A member of an object. */
template <class __T> __SPBAGS_OUTSIDE __T *__spbags_pointed(__T *__object) { return __object; }
template <class __T> __SPBAGS_OUTSIDE auto __spbags_pointed(__T &&__object) {
    return __spbags_pointed(__object.operator->());
}

template <unsigned __n, class __O, class __Seen, class __Unseen, class __R, class... __P>
__SPBAGS_OUTSIDE auto __spbags_member_call(const void *, __O &&__object, const __Seen &__seen, const __Unseen &,
                                           __spbags_signature<__R, __P...>) {
    typedef typename __spbags_cut<__n, __spbags_signature<__R, __P...>>::__type __signature;
    return __spbags_child<__spbags_of_object<__O &&, __Seen>, __signature>{{static_cast<__O &&>(__object), __seen}};
}
template <unsigned __n, class __O, class __Seen, class __Unseen>
__SPBAGS_OUTSIDE auto __spbags_member_call(const void *__code, __O &&__object, const __Seen &, const __Unseen &__unseen,
                                           __spbags_no_signature) {
    __spbags_pass_table(__code, __object);
    typedef __spbags_child<__spbags_of_object<__O &&, __Unseen>, __spbags_no_signature> __child;
    return __child{{static_cast<__O &&>(__object), __unseen}};
}

template <class __O> constexpr typename __spbags_referent<__O>::__type *__spbags_pointer() { return nullptr; }
template <unsigned __n, class __O, class __Seen, class __Unseen, class __Taken>
__SPBAGS_OUTSIDE auto __spbags_member(__O &&__object, const __Seen &__seen, const __Unseen &__unseen,
                                      const __Taken &__taken, int)
    -> decltype(__spbags_member_call<__n>(nullptr, static_cast<__O &&>(__object), __seen, __unseen,
                                        __taken(__spbags_spawned(), __spbags_pointer<__O>()))) {
    return __spbags_member_call<__n>(__SPBAGS_CODE, static_cast<__O &&>(__object), __seen, __unseen,
                                   __taken(__spbags_spawned(), __spbags_pointer<__O>()));
}
template <unsigned __n, class __O, class __Seen, class __Unseen, class __Taken>
__SPBAGS_OUTSIDE auto __spbags_member(__O &&__object, const __Seen &__seen, const __Unseen &__unseen, const __Taken &,
                                      long) {
    return __spbags_member_call<__n>(__SPBAGS_CODE, static_cast<__O &&>(__object), __seen, __unseen,
                                     __spbags_no_signature());
}

/* An operator, of which the n-th and last operand isn't there yet. */
template <class __T> constexpr bool __spbags_is_own() { return __spbags_is_struct<__T>() || __is_enum(__T); }
template <class __Left, class __Right = int> constexpr bool __spbags_may_overload() {
    return __spbags_is_own<typename __spbags_referent<__Left>::__type>() ||
           __spbags_is_own<typename __spbags_referent<__Right>::__type>();
}
template <unsigned __n, class __O, class __Seen, class __Unseen, class __Taken, class __Member>
__SPBAGS_OUTSIDE auto __spbags_operator(__O &&__object, const __Seen &__seen, const __Unseen &__unseen,
                                        const __Taken &__taken, const __Member &, int)
    -> decltype(__spbags_member_call<__n>(nullptr, static_cast<__O &&>(__object), __seen, __unseen,
                                        __taken(__spbags_spawned(), __spbags_pointer<__O>()))) {
    return __spbags_member_call<__n>(nullptr, static_cast<__O &&>(__object), __seen, __unseen,
                                   __taken(__spbags_spawned(), __spbags_pointer<__O>()));
}
template <unsigned __n, class __O, class __Seen, class __Unseen, class __Taken, class __Member>
__SPBAGS_OUTSIDE auto __spbags_operator(__O &&__object, const __Seen &, const __Unseen &__unseen, const __Taken &,
                                        const __Member &__member, long) {
    __spbags_pass_table(__SPBAGS_CODE, __object);
    typedef __spbags_child<__spbags_by_operator<__O &&, __Unseen, __Member>, __spbags_no_signature> __child;
    return __child{{{static_cast<__O &&>(__object), __unseen}, __member}};
}

/* A member that a pointer names. */
template <class __T> __SPBAGS_OUTSIDE __T *__spbags_address(__T *__object) { return __object; }
template <unsigned __n, class __O> struct __spbags_of {
    __O __object;

    template <class __F> __SPBAGS_OUTSIDE auto operator->*(__F __pointer) {
        __spbags_pass_table(__SPBAGS_CODE, __object);
        __read(__pointer, __SPBAGS_CODE);
        typedef typename __spbags_cut<__n, decltype(__spbags_signature_of(__pointer))>::__type __signature;
        return __spbags_child<__spbags_by_pointer<__O, __F>, __signature>{{static_cast<__O &&>(__object), __pointer}};
    }
    /* The member may be a pointer to a function. */
    template <class __F, class __C> __SPBAGS_OUTSIDE void __read(__F *__C::*__pointer, const void *__code) {
        __spbags_pass(__code, __object.*__pointer);
    }
    __SPBAGS_OUTSIDE void __read(...) {}
};
template <unsigned __n, class __O> __SPBAGS_OUTSIDE auto __spbags_object(__O &&__object) {
    return __spbags_of<__n, __O &&>{static_cast<__O &&>(__object)};
}
#endif
#endif
