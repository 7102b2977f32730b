"""The spawns of C++ in a preprocessed source, and what stands for them.

A spawn's statement becomes a lambda: a function that first evaluates the target, what is called and the arguments, as
a part of the parent. include/spbags/spawn.h then makes a child of it, which calls, stores and destroys. So the text of
the program stays where it is, in one full expression, and the compiler chooses the function."""
from __future__ import annotations

import re

from compile.loops import KEEPS, begins_function, entered, is_in_inner
from compile.operators import Operation, pointer_sign, signature, with_hooks_and_without
from tokens import (
    ASSIGNMENTS,
    CONTROLS,
    Construct,
    Refused,
    Token,
    after_angles,
    after_lambda,
    arguments_of,
    is_in_block,
    outside,
    own_constants,
    statement_start,
)

TYPE_CHECKING = False
if TYPE_CHECKING:
    from typing import Any

    from tokens import Edit

SHAPES = (
    "write `cilk_spawn f(..);', `x = cilk_spawn f(..);', `x += cilk_spawn f(..);' or "
    "`T x = cilk_spawn f(..);' as a statement of its own"
)
LARGER = f"a spawn inside a larger expression can't be traced: {SHAPES}"
# What looks like a call and is none, or like a type.
NO_NAMES = CONTROLS | set(
    "sizeof alignof typeid decltype noexcept new delete throw return static_cast dynamic_cast "
    "const_cast reinterpret_cast co_await co_yield co_return requires catch auto "
    "__attribute__ asm __asm__ __typeof__ typeof".split()
)
NO_LOCALS = set("static extern typedef using thread_local _Thread_local __thread constexpr constinit".split())
NO_TARGET = ASSIGNMENTS | {",", "?", "return", "throw", "<<", ">>"}
NO_SIGNATURE = "[&](__spbags_spawned, auto *) -> __spbags_no_signature { return {}; }"
STATEMENT = "[&](__spbags_spawned) __attribute__((noipa))"
FORWARDED = "static_cast<decltype(__spbags_p) &&>(__spbags_p)..."


def after_name(tokens: list[Token], at: int) -> int | None:
    """The token behind a name that begins here, perhaps qualified or of a template; or None."""
    at += tokens[at].text == "::"
    while True:
        at += tokens[at].text == "template"
        if tokens[at].text == "operator":
            return after_operator(tokens, at + 1)
        if tokens[at].kind != "word" or tokens[at].text in NO_NAMES:
            return None
        at += 1
        if tokens[at].text == "<":
            at = after_angles(tokens, at) or at
        if tokens[at].text != "::":
            return at
        at += 1


def after_operator(tokens: list[Token], at: int) -> int | None:
    """The arguments of the operator of this name, or None."""
    at = tokens[at].partner + 1 if tokens[at].text == "(" else at
    while tokens[at].text not in ("(", ";"):
        at += 1
    return at if tokens[at].text == "(" else None


def is_statement(tokens: list[Token], at: int) -> bool:
    """Whether this stands in a block of a function, and not in one of a class or a namespace."""
    if not is_in_block(tokens, at):
        return False
    opening = tokens[at].around
    words = {token.text for token in tokens[statement_start(tokens, opening) : opening]}
    return "(" in words or ")" in words or not {"struct", "class", "union", "namespace", "extern"} & words


def after_primary(tokens: list[Token], at: int) -> int | None:
    text = tokens[at].text
    if text == "[":
        return after_lambda(tokens, at)
    if text == "(":
        return int(tokens[at].partner) + 1
    end = after_name(tokens, at)
    return tokens[end].partner + 1 if end and tokens[end].text == "{" and tokens[end].partner else end


# ---- What children throw ----

# What the headers have for C++11 and later, and for C++14.
KEEPER, SPAWNED = "class __spbags_frame", "struct __spbags_spawned"


def waits_at(tokens: list[Token], at: int | None) -> int | None:
    """Where what is around this and waits for its children begins: the brace of a function, a scope or a `try` block,
    or the bracket before an iteration of a loop. Or None."""
    while at is not None and tokens[at].text != "}":
        before = statement_start(tokens, at) - 1
        if tokens[before].text == ")" and tokens[tokens[before].partner - 1].text == "_Cilk_for":
            return before
        at = tokens[at].around
        if at is not None and (begins_function(tokens, at) or tokens[at - 1].text in ("try", "_Cilk_scope")):
            return at
    return None


def waiting_in(text: str, tokens: list[Token]) -> set[int]:
    """Where all begins that waits for children whose exceptions it keeps: also the loops, by their keywords."""
    if KEEPER not in text:
        return set()
    starts = (
        at if token.text == "_Cilk_for" else waits_at(tokens, at)
        for at, token in enumerate(tokens)
        if token.text in ("_Cilk_spawn", "_Cilk_for")
    )
    return {start for start in starts if start is not None}


def keeper(token: Token) -> str:
    return f"{token.marker(' 3')}{KEEPS}{token.marker()}"


def sync(tokens: list[Token], at: int, waiting: set[int]) -> str:
    start = waits_at(tokens, at)
    while start is not None and start not in waiting:
        is_last = tokens[start].text == ")" or begins_function(tokens, start)
        start = None if is_last else waits_at(tokens, start)
    return "__spbags_sync()" if start is None else "(__spbags_sync(), __spbags_here.__throw_again())"


def end_of_expression(tokens: list[Token], first: int) -> int:
    """The semicolon behind it, or the end of the brackets around it."""
    end = tokens[tokens[first].around].partner
    return next((at for at in outside(tokens, first, end) if tokens[at].text == ";"), end)


class Postfix:
    """An expression from a token on: its end, where its last call begins, and where the member that this calls does."""

    def __init__(self, tokens: list[Token], first: int) -> None:
        self.first, self.call, self.member = first, None, None
        self.end = after_primary(tokens, first)
        while self.end is not None and tokens[self.end].text in ("(", "[", ".", "->"):
            at, text = self.end, tokens[self.end].text
            if text in ("(", "["):
                self.call = at if text == "(" else None
                self.end = tokens[at].partner + 1
            else:
                self.call, self.member = None, at
                self.end = after_name(tokens, at + 1)
        if self.call is not None and self.member is not None and after_name(tokens, self.member + 1) != self.call:
            self.member = None


class Spawn(Construct):
    def __init__(self, text: str, tokens: list[Token], spawn: int, waiting: set[int]) -> None:
        super().__init__(text, tokens, spawn)
        self.spawn, self.keeps = spawn, waits_at(tokens, spawn) in waiting
        if SPAWNED not in text:
            self.refuse("a spawn needs C++14, as by -std=c++14")
        if not is_statement(tokens, spawn):
            self.refuse(LARGER)
        self.callee, self.end = Postfix(tokens, spawn + 1), end_of_expression(tokens, spawn + 1)
        # Where the arguments begin, if it is a call; else the operation that it is.
        self.opening: Any = self.callee.call
        self.operation: Operation | None = None
        if self.opening is None or self.callee.end != self.end:
            self.operation = Operation(tokens, self.callee, self.end)
        if self.operation and self.operation.sign is None:
            self.refuse(LARGER)
        self.is_braced = tokens[spawn - 1].text == "{" and tokens[spawn - 1].partner == self.end
        self.last = self.end + self.is_braced
        if tokens[self.last].text != ";":
            self.refuse(LARGER)
        if self.is_braced and not is_in_block(tokens, spawn - 1):
            self.refuse("a spawn can't be traced in this declaration: declare the variable before it")
        self.first = statement_start(tokens, spawn - self.is_braced)
        if self.operation and self.operation.is_assignment and self.first != spawn:
            self.refuse(LARGER)

    def count(self) -> str:
        """How many arguments there are, where the text says it."""
        arguments = arguments_of(self.tokens, self.opening)
        if any(self.tokens[last].text == "..." for _, last in arguments):
            return "__spbags_all"
        return str(len(arguments))

    def called(self) -> tuple[str, list[Edit]]:
        """What goes before the callee in the text, and the edits of the callee itself."""
        callee, tokens = self.callee, self.tokens
        if self.operation:
            return self.operation.edits(self.here)
        sign = self.pointer_sign()
        if sign is not None:
            return self.called_by_pointer(sign)
        if callee.member is not None:
            pointed = "*__spbags_pointed(" if tokens[callee.member].text == "->" else ""
            calls = (
                self.here + (")" if pointed else "") + self.member_calls(callee.member) + tokens[self.opening].marker()
            )
            edit = (callee.member, self.opening - 1, calls)
            return f"__spbags_member<{self.count()}>({pointed}", [edit]
        if self.is_name(self.spawn + 1, self.opening):
            calls = self.here + self.name_calls() + tokens[self.opening].marker()
            edit = (self.spawn + 1, self.opening - 1, calls)
            return f"__spbags_name<{self.count()}>(", [edit]
        return f"__spbags_expression<{self.count()}>(", [(self.opening - 1, ")")]

    def pointer_sign(self) -> int | None:
        """Of a member that a pointer to it names."""
        first = self.spawn + 1
        is_bracket = self.tokens[first].text == "(" and self.tokens[first].partner == self.opening - 1
        return pointer_sign(self.tokens, first) if is_bracket else None

    def called_by_pointer(self, sign: int) -> tuple[str, list[Edit]]:
        begins = f"(__spbags_object<{self.count()}>("
        pointed, ends = ("*__spbags_address(", "))") if self.tokens[sign].text == "->" else ("", ")")
        first = self.spawn + 1
        return "", [(first, first, begins + pointed), (sign, sign + 1, f"{ends} ->* ("), (self.opening - 1, ")")]

    def is_name(self, first: int, end: int) -> bool:
        """Whether these tokens are a name, perhaps in brackets."""
        if self.tokens[first].text == "(" and self.tokens[first].partner == end - 1:
            return self.is_name(first + 1, end - 1)
        return self.tokens[first].text != "this" and after_name(self.tokens, first) == end

    def words(self, first: int) -> tuple[str, bool]:
        """The name that is called, and whether it is that of a template with its arguments. Such a name may stand for
        several functions, also where its address has one type."""
        last = self.opening - 1
        has_arguments = any(
            self.tokens[at].text in (">", ">>") and self.tokens[at - 1].text != "operator" for at in (last - 1, last)
        )
        name = re.sub(r"\s*\n(?:#[^\n]*\n)?\s*", " ", self.text[self.tokens[first].start : self.tokens[last].end])
        return name, has_arguments

    def name_calls(self) -> str:
        name, has_arguments = self.words(self.spawn + 1)
        one = f"__spbags_one({'__spbags_spawned()' if has_arguments else name}, __spbags_any)"
        calls = with_hooks_and_without("__spbags_spawned, auto &&...__spbags_p", f"return {name}({FORWARDED});")
        return f"[&](__spbags_spawned, auto __spbags_any) -> decltype({one}) {{ return {one}; }}, {calls}, 0)"

    def member_calls(self, member: int) -> str:
        first = member + 1
        name, has_arguments = self.words(first)
        texts = [token.text for token in self.tokens[first : self.opening]]
        if has_arguments and texts[0] != "template" and "::" not in texts:
            name = "template " + name
        call = f"static_cast<decltype(__spbags_o) &&>(__spbags_o).{name}({FORWARDED})"
        parameters = "__spbags_spawned, auto &&__spbags_o, auto &&...__spbags_p"
        type_text = NO_SIGNATURE if has_arguments else signature(name)
        return f", {with_hooks_and_without(parameters, f'return {call};')}, {type_text}, 0)"

    def target(self) -> tuple[str, str, str | None]:
        """What the statement's function begins with, its type, and the declaration of what gets the result."""
        before = [token.text for token in self.tokens[self.first : self.spawn]]
        if before in ([], ["(", "void", ")"]):
            return "(void)", "", None
        sign = self.spawn - 1
        direct = {self.tokens[at].text for at in outside(self.tokens, self.first, sign)}
        is_assigned = before[-1] in ASSIGNMENTS and sign != self.first
        if not self.is_braced and (not is_assigned or NO_TARGET & direct):
            self.refuse(LARGER)
        if not self.is_braced and self.is_lvalue(sign):
            at = self.piece(self.first, sign - 1)
            # `auto' would lose the type of a reducer.
            kind = f"decltype(({at}))" if "spbags_reducer" in self.text else "auto"
            return f"{kind} &&__spbags_at = ({at}); __spbags_at {before[-1]} ", "", None
        return self.declaration(sign)

    def is_lvalue(self, sign: int) -> bool:
        return self.tokens[self.first].text in ("*", "(") or Postfix(self.tokens, self.first).end == sign

    def declaration(self, sign: int) -> tuple[str, str, str]:
        """Of a variable, which the statement's function returns."""
        texts = [self.tokens[at].text for at in outside(self.tokens, self.first, sign - 1)]
        if (
            not texts
            or self.tokens[sign - 1].kind != "word"
            or self.tokens[sign].text not in ("=", "{")
            or NO_LOCALS & set(texts)
            or texts[-1] in ("&", "&&", ".", "->", "::")
            or "(" in texts
        ):
            self.refuse("a spawn can't be traced in this declaration: declare the variable before it")
        # No hook sees the read of what is declared to be constant.
        declared = self.piece(self.first, sign - 2, own_constants(self.tokens, self.first, sign - 1))
        if "auto" in texts:
            return "return ", "", f"{'volatile ' if 'volatile' in texts else ''}decltype({self.function(True)}({{}}))"
        plain = f"typename __spbags_plain<{self.piece(self.first, sign - 2)}>::__type"
        return f"return {plain + '{' if self.is_braced else ''}", f" -> {plain}", declared

    def function(self, declares: bool) -> str:
        return f"__spbags_statement_{self.spawn}" if declares else "__spbags_statement"

    def may_be_reference(self, name: str) -> bool:
        """Whether the variable of this name may be a reference as well, since it is neither returned nor thrown."""
        tokens, end = self.tokens, self.tokens[self.tokens[self.first].around].partner
        for at in (at for at in range(self.last, end) if tokens[at].text == name and tokens[at + 1].text in (";", ")")):
            before = tokens[at - 2 if tokens[at - 1].text == "(" else at - 1]
            if before.text in ("return", "throw", "co_return", "decltype"):
                return False
        return True

    def declares(self, kind: str) -> str:
        """What declares the variable of this type, which gets the result."""
        name, made, number = self.tokens[self.spawn - 2].text, self.function(True), self.spawn
        result, room = f"{made}({{}})", ""
        if self.keeps and self.may_be_reference(name):
            room = f"__spbags_room<decltype({result})> __spbags_room_{number}; "
            result = f"__spbags_room_{number}.__of({made}, __spbags_ended_{number}, __spbags_here)"
        elif self.keeps:
            result = f"__spbags_result<decltype({result})>::__of({made}, __spbags_ended_{number}, __spbags_here)"
        declared = f"__spbags_in_room<{kind}>" if room else kind
        return (
            f"{room}{declared} {self.piece(self.spawn - 2, self.spawn - 2)} = {result}; "
            f"__spbags_check_local<{kind}>(); "
            f"__spbags_ended_{number}.__end(__builtin_addressof({name}), sizeof {name});"
        )

    def edits(self) -> list[Edit]:
        begins, kind, declared = self.target()
        opens, later = self.called()
        number = f"_{self.spawn}" if declared else ""
        made = self.function(bool(declared))
        made_by = f"{'' if declared else '{ '}auto {made} = {STATEMENT}{kind} {{ {begins}{opens}"
        place = f'"{self.tokens[self.spawn].where()}"'
        ends = f" }}; __spbags_ending __spbags_ended{number}{{{place}, &{made}, sizeof {made}}}; "
        if declared:
            ends += self.declares(declared)
        elif self.keeps:
            ends += (
                f"try {{ {made}({{}}); __spbags_ended.__end(0, 0); }} "
                "catch (...) { __spbags_here.__keep(__spbags_ended); } }"
            )
        else:
            ends += f"{made}({{}}); __spbags_ended.__end(0, 0); }}"
        if self.is_braced and not kind:
            later.append((self.end, self.end, ""))
        later.append((self.last, self.here + ends + self.tokens[self.last].marker()))
        return [(self.first, self.spawn, self.here + made_by + self.tokens[self.spawn].marker()), *later]


def try_edits(tokens: list[Token], at: int, waiting: set[int]) -> list[Edit]:
    """A block whose exceptions are handled waits at its end for its own children, if it spawns some."""
    first = at + 1
    while tokens[first].text not in ("{", ";", "}"):
        first = tokens[first].partner + 1 if tokens[first].text == "(" and tokens[first].partner else first + 1
    last = tokens[first].partner if tokens[first].text == "{" else None
    if last is None or not any(
        tokens[inner].text == "_Cilk_spawn" and not is_in_inner(tokens, inner, first, ())
        for inner in range(first, last)
    ):
        return []
    if first != at + 1:
        raise Refused(tokens[at], "a spawn can't be traced in a constructor's function try block")
    here = tokens[first].marker(" 3")
    keeps = keeper(tokens[first]) if first in waiting else ""
    return [(first, first, f"{{{here}{entered(tokens[at])}{tokens[first].marker()}{keeps}")]
