"""The operators of C++ that a spawn may be of, and what stands for them.

The text says which operator an expression is of, as far as brackets and the order of precedence tell; the compiler says
whether it is overloaded, and by what."""
from __future__ import annotations

from collections.abc import Iterator

from tokens import ASSIGNMENTS, CONTROLS, Token, after_angles, outside

TYPE_CHECKING = False
if TYPE_CHECKING:
    from typing import Any

    from compile.spawns_cplusplus import Postfix
    from tokens import Edit

# Those that are grouped from the left, the loosest first.
LEVELS = [level.split() for level in "||, &&, |, ^, &, == !=, < > <= >=, <=>, << >>, + -, * / %".split(",")]
PREFIXES = {"++", "--", "+", "-", "!", "~", "*", "&"}
POSTFIXES = {"++", "--"}
# How an operator is written, and the arguments of the same as a member of its left operand.
LEFT, RIGHT = (f"static_cast<decltype(__spbags_{name}) &&>(__spbags_{name})" for name in "op")
FORMS = {
    "binary": (f"{LEFT} {{}} {RIGHT}", RIGHT),
    "subscript": (f"{LEFT}[{RIGHT}]", RIGHT),
    "prefix": (f"{{}}{LEFT}", ""),
    "postfix": (f"{LEFT}{{}}", "0"),
}
BUILT_IN = "a spawn has to be a call, and this operator is built in"
OUTSIDE = "__attribute__((spbags_untraced))"


def binary_operators(tokens: list[Token], first: int, end: int) -> Iterator[int]:
    """The indexes of what stands between two operands, in no brackets."""
    is_behind_operand = False
    for at in outside(tokens, first, end):
        token = tokens[at]
        is_operand = (
            token.kind != "mark"
            or token.text in ("(", "[", "{")
            or tokens[at - 1].text == "operator"
            or (token.text == "<" and after_angles(tokens, at) is not None)
            or (is_behind_operand and token.text in POSTFIXES)
        )
        if is_behind_operand and not is_operand:
            yield at
        is_behind_operand = is_operand


def operators_of(tokens: list[Token], first: int, end: int) -> list[int]:
    return [at for at in binary_operators(tokens, first, end) if tokens[at].text not in (".", "->", "::")]


def loosest(tokens: list[Token], signs: list[int]) -> int | None:
    """That of these binary operators which an expression is of, or None where a spawn can't be of it."""
    for at in signs:
        if tokens[at].text in ASSIGNMENTS | {",", "?"}:
            return at if tokens[at].text in ASSIGNMENTS else None
    for level in LEVELS:
        of_level = [at for at in signs if tokens[at].text in level]
        if of_level:
            return of_level[-1]
    return None


def pointer_sign(tokens: list[Token], opening: int) -> int | None:
    """The `.` or `->` of `.*` or `->*` in these brackets, where no looser operator is; or None."""
    first, end = opening + 1, tokens[opening].partner
    signs = [at for at in binary_operators(tokens, first, end) if tokens[at + 1].text == "*"]
    return signs[-1] if signs and not operators_of(tokens, first, end) else None


def with_hooks_and_without(parameters: str, body: str) -> str:
    """Two lambdas: one for the trace, and one for calls outside of it."""
    return ", ".join(f"[&]({parameters}) {how} -> decltype(auto) {{ {body} }}" for how in ("", OUTSIDE))


def signature(name: str) -> str:
    """What gives the type of an object's member of this name, if it has one."""
    member = f"__spbags_referent<decltype(*__spbags_o)>::__type::{name}"
    taken = f"__spbags_signature_of(__spbags_any<decltype(&{member})>())"
    return f"[&](__spbags_spawned, auto *__spbags_o) -> decltype({taken}) {{ return {{}}; }}"


class Operation:
    """An operator with its operands, which begin with the longest expression without one and end before a token. Its
    sign is None where a spawn can't be of it."""

    def __init__(self, tokens: list[Token], postfix: Postfix, end: int) -> None:
        self.tokens, self.end = tokens, end
        self.sign: Any
        self.form, self.sign = self.form_of(postfix)
        is_none = postfix.call is not None or tokens[postfix.first].text in CONTROLS | {"{"}
        if self.sign is not None and (is_none or tokens[self.sign + 1].text == "{"):
            self.sign = None
        self.is_assignment = self.sign is not None and tokens[self.sign].text in ASSIGNMENTS

    def form_of(self, postfix: Postfix) -> tuple[str, int | None]:
        tokens, last = self.tokens, self.end - 1
        signs = operators_of(tokens, postfix.first, self.end)
        if signs:
            return "binary", loosest(tokens, signs)
        if tokens[postfix.first].text in PREFIXES:
            return "prefix", postfix.first
        if postfix.end == self.end and tokens[last].text == "]":
            return "subscript", tokens[last].partner
        return "postfix", last if postfix.end == last and tokens[last].text in POSTFIXES else None

    def calls(self) -> str:
        """How the operator is called, in the trace and outside; its type; and what can be called if it is a member."""
        text = "[]" if self.form == "subscript" else self.tokens[self.sign].text
        expression, given = FORMS[self.form]
        names = [f"__spbags_{name}" for name in ("op" if given == RIGHT else "o")]
        parameters = ", ".join(["__spbags_spawned", *(f"auto &&{name}" for name in names)])
        check = f"__spbags_may_overload<{', '.join(f'decltype({name})' for name in names)}>()"
        body = f'static_assert({check}, "{BUILT_IN}"); return {expression.format(text)};'
        calls = with_hooks_and_without(parameters, body)
        member = f"[&]({parameters}) -> decltype(void({LEFT}.operator{text}({given}))) {{}}"
        return f", {calls}, {signature('operator' + text)}, {member}, 0)"

    def edits(self, here: str) -> tuple[str, list[Edit]]:
        """What goes before the operands in the text, and edits. An operator that assigns stays one that does, since the
        right operand may come first."""
        sign, last, calls = self.sign, self.end - 1, here + self.calls()
        back = self.tokens[sign + 1].marker()
        if self.is_assignment:
            return "(__spbags_assigned(__spbags_operator<1>(", [(sign, sign, f"{calls}) += ({back}"), (last, "))")]
        if self.form == "binary":
            return "__spbags_operator<1>(", [(sign, sign, f"{calls}({back}"), (last, ")")]
        if self.form == "subscript":
            return "__spbags_operator<1>(", [(sign, sign, f"{calls}({back}"), (last, last, ")")]
        if self.form == "prefix":
            return "__spbags_operator<0>(", [(sign, sign, ""), (last, f"{calls}()")]
        return "__spbags_operator<0>(", [(sign, sign, f"{calls}()")]
