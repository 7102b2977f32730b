"""Rewrites the spawns and syncs of a preprocessed source into calls of the hooks.

In C a spawn is a statement `f(..)`, `x = f(..)` or `x += f(..)` with the keyword before the call. What the parent
evaluates comes first, into temporaries: the function, its arguments, the address of the result. Then the child is
opened, and the call and the store of the result are the child's. Nothing else can be divided between a parent and its
child by a text alone, so every other spawn is refused.
"""
from __future__ import annotations

import re

from compile import loops
from compile import spawns_cplusplus
from line_markers import Files
from tokens import (
    ASSIGNMENTS,
    Construct,
    Refused,
    Token,
    arguments_of,
    call_after,
    is_in_block,
    is_lvalue,
    own_constants,
    replaced,
    statement_start,
    tokens_of,
    without,
)

TYPE_CHECKING = False
if TYPE_CHECKING:
    from tokens import Edit

LITERALS = {"string", "character", "number"}
NO_LOCALS = {"static", "extern", "typedef", "__auto_type"}

# The program's pragmas of OpenMP, which its compiler would ignore, and those of Cilk, of a loop's grain size.
IGNORED = re.compile(r"^[ \t]*#[ \t]*pragma[ \t]+(?:omp|cilk)\b.*", re.MULTILINE)

SHAPES = "write `cilk_spawn f(..);', `x = cilk_spawn f(..);' or `x += cilk_spawn f(..);' as a statement of its own"
# The result's memory, but for what a call gives in a register: no number and no pointer has any on the way.
HELD = (
    "__builtin_choose_expr(sizeof __spbags_result <= 8 && __builtin_classify_type(__spbags_result) < 12, "
    "(const volatile void *)0, (const volatile void *)&__spbags_result)"
)
REFUSED = {
    word: f"{word} is no keyword here: write `#include <cilk/cilk.h>' above"
    for word in ("cilk_spawn", "cilk_sync", "cilk_for", "cilk_scope")
}
# What may have to be rewritten, beside where another edit says so.
MEANT = {"_Cilk_spawn", "_Cilk_for", "_Cilk_scope", "_Cilk_sync", "try", *REFUSED}


def is_one_target(tokens: list[Token], first: int, sign: int) -> bool:
    """Whether one thing stands before this sign, which is an assignment's."""
    direct = {token.text for token in tokens[first:sign] if token.around == tokens[sign].around}
    return tokens[sign].text in ASSIGNMENTS and first < sign and not (ASSIGNMENTS | {",", "?", "return"}) & direct


class Spawn(Construct):
    def __init__(self, text: str, tokens: list[Token], spawn: int) -> None:
        super().__init__(text, tokens, spawn)
        self.spawn = spawn
        opening = call_after(tokens, spawn)
        if not is_in_block(tokens, spawn) or opening is None:
            self.refuse(f"a spawn inside a larger expression can't be traced: {SHAPES}")
        self.opening = opening
        self.closing = tokens[self.opening].partner
        if any(token.text == "_Cilk_spawn" for token in tokens[spawn + 1 : self.closing]):
            self.refuse(f"a spawn inside another one can't be traced: {SHAPES}")
        self.first = statement_start(tokens, spawn)
        self.last = self.closing + 1

    def arguments(self) -> tuple[list[str], str]:
        """A declaration for each argument that has to be evaluated first, and what to hand over."""
        made, names = [], []
        for number, (first, last) in enumerate(arguments_of(self.tokens, self.opening)):
            if all(token.kind in LITERALS for token in self.tokens[first : last + 1]):
                names.append(self.text[self.tokens[first].start : self.tokens[last].end])
            else:
                # The comma makes a pointer of an array, and a plain number of a bit field.
                made.append(f"__auto_type __spbags_{number} = ((void)0, ({self.piece(first, last)}));")
                names.append(f"__spbags_{number}")
        return made, ", ".join(names)

    def target(self) -> tuple[str, list[str]]:
        """The declaration that goes before all, and the one of the result's address."""
        if [token.text for token in self.tokens[self.first : self.spawn]] in ([], ["(", "void", ")"]):
            return "", []
        declared, named = "", (self.first, self.spawn - 2)
        if self.declares():
            declared = self.piece(*named, own_constants(self.tokens, *named)) + ";"
            named = (self.spawn - 2, self.spawn - 2)
        return declared, [f"__auto_type __spbags_target = &({self.piece(*named)});"]

    def declares(self) -> bool:
        """Whether what stands before the spawn is `type name =`, and not `lvalue =`."""
        sign, target = self.tokens[self.spawn - 1], self.tokens[self.first : self.spawn - 1]
        if not is_one_target(self.tokens, self.first, self.spawn - 1):
            self.refuse(f"a spawn inside a larger expression can't be traced: {SHAPES}")
        if is_lvalue(self.tokens, self.first, self.spawn - 1):
            return False
        if target[-1].kind != "word" or sign.text != "=" or any(token.text in NO_LOCALS for token in target):
            self.refuse("a spawn can't be traced in this declaration: declare the variable before it")
        return True

    def rewritten(self) -> str:
        declared, address = self.target()
        before, names = self.arguments()
        call = f"__spbags_g({names})"
        # What a call gives in memory, used or not, has to be in a variable that the hooks know.
        result = f"__builtin_choose_expr(sizeof({call}) > 16, {call}, ((void){call}, 0))"
        ends = [f"__spbags_return({HELD}, sizeof __spbags_result); }}"]
        if address:
            result = call
            # Whatever races with a read of it races with this write too.
            sign = self.tokens[self.spawn - 1].text
            ends = [
                f"*__spbags_target {sign} __spbags_result;",
                f"__spbags_stored(__spbags_target, sizeof *__spbags_target, {HELD}, sizeof __spbags_result); }}",
            ]
        made = [
            f"{{ __auto_type __spbags_f = ({self.piece(self.spawn + 1, self.opening - 1)});",
            *before,
            *address,
            "__auto_type __spbags_g = (__typeof__(__spbags_f))__spbags_spawn((__spbags_function)__spbags_f);",
            # Never done, as only the hooks know; but where it could be, arguments pass below the stack pointer.
            "if (!__spbags_g) __spbags_return(__builtin_alloca(16), 0);",
            f"__auto_type __spbags_result = {result};",
            *ends,
        ]
        last: Token = self.tokens[self.last]
        return self.here + declared + " ".join(made) + last.marker()


def refused(text: str, words: str, why: str) -> list[str]:
    """A line for each keyword that begins so in a source that can't have any."""
    tokens = tokens_of(text) if words in text else []
    return [f"{token.place()}: error: {why}" for token in tokens if token.text.startswith(words)]


def edits_of(text: str, tokens: list[Token], at: int, language: str, waiting: set[int]) -> list[Edit]:
    """What has to be rewritten here. First comes the part that nothing else rewrites."""
    token = tokens[at]
    if token.text in REFUSED:
        raise Refused(token, REFUSED[token.text])
    if token.text == "_Cilk_spawn" and language == "c++":
        return spawns_cplusplus.Spawn(text, tokens, at, waiting).edits()
    if token.text == "_Cilk_spawn":
        found = Spawn(text, tokens, at)
        return [(found.first, found.last, found.rewritten())]
    if token.text == "_Cilk_for":
        return loops.Loop(text, tokens, at, language, waiting).edits()
    if token.text == "_Cilk_scope":
        return loops.scope_edits(tokens, at)
    if token.text == "_Cilk_sync":
        return [(at, at, spawns_cplusplus.sync(tokens, at, waiting) if waiting else "__spbags_sync()")]
    if token.text == "try" and language == "c++" and not token.is_of_system():
        return spawns_cplusplus.try_edits(tokens, at, waiting)
    return [(at, at, "{" + spawns_cplusplus.keeper(token))] if at in waiting else []


class Rewriting:
    """A source of which parts get another text, each from a place to an end."""

    def __init__(self, text: str, language: str) -> None:
        self.text, self.language = text, language
        self.tokens = tokens_of(text, Files(text).own())
        self.waiting = spawns_cplusplus.waiting_in(text, self.tokens) if language == "c++" else set()
        self.parts: list[tuple[int, int, int, str]] = []
        self.done = 0
        self.faults: list[str] = []

    def rewrite(self, at: int) -> None:
        try:
            edits = edits_of(self.text, self.tokens, at, self.language, self.waiting)
        except Refused as refused:
            self.faults.append(f"{refused.token.place()}: error: {refused}")
            return
        if edits:
            self.done = self.tokens[edits[0][1]].end
            for edit in edits:
                end = self.tokens[edit[-2]].end
                start = self.tokens[edit[0]].start if len(edit) == 3 else end
                # Of what comes behind one token the innermost construct's is the first.
                self.parts.append((start, end, -len(self.parts), edit[-1]))

    def rewritten(self) -> tuple[str, list[str]]:
        for at, token in enumerate(self.tokens):
            if (token.text in MEANT or at in self.waiting) and token.start >= self.done:
                self.rewrite(at)
        parts = ((start, end, instead) for start, end, _, instead in sorted(self.parts))
        return replaced(self.text, parts), self.faults


def rewritten(text: str, language: str) -> tuple[str, list[str]]:
    """The source with its spawns, loops, scopes and syncs rewritten, and a line for each that can't be."""
    if "_Cilk_for" in text:
        text = without(text, IGNORED)
    return Rewriting(text, language).rewritten()
