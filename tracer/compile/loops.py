"""The loops and scopes of Cilk in a preprocessed source, and what stands for them.

Each iteration of a loop is a child, whose body has to be a function of its own: then its variables are no other
iteration's, and its syncs wait for its own children. gcc makes such a function of a task of OpenMP, clang of what it
calls a captured statement, and in C++ it is a lambda. What the parent evaluates, the end and the step, comes first."""
from __future__ import annotations

from collections.abc import Iterable

from tokens import ASSIGNMENTS, CONTROLS, Construct, Refused, Token, is_in_block, outside, own_words, statement_start

TYPE_CHECKING = False
if TYPE_CHECKING:
    from typing import NoReturn

    from tokens import Edit

# What stands before a block, and before the body of a function behind its parameters.
BEFORE_BLOCKS = {"else", "do", "try", "_Cilk_scope"}
QUALIFIERS = {"noexcept", "throw", "alignas", "__attribute__"}
CYCLES, CHOICES = {"for", "while", "do", "_Cilk_for"}, {"switch"}
COMPARISONS = {"<": ">", ">": "<", "<=": ">=", ">=": "<=", "!=": "!="}
# What would end a comparison's side, since it binds less.
LOOSER = ASSIGNMENTS | {"&&", "||", "?", ":", ",", "&", "^", "|", "==", "!="}
# The parts of a loop's header; and what its variable may not be.
PARTS = ("control variable initialization", "condition expression", "increment expression")
NOT_AUTOMATIC = {"static", "extern", "register", "_Thread_local", "thread_local"}
NOT_PLAIN = {"const", "volatile", "&", "&&"}
OUTLINES = {"gcc": "#pragma omp task default(shared)", "clang": "#pragma clang __debug captured"}
# In C++, what keeps the exceptions of children until their parent waits for them.
KEEPS = "__spbags_frame __spbags_here;"


def entered(token: Token) -> str:
    """What begins a scope of the hooks, which ends with the block around this."""
    return (
        "__attribute__((cleanup(__spbags_leave), unused)) const char *__spbags_scope = "
        f'__spbags_enter("{token.where()}");'
    )


def statement_end(tokens: list[Token], at: int) -> int:
    """The index of the last token of the statement that begins here."""
    text = tokens[at].text
    following = tokens[at + 1].text
    if text == "{":
        return int(tokens[at].partner)
    if text == "case":
        return statement_end(tokens, next_of(tokens, at, ":") + 1)
    if following == ":" and tokens[at].kind == "word":
        return statement_end(tokens, at + 2)
    if text == "do":
        return next_of(tokens, statement_end(tokens, at + 1) + 1, ";")
    if text in ("_Cilk_scope", "else", "try"):
        return after_blocks(tokens, statement_end(tokens, at + 1))
    if text in ("if", "for", "while", "switch", "_Cilk_for", "catch"):
        opening = at + 1 if following == "(" else at + 2
        end = statement_end(tokens, tokens[opening].partner + 1)
        return statement_end(tokens, end + 1) if text == "if" and tokens[end + 1].text == "else" else end
    return next_of(tokens, at, ";")


def next_of(tokens: list[Token], first: int, text: str) -> int:
    """The next such token that the same bracket holds as this one."""
    around = tokens[first].around
    found = (at for at in range(first, len(tokens)) if tokens[at].text == text and tokens[at].around == around)
    end = next(found, None)
    if end is None:
        raise Refused(tokens[first], f"expected '{text}' after this")
    return end


def after_blocks(tokens: list[Token], end: int) -> int:
    while tokens[end + 1].text == "catch":
        end = statement_end(tokens, end + 1)
    return end


def function_start(tokens: list[Token], at: int) -> int:
    """The bracket that opens the function around."""
    while tokens[at].around is not None:
        at = tokens[at].around
    return at


def begins_function(tokens: list[Token], opening: int) -> bool:
    """Whether this brace begins the body of a function or of a lambda."""
    before = before_qualifiers(tokens, opening)
    text = tokens[before].text
    if text in ("->", "::", ">", "*"):
        return any(
            tokens[at].text in ("->", "requires") and tokens[at].around == tokens[opening].around
            for at in range(statement_start(tokens, opening), opening)
        )
    named = tokens[tokens[before].partner - 1] if text in (")", "}") else None
    if text == "}" and before == opening - 1:  # of a constructor's member `x{..}`
        return named.text == ">" or named.kind == "word" and named.text not in BEFORE_BLOCKS
    return text == "]" or text == ")" and named.text not in CONTROLS | {"catch", "constexpr"}


def before_qualifiers(tokens: list[Token], opening: int) -> int:
    """The last token before this brace, the words, the attributes and the marks of references left out."""
    before = opening - 1
    while True:
        token, partner = tokens[before], tokens[before].partner
        if token.kind == "word" and token.text not in BEFORE_BLOCKS or token.text in ("&", "&&"):
            before -= 1
        elif token.text == ")" and tokens[partner - 1].text in QUALIFIERS:
            before = partner - 2
        elif token.text == "]" and tokens[partner + 1].text == "[":
            before = partner - 1
        else:
            return before


def is_in_inner(tokens: list[Token], at: int, first: int, found: Iterable[tuple[int, int]]) -> bool:
    """Whether one of these ranges, or a function inside of this statement, holds the token."""
    if any(start < at <= end for start, end in found):
        return True
    around = tokens[at].around
    while around is not None and around > first:
        if tokens[around].text == "{" and begins_function(tokens, around):
            return True
        around = tokens[around].around
    return False


def labels_in(tokens: list[Token], first: int, last: int) -> set[str]:
    return {
        tokens[at].text
        for at in range(first, last)
        if tokens[at].kind == "word"
        and tokens[at + 1].text == ":"
        and tokens[at - 1].text in ("{", "}", ";", ":", ")", "else", "do")
    }


def jumps_in(tokens: list[Token], first: int, last: int) -> list[tuple[int, str]]:
    return [(at, tokens[at + 1].text) for at in range(first, last) if tokens[at].text == "goto"]


def check_entries(tokens: list[Token], first: int, last: int, what: str) -> None:
    """Nothing may jump into a statement."""
    labels, start = labels_in(tokens, first, last), function_start(tokens, first)
    jumps = jumps_in(tokens, start, tokens[start].partner or last)
    if any(name in labels and not first <= at <= last for at, name in jumps):
        raise Refused(tokens[first], f"cannot jump into a '{what}'")
    choices = [(at, statement_end(tokens, at)) for at in range(first, last) if tokens[at].text == "switch"]
    for at in range(first, last):
        is_label = tokens[at].text in ("case", "default") and tokens[at - 1].text in ("{", "}", ";", ":")
        if is_label and not is_in_inner(tokens, at, first, choices):
            raise Refused(tokens[at], f"cannot jump into a '{what}'")


def check_exits(tokens: list[Token], first: int, last: int) -> None:
    """Nothing may leave the body of a loop but at its end."""
    cycles = [(at, statement_end(tokens, at)) for at in range(first, last) if tokens[at].text in CYCLES | CHOICES]
    for at in range(first, last):
        if tokens[at].text == "break" and not is_in_inner(tokens, at, first, cycles):
            raise Refused(tokens[at], "cannot break from a 'cilk_for' loop")
        if tokens[at].text == "return" and not is_in_inner(tokens, at, first, ()):
            raise Refused(tokens[at], "cannot return from within a 'cilk_for' loop")
    labels = labels_in(tokens, first, last)
    for at, name in jumps_in(tokens, first, last):
        if name not in labels:
            raise Refused(tokens[at], "cannot jump out of a 'cilk_for' loop")


class Loop(Construct):
    """A loop: its variable, the end that this is compared with, and the step."""

    def __init__(self, text: str, tokens: list[Token], at: int, language: str, waiting: set[int]) -> None:
        super().__init__(text, tokens, at)
        self.language, self.waiting = language, waiting
        self.opening = at + 1
        self.closing = tokens[self.opening].partner
        if tokens[self.opening].text != "(" or self.closing is None:
            raise Refused(tokens[at], "expected '(' after 'cilk_for'")
        if not is_in_block(tokens, at):
            raise Refused(tokens[at], "a cilk_for can't be traced here: put it into a block")
        declaration, condition, increment = self.parts()
        self.declare(*declaration)
        self.compare(*condition)
        self.move(*increment)
        self.first, self.last = self.closing + 1, statement_end(tokens, self.closing + 1)
        check_exits(tokens, self.first, self.last)
        check_entries(tokens, self.first, self.last, "cilk_for")

    def refuse(self, why: str) -> NoReturn:
        super().refuse(f"{why} in 'cilk_for'")

    def direct(self, first: int, end: int) -> set[str]:
        """Those of these tokens that stand in no brackets, and in no template's arguments."""
        return {self.tokens[at].text for at in outside(self.tokens, first, end)}

    def parts(self) -> list[tuple[int, int]]:
        """The three parts of the header, each from its first token to the one behind its last."""
        header = range(self.opening, self.closing)
        marks = [at for at in header if self.tokens[at].text == ";" and self.tokens[at].around == self.opening]
        if any(token.text.startswith("_Cilk_") for token in self.tokens[self.opening : self.closing]):
            self.refuse("no keyword of Cilk may stand in the header")
        if len(marks) != 2:
            self.refuse("expected an initialization, a condition and an increment")
        ends = [self.opening, *marks, self.closing]
        parts = [(first + 1, end) for first, end in zip(ends, ends[1:])]
        for (first, end), what in zip(parts, PARTS):
            if first == end:
                self.refuse(f"missing loop {what}")
        return parts

    def declare(self, first: int, end: int) -> None:
        sign = next((at for at in outside(self.tokens, first, end) if self.tokens[at].text == "="), None)
        if sign is None and self.language == "c++":
            sign = self.tokens[end - 1].partner
        if sign is None or self.tokens[sign - 1].kind != "word":
            self.refuse("expected a declaration `type name = value' of the loop control variable")
        if "," in self.direct(sign, end):
            self.refuse("cannot declare more than one loop control variable")
        if sign - 1 == first or (self.tokens[first].text == "*"):
            self.refuse("the loop control variable has to be declared")
        own = {token.text for token in own_words(self.tokens, first, sign)}
        if self.direct(first, sign) & NOT_AUTOMATIC or own & NOT_PLAIN:
            self.refuse("loop control variable must be a plain automatic variable")
        self.name = self.tokens[sign - 1].text
        self.declaration = self.piece(first, end - 1)

    def compare(self, first: int, end: int) -> None:
        if not any(token.text in COMPARISONS for token in self.tokens[first:end]):
            self.refuse("loop condition operator must be one of '<', '<=', '>', '>=', or '!='")
        if self.tokens[first].text == self.name and self.tokens[first + 1].text in COMPARISONS:
            self.comparison, limit = self.tokens[first + 1].text, (first + 2, end)
        elif self.tokens[end - 1].text == self.name and self.tokens[end - 2].text in COMPARISONS:
            self.comparison, limit = COMPARISONS[self.tokens[end - 2].text], (first, end - 2)
        else:
            self.refuse(f"loop condition does not test control variable '{self.name}'")
        looser = LOOSER if self.language == "c++" else LOOSER | set(COMPARISONS)
        # An `&` that comes first takes an address.
        if limit[0] == limit[1] or any(
            self.tokens[at].text in looser for at in outside(self.tokens, *limit) if at > limit[0]
        ):
            self.refuse("loop condition has to be one comparison")
        if any(token.text == self.name for token in self.tokens[limit[0] : limit[1]]):
            self.refuse(f"loop condition may name control variable '{self.name}' only once")
        self.limit = self.piece(limit[0], limit[1] - 1)

    def move(self, first: int, end: int) -> None:
        texts = [token.text for token in self.tokens[first:end]]
        self.step: str | None = None
        if sorted(texts) in (sorted([self.name, "++"]), sorted([self.name, "--"])):
            self.operator, self.moved = texts[texts[0] == self.name], "".join(texts)
        elif texts[0] == self.name and texts[1] in ("+=", "-="):
            self.operator, self.moved = texts[1], f"{self.name}{texts[1]} __spbags_step"
            self.step = self.piece(first + 2, end - 1)
            if self.direct(first + 2, end) & {",", "=", "+=", "-="} or self.name in texts[2:]:
                self.refuse(f"loop increment has to be one assignment, whose step doesn't name '{self.name}',")
        elif self.name in texts:
            self.refuse("loop increment operator must be one of operators '++', '--', '+=', or '-='")
        else:
            self.refuse(f"loop increment does not modify control variable '{self.name}'")
        wrong = {"++": (">", ">="), "--": ("<", "<=")}.get(self.operator, ())
        if self.comparison in wrong:
            sign = "negative" if self.operator == "++" else "positive"
            self.refuse(f"loop increment is inconsistent with condition: expected {sign} stride")

    def header(self) -> str:
        """What stands in place of the loop's own header, up to the body."""
        name, is_cplusplus = self.name, self.language == "c++"
        auto, value = ("auto", "({})") if is_cplusplus else ("__auto_type", "((void)0, ({}))")
        made = [f"{{ {self.declaration};", f"{auto} __spbags_end = {value.format(self.limit)};"]
        if self.step:
            made.append(f"{auto} __spbags_step = {value.format(self.step)};")
        made += [
            f"{entered(self.tokens[self.at])} {self.keeps(self.at)} long __spbags_number = 0;",
            f"for (; {name} {self.comparison} __spbags_end; {self.moved}, (void)0, __spbags_number++) {{",
        ]
        made += self.lambda_header() if is_cplusplus else self.outlined_header()
        closing: Token = self.tokens[self.closing]
        return self.here + " ".join(made) + closing.marker()

    def keeps(self, at: int) -> str:
        return KEEPS if at in self.waiting else ""

    def outlined_header(self) -> list[str]:
        name = self.name
        kinds = f"__builtin_classify_type({name})"
        return [
            f"_Static_assert({kinds} != 8 && sizeof {name} <= sizeof(long), "
            f"\"loop control variable must have an integer or pointer type in 'cilk_for'\");"
            f"__spbags_iteration((long){name}, {kinds} == 5 ? __spbags_number : (long){name});",
            self.here + OUTLINES[self.language] + self.here,
            f"{{ __typeof__({name}) {name} = (__typeof__({name}))__spbags_counter(); do",
        ]

    def lambda_header(self) -> list[str]:
        keeps = self.keeps(self.closing)
        # By the number, no narrow variable shares a unit with its copy.
        copied = f"{self.name}, __spbags_number"
        return [f"auto __spbags_body = [&, {copied}]() mutable __attribute__((noipa)) {{ {keeps} do"]

    def footer(self) -> str:
        end = "while (0); } __spbags_return(0, 0); } }"
        if self.language == "c++":
            run = "__spbags_body(); __spbags_return(&__spbags_body, sizeof __spbags_body);"
            if self.at in self.waiting:
                run = (
                    f'try {{ {run} }} catch (...) {{ __spbags_ending __spbags_ended{{"", &__spbags_body, '
                    "sizeof __spbags_body}; __spbags_here.__keep(__spbags_ended); }"
                )
            end = f"while (0); }}; __spbags_iteration(0, __spbags_shown({self.name}, __spbags_number)); {run} }} }}"
        return self.here + end + self.tokens[self.last].marker()

    def edits(self) -> list[Edit]:
        return [(self.at, self.closing, self.header()), (self.last, self.footer())]


def scope_edits(tokens: list[Token], at: int) -> list[Edit]:
    first, last = at + 1, statement_end(tokens, at + 1)
    if tokens[first].text != "{":
        raise Refused(tokens[at], "expected '{' after 'cilk_scope'")
    check_entries(tokens, first, last, "cilk_scope")
    here = tokens[at].marker(" 3")
    return [(at, at, f"{here}{{ {entered(tokens[at])}{tokens[at].marker()}"), (last, " }")]
