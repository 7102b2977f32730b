"""Programs for oracle.py: those of csmith, whose calls become children, and random ones in C++. Both are compiled with
oracle_marks.h. What they access in common are globals and blocks of the heap."""
import random
import re
import subprocess

# A variable of csmith's that isn't constant; the line of a function; and a statement that is one call, whose arguments
# call nothing.
VARIABLE = re.compile(r"static (?!.*\bconst\b[^*]*$)(.*?)\b(g_\d+)((?:\[\d+\])*) = ")
FUNCTION = re.compile(r"static .*\b(func_\d+)\((.*)\)\s*$")
CALL = re.compile(r"(\s*)((?:\w[\w\[\]>.-]* = )?)\(?(func_\d+\((?:(?!func_).)*\))\)?;\s*$")
# A statement behind which another one may stand.
STATEMENT = re.compile(r"\s*(?!return|goto|break|continue|else|[{}#]).*;\s*$")


def c_program(seed, folder):
    """One of csmith's, which leaves a file of its own in the folder, with the calls that are statements spawned; and with children put between its statements that
    read or write its variables, some of them blocks of the heap, or that call a function of its own."""
    chance = random.Random(seed)
    options = ["--seed", str(seed), "--nomain", "--no-checksum", "--no-bitfields", "--no-packed-struct",
               "--max-funcs", str(chance.randint(3, 7)), "--max-block-depth", str(chance.randint(2, 3)),
               "--max-expr-complexity", str(chance.randint(3, 6)), "--max-block-size", str(chance.randint(3, 5)),
               "--max-array-len-per-dim", "5", chance.choice(["--volatiles", "--no-volatiles"])]
    lines = subprocess.run(["csmith", *options], capture_output=True, text=True, check=True,
                           cwd=folder).stdout.splitlines()
    names = [found[2] for found in map(VARIABLE.match, lines) if found and not found[1].rstrip().endswith("const")]
    return names and "\n".join([*with_children(lines, chance), *touches(names, chance), main_of_c(chance)]) + "\n"


TOUCHES, BLOCKS = 6, 3


def with_children(lines, chance):
    """csmith's lines, from its first function on with spawns and syncs."""
    depth, in_functions = 0, False
    for line in lines:
        if not in_functions and FUNCTION.match(line) and "func_1(" in line:
            in_functions = True
            yield from ('#include "oracle_marks.h"', "#include <stdio.h>", "#include <stdlib.h>",
                        f"static long *blocks[{BLOCKS}];", *(f"static void touch_{at}(void);" for at in range(TOUCHES)))
        code = re.sub(r"/\*.*?\*/", "", line).rstrip()
        depth += code.count("{") - code.count("}")
        call = in_functions and depth > 0 and CALL.match(code)
        yield f"{call[1]}SPAWN({call[2]}, {call[3]});" if call and chance.random() < .7 else line
        if in_functions and depth > 0 and STATEMENT.match(code) and line.endswith(";"):
            yield from child(chance)


def child(chance):
    kind = chance.random()
    if kind < .2:
        yield f"    SPAWN(, touch_{chance.randrange(TOUCHES)}());"
    elif kind < .3:
        yield "    SYNC;"
    elif kind < .35:
        yield f"    touch_{chance.randrange(TOUCHES)}();"


def touches(names, chance):
    for at in range(TOUCHES):
        yield f"static void touch_{at}(void) {{\n    volatile unsigned char sink;\n    (void)sink;"
        for name in [*chance.sample(names, min(len(names), chance.randint(1, 3))), None]:
            place, size = (f"&{name}", f"sizeof {name}") if name else (f"blocks[{chance.randrange(BLOCKS)}]", "2 * sizeof(long)")
            does = chance.choice(["at[i] = at[i];", "sink = at[i];"])
            yield (f"    {{ volatile unsigned char *at = (volatile unsigned char *){place}; "
                   f"for (unsigned i = 0; i < {size}; i++) {does} }}")
        yield "}"


def main_of_c(chance):
    """csmith's program runs once: after that its pointers may lead to locals that have ended."""
    spawns = "".join(chance.choice(["    SPAWN(, touch_0());\n", "    SPAWN(, touch_1());\n", "    SYNC;\n"])
                     for _ in range(chance.randint(1, 3)))
    spawns += chance.choice(["    SPAWN(, func_1());\n", "    func_1();\n"])
    blocks = "".join(f'    PRINT_BLOCK("block{at}", blocks[{at}], 4 * sizeof(long));\n' for at in range(BLOCKS))
    return (f"int main(void) {{\n    for (int at = 0; at < {BLOCKS}; at++)\n        blocks[at] = calloc(4, sizeof(long));\n"
            f"{spawns}    touch_2();\n    SYNC;\n    touch_3();\n    FINISHED;\n{blocks}    return 0;\n}}")


# ---- C++ ----

HEAD = """\
#include "oracle_marks.h"
#include <algorithm>
#include <array>
#include <cstdio>
#include <functional>
#include <map>
#include <memory>
#include <numeric>
#include <optional>
#include <string>
#include <tuple>
#include <utility>
#include <vector>
struct Point {
    double x, y, z;
    Point operator+(const Point &other) const { return {x + other.x, y + other.y, z + other.z}; }
    Point &operator+=(const Point &other) { x += other.x; y += other.y; z += other.z; return *this; }
    double &operator[](int at) { return (&x)[at]; }
};
struct Base {
    long number = 1;
    virtual ~Base() {}
    virtual long get() const { return number; }
    virtual void set(long to) { number = to; }
};
struct Derived : Base {
    long more = 2;
    long get() const override { return more; }
    void set(long to) override { more = to; Base::set(to + 1); }
};
struct Virtual : virtual Base {
    long wide = 3;
    void set(long to) override { wide = to; }
};
struct Copied {
    int kept[4] = {};
    Copied() {}
    explicit Copied(int first) { kept[0] = first; }
    Copied(const Copied &other) { kept[0] = other.kept[0]; kept[2] = other.kept[2]; }
    Copied &operator=(const Copied &other) { kept[1] = other.kept[1]; return *this; }
    ~Copied() { kept[2] = 0; }
};
struct Large {
    long kept[5];
    Large() : kept{} {}
    explicit Large(long first) : kept{first} {}
};
struct Small { short one, other; };
enum class Colour : int { red, green };
template <class T, int N> struct Row {
    T all[N];
    T &at(int number) { return all[number % N]; }
    template <class F> void each(F call) { for (auto &one : all) call(one); }
};
template <class T> T twice(T one) { return one + one; }
template <class T> void store(T *to, T one) { *to = one; }
int numbers[8];
static long total;
static Point point, other_point;
static Derived derived;
static Virtual virtual_one;
static Copied copied, other_copied;
static Large large, other_large;
static Small small_one;
static Colour colour;
static Row<int, 4> row;
static Row<Point, 2> points;
static std::array<int, 5> array;
static std::pair<int, double> both;
static std::tuple<int, long> tuple;
static std::optional<int> maybe;
static int *second = numbers + 1;
static Base *base = &derived;
static double reals[4];
static unsigned bytes[4];
static std::vector<int> vector(6);
static auto owned = std::make_unique<Large>();
static auto shared = std::make_shared<Point>();
static Point give_point(int more) { numbers[1] += more; return other_point; }
static Large give_large(int first) { Large made(first); made.kept[1] = other_large.kept[1]; return made; }
static Small give_small() { return small_one; }
static void take_large(Large one) { other_large = one; }
static void take_point(Point one) { other_point = one; }
static void take_small(Small one) { numbers[4] = one.one; }
static void by_reference(int &one) { one++; }
static void by_pointer(int *one, int to) { one[1] = to; }
"""
VALUES = """numbers[{n}]|(int)total|(int)point.y|(int)derived.number|(int)virtual_one.wide|copied.kept[1]|(int)large.kept[2]
small_one.other|row.at({n})|array[3]|both.first|std::get<0>(tuple)|second[1]|(int)base->get()|(int)colour|(int)reals[2]
(int)points.all[1].z|std::min(numbers[1], numbers[2])|(int)point[1]|std::accumulate(array.begin(), array.end(), 0)
vector[{n} % 6]|(int)owned->kept[1]|(int)shared->z|maybe.value_or(3)|(int)bytes[{n} & 3]|twice({v})|({v} + {v})
[&] {{ return {v}; }}()|({v} ? {v} : {v})""".replace("\n", "|").split("|")
STATEMENTS = """numbers[{n}] = {v};|total += {v};|point = other_point + point;|other_point += point;|point[{n} % 3] = {v};
derived.set({v});|base->set({v});|virtual_one.set({v});|copied = Copied({v});|{{ Copied mine(copied); other_copied = mine; }}
large = Large({v});|other_large = large;|small_one = Small{{1, (short){v}}};|colour = Colour::green;|row.at({n}) = {v};
row.each([](int &one) {{ one++; }});|points.each([](Point &one) {{ one.x = point.y; }});|array[{n} % 5]++;|both.second = {v};
both = std::pair<int, double>({v}, 1.5);|std::get<0>(tuple) = {v};|std::get<1>(tuple) = {v};|maybe = {v};|*second = {v};
store(&numbers[{n}], {v});|std::swap(numbers[1], numbers[4]);|std::fill(reals, reals + 3, 1.0);|bytes[{n} & 3] ^= 1;
std::sort(array.begin(), array.end());|std::copy(numbers, numbers + 3, numbers + 4);|points.all[0] = point;|vector[{n} % 6] = {v};
vector.at({n} % 6)++;|owned->kept[{n} % 5] = {v};|*shared = point;|shared->x += 1;|for (auto &one : vector) one += 1;
try {{ if ({v}) throw {v}; total++; }} catch (int caught) {{ numbers[2] = caught; }}|auto [one, two] = both; numbers[3] = one;
{{ std::vector<int> mine(numbers, numbers + 3); numbers[0] = (int)mine.size(); }}|numbers[7] = std::move(numbers[6]);
{{ std::string mine(3, 'x'); bytes[1] = mine[0]; }}|{{ std::map<int, int> mine; mine[1] = numbers[2]; numbers[3] = mine[1]; }}
{{ auto mine = std::make_shared<int>(numbers[1]); numbers[2] = *mine; }}
{{ std::function<void(int)> call = [](int one) {{ numbers[6] += one; }}; call(2); }}""".replace("\n", "|").split("|")
# Their arguments call nothing, so that the first function that begins is the child.
SPAWNS = """SPAWN(, f{f}({a}));|SPAWN(numbers[{n}] =, f{f}({a}));|SPAWN(total +=, f{f}({a}));|SPAWN(, derived.set(4));
SPAWN(, base->set({a}));|SPAWN(point =, give_point(2));|SPAWN(large =, give_large(1));|SPAWN(small_one =, give_small());
SPAWN(, t{f}<3>({a}));|SPAWN(, other_point.operator+=(point));|SPAWN(, take_large(large));|SPAWN(, take_point(point));
SPAWN(, take_small(small_one));|SPAWN(, by_reference(numbers[3]));|SPAWN(, by_pointer(&numbers[1], {a}));""".replace("\n", "|").split("|")


class CPlusPlus:
    """A random program in C++."""

    def __init__(self, seed):
        self.chance = random.Random(seed)

    def value(self, depth=2):
        if depth == 0 or self.chance.random() < .25:
            return str(self.chance.randint(0, 9))
        return re.sub(r"\{([nv])\}", lambda found: str(self.chance.randrange(8)) if found[1] == "n" else self.value(depth - 1),
                      self.chance.choice(VALUES)).replace("{{", "{").replace("}}", "}")

    def statement(self, level, depth=2):
        """It calls functions of lower levels."""
        kind = self.chance.random()
        if depth > 0 and kind < .1:
            return (f"if ({self.value(1)}) {{ {self.statement(level, depth - 1)} }} "
                    f"else {{ {self.statement(level, depth - 1)} }}")
        if depth > 0 and kind < .2:
            return f"for (int again = 0; again < {self.chance.randint(1, 3)}; again++) {{ {self.statement(level, depth - 1)} }}"
        if level > 0 and kind < .35:
            return f"f{self.chance.randrange(level)}({self.value(1)});"
        text = self.chance.choice(STATEMENTS)
        return "{ " + re.sub(r"\{([nv])\}", lambda found: str(self.chance.randrange(8)) if found[1] == "n" else self.value(),
                             text).replace("{{", "{").replace("}}", "}") + " }"

    def spawn(self, level):
        given = self.chance.choice(["3", "numbers[2]", "(int)total", "(int)derived.number", "small_one.other"])
        words = {"f": self.chance.randrange(level), "n": self.chance.randrange(8), "a": given}
        return self.chance.choice(SPAWNS).format(**words)

    def part(self, level):
        kind = self.chance.random()
        if level > 0 and kind < .3:
            return self.spawn(level)
        if kind < .38:
            return "SYNC;"
        if level > 0 and kind < .44:
            return f"SCOPE {self.spawn(level)} {self.statement(level)} SCOPE_END"
        if level > 0 and kind < .5:
            call = self.chance.choice(["", f"f{self.chance.randrange(level)}(at);"])
            return (f"LOOP((int at = 0; at < {self.chance.randint(1, 4)}; at++)) {self.statement(level, 1)} "
                    f"numbers[at] += 1; {call} LOOP_END")
        if level > 0 and kind < .56:
            return f"for (int again = 0; again < 3; again++) {{ {self.spawn(level)} {self.statement(level, 1)} }}"
        return self.statement(level)

    def body(self, level):
        return "\n".join("    " + self.part(level) for _ in range(self.chance.randint(3, 7)))

    def program(self):
        levels, text = self.chance.randint(3, 5), [HEAD]
        for level in range(levels):
            spawns = level if level > 0 else 0
            text.append(f"static int f{level}(int) {{\n{self.body(spawns)}\n    return {self.value(1)};\n}}\n"
                        f"template <int N> static int t{level}(int more) {{ numbers[N & 7] += more; return f{level}(N); }}")
        blocks = "".join(f'    PRINT_BLOCK("{name}", {place}, {size});\n' for name, place, size in (
            ("vector", "vector.data()", "6 * sizeof(int)"), ("owned", "owned.get()", "sizeof *owned"),
            ("shared", "shared.get()", "sizeof *shared")))
        return "\n".join([*text, f"int main() {{\n{self.body(levels)}\n    SYNC;\n    FINISHED;\n{blocks}    return 0;\n}}"]) + "\n"


def cplusplus_program(seed):
    return CPlusPlus(seed).program()
