/* Structs by value: a child stores one that it gets or that a call gives, or passes one to a call, and the parent touches all
   bytes of that beside it. All of them race. Each case stands on one line, and the program writes into the file of this
   name the line and how many bytes race. */
#include <cilk/cilk.h>
#include <stdio.h>

struct Four { int a; };
struct Floats { float x, y; };
struct Twelve { int a, b, c; };
struct Sixteen { double x; long b; };
struct Three { long a, b, c; };
struct Thirty2 { long a[4]; };
struct Forty { double x[5]; };
struct Forty8 { struct Three both[2]; };
struct Odd { char many[77]; };
struct Small { char many[3]; };
struct Seven { char many[7]; };
struct Fifteen { char many[15]; };
struct Doubles { double x, y; };
struct Bits { unsigned low : 3, high : 29; };
typedef int Vector __attribute__((vector_size(16)));
struct Wide { Vector both[2]; };
struct Large { long many[100]; };
struct Constant { const long a; long b[3]; };
union Both { int whole[4]; double real; };
struct Queue { int count; struct Thirty2 items[3]; };

/* Each case has one of its own, which its functions name by its number. */
enum { MOST = 1000 };
static union {
    char bytes[MOST];
    struct Four four;
    struct Floats floats;
    struct Twelve twelve;
    struct Sixteen sixteen;
    struct Three three, threes[9];
    struct Thirty2 thirty2;
    struct Forty forty;
    struct Forty8 forty8;
    struct Odd odd;
    struct Small small;
    struct Seven seven;
    struct Fifteen fifteen;
    struct Doubles doubles;
    struct Bits bits;
    struct Wide wide;
    Vector vector;
    _Complex double complex;
    __int128 integer;
    struct Large large;
    struct Constant constant;
    union Both both;
    struct Queue queue;
} rooms[200];
#define room rooms[here]
static volatile long sink, zero;
static volatile char seen;

#define TAKER(TYPE, NAME) \
    static int take_##NAME(TYPE one) { return (int)sink + (sizeof one > MOST); }
TAKER(struct Four, four)
TAKER(struct Floats, floats)
TAKER(struct Twelve, twelve)
TAKER(struct Sixteen, sixteen)
TAKER(struct Three, three)
TAKER(struct Thirty2, thirty2)
TAKER(struct Forty, forty)
TAKER(struct Forty8, forty8)
TAKER(struct Odd, odd)
TAKER(struct Large, large)
TAKER(struct Small, small)
TAKER(struct Seven, seven)
TAKER(struct Fifteen, fifteen)
TAKER(struct Doubles, doubles)
TAKER(struct Bits, bits)
TAKER(struct Wide, wide)
TAKER(union Both, both)
TAKER(struct Constant, constant)

static struct Three pass(struct Three one) { return one; }
static int take_old(one, n) struct Three one; int n; { return (int)(sink + one.a) + n; }
static int take_rest(int count, ...) { return (int)sink + count; }
static int take_pair(int n, struct Three one, double x, struct Four other) { return (int)(sink + one.a + x) + other.a + n; }
typedef int taking(struct Three);
static taking *get(void) { return take_three; }
static taking *table[2][2] = {{0, 0}, {take_three, 0}};
static struct { taking *call; } both_ways = {take_three};
static struct Three *at(struct Three *first) { return first; }

static struct test {
    void (*run)(void);
    int line, bytes;
} tests[200];
static int count;

static void touch(char *from, int bytes, int writes) {
    for (int n = 0; n < bytes; n++)
        if (writes)
            from[n] = 0; /* [write] */
        else
            seen = from[n]; /* [read] */
}

/* A child with these parameters, which get these arguments, does this. The parent has a variable of this type, and make
   gives one. */
#define CASE_AT(NUMBER, LINE, BYTES, WRITES, TYPE, PARAMETERS, ARGUMENTS, FROM, ...) \
    static TYPE make_##NUMBER(void) { \
        TYPE made = {0}; \
        return made; \
    } \
    static void does_##NUMBER PARAMETERS { \
        enum { here = NUMBER }; \
        TYPE (*const make)(void) = make_##NUMBER; \
        __VA_ARGS__; \
    } \
    static void run_##NUMBER(void) { \
        enum { here = NUMBER }; \
        TYPE given = {0}; \
        cilk_spawn does_##NUMBER ARGUMENTS; \
        touch((char *)(FROM), BYTES, WRITES); \
        cilk_sync; \
    } \
    __attribute__((constructor)) static void add_##NUMBER(void) { \
        tests[count++] = (struct test){run_##NUMBER, LINE, BYTES}; \
    }
#define CASE(...) CASE_AT(__VA_ARGS__)
#define GETS(BYTES, TYPE, ...) GETS_TOO(BYTES, TYPE, (TYPE s), (given), &room, __VA_ARGS__)
#define GETS_TOO(BYTES, TYPE, PARAMETERS, ARGUMENTS, FROM, ...) \
    CASE(__COUNTER__, __LINE__, BYTES, 0, TYPE, PARAMETERS, ARGUMENTS, FROM, __VA_ARGS__)
#define MAKES(BYTES, TYPE, ...) CASE(__COUNTER__, __LINE__, BYTES, 0, TYPE, (void), (), &room, __VA_ARGS__)
#define READS(BYTES, ...) CASE(__COUNTER__, __LINE__, BYTES, 1, struct Four, (void), (), &room, __VA_ARGS__)

/* ---- The child stores what it got ---- */
GETS(4, struct Four, room.four = s)
GETS(8, struct Floats, room.floats = s)
GETS(12, struct Twelve, room.twelve = s)
GETS(16, struct Sixteen, room.sixteen = s)
GETS(24, struct Three, room.three = s)
GETS(32, struct Thirty2, room.thirty2 = s)
GETS(40, struct Forty, room.forty = s)
GETS(48, struct Forty8, room.forty8 = s)
GETS(77, struct Odd, room.odd = s)
GETS(800, struct Large, room.large = s)
GETS(16, union Both, room.both = s)
GETS(3, struct Small, room.small = s)
GETS(7, struct Seven, room.seven = s)
GETS(15, struct Fifteen, room.fifteen = s)
GETS(16, struct Doubles, room.doubles = s)
GETS(4, struct Bits, room.bits = s)
GETS(32, struct Wide, room.wide = s)
GETS(16, Vector, room.vector = s)
GETS(16, _Complex double, room.complex = s)
GETS(16, __int128, room.integer = s)
GETS(48, struct Three, room.threes[0] = s; room.threes[1] = s)
GETS(24, struct Three, if (s.a == 0) room.three = s)
GETS(72, struct Three, for (int n = 0; n < 3; n++) room.threes[n] = s)
GETS(24, struct Three, switch (s.b) { case 1: return; case 0: room.three = s; return; default: room.forty8.both[1] = s; })
GETS(24, struct Three, struct Three other = s; room.three = other)
MAKES(24, struct Three, struct Three none = {0}; room.three = none)
MAKES(24, struct Three, struct Three some = {1, 2}; room.three = some)
GETS_TOO(24, struct Three, (struct Three s, int n), (given, 2), &room.threes[2], room.threes[n] = s)
GETS_TOO(32, struct Thirty2, (struct Queue *q, struct Thirty2 s), (&room.queue, given), &room.queue.items[1], q->items[1] = s)
GETS_TOO(8, struct Floats, (struct Floats s, double x), (given, 2.5), &room, if (x == 2.5) room.floats = s)
GETS_TOO(24, struct Three, (struct Three *to, struct Three s), (&given, given), &given, *to = s) /* of the parent's frame */

/* ---- What a call gives ---- */
MAKES(4, struct Four, room.four = make())
MAKES(8, struct Floats, room.floats = make())
MAKES(12, struct Twelve, room.twelve = make())
MAKES(16, struct Sixteen, room.sixteen = make())
MAKES(24, struct Three, room.three = make())
MAKES(40, struct Forty, room.forty = make())
MAKES(77, struct Odd, room.odd = make())
MAKES(800, struct Large, room.large = make())
MAKES(16, union Both, room.both = make())
MAKES(3, struct Small, room.small = make())
MAKES(7, struct Seven, room.seven = make())
MAKES(15, struct Fifteen, room.fifteen = make())
MAKES(16, struct Doubles, room.doubles = make())
MAKES(4, struct Bits, room.bits = make())
MAKES(32, struct Wide, room.wide = make())
MAKES(16, Vector, room.vector = make())
MAKES(16, _Complex double, room.complex = make())
MAKES(16, __int128, room.integer = make())
MAKES(24, struct Three, struct Three *to = &room.three; *to++ = make())
MAKES(24, struct Three, room.threes[zero] = make())
MAKES(8, struct Floats, *(struct Floats *)&room.bytes[zero] = make())
MAKES(24, struct Three, sink = (*at(&room.three) = make()).b)
MAKES(24, struct Three, struct Three own = make(); room.three = own)
MAKES(24, struct Three, if (zero) sink = 1; else room.three = make())
MAKES(24, struct Three, for (room.three = make(); sink; ) break)
MAKES(24, struct Three, ({ room.three = make(); }))

/* ---- The child passes one ---- */
READS(4, take_four(room.four))
READS(8, take_floats(room.floats))
READS(12, take_twelve(room.twelve))
READS(16, take_sixteen(room.sixteen))
READS(24, take_three(room.three))
READS(32, take_thirty2(room.thirty2))
READS(40, take_forty(room.forty))
READS(48, take_forty8(room.forty8))
READS(77, take_odd(room.odd))
READS(800, take_large(room.large))
READS(3, take_small(room.small))
READS(7, take_seven(room.seven))
READS(15, take_fifteen(room.fifteen))
READS(16, take_doubles(room.doubles))
READS(4, take_bits(room.bits))
READS(32, take_wide(room.wide))
READS(32, take_constant(room.constant))
READS(16, take_both(room.both))
READS(24, take_three(room.threes[zero]))
READS(24, take_three(*at(&room.three)))
READS(24, take_rest(1, room.threes[0]))
READS(8, take_rest(2, 1.5, room.floats))
READS(77, take_rest(3, 'c', room.odd))
READS(24, take_old(room.three, 2))
READS(28, take_pair(1, room.threes[0], 2.5, *(struct Four *)&room.bytes[24]))
READS(24, get()(room.threes[0]))
READS(24, table[1][0](room.three))
READS(24, (*both_ways.call)(room.three))
READS(24, (zero ? 0 : take_three)(room.three))
READS(24, _Generic(room.three, struct Three: take_three)(room.three))
READS(24, take_three(zero ? pass(room.threes[1]) : room.threes[0]))
READS(24, take_three(pass(pass(room.three))))
READS(24, take_three((sink, room.three)))

int main(int words, char **word) {
    FILE *wanted = fopen(words > 1 ? word[1] : "/dev/stdout", "w");
    for (int n = 0; n < count; n++) {
        tests[n].run();
        fprintf(wanted, "%d tracer/tests/values.c:%d\n", tests[n].bytes, tests[n].line);
    }
    fclose(wanted);
    return 0;
}
