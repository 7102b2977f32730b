/* Statements `x = f(..);` of all kinds, which mean what they mean with any compiler. */
#include <stdio.h>

struct eight {
    int numbers[8];
};

static struct eight make(int n) { return (struct eight){{n, n + 1}}; }
static int twice(int n) { return n * 2; }

#define VALUE(n) ({ int own; own = twice(n); })
#define STRUCT(n) ({ struct eight own; own = make(n); own; })

static struct eight all[4];
static struct {
    unsigned small : 5;
    int (*function)(int);
} both;

int main(void) {
    int i = 0;
    struct eight *at = all;
    *at++ = make(5);
    at->numbers[0] = twice(2);
    all[i++ + 2] = make(7);
    both.small = (unsigned)twice(3);
    both.function = (void *)(0);
    both.function = twice;
    if (i)
        i = both.function(i);
    else
        i = twice(9);
    int value = VALUE(4);
    struct eight other = STRUCT(3);
    do
        value = twice(value);
    while (value < 100);
again:
    value = (twice)(value);
    if (value < 1000)
        goto again;
    switch (i) {
    case 2: value += 1; value = twice(value); break;
    default: value = twice(2);
    }
    printf("%d %d %d %d ", all[0].numbers[0], all[1].numbers[0], all[2].numbers[1], both.small);
    printf("%d %d %d\n", i, value, other.numbers[1]);
}
