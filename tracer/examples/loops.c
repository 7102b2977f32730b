/* Loops, scopes and shapes of spawns of Cilk. With RACY each function below lacks something, or does something more. */
#include <cilk/cilk.h>
#include <stdio.h>

enum { N = 4 };

#ifdef RACY
#define SYNC
#define IF_RACY(STATEMENT) STATEMENT
#else
#define SYNC cilk_sync
#define IF_RACY(STATEMENT)
#endif

static int answer(void) { return 42; }

static int set(int *at, int to) {
    *at = to;
    return to;
}

static int squares(int count) {
    int square[N], last = 0, sum = 0;
    cilk_for (int i = 0; i < count; i++) {
        int own = 0;
        set(&own, i * i); /* The variable of an iteration is no other's. */
        square[i] = own;
        IF_RACY(last = own;) /* [last] */
    }
    for (int i = 0; i < N; i++)
        sum += square[i];
    return sum + 0 * last;
}

static int nested(void) {
    int product[N][N];
    cilk_for (int i = N; 0 < i; --i) {
        int kept = i;
        cilk_for (int j = 0; j != N; j += 2) {
            if (i == j)
                continue;
            product[i - 1][j] = product[i - 1][j + 1] = i * j;
            IF_RACY(kept = j;) /* [kept] */
        }
        product[i - 1][0] = kept - i;
    }
    return product[N - 1][2];
}

/* Each iteration waits for its own child. */
static int spawning(void) {
    static int found[N];
    cilk_for (int *at = found; at < found + N; at++) {
        int given;
        given = cilk_spawn answer(); /* [given] */
        SYNC;
        *at = given; /* [used] */
    }
    return found[N - 1];
}

/* A loop waits for its iterations, and not for older children. */
static int beside(void) {
    int sum[N];
    const int older = cilk_spawn answer(); /* [older] */
    cilk_for (int i = 0; i < N; i++)
        cilk_spawn set(&sum[i], i);
    int all = sum[1] + sum[3];
    SYNC;
    return all + older; /* [after_loop] */
}

/* So does a scope, also where the program leaves it early. */
static int scoped(void) {
    int older, inner = 0;
    older = cilk_spawn answer(); /* [before_scope] */
    for (int i = 0; i < N; i++)
        cilk_scope {
            inner = cilk_spawn answer();
            if (i == 2)
                break;
        }
    inner++;
    SYNC;
    return older + inner; /* [after_scope] */
}

/* What a child gives is added where it is wanted. */
static int added(void) {
    struct {
        int sum, (*give)(void);
    } one = {1, answer}, *at = &one;
    at->sum += cilk_spawn at->give(); /* [added] */
    (void)cilk_spawn answer();
    SYNC;
    return one.sum; /* [after_added] */
}

/* A spawn may be any statement. */
static int placed(int count) {
    int at[N + 1], i = 0;
    if (count == 0)
        at[0] = 0;
    else
        at[0] = cilk_spawn answer(); /* [else] */
    do
        at[1] = cilk_spawn answer(); /* [do] */
    while (i++ < 0);
    for (; i < 2; i++)
        at[i + 1] = cilk_spawn answer(); /* [for] */
    switch (count) {
    case N:
        at[3] = cilk_spawn answer(); /* [case] */
        goto last;
    }
last:
    at[N] = cilk_spawn answer(); /* [last_label] */
    SYNC;
    return at[0] + at[1] + at[2] + at[3] + at[N]; /* [after_placed] */
}

int main(void) {
    printf("%d %d %d %d %d ", squares(N), nested(), spawning(), beside(), scoped());
    printf("%d %d\n", added(), placed(N));
}
