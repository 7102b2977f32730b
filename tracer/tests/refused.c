/* Every line here that ends with a tag has to be refused, and no other. */
#include <cilk/cilk.h>

struct place {
    int x;
};

int f(int n);
int *g(void);
struct place h(void);

int refused(int n, int *p) {
    int x = 0, y = 0;
    x += cilk_spawn f(n);
    (void)cilk_spawn f(n);
    int z += cilk_spawn f(n); /* [refused] */
    x = 1 + cilk_spawn f(n); /* [refused] */
    x = cilk_spawn f(n) + 1; /* [refused] */
    x = y = cilk_spawn f(n); /* [refused] */
    f(cilk_spawn f(n)); /* [refused] */
    cilk_spawn f(cilk_spawn f(n)); /* [refused] */
    p[cilk_spawn f(n)] = 1; /* [refused] */
    x = (cilk_spawn f(n)); /* [refused] */
    x += y = cilk_spawn f(n); /* [refused] */
    (long)cilk_spawn f(n); /* [refused] */
    x = n ? cilk_spawn f(1) : 2; /* [refused] */
    n ? f(1) : cilk_spawn f(2); /* [refused] */
    x = 1, y = cilk_spawn f(n); /* [refused] */
    *cilk_spawn g() = 1; /* [refused] */
    x = cilk_spawn h().x; /* [refused] */
    cilk_spawn x; /* [refused] */
    cilk_spawn { x = 1; } /* [refused] */
    int a = cilk_spawn f(1), b; /* [refused] */
    int c = 1, d = cilk_spawn f(1); /* [refused] */
    int e[1] = {cilk_spawn f(1)}; /* [refused] */
    static int s = cilk_spawn f(1); /* [refused] */
    __auto_type o = cilk_spawn f(1); /* [refused] */
    for (x = cilk_spawn f(0); x < n; x++) /* [refused] */
        y++;
    for (x = 0; x < n; cilk_spawn f(x)) /* [refused] */
        y++;
    if (cilk_spawn f(0)) /* [refused] */
        y++;
    cilk_sync;
    return cilk_spawn f(x + y); /* [refused] */
}

int loops(int n, int *p) {
    int x = 0, y = 0;
    cilk_for (x = 0; x < n; x++) y = x; /* [refused] */
    cilk_for (static int i = 0; i < n; i++) y = i; /* [refused] */
    cilk_for (int i = 0, j = 0; i < n; i++) y = j; /* [refused] */
    cilk_for (int i; i < n; i++) y = i; /* [refused] */
    cilk_for (int i = 0;; i++) y = i; /* [refused] */
    cilk_for (int i = 0; i < n;) y = i; /* [refused] */
    cilk_for (int i = 0; i == n; i++) y = i; /* [refused] */
    cilk_for (int i = 0; i < n && p; i++) y = i; /* [refused] */
    cilk_for (int i = 0; x < n; i++) y = i; /* [refused] */
    cilk_for (int i = 0; i < n; x++) y = i; /* [refused] */
    cilk_for (int i = 0; i < n; i *= 2) y = i; /* [refused] */
    cilk_for (int i = 1; i < n; i += i) y = i; /* [refused] */
    cilk_for (int i = 0; i < n; i--) y = i; /* [refused] */
    cilk_for (int i = 0; i > n; i++) y = i; /* [refused] */
    cilk_for (int i = 0; i < cilk_spawn f(n); i++) y = i; /* [refused] */
again:
    cilk_for (int i = 0; i < n; i++) {
        while (n)
            break;
        if (i == 1)
            break; /* [refused] */
    }
    cilk_for (int i = 0; i < n; i++)
        return 1; /* [refused] */
    cilk_for (int i = 0; i < n; i++)
        goto again; /* [refused] */
    cilk_for (int i = 0; i < n; i++) { /* [refused] */
    inside:
        y = i;
    }
    if (n)
        goto inside;
    cilk_scope { /* [refused] */
    within:
        x = cilk_spawn f(n);
    }
    if (n)
        goto within;
    switch (n) {
    case 0:
        cilk_scope {
        case 1: /* [refused] */
            y = 1;
        }
    }
    cilk_scope x = 1; /* [refused] */
    return x + y;
}
