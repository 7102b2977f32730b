/* Races in blocks of the heap whose parts test_words.py knows by their names: the first word says which. */
#include <cilk/cilk.h>
#include <stdlib.h>
#include <string.h>

typedef struct {
    long id;
    double pos[3];
} particle;
struct node {
    struct node *left, *right;
    int sum;
};
struct stats {
    double sum;
    int count, least;
};
struct other {
    double first, second;
};
struct table {
    int rows[2][3];
};
static double sink;

static void push(particle *p, int at) { p[at].pos[1] = 2; }

static void of_a_member(void) {
    particle *swarm = calloc(10, sizeof *swarm);
    cilk_spawn push(swarm, 1);
    push(swarm, 1);
}

static void of_a_type(void) {
    void *raw = calloc(10, sizeof(particle));
    cilk_spawn push(raw, 1);
    push(raw, 1);
}

static void *memory(size_t size) {
    void *found = malloc(size);
    return found;
}

static void visit(struct node *at) { (*at).sum++; }

/* One function allocates what different structs are in. */
static void of_a_node(void) {
    struct node *top = memory(sizeof *top);
    cilk_spawn visit(top);
    visit(top);
}

static void note(struct stats *s, double x) { s->sum += x, s->count++; /* [note] */ }

static void of_several(void) {
    struct stats *all = memory(sizeof *all), own = {0};
    cilk_spawn note(all, 1);
    note(all, 2);
    cilk_sync;
    cilk_spawn note(&own, 1);
    note(&own, 2);
}

static void set_cell(struct table *t) { t->rows[1][2] = 1; }

static void of_rows(void) {
    struct table *table = malloc(sizeof *table);
    cilk_spawn set_cell(table);
    set_cell(table);
}

static void fill(double *row, int many) {
    for (int i = 0; i < many; i++)
        row[i] = many;
}

static void of_elements(void) {
    double *numbers = malloc(5 * sizeof *numbers);
    cilk_spawn fill(numbers, 5);
    fill(numbers, 5);
}

static void take(const struct other *from, struct stats *to) { to->sum = from->second; }

static void set(struct other *from) { from->second = 1; }

/* What is read on a line isn't what is written there, though it may have a member at the same place. */
static void of_a_line(void) {
    void *one = malloc(sizeof(struct other));
    struct stats own;
    cilk_spawn set(one);
    take(one, &own);
}

static void set_both(double *one, double *another) { one[1] = another[1] = 3; }

/* Either pointer may lead there. */
static void of_doubt(void) {
    void *raw = malloc(4 * sizeof(double)), *more = malloc(4 * sizeof(double));
    cilk_spawn set_both(raw, more);
    sink = ((double *)raw)[1];
}

static const struct {
    const char *name;
    void (*run)(void);
} all[] = {{"member", of_a_member},   {"type", of_a_type}, {"node", of_a_node}, {"several", of_several},
           {"elements", of_elements}, {"line", of_a_line}, {"rows", of_rows},   {"doubt", of_doubt}};

int main(int count, char **words) {
    for (size_t at = 0; at < sizeof all / sizeof *all; at++)
        if (strcmp(count > 1 ? words[1] : "", all[at].name) == 0)
            all[at].run();
}
