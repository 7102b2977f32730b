/* Leiserson's and Schardl's search of a graph, layer by layer; here the graph is a grid. A layer is a bag: trees of 1,
   2, 4, .. places, so that two bags are added up like numbers. What a layer's places find goes into the next bag, a
   reducer; when all have looked, their distances are set. RACY: who finds a place sets its distance, as theirs does. */
#include <cilk/cilk.h>
#include <stdio.h>
#include <stdlib.h>

enum { SIDE = 4, TREES = 8 };

struct node {
    struct node *left, *right;
    int place;
};
struct bag {
    struct node *trees[TREES];
};

static struct node *join(struct node *one, struct node *other) {
    other->right = one->left;
    one->left = other;
    return one;
}

static void add_tree(struct bag *bag, int at, struct node *tree) {
    for (; bag->trees[at]; at++) {
        tree = join(bag->trees[at], tree);
        bag->trees[at] = NULL;
    }
    bag->trees[at] = tree;
}

static void insert(struct bag *bag, int place) {
    struct node *made = malloc(sizeof *made);
    *made = (struct node){.place = place};
    add_tree(bag, 0, made);
}

static void be_empty(void *view) { *(struct bag *)view = (struct bag){{NULL}}; }
static void unite(void *left, void *right) {
    for (int at = 0; at < TREES; at++)
        if (((struct bag *)right)->trees[at])
            add_tree(left, at, ((struct bag *)right)->trees[at]);
}

static struct bag cilk_reducer(be_empty, unite) next;
static int distances[SIDE * SIDE];

static void look(int place, int distance) {
    if (distances[place] < 0) { /* [look] */
#ifdef RACY
        distances[place] = distance; /* [set] */
#else
        (void)distance;
#endif
        insert(&next, place);
    }
}

static void look_from(const struct node *node, int distance) {
    if (!node)
        return;
    cilk_spawn look_from(node->left, distance);
    cilk_spawn look_from(node->right, distance);
    int x = node->place % SIDE, y = node->place / SIDE;
    if (x + 1 < SIDE)
        look(node->place + 1, distance);
    if (y + 1 < SIDE)
        look(node->place + SIDE, distance);
}

/* A place that several have found is in the bag as often, and goes into the next layer once. */
static void set(const struct node *node, int distance, struct bag *layer) {
    if (!node)
        return;
#ifdef RACY
    int is_new = 1;
#else
    int is_new = distances[node->place] < 0;
#endif
    if (is_new)
        insert(layer, node->place);
    distances[node->place] = distance;
    set(node->left, distance, layer);
    set(node->right, distance, layer);
}

int main(void) {
    struct bag layer = {{NULL}};
    for (int place = 1; place < SIDE * SIDE; place++)
        distances[place] = -1;
    insert(&layer, 0);
    for (int distance = 1; distance < 2 * SIDE - 1; distance++) {
        for (int at = 0; at < TREES; at++)
            cilk_spawn look_from(layer.trees[at], distance);
        cilk_sync;
        struct bag found = next;
        next = (struct bag){{NULL}};
        layer = (struct bag){{NULL}};
        for (int at = 0; at < TREES; at++)
            set(found.trees[at], distance, &layer);
    }
    printf("%d\n", distances[SIDE * SIDE - 1]);
}
