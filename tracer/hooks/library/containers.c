/* What the library itself has of C++'s containers: trees, lists and tables of hashes. Those of trees stand in for the
   library's, since what they touch depends on the whole tree. */
#include "program/accesses.h"

/* Who called the library, and what for. */
static struct caller inside_of;

#define ENTER(NAME) inside_of = BY(__wrap_##NAME)

static void note_field(bool writes, const void *at, size_t size) {
    accesses_note_by(writes, (uintptr_t)at, size, inside_of);
}

#define GET(FIELD) (note_field(false, &(FIELD), sizeof(FIELD)), (FIELD))
#define SET(FIELD, VALUE) (note_field(true, &(FIELD), sizeof(FIELD)), (FIELD) = (VALUE))

/* ---- Trees, by which map and set are made ---- */

enum { RED, BLACK, LEFT = 0, RIGHT = 1 };

/* The head of a tree is one too: its parent is the root, and its sides are the first node and the last. */
struct tree {
    int colour;
    struct tree *parent, *side[2];
};

static struct tree *outermost(struct tree *node, int side) {
    for (struct tree *next; (next = GET(node->side[side])) != NULL;)
        node = next;
    return node;
}

/* The next node to this side; of the last one that is the head. */
static struct tree *neighbour(struct tree *node, int side) {
    if (GET(node->side[side]))
        return outermost(GET(node->side[side]), !side);
    struct tree *above = GET(node->parent);
    while (node == GET(above->side[side])) {
        node = above;
        above = GET(above->parent);
    }
    /* The head and the root are each other's parents. */
    return side == LEFT || GET(node->side[side]) != above ? above : node;
}

static struct tree *before(struct tree *node) {
    if (GET(node->colour) == RED && GET(GET(node->parent)->parent) == node)
        return GET(node->side[RIGHT]);
    return neighbour(node, LEFT);
}

/* In the place of a node stands another one. */
static void put_in_place(struct tree *node, struct tree *other, struct tree *head) {
    struct tree *above = GET(node->parent);
    if (GET(head->parent) == node)
        SET(head->parent, other);
    else
        SET(above->side[GET(above->side[LEFT]) != node], other);
}

/* The node goes down to this side, and its other child up. */
static void rotate(struct tree *node, int side, struct tree *head) {
    struct tree *up = GET(node->side[!side]), *moved = GET(up->side[side]);
    SET(node->side[!side], moved);
    if (moved)
        SET(moved->parent, node);
    SET(up->parent, GET(node->parent));
    put_in_place(node, up, head);
    SET(up->side[side], node);
    SET(node->parent, up);
}

static bool is_black(struct tree *node) { return !node || GET(node->colour) == BLACK; }

static void balance_new(struct tree *node, struct tree *head) {
    while (node != GET(head->parent) && GET(GET(node->parent)->colour) == RED) {
        struct tree *above = GET(node->parent), *top_node = GET(above->parent);
        int side = GET(top_node->side[LEFT]) != above;
        struct tree *beside = GET(top_node->side[!side]);
        SET(top_node->colour, RED);
        if (!is_black(beside)) {
            SET(above->colour, BLACK);
            SET(beside->colour, BLACK);
            node = top_node;
            continue;
        }
        if (node == GET(above->side[!side])) {
            rotate(above, side, head);
            struct tree *lower = above;
            above = node;
            node = lower;
        }
        SET(above->colour, BLACK);
        rotate(top_node, !side, head);
    }
    SET(GET(head->parent)->colour, BLACK);
}

static void insert(int side, struct tree *node, struct tree *above, struct tree *head) {
    SET(node->parent, above);
    SET(node->side[LEFT], NULL);
    SET(node->side[RIGHT], NULL);
    SET(node->colour, RED);
    bool is_outermost = above == head || above == GET(head->side[side]);
    SET(above->side[side], node);
    if (above == head) {
        SET(head->parent, node);
        SET(head->side[!side], node);
    } else if (is_outermost)
        SET(head->side[side], node);
    balance_new(node, head);
}

/* Below ABOVE on this side one black node is missing. Gives where that is so then, or NULL. */
static struct tree *balance_step(struct tree *above, int side, struct tree *head) {
    struct tree *beside = GET(above->side[!side]);
    if (!is_black(beside)) {
        SET(beside->colour, BLACK);
        SET(above->colour, RED);
        rotate(above, side, head);
        beside = GET(above->side[!side]);
    }
    if (is_black(GET(beside->side[LEFT])) && is_black(GET(beside->side[RIGHT]))) {
        SET(beside->colour, RED);
        return above;
    }
    if (is_black(GET(beside->side[!side]))) {
        SET(GET(beside->side[side])->colour, BLACK);
        SET(beside->colour, RED);
        rotate(beside, !side, head);
        beside = GET(above->side[!side]);
    }
    SET(beside->colour, GET(above->colour));
    SET(above->colour, BLACK);
    SET(GET(beside->side[!side])->colour, BLACK);
    rotate(above, side, head);
    return NULL;
}

/* NODE, which may be none, stands below ABOVE where a black one was taken away. */
static void balance_without(struct tree *node, struct tree *above, struct tree *head) {
    while (node != GET(head->parent) && is_black(node)) {
        node = balance_step(above, node != GET(above->side[LEFT]), head);
        if (!node)
            return;
        above = GET(node->parent);
    }
    if (node)
        SET(node->colour, BLACK);
}

/* A node with two children gets the place of the next one, which has at most one, and that one its place. */
static struct tree *change_places(struct tree *node, struct tree *next, struct tree *head) {
    struct tree *above = next, *below = GET(next->side[RIGHT]);
    SET(GET(node->side[LEFT])->parent, next);
    SET(next->side[LEFT], GET(node->side[LEFT]));
    if (next != GET(node->side[RIGHT])) {
        above = GET(next->parent);
        if (below)
            SET(below->parent, above);
        SET(above->side[LEFT], below);
        SET(next->side[RIGHT], GET(node->side[RIGHT]));
        SET(GET(node->side[RIGHT])->parent, next);
    }
    put_in_place(node, next, head);
    SET(next->parent, GET(node->parent));
    int colour = GET(next->colour);
    SET(next->colour, GET(node->colour));
    SET(node->colour, colour);
    return above;
}

static void erase(struct tree *node, struct tree *head) {
    struct tree *left = GET(node->side[LEFT]), *right = GET(node->side[RIGHT]), *below, *above;
    if (left && right) {
        struct tree *next = outermost(right, LEFT);
        below = GET(next->side[RIGHT]);
        above = change_places(node, next, head);
    } else {
        below = left ? left : right;
        above = GET(node->parent);
        if (below)
            SET(below->parent, above);
        put_in_place(node, below, head);
        for (int side = LEFT; side <= RIGHT; side++)
            if (GET(head->side[side]) == node)
                SET(head->side[side], below ? outermost(below, side) : above);
    }
    if (GET(node->colour) == BLACK)
        balance_without(below, above, head);
}

#define INCREMENT(NAME) \
    struct tree *__wrap_##NAME(struct tree *node) { \
        ENTER(NAME); \
        return neighbour(node, RIGHT); \
    }
#define DECREMENT(NAME) \
    struct tree *__wrap_##NAME(struct tree *node) { \
        ENTER(NAME); \
        return before(node); \
    }
INCREMENT(_ZSt18_Rb_tree_incrementPSt18_Rb_tree_node_base)
INCREMENT(_ZSt18_Rb_tree_incrementPKSt18_Rb_tree_node_base)
DECREMENT(_ZSt18_Rb_tree_decrementPSt18_Rb_tree_node_base)
DECREMENT(_ZSt18_Rb_tree_decrementPKSt18_Rb_tree_node_base)

void __wrap__ZSt29_Rb_tree_insert_and_rebalancebPSt18_Rb_tree_node_baseS0_RS_(bool left, struct tree *node,
                                                                              struct tree *above, struct tree *head) {
    ENTER(_ZSt29_Rb_tree_insert_and_rebalancebPSt18_Rb_tree_node_baseS0_RS_);
    insert(left ? LEFT : RIGHT, node, above, head);
}

struct tree *__wrap__ZSt28_Rb_tree_rebalance_for_erasePSt18_Rb_tree_node_baseRS_(struct tree *node, struct tree *head) {
    ENTER(_ZSt28_Rb_tree_rebalance_for_erasePSt18_Rb_tree_node_baseRS_);
    erase(node, head);
    return node;
}

/* ---- Lists ---- */

struct ring {
    struct ring *next, *before;
};

static void join(struct ring *one, struct ring *next) {
    SET(one->next, next);
    SET(next->before, one);
}

void __wrap__ZNSt8__detail15_List_node_base7_M_hookEPS0_(struct ring *node, struct ring *at) {
    ENTER(_ZNSt8__detail15_List_node_base7_M_hookEPS0_);
    join(GET(at->before), node);
    join(node, at);
}

void __wrap__ZNSt8__detail15_List_node_base9_M_unhookEv(struct ring *node) {
    ENTER(_ZNSt8__detail15_List_node_base9_M_unhookEv);
    join(GET(node->before), GET(node->next));
}

void __wrap__ZNSt8__detail15_List_node_base11_M_transferEPS0_S1_(struct ring *at, struct ring *first,
                                                                 struct ring *end) {
    ENTER(_ZNSt8__detail15_List_node_base11_M_transferEPS0_S1_);
    if (at == end)
        return;
    struct ring *last = GET(end->before);
    join(GET(first->before), end);
    join(GET(at->before), first);
    join(last, at);
}

void __wrap__ZNSt8__detail15_List_node_base10_M_reverseEv(struct ring *node) {
    ENTER(_ZNSt8__detail15_List_node_base10_M_reverseEv);
    struct ring *at = node;
    do {
        struct ring *next = GET(at->next);
        SET(at->next, GET(at->before));
        SET(at->before, next);
        at = next;
    } while (at != node);
}

static void take_over(struct ring *node, struct ring from, const struct ring *other) {
    if (from.next == other) {
        SET(node->next, node);
        SET(node->before, node);
    } else {
        join(node, from.next);
        join(from.before, node);
    }
}

void __wrap__ZNSt8__detail15_List_node_base4swapERS0_S1_(struct ring *one, struct ring *other) {
    ENTER(_ZNSt8__detail15_List_node_base4swapERS0_S1_);
    struct ring first = GET(*one), second = GET(*other);
    take_over(one, second, other);
    take_over(other, first, one);
}

/* ---- Tables of hashes ---- */

struct policy {
    float most;
    size_t next;
};

struct answer {
    bool grows;
    size_t size;
};

__attribute__((weak)) size_t __real__ZNKSt8__detail20_Prime_rehash_policy11_M_next_bktEm(struct policy *, size_t);
size_t __wrap__ZNKSt8__detail20_Prime_rehash_policy11_M_next_bktEm(struct policy *policy, size_t size) {
    ENTER(_ZNKSt8__detail20_Prime_rehash_policy11_M_next_bktEm);
    note_field(false, &policy->most, sizeof policy->most);
    note_field(true, &policy->next, sizeof policy->next);
    return __real__ZNKSt8__detail20_Prime_rehash_policy11_M_next_bktEm(policy, size);
}

#define NEED_REHASH _ZNKSt8__detail20_Prime_rehash_policy14_M_need_rehashEmmm
__attribute__((weak)) struct answer REAL(NEED_REHASH)(struct policy *, size_t, size_t, size_t);
struct answer WRAP(NEED_REHASH)(struct policy *policy, size_t size, size_t count, size_t wanted) {
    ENTER(_ZNKSt8__detail20_Prime_rehash_policy14_M_need_rehashEmmm);
    size_t next = GET(policy->next);
    struct answer answer = REAL(NEED_REHASH)(policy, size, count, wanted);
    if (count + wanted > next) {
        note_field(false, &policy->most, sizeof policy->most);
        note_field(true, &policy->next, sizeof policy->next);
    }
    return answer;
}

__attribute__((weak)) size_t __real__ZSt11_Hash_bytesPKvmm(const void *from, size_t size, size_t seed);
size_t __wrap__ZSt11_Hash_bytesPKvmm(const void *from, size_t size, size_t seed) {
    NOTE_READ(from, size, __wrap__ZSt11_Hash_bytesPKvmm);
    return __real__ZSt11_Hash_bytesPKvmm(from, size, seed);
}
