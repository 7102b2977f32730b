/* Who stands on the stack in a run that looks: a tree of nodes, one for each active function and child, of which those
   of accesses stay. */
#ifndef SPBAGS_RECORDS_LOOK_STACKS_H
#define SPBAGS_RECORDS_LOOK_STACKS_H

#include "shadow/frames.h"

struct look_race;

/* An active function or child, as of the frame with this node. Node 0 is the root's. */
struct look_node {
    uint32_t parent;
    /* How many functions stand on the stack up to here. */
    uint32_t functions;
    /* The address after the call, in the caller; of a child, none. */
    uintptr_t code;
    bool is_shown, is_child;
    /* The newest race whose accesses meet in this function, and haven't been waited for: the first of a pair, or one
       that may be pending. */
    struct look_race *race;
    struct frame_part part;
};
extern struct look_node *look_stacks_nodes;

/* Of memory of the stack: the code of the function that has it, on the way to the access, and how far from the
   function's place it is. */
struct look_owner {
    uintptr_t code;
    intptr_t offset;
};

void look_stacks_begin(void);

/* What stands for a frame in a stack. */
extern const char look_stacks_region[];
static inline size_t look_stacks_top(void) { return (size_t)(frames_top - frames_all); }
/* The node of this frame; those below it get theirs first. */
uint32_t look_stacks_node_of(size_t frame);
/* The node of the innermost child that is running, or the root's, and whether a node is of it or of one within. */
uint32_t look_stacks_procedure_now(void);
bool look_stacks_is_in(uint32_t node, uint32_t procedure);
/* The deepest function that holds both. */
uint32_t look_stacks_meeting(uint32_t one, uint32_t other);
/* Whether the calls down to both of these are the same: a loop may make one again and again. */
bool look_stacks_are_alike(uint32_t one, uint32_t other);

/* Where the function with this frame is, if it called a library or a hook that called this code; 0 where nothing says
   it. */
uintptr_t look_stacks_code_in(size_t frame, uintptr_t code);
/* By what the access with this code and node is done there: the function whose frame holds this, from the frame's end
   on, and the one of a part whose data begin nearest below this. */
struct look_owner look_stacks_frame_owner(uintptr_t address, uintptr_t code, uint32_t node);
struct look_owner look_stacks_data_owner(uintptr_t address, uintptr_t code, uint32_t node);

#endif
