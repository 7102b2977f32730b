#include "records/look_stacks.h"

#include "base/caller.h"
#include "base/memory.h"
#include "base/tell.h"
#include "shadow/stacks.h"

const char look_stacks_region[] = "region";

enum { MOST_NODES = 1 << 26 };
struct look_node *look_stacks_nodes;
static uint32_t last_node;

struct unwinding {
    uintptr_t end, code;
};

static _Unwind_Reason_Code unwind(struct _Unwind_Context *context, void *with) {
    struct unwinding *unwinding = with;
    if (_Unwind_GetCFA(context) >= unwinding->end)
        return _URC_END_OF_STACK;
    unwinding->code = _Unwind_GetIP(context);
    return _URC_NO_REASON;
}

uintptr_t look_stacks_code_in(size_t frame, uintptr_t code) {
    while (frame > 0 && frames_all[frame].kind != FRAME_FUNCTION)
        frame--;
    if (caller_is_program(code) || frame == 0)
        return code;
    struct unwinding unwinding = {.end = frames_all[frame].end};
    _Unwind_Backtrace(unwind, &unwinding);
    return caller_is_program(unwinding.code) ? unwinding.code : 0;
}

static void add_node(size_t at) {
    struct frame *frame = &frames_all[at];
    if (last_node + 1 == MOST_NODES)
        tell_fault("the races have too many different stacks");
    enum frame_kind around = frames_all[at - 1].kind;
    bool is_part = frame->kind >= FRAME_CALLED, is_shown = is_part || frame->kind == FRAME_FUNCTION;
    bool has_part = is_part || (frame->kind == FRAME_CHILD && frame->code != 0);
    /* A part stands for the function that the hooks call in it. */
    if (!is_part && (around == FRAME_CALLED || around == FRAME_TASK_PART))
        is_shown = false;
    if (has_part && frames_parts[at].is_hidden)
        is_shown = false;
    uint32_t parent = frames_all[at - 1].node;
    uintptr_t code = has_part   ? frame->code
                     : is_shown ? look_stacks_code_in(at - 1, *(uintptr_t *)(frame->end - 8))
                                : 0;
    look_stacks_nodes[++last_node] =
        (struct look_node){.parent = parent,
                           .functions = look_stacks_nodes[parent].functions + is_shown,
                           .code = code,
                           .is_shown = is_shown && parent != 0,
                           .is_child = !frames_is_of_function(frame) && frame->kind != FRAME_CALLED};
    if (has_part)
        look_stacks_nodes[last_node].part = frames_parts[at];
    frame->node = last_node;
}

uint32_t look_stacks_node_of(size_t frame) {
    size_t at = frame;
    while (at > 0 && frames_all[at].node == 0)
        at--;
    while (at < frame)
        add_node(++at);
    return frames_all[frame].node;
}

uint32_t look_stacks_procedure_now(void) {
    uint32_t node = look_stacks_node_of(look_stacks_top());
    while (!look_stacks_nodes[node].is_child && node != 0)
        node = look_stacks_nodes[node].parent;
    return node;
}

bool look_stacks_is_in(uint32_t node, uint32_t procedure) {
    while (node > procedure)
        node = look_stacks_nodes[node].parent;
    return node == procedure;
}

uint32_t look_stacks_meeting(uint32_t one, uint32_t other) {
    while (one != other)
        if (one > other)
            one = look_stacks_nodes[one].parent;
        else
            other = look_stacks_nodes[other].parent;
    return one;
}

/* Where a function goes on to the access with this code and node, or 0. */
static uintptr_t way_to(uintptr_t code, uint32_t node, uint32_t function) {
    for (; node > function; node = look_stacks_nodes[node].parent)
        if (look_stacks_nodes[node].is_shown)
            code = look_stacks_nodes[node].code;
    return node == function ? code : 0;
}

struct look_owner look_stacks_frame_owner(uintptr_t address, uintptr_t code, uint32_t node) {
    const struct stack *stack = stacks_find(address);
    if (!stack)
        return (struct look_owner){0};
    const struct frame *first = stack == stacks_running ? frames_all : stack->frames,
                       *frame = stack == stacks_running ? frames_top : stack->top;
    while (frame > first && (frame->kind != FRAME_FUNCTION || frame->end <= address))
        frame--;
    uint32_t function = stack == stacks_running ? look_stacks_node_of((size_t)(frame - first)) : frame->node;
    return (struct look_owner){way_to(code, node, function), (intptr_t)(address - frame->end)};
}

struct look_owner look_stacks_data_owner(uintptr_t address, uintptr_t code, uint32_t node) {
    enum { MOST_DATA = 1 << 16 };
    size_t nearest = 0;
    if (stacks_find(address))
        for (size_t frame = look_stacks_top(); frame > 0; frame--)
            if (frames_all[frame].kind >= FRAME_CALLED && frames_parts[frame].data != 0 &&
                address - frames_parts[frame].data < MOST_DATA &&
                (nearest == 0 || frames_parts[frame].data > frames_parts[nearest].data))
                nearest = frame;
    if (nearest == 0)
        return (struct look_owner){0};
    return (struct look_owner){way_to(code, node, look_stacks_node_of(nearest)),
                               (intptr_t)(address - frames_parts[nearest].data)};
}

bool look_stacks_are_alike(uint32_t one, uint32_t other) {
    while (one != other && look_stacks_nodes[one].code == look_stacks_nodes[other].code && one != 0 && other != 0) {
        one = look_stacks_nodes[one].parent;
        other = look_stacks_nodes[other].parent;
    }
    return one == other;
}

void look_stacks_begin(void) { look_stacks_nodes = memory_reserve(MOST_NODES * sizeof *look_stacks_nodes); }
