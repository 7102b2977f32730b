/* The detector's library by its header alone: a child and its parent write one location, by a call for each record and by
   one call for all; and the child writes two locations of a block, of which the parent reads all. And locations that both
   write begin another life between, before their race or behind it. Compiled by the plain compiler. */
#include "../include/spbags_inside.h"
#include <inttypes.h>
#include <stdio.h>
#include <stdlib.h>

static int live_blocks;

static struct rattle_block answer_with(void *block) {
    static max_align_t nothing;
    return block ? (struct rattle_block){true, block} : (struct rattle_block){false, &nothing};
}

struct rattle_block rattle_alloc(size_t size, size_t alignment) {
    live_blocks++;
    return answer_with(malloc(size > 0 ? size : alignment));
}

struct rattle_block rattle_realloc(void *block, size_t kept, size_t size, size_t alignment) {
    (void)kept;
    return answer_with(realloc(block, size > 0 ? size : alignment));
}

void rattle_dealloc(void *block) {
    live_blocks--;
    free(block);
}

static void expect(const char *what, uint8_t wanted, uint8_t status) {
    if (status != wanted)
        printf("%s: status %d, not %d\n", what, status, wanted);
}

enum { RECORDS = 5 };
static const uint8_t kinds[RECORDS] = {SPBAGS_SPAWN, SPBAGS_WRITE, SPBAGS_RETURN, SPBAGS_WRITE, SPBAGS_RETURN};

static void step_by_step(struct spbags_handle *session, uint64_t location) {
    expect("a kind that no record has", SPBAGS_UNKNOWN_KIND, spbags_step(session, SPBAGS_WRITE + 8, location));
    for (int at = 0; at < RECORDS; at++) {
        expect("a step", SPBAGS_TAKEN, spbags_step(session, kinds[at], location));
        expect("the races so far", at >= 3, (uint8_t)spbags_race_count(session));
    }
    expect("a step after the end", SPBAGS_AFTER_END, spbags_step(session, SPBAGS_SYNC, 0));
}

static void all_at_once(struct spbags_handle *session, uint64_t location) {
    uint64_t records[RECORDS + 1];
    for (int at = 0; at < RECORDS; at++)
        records[at] = spbags_record(kinds[at], location);
    records[RECORDS] = spbags_record(SPBAGS_SYNC, 0);
    expect("no steps", SPBAGS_TAKEN, spbags_steps(session, records, 0));
    expect("steps", SPBAGS_AFTER_END, spbags_steps(session, records, RECORDS + 1));
}

static void in_blocks(struct spbags_handle *session, uint64_t location) {
    const uint64_t ends = 1 | (uint64_t)1 << 63;
    expect("a spawn", SPBAGS_TAKEN, spbags_step(session, SPBAGS_SPAWN, 0));
    expect("a block of writes", SPBAGS_TAKEN, spbags_block(session, location, 0, ends));
    expect("the child's return", SPBAGS_TAKEN, spbags_step(session, SPBAGS_RETURN, 0));
    expect("a block of reads", SPBAGS_TAKEN, spbags_block(session, location, UINT64_MAX, 0));
    expect("the root's return", SPBAGS_TAKEN, spbags_step(session, SPBAGS_RETURN, 0));
    expect("a block after the end", SPBAGS_AFTER_END, spbags_block(session, location, ends, 0));
}

/* Of three locations one has no other life before the race. */
static void in_two_lives(struct spbags_handle *session, uint64_t location) {
    const uint64_t odd = location + 5, bit_of_odd = 1 << 2;
    expect("a spawn", SPBAGS_TAKEN, spbags_step(session, SPBAGS_SPAWN, 0));
    expect("a write", SPBAGS_TAKEN, spbags_step(session, SPBAGS_WRITE, odd));
    expect("two writes", SPBAGS_TAKEN, spbags_block(session, location, 0, 3));
    expect("the child's return", SPBAGS_TAKEN, spbags_step(session, SPBAGS_RETURN, 0));
    expect("another life", SPBAGS_TAKEN, spbags_forget(session, odd, bit_of_odd));
    expect("another life", SPBAGS_TAKEN, spbags_forget(session, location, 1));
    expect("a write", SPBAGS_TAKEN, spbags_step(session, SPBAGS_WRITE, odd));
    expect("two writes", SPBAGS_TAKEN, spbags_block(session, location, 0, 3));
    expect("another life", SPBAGS_TAKEN, spbags_forget(session, location, UINT64_MAX));
    expect("the root's return", SPBAGS_TAKEN, spbags_step(session, SPBAGS_RETURN, 0));
    expect("another life after the end", SPBAGS_TAKEN, spbags_forget(session, location, UINT64_MAX));
}

static void print_report(void (*run)(struct spbags_handle *session, uint64_t location), uint64_t location) {
    struct spbags_handle session;
    void *room = aligned_alloc(16, (spbags_room() + 15) / 16 * 16);
    spbags_new(room, &session);
    run(&session, location);
    expect("the report", SPBAGS_TAKEN, spbags_report(&session));
    for (uint16_t byte; (byte = spbags_next(&session)) < SPBAGS_AT_END;)
        putchar(byte);
    expect("a step after the report", SPBAGS_GIVEN, spbags_step(&session, SPBAGS_SYNC, 0));
    expect("the races of no records", 0, (uint8_t)spbags_race_count(&session));
    spbags_free(session);
    free(room);
    if (live_blocks != 0)
        printf("%d blocks aren't given back\n", live_blocks);
}

int main(void) {
    print_report(step_by_step, 5);
    print_report(step_by_step, UINT64_MAX);
    print_report(all_at_once, 5);
    print_report(in_blocks, 128);
    print_report(in_two_lives, 128);
    return 0;
}
