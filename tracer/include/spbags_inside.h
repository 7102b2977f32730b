/* The detector as a library: a session takes the records of one run as they come, and then gives the text of their
   report. It has the locations that race; if no location is accessed again after spbags_forget, it is byte for byte
   that of `spbags check`. The library is the crate `inside`. Its contracts are proved of callers that do what is said
   here.

   A session lies in a room of spbags_room() bytes aligned to 16. Between spbags_new and spbags_free only these functions
   read or write the room and the handle, of which there is one. One thread calls them, one call at a time, and no signal
   handler does. */
#ifndef SPBAGS_INSIDE_H
#define SPBAGS_INSIDE_H
#include <stdbool.h>
#include <stddef.h>
#include <stdint.h>

enum spbags_kind { SPBAGS_SPAWN, SPBAGS_CALL, SPBAGS_RETURN, SPBAGS_SYNC, SPBAGS_READ, SPBAGS_WRITE };

enum spbags_status {
    SPBAGS_TAKEN,        /* it is done */
    SPBAGS_AFTER_END,    /* the root has returned, so no record may come; nothing has changed */
    SPBAGS_TOO_MANY,     /* with these there would be more than 2^48 records; nothing has changed */
    SPBAGS_NO_MEMORY,    /* memory was refused, now or before: the session has stopped for good */
    SPBAGS_UNKNOWN_KIND, /* no record has this kind; nothing has changed */
    SPBAGS_GIVEN         /* the report was made before; nothing has changed */
};

/* What spbags_next answers in place of a byte. */
enum { SPBAGS_AT_END = 256, SPBAGS_NO_TEXT = 257 };

/* How many bytes a session needs. */
size_t spbags_room(void);

/* Where a session lies. */
struct spbags_handle {
    void *room;
};

/* Makes a session in this room that has taken no record, and its handle. If memory is refused, it has stopped. */
void spbags_new(void *room, struct spbags_handle *handle);

/* Takes the next record. The location is that of a read or a write. */
uint8_t spbags_step(struct spbags_handle *handle, uint8_t kind, uint64_t location);

/* A record as spbags_steps takes it: eight times its location, which is below 2^61, plus its kind. Records other than
   reads and writes have no location. */
static inline uint64_t spbags_record(enum spbags_kind kind, uint64_t location) { return location << 3 | kind; }

/* Takes `count` records in order. It stops at the first one that it can't take, and returns its status. `count` is
   below 2^60; `records` isn't null, even if `count` is 0; and nothing writes the records during the call. */
uint8_t spbags_steps(struct spbags_handle *handle, const uint64_t *records, size_t count);

/* Takes accesses in the block of an even location: that has, for some b, the locations 128 * b + 2 * i with i below 64.
   A read of each whose bit i is set in `reads` comes by ascending i, then the same of `writes`: all or none. */
uint8_t spbags_block(struct spbags_handle *handle, uint64_t location, uint64_t reads, uint64_t writes);

/* Begins a new life for locations in the block of this one: those of which bit i is set in `units`, as above, and odd if
   this one is. What comes of them later races with nothing that came before. Races that were found stay. The memory of
   the former life is used again. */
uint8_t spbags_forget(struct spbags_handle *handle, uint64_t location, uint64_t units);

/* Returns how many locations have raced so far: those of the report, if it were made now. After spbags_report, and if the
   session has stopped, it returns 0. */
size_t spbags_race_count(struct spbags_handle *handle);

/* Makes the text of the report of all records that were taken. Of a location that has raced in several lives it has one
   race. No record is taken after that. */
uint8_t spbags_report(struct spbags_handle *handle);

/* Returns the next byte of that text, SPBAGS_AT_END after the last one, or SPBAGS_NO_TEXT if there is no text. */
uint16_t spbags_next(struct spbags_handle *handle);

/* Frees the session, in any state. The caller may reuse the room. */
void spbags_free(struct spbags_handle handle);

/* The heap of the library: the program that links it defines these functions. A block has `size` bytes and is aligned
   to `alignment`, which divides 16. Only the library uses it until it frees it. If the allocation fails, `got` is false,
   and `block` is any address but null. */
struct rattle_block {
    bool got;
    void *block;
};

struct rattle_block rattle_alloc(size_t size, size_t alignment);

/* Changes the size of a block, which may move; its first `kept` bytes stay. If that fails, the block is unchanged. */
struct rattle_block rattle_realloc(void *block, size_t kept, size_t size, size_t alignment);

void rattle_dealloc(void *block);
#endif
