/* The order in which a stream or a descriptor is used. */
#ifndef SPBAGS_LIBRARY_STREAMS_H
#define SPBAGS_LIBRARY_STREAMS_H

#include "base/caller.h"

/* Whether the run judges that order: then each use is a write. */
extern bool streams_judged;
/* Whether the standard streams of C++ share the lock and the order of C's. */
extern bool streams_shared;

const char *streams_lock_of(FILE *stream);

/* A use of it. */
void streams_use(FILE *stream, struct caller by);
void streams_use_file(int file, struct caller by);
void streams_use_ostream(const struct ostream *stream, struct caller by);
#define NOTE_ORDER(OF, SELF) \
    _Generic((OF), FILE * : streams_use, int : streams_use_file, struct ostream * : streams_use_ostream)(OF, BY(SELF))

/* The descriptor is closed. */
void streams_end_file(int file);

#endif
