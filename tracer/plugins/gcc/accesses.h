/* What a function's code reads and writes, and the hooks beside it. This is asked right after the code is in SSA form,
   before any optimization: so each load and store of the program's text has its hook, whatever is removed later. */
#ifndef SPBAGS_ACCESSES_H
#define SPBAGS_ACCESSES_H

#include "hooks.h"

/* How an access is made: a usual one; by an atomic operation; by assembly, perhaps in one atomic instruction; or as a
   copy of an argument for a call. */
enum way { PLAINLY, ATOMICALLY, BY_ASSEMBLY, BY_LOCKED_ASSEMBLY, AS_ARGUMENT };

/* The hooks of a function. They are put where they belong when all have been found. */
class accesses {
  public:
    explicit accesses(function *fun) : fun(fun) {}
    /* Memory that a statement accesses by a reference, if that may be another function's too. */
    void note_reference(gimple *statement, tree reference, bool writes, way made = PLAINLY, bool behind = false);
    /* So many bytes at an address, a number or a value. */
    void note_memory(gimple *statement, tree address, tree size, bool writes, way made = PLAINLY, bool behind = false);
    /* That a statement accesses memory which can't be told. */
    void note_unseen(gimple *statement);
    void note_end(gimple *clobber);
    /* What else is to stand before a statement. */
    void put_before(gimple *statement, gimple_seq sequence);
    /* What is found in the whole function. */
    void find();
    /* Puts all hooks. */
    void put();

    function *const fun;

  private:
    struct hook {
        gimple *statement;
        gimple_seq sequence;
        bool behind;
    };
    std::vector<hook> hooks;

    bool is_own(tree base) const;
    void note_part(gimple *statement, tree reference, bool writes, way made, bool behind);
    void add(gimple *statement, tree address, tree size, unsigned alignment, bool writes, way made, bool behind);
    void find_in(gimple *statement);
};

#endif
