/* The compiler's headers, in an order that works: they include nothing themselves. */
#ifndef SPBAGS_COMPILER_H
#define SPBAGS_COMPILER_H

#include <algorithm>
#include <cstdlib>
#include <initializer_list>
#include <iterator>
#include <map>
#include <set>
#include <string>
#include <utility>
#include <vector>

#include "gcc-plugin.h"

#include "plugin-version.h"

#include "tree.h"

#include "gimple.h"

#include "tree-pass.h"

#include "stringpool.h"

#include "attribs.h"
#include "builtins.h"
#include "cfganal.h"
#include "cfgexpand.h"
#include "cgraph.h"
#include "context.h"
#include "diagnostic.h"
#include "memmodel.h"

#include "rtl.h"

#include "emit-rtl.h"
#include "fold-const.h"
#include "function.h"
#include "gimple-iterator.h"
#include "gimple-walk.h"
#include "gimplify-me.h"
#include "gimplify.h"
#include "internal-fn.h"
#include "langhooks.h"
#include "output.h"
#include "ssa.h"
#include "stmt.h"
#include "target.h"
#include "tree-cfg.h"
#include "tree-dfa.h"
#include "tree-eh.h"
#include "tree-into-ssa.h"
#include "tree-iterator.h"
#include "tree-ssa-alias.h"
#include "tree-ssa.h"
#include "varasm.h"

/* Newer compilers have it under a name of their own. */
static inline bool begins_with(const char *text, const char *beginning) {
    return strncmp(text, beginning, strlen(beginning)) == 0;
}

#endif
