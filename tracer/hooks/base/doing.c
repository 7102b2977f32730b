#include "base/doing.h"

struct doing doing;
