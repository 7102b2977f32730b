/* Signals that end the program. */
#ifndef SPBAGS_RUN_SIGNALS_H
#define SPBAGS_RUN_SIGNALS_H

#include "base/common.h"

/* From here on they are seen. */
void signals_catch(void);
/* Whether the program has handled a signal itself. */
extern bool signals_have_handler;
/* The program ends by this one. */
void signals_end_run(int number);

#endif
