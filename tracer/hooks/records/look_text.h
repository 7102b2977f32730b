/* What a run that looks has noted, as lines of text for spbags-run. */
#ifndef SPBAGS_RECORDS_LOOK_TEXT_H
#define SPBAGS_RECORDS_LOOK_TEXT_H

#include "records/look_races.h"

void look_text_begin(void);
/* All notes: first the place that the run missed, or null, and what stood there instead. */
void look_text_put(const struct look_stop *missed, const char *instead);

#endif
