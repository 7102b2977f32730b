/* Two children write one text, through a function of the library. */
#include "measured.h"
#include <string.h>

static char text[16];

static void *say(void *with) {
    strcpy(text, with);
    return with;
}

int main(void) {
    CHILD(first);
    CHILD(second);
    SPAWN(first, say, "one");
    SPAWN(second, say, "two");
    SYNC(first);
    SYNC(second);
    printf("%s\n", text);
}
