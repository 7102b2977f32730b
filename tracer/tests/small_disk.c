/* A disk with 400,000 free bytes, whatever the file's own has: compiled by the plain compiler into a library that is
   loaded before the C library. */
#include <string.h>
#include <sys/statvfs.h>

int fstatvfs(int file, struct statvfs *space) {
    (void)file;
    memset(space, 0, sizeof *space);
    space->f_bavail = 400;
    space->f_frsize = 1000;
    return 0;
}
