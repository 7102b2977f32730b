#include "base/output.h"

#include "base/changes.h"
#include "base/tell.h"

struct output output_of_run = {.file = -1, .room = OUTPUT_LONGEST, .most = UINT64_MAX};

/* A closed pipe and a file past its size limit kill by a signal, unless that is blocked: then the write fails. */
void output_write(struct output *output) {
    int error = errno;
    sigset_t deadly, before;
    changes_begin();
    sigemptyset(&deadly);
    sigaddset(&deadly, SIGPIPE);
    sigaddset(&deadly, SIGXFSZ);
    sigprocmask(SIG_BLOCK, &deadly, &before);
    while (output->gone < output->used) {
        ssize_t wrote = write(output->file, output->bytes + output->gone, output->used - output->gone);
        if (wrote > 0)
            output->gone += (size_t)wrote;
        else if (wrote == 0 || errno != EINTR)
            tell_fault_by(wrote < 0 && errno == EPIPE ? "fault closed" : "fault", "cannot write %s: %s", output->name,
                          wrote == 0 ? "no byte was written" : strerror(errno));
    }
    output->written += output->gone;
    output->used = output->gone = 0;
    sigprocmask(SIG_SETMASK, &before, NULL);
    errno = error;
    changes_end();
}

void output_close(struct output *output) {
    if (output->file < 0)
        return;
    output_write(output);
    if (close(output->file) != 0)
        tell_fault("cannot write %s: %s", output->name, strerror(errno));
}

void output_make_room(struct output *output) {
    output_write(output);
    if (output->written + OUTPUT_LONGEST > output->most)
        output->at_limit();
    uint64_t left = output->most - output->written;
    output->room = left < sizeof output->bytes ? left : sizeof output->bytes;
}

/* ---- Where it goes ---- */

int output_move_away(const char *variable, int file) {
    int moved = fcntl(file, F_DUPFD_CLOEXEC, 64);
    if (moved < 0)
        tell_fault("%s: descriptor %d: %s", variable, file, strerror(errno));
    return moved;
}

/* As far as the system lets us; what isn't a pipe stays as it is. */
static void enlarge_pipe(int file) {
    for (int size = OUTPUT_PIPE; size > OUTPUT_PIECE && fcntl(file, F_SETPIPE_SZ, size) < 0; size /= 2)
        continue;
}

int output_named_file(const char *variable, const char *name) {
    if (strncmp(name, "fd:", 3) != 0)
        return -1;
    char *rest;
    long file = strtol(name + 3, &rest, 10);
    if (name[3] < '0' || name[3] > '9' || *rest != '\0' || file <= STDERR_FILENO || file > 65535)
        tell_fault("%s=%s: expected fd:N, with the number N of an open descriptor above 2", variable, name);
    int moved = output_move_away(variable, (int)file);
    close((int)file);
    return moved;
}

int output_open(const char *name, const char *variable) {
    int file = output_named_file(variable, name);
    if (strcmp(name, "-") == 0) {
        file = output_move_away(variable, STDOUT_FILENO);
        dup2(STDERR_FILENO, STDOUT_FILENO);
    } else if (file < 0) {
        int opened = open(name, O_WRONLY | O_CREAT | O_TRUNC | O_CLOEXEC, 0666);
        if (opened < 0)
            tell_fault("cannot open %s: %s", name, strerror(errno));
        file = output_move_away(variable, opened);
        close(opened);
    }
    enlarge_pipe(file);
    return file;
}
