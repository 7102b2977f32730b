#include "base/source_line.h"

#include "base/tell.h"

int __real_execvp(const char *name, char *const words[]);

const char *source_line(uintptr_t code, char *line, size_t size) {
    if (tell_by_records()) {
        snprintf(line, size, "<code %#zx>", (size_t)code - 1);
        return line;
    }
    char program[40], address[24];
    int ends[2];
    snprintf(program, sizeof program, "/proc/%d/exe", (int)getpid());
    snprintf(address, sizeof address, "%#zx", (size_t)code - 1);
    char *words[] = {"addr2line", "-i", "-e", program, address, NULL};
    snprintf(line, size, "address %s", address);
    if (pipe(ends) != 0)
        return line;
    pid_t child = vfork();
    if (child == 0) {
        dup2(ends[1], STDOUT_FILENO);
        __real_execvp(words[0], words);
        __real__exit(127);
    }
    close(ends[1]);
    char answer[4 * size];
    ssize_t got = child > 0 ? read(ends[0], answer, sizeof answer - 1) : 0;
    close(ends[0]);
    if (child > 0)
        waitpid(child, NULL, 0);
    while (got > 0 && answer[got - 1] == '\n')
        got--;
    if (got <= 0)
        return line;
    answer[got] = '\0';
    const char *before = strrchr(answer, '\n'), *last = before ? before + 1 : answer;
    if (*last != '?')
        snprintf(line, size, "%.*s", (int)strcspn(last, " "), last);
    return line;
}
