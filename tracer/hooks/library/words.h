/* Words of library.table: how many bytes a function reads or writes. */
#ifndef SPBAGS_LIBRARY_WORDS_H
#define SPBAGS_LIBRARY_WORDS_H

#include "base/common.h"

/* A string with its zero, and no more of it than so many bytes. */
static inline size_t all(const char *from) { return from ? strlen(from) + 1 : 0; }
static inline size_t some(const char *from, size_t most) { return strnlen(from, most) + (strnlen(from, most) < most); }
static inline char *end(const char *from) { return (char *)from + strlen(from); }

static inline size_t until(const void *from, int byte, size_t most) {
    const char *found = memchr(from, byte, most);
    return found ? (size_t)(found - (const char *)from) + 1 : most;
}

static inline size_t found(const void *from, const void *at, size_t behind, size_t otherwise) {
    return at ? (size_t)((const char *)at - (const char *)from) + behind : otherwise;
}

static inline char *after(const void *from, const void *at) { return (char *)(at ? at : from); }

static inline size_t alike(const char *a, const char *b, size_t most) {
    size_t at = 0;
    while (at < most && a[at] == b[at] && a[at] != '\0')
        at++;
    return at + (at < most);
}

static inline size_t alike_by_letters(const char *a, const char *b, size_t most) {
    size_t at = 0;
    while (at < most && tolower((unsigned char)a[at]) == tolower((unsigned char)b[at]) && a[at] != '\0')
        at++;
    return at + (at < most);
}

static inline size_t piece(const char *from, const char *set) { return from ? strcspn(from, set) + 1 : 0; }

static inline size_t token(const char *from, const char *set) {
    size_t before = from ? strspn(from, set) : 0;
    return from ? before + piece(from + before, set) : 0;
}

/* The last of so many bytes, unless it is the zero of its string: then none, since that isn't written. */
static inline char *cut(const char *from, size_t bytes) {
    return from && from[bytes - 1] != '\0' ? (char *)from + bytes - 1 : NULL;
}

static inline size_t integer(const char *from, int base) {
    int error = errno;
    char *rest = (char *)from;
    strtoll(from, &rest, base);
    errno = error;
    return (size_t)(rest - from) + 1;
}

static inline size_t decimal(const char *from) {
    int error = errno;
    char *rest = (char *)from;
    strtod(from, &rest);
    errno = error;
    return (size_t)(rest - from) + 1;
}

/* The same of wide characters, in bytes. */
static inline size_t all_wide(const wchar_t *from) { return from ? (wcslen(from) + 1) * sizeof *from : 0; }
static inline size_t some_wide(const wchar_t *from, size_t most) {
    size_t length = wcsnlen(from, most);
    return (length + (length < most)) * sizeof *from;
}
static inline wchar_t *end_wide(const wchar_t *from) { return (wchar_t *)from + wcslen(from); }

static inline size_t alike_wide(const wchar_t *a, const wchar_t *b, size_t most) {
    size_t at = 0;
    while (at < most && a[at] == b[at] && a[at] != L'\0')
        at++;
    return (at + (at < most)) * sizeof *a;
}

static inline size_t alike_by_wide_letters(const wchar_t *a, const wchar_t *b, size_t most) {
    size_t at = 0;
    while (at < most && towlower((wint_t)a[at]) == towlower((wint_t)b[at]) && a[at] != L'\0')
        at++;
    return (at + (at < most)) * sizeof *a;
}

static inline size_t piece_wide(const wchar_t *from, const wchar_t *set) {
    return from ? (wcscspn(from, set) + 1) * sizeof *from : 0;
}

static inline size_t token_wide(const wchar_t *from, const wchar_t *set) {
    size_t before = from ? wcsspn(from, set) : 0;
    return from ? before * sizeof *from + piece_wide(from + before, set) : 0;
}

static inline wchar_t *cut_wide(const wchar_t *from, size_t bytes) {
    const wchar_t *last = from + bytes / sizeof *from - 1;
    return from && *last != L'\0' ? (wchar_t *)last : NULL;
}

static inline size_t integer_wide(const wchar_t *from, int base) {
    int error = errno;
    wchar_t *rest = (wchar_t *)from;
    wcstoll(from, &rest, base);
    errno = error;
    return (size_t)(rest - from + 1) * sizeof *from;
}

static inline size_t decimal_wide(const wchar_t *from) {
    int error = errno;
    wchar_t *rest = (wchar_t *)from;
    wcstod(from, &rest);
    errno = error;
    return (size_t)(rest - from + 1) * sizeof *from;
}

/* A multibyte character that was read with this result: where it isn't whole, or none, as many bytes as there are. */
static inline size_t character(const char *from, size_t most, size_t result) {
    if (!from || most == 0)
        return 0;
    if (result == (size_t)-1 || result == UINT32_MAX)
        return 1;
    return result == (size_t)-2 ? most : result == (size_t)-3 ? 0 : result == 0 ? 1 : result;
}

/* So many characters at most, with the zero. */
static inline size_t characters(const char *from, size_t most) {
    int error = errno;
    mbstate_t state = {0};
    size_t bytes = 0;
    for (size_t count = 0, taken = 1; count < most && taken > 0; count++) {
        taken = mbrlen(from + bytes, MB_CUR_MAX, &state);
        bytes += character(from, MB_CUR_MAX, taken);
        if (taken > MB_CUR_MAX)
            break;
    }
    errno = error;
    return bytes;
}

/* Wide characters whose multibyte ones fill so many bytes at most. */
static inline size_t wide_characters(const wchar_t *from, size_t most) {
    int error = errno;
    mbstate_t state = {0};
    char room[MB_LEN_MAX];
    size_t count = 0;
    for (size_t bytes = 0; bytes < most; count++) {
        size_t letter = wcrtomb(room, from[count], &state);
        bytes += letter;
        if (letter > MB_LEN_MAX || bytes > most || from[count] == L'\0') {
            count++;
            break;
        }
    }
    errno = error;
    return count * sizeof *from;
}

/* What a conversion to at most so many wrote: the zero too, if it had room. */
static inline size_t written(size_t result, size_t most) { return result == (size_t)-1 ? 0 : result + (result < most); }

/* Where the slashes at the path's end are cut off, or none. */
static inline char *trimmed(char *path) {
    size_t length = path ? strlen(path) : 0;
    if (length < 2 || path[length - 1] != '/')
        return NULL;
    while (length > 1 && path[length - 1] == '/')
        length--;
    return path + length;
}

static inline size_t bits(const fd_set *set, int count) { return set ? ((size_t)count + 63) / 64 * 8 : 0; }

static inline size_t net_address(int family) { return family == AF_INET6 ? 16 : 4; }

static inline size_t all_options(const struct option *from) {
    size_t count = 0;
    while (from && from[count].name)
        count++;
    return from ? (count + 1) * sizeof *from : 0;
}

/* Of a list's entry that begins with the next one and the one before. */
static inline void *linked(const void *entry) { return entry ? *(void **)entry : NULL; }
static inline void *linked_before(const void *entry) {
    void *before = ((void **)entry)[1];
    return before;
}

#endif
