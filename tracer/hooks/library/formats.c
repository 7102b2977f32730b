#include "library/formats.h"

#include "library/words.h"

/* From a percent sign to the letter behind it. A number is -1 where there is none. */
struct conversion {
    char kind;
    /* One for each l, and two for what is as long as `long double`; less than zero for each h. */
    int longs;
    /* Which argument it converts, and those that its stars name, as in %2$*1$d. */
    int number, width_number, digits_number;
    int width, digits;
    bool width_is_argument, digits_are_argument, allocates;
};

static int number_at(const char **at) {
    int number = -1;
    for (; **at >= '0' && **at <= '9'; (*at)++)
        number = (number < 0 ? 0 : number) * 10 + (**at - '0');
    return number;
}

/* The number of an argument, where one stands here with its dollar. */
static int argument_at(const char **at) {
    const char *from = *at;
    int number = number_at(&from);
    if (number < 0 || *from != '$')
        return -1;
    *at = from + 1;
    return number;
}

/* The number here, or the star in place of one. */
static int number_or_star(const char **at, bool *is_argument, int *argument) {
    if (**at != '*')
        return number_at(at);
    (*at)++;
    *is_argument = true;
    *argument = argument_at(at);
    return -1;
}

static void read_length(const char **at, struct conversion *to) {
    for (; **at != '\0' && strchr("hlLqjzt", **at); (*at)++)
        to->longs += **at == 'L' || **at == 'q' ? 2 : **at == 'h' ? -1 : 1;
}

/* Behind the bracket that ends a set of characters. */
static const char *after_set(const char *at) {
    at += *at == '^';
    at += *at == ']';
    const char *end = strchr(at, ']');
    return end ? end + 1 : at + strlen(at);
}

/* The next conversion from here on; where there is none its kind is 0. In a format of scanf a star takes no argument,
   and gives the kind '*'. */
static struct conversion next_conversion(const char **at, bool scans) {
    struct conversion found = {.number = -1, .width_number = -1, .digits_number = -1, .width = -1, .digits = -1};
    const char *percent = strchr(*at, '%');
    if (!percent)
        return found;
    *at = percent + 1;
    found.number = argument_at(at);
    *at += strspn(*at, "-+ #0'I");
    bool is_left_out = scans && **at == '*';
    *at += is_left_out;
    found.width = number_or_star(at, &found.width_is_argument, &found.width_number);
    if (!scans && **at == '.') {
        (*at)++;
        found.digits = number_or_star(at, &found.digits_are_argument, &found.digits_number);
        found.digits = found.digits < 0 && !found.digits_are_argument ? 0 : found.digits;
    }
    if (scans && **at == 'm') {
        found.allocates = true;
        (*at)++;
    }
    read_length(at, &found);
    found.kind = **at;
    *at += found.kind != '\0';
    if (scans && found.kind == '[')
        *at = after_set(*at);
    if (found.kind == 'S' || found.kind == 'C') {
        found.kind = found.kind == 'S' ? 's' : 'c';
        found.longs = 1;
    }
    found.kind = is_left_out ? '*' : found.kind;
    return found;
}

static bool is_float(char kind) { return strchr("aAeEfFgG", kind) != NULL; }

/* The bytes of an integer with these letters for its length. */
static size_t integer_size(int longs) {
    return longs > 0 ? sizeof(long) : longs == 0 ? sizeof(int) : longs == -1 ? sizeof(short) : 1;
}

/* An argument that printf takes: its value where it is a pointer, or a number that a star stands for. */
static uintptr_t printed_argument(const struct conversion *of, va_list *list) {
    if (is_float(of->kind) && of->longs >= 2)
        (void)va_arg(*list, long double);
    else if (is_float(of->kind))
        (void)va_arg(*list, double);
    else if (strchr("spn", of->kind) || of->longs > 0)
        return va_arg(*list, uintptr_t);
    else
        return (uintptr_t)va_arg(*list, int);
    return 0;
}

struct visit {
    formats_touch *touch;
    const void *with;
};

/* What one conversion of printf does with what its argument points to. */
static void note_printed(const struct conversion *of, uintptr_t value, int digits, struct visit by) {
    size_t most = digits < 0 ? SIZE_MAX : (size_t)digits;
    if (of->kind == 'n')
        by.touch(true, value, integer_size(of->longs), by.with);
    else if (of->kind == 's' && value != 0 && of->longs <= 0)
        by.touch(false, value, some((const char *)value, most), by.with);
    else if (of->kind == 's' && value != 0)
        by.touch(false, value,
                 digits < 0 ? all_wide((const wchar_t *)value) : wide_characters((const wchar_t *)value, most),
                 by.with);
}

static bool takes_argument(char kind) { return kind != '\0' && kind != '%' && kind != 'm' && kind != '*'; }

/* Arguments in the order of the conversions. */
static void note_in_order(const char *format, va_list *list, struct visit by) {
    for (struct conversion next; (next = next_conversion(&format, false)).kind != '\0';) {
        if (next.width_is_argument)
            (void)va_arg(*list, int);
        int digits = next.digits_are_argument ? va_arg(*list, int) : next.digits;
        if (takes_argument(next.kind))
            note_printed(&next, printed_argument(&next, list), digits, by);
    }
}

enum { MOST_NUMBERED = 64 };

/* How the argument with this number is converted first; a star's is that of an int. */
static struct conversion conversion_of(const char *format, int number, bool scans) {
    const struct conversion star = {.kind = 'd', .digits = -1};
    struct conversion next;
    while ((next = next_conversion(&format, scans)).kind != '\0')
        if (next.number == number)
            return next;
        else if (next.width_number == number || next.digits_number == number)
            return star;
    return next;
}

/* Arguments that are named by their numbers, as in %2$s. */
static void note_by_number(const char *format, va_list *list, struct visit by) {
    uintptr_t values[MOST_NUMBERED] = {0};
    for (int number = 1; number < MOST_NUMBERED; number++) {
        struct conversion first = conversion_of(format, number, false);
        if (first.kind == '\0')
            break;
        values[number] = printed_argument(&first, list);
    }
    for (struct conversion next; (next = next_conversion(&format, false)).kind != '\0';) {
        int digits = next.digits_are_argument && next.digits_number > 0 && next.digits_number < MOST_NUMBERED
                         ? (int)values[next.digits_number]
                         : next.digits;
        if (takes_argument(next.kind) && next.number > 0 && next.number < MOST_NUMBERED)
            note_printed(&next, values[next.number], digits, by);
    }
}

void formats_printed(const char *format, va_list *list, formats_touch *touch, const void *with) {
    if (!format)
        return;
    if (strchr(format, '$'))
        note_by_number(format, list, (struct visit){touch, with});
    else
        note_in_order(format, list, (struct visit){touch, with});
}

/* ---- scanf ---- */

/* The bytes that a conversion wrote to what its argument points to. */
static size_t scanned_size(const struct conversion *of, uintptr_t value) {
    bool wide = of->longs > 0;
    if (of->allocates)
        return sizeof(void *);
    if (of->kind == 's' || of->kind == '[')
        return wide ? all_wide((const wchar_t *)value) : all((const char *)value);
    if (of->kind == 'c')
        return (size_t)(of->width < 0 ? 1 : of->width) * (wide ? sizeof(wchar_t) : 1);
    if (is_float(of->kind))
        return of->longs >= 2 ? sizeof(long double) : wide ? sizeof(double) : sizeof(float);
    return of->kind == 'p' ? sizeof(void *) : integer_size(of->longs);
}

/* So many conversions stored what they read. One of %n counts for none, and stores if those before it did. */
void formats_scanned(const char *format, va_list *list, int stored, formats_touch *touch, const void *with) {
    bool by_number = strchr(format, '$');
    uintptr_t values[MOST_NUMBERED] = {0};
    for (int number = 1; by_number && number < MOST_NUMBERED; number++)
        if (conversion_of(format, number, true).kind != '\0')
            values[number] = va_arg(*list, uintptr_t);
    for (struct conversion next; stored >= 0 && (next = next_conversion(&format, true)).kind != '\0';) {
        if (!takes_argument(next.kind))
            continue;
        if (next.kind != 'n' && stored-- == 0)
            return;
        uintptr_t value = !by_number                                       ? va_arg(*list, uintptr_t)
                          : next.number > 0 && next.number < MOST_NUMBERED ? values[next.number]
                                                                           : 0;
        if (value != 0)
            touch(true, value, scanned_size(&next, value), with);
    }
}

/* ---- Wide formats ---- */

/* The format in bytes; no letter of a conversion is any other character. */
char *formats_narrowed(const wchar_t *from, char *to, size_t room) {
    size_t at = 0;
    for (; from && from[at] != L'\0' && at + 1 < room; at++)
        to[at] = from[at] > 0 && from[at] < 128 ? (char)from[at] : '?';
    to[at] = '\0';
    return to;
}
