#include "base/settings.h"

#include "base/tell.h"

static const struct {
    const char *name, *values, *initial, *help;
} settings[] = {
#define ROW(NAME, VALUES, INITIAL, HELP) [SETTING_##NAME] = {"SPBAGS_" #NAME, VALUES, INITIAL, HELP},
    SETTINGS(ROW) OPENMP_SETTINGS(ROW) RUNNER_SETTINGS(ROW)
#undef ROW
};

const char *settings_name(enum setting setting) { return settings[setting].name; }

const char *settings_given(enum setting setting) { return getenv(settings[setting].name); }

const char *settings_text(enum setting setting) {
    const char *value = settings_given(setting);
    return value && *value ? value : NULL;
}

void settings_forget(enum setting setting) { unsetenv(settings[setting].name); }

__attribute__((noreturn)) static void refuse(enum setting setting, const char *value) {
    tell_fault("%s=%s: expected %s", settings[setting].name, value, settings[setting].values);
}

/* Whether the values, with commas and `or` between, have this one. */
static bool has_value(const char *values, const char *value) {
    size_t length = strcmp(value, "or") != 0 ? strlen(value) : 0;
    for (const char *at = values; *at != '\0'; at += strcspn(at, " "), at += strspn(at, " "))
        if (strcspn(at, ", ") == length && strncmp(at, value, length) == 0)
            return true;
    return false;
}

static const char *choice(enum setting setting) {
    const char *value = settings_text(setting);
    if (value && !has_value(settings[setting].values, value))
        refuse(setting, value);
    return value ? value : settings[setting].initial;
}

bool settings_is(enum setting setting, const char *value) { return strcmp(choice(setting), value) == 0; }

unsigned settings_digit(enum setting setting) { return (unsigned)(*choice(setting) - '0'); }

uint64_t settings_number_in(const char *variable, const char *expected, uint64_t otherwise) {
    const char *value = getenv(variable);
    if (!value || !*value)
        return otherwise;
    char *rest;
    errno = 0;
    uint64_t number = strtoull(value, &rest, 10);
    if (*value < '1' || *value > '9' || *rest != '\0' || errno != 0)
        tell_fault("%s=%s: expected %s, at least 1", variable, value, expected);
    return number;
}

uint64_t settings_number_or(enum setting setting, uint64_t otherwise) {
    return settings_number_in(settings[setting].name, settings[setting].values, otherwise);
}

uint64_t settings_number(enum setting setting) {
    return settings_number_or(setting, strtoull(settings[setting].initial, NULL, 10));
}

int settings_status(enum setting setting) {
    const char *value = settings_text(setting);
    if (!value)
        return -1;
    char *rest;
    long status = strtol(value, &rest, 10);
    if (*value < '0' || *value > '9' || *rest != '\0' || status > 255)
        refuse(setting, value);
    return (int)status;
}

void settings_help(void) {
    if (!settings_is(SETTING_HELP, "1"))
        return;
    for (size_t at = 0; at < sizeof settings / sizeof *settings && *settings[at].help; at++)
        dprintf(STDOUT_FILENO, "%s: %s\n    %s; by default %s\n", settings[at].name, settings[at].help,
                settings[at].values, settings[at].initial);
    __real__exit(0);
}
