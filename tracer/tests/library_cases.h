/* More cases of library.c, by the sections of library.table. What they work on is made there, by `prepare`. */
#define AS(TYPE, BASE) ((TYPE *)(void *)(BASE))
#define ONE(TYPE) 0, sizeof(TYPE)
#define NUMBER(CALL) (sink = (int)(long)(CALL))

/* ---- Scanning ---- */
/* Functions in whose place the headers put others. */
int older_sscanf(const char *at, const char *form, ...) __asm__("sscanf");
int older_fscanf(FILE *stream, const char *form, ...) __asm__("fscanf");
int older_vsscanf(const char *at, const char *form, va_list list) __asm__("vsscanf");
int older_vfscanf(FILE *stream, const char *form, va_list list) __asm__("vfscanf");
CASE(sscanf(pair, scanned, big, a), R(pair, 0, 8), R(scanned, 0, 6), W(big, 0, 4), W(a, 0, 5))
CASE(sscanf(pair, "%hhd %3c", big, a), R(pair, 0, 8), W(big, 0, 1), W(a, 0, 3))
CASE(sscanf(pair, "%*d %ms%n", rest, big), R(pair, 0, 8), W(rest, 0, 8), W(big, 0, 4))
CASE(sscanf(pair, "%2$s %1$s", a, c), R(pair, 0, 8), W(c, 0, 3), W(a, 0, 5))
CASE(sscanf(pair, "%[0-9] %ls", a, wide), R(pair, 0, 8), W(a, 0, 3), W(wide, 0, 20))
CASE(sscanf(pair, "%ld %d", big, a), R(pair, 0, 8), W(big, 0, 8))
CASE(sscanf(decimals, "%f", big), R(decimals, 0, 5), W(big, 0, 4))
CASE(sscanf(decimals, "%lf", big), R(decimals, 0, 5), W(big, 0, 8))
CASE(sscanf(decimals, "%Lf", big), R(decimals, 0, 5), W(big, 0, sizeof(long double)))
CASE(fscanf(text, scanned, big, a), R(scanned, 0, 6))
CASE(fscanf(text, "%s %n", a, big), W(a, 0, 6), W(big, 0, 4))
CASE(scanf("%9s", a), NO_MORE)
CASE(older_sscanf(pair, scanned, big, a), R(pair, 0, 8), R(scanned, 0, 6), W(big, 0, 4), W(a, 0, 5))
CASE(older_fscanf(text, "%s", a), W(a, 0, 6))
CASE(swscanf(wide_pair, L"%d %s", big, a), R(wide_pair, 0, 32), W(big, 0, 4), W(a, 0, 5))
CASE(fwscanf(wide_text(), L"%s", a), W(a, 0, 6))
#define SCANNED(CALL, ...) \
    SCANNED_OF(__COUNTER__, CALL, __VA_ARGS__)
#define SCANNED_OF(NUMBER, CALL, ...) SCANNED_AT(NUMBER, CALL, __VA_ARGS__)
#define SCANNED_AT(NUMBER, CALL, ...) \
    static void scanned_##NUMBER(const void *form, ...) { \
        va_list list; \
        va_start(list, form); \
        CALL; \
        va_end(list); \
    } \
    CASE_OF(scanned_case_##NUMBER, __LINE__, scanned_##NUMBER(scanned, big, a), __VA_ARGS__)
SCANNED(vsscanf(pair, form, list), R(pair, 0, 8), R(scanned, 0, 6), W(big, 0, 4), W(a, 0, 5))
SCANNED(vfscanf(text, form, list), R(scanned, 0, 6))
SCANNED(older_vsscanf(pair, form, list), R(pair, 0, 8), R(scanned, 0, 6), W(big, 0, 4), W(a, 0, 5))
SCANNED(older_vfscanf(text, form, list), R(scanned, 0, 6))
SCANNED(vswscanf(wide_pair, ((void)form, L"%d %s"), list), R(wide_pair, 0, 32), W(big, 0, 4), W(a, 0, 5))

/* Under the names that programs for strict C have. */
int plain_scanf(const char *, ...) __asm__("scanf");
int plain_swscanf(const wchar_t *, const wchar_t *, ...) __asm__("swscanf");
int plain_fwscanf(FILE *, const wchar_t *, ...) __asm__("fwscanf");
int plain_vscanf(const char *, va_list) __asm__("vscanf");
int plain_vswscanf(const wchar_t *, const wchar_t *, va_list) __asm__("vswscanf");
int plain_vfwscanf(FILE *, const wchar_t *, va_list) __asm__("vfwscanf");
CASE(plain_scanf("%9s", a), NO_MORE)
CASE(plain_swscanf(wide_pair, L"%d %s", big, a), R(wide_pair, 0, 32), W(big, 0, 4), W(a, 0, 5))
CASE(plain_fwscanf(wide_text(), L"%s", a), W(a, 0, 6))
SCANNED(plain_vscanf(form, list), R(scanned, 0, 6))
SCANNED(vscanf(form, list), R(scanned, 0, 6))
SCANNED(plain_vswscanf(wide_pair, ((void)form, L"%d %s"), list), R(wide_pair, 0, 32), W(big, 0, 4), W(a, 0, 5))
SCANNED(plain_vfwscanf(wide_text(), ((void)form, L"%*s%n"), list), W(big, 0, 4))
SCANNED(vfwscanf(wide_text(), ((void)form, L"%*s%n"), list), W(big, 0, 4))

/* ---- Printing ---- */
#define WIDE_LISTED(CALL, ...) SCANNED_LIKE(__COUNTER__, CALL, __VA_ARGS__)
#define SCANNED_LIKE(NUMBER, CALL, ...) WIDE_AT(NUMBER, CALL, __VA_ARGS__)
#define WIDE_AT(NUMBER, CALL, ...) \
    static void wide_##NUMBER(int last, ...) { \
        va_list list; \
        va_start(list, last); \
        CALL; \
        va_end(list); \
    } \
    CASE_OF(wide_case_##NUMBER, __LINE__, wide_##NUMBER(0, b), R(b, 0, 11), __VA_ARGS__)
CASE(sprintf(a, "%2$.3s %1$d%3$n", 4, b, AS(int, big)), R(b, 0, 3), W(a, 0, 6), W(big, 0, 4))
CASE(sprintf(a, "ab%hn%s", AS(short, big), c), R(c, 0, 5), W(big, 0, 2), W(a, 0, 7))
CASE(sprintf(a, "%ls", wide_b), R(wide_b, 0, 44), W(a, 0, 11))
CASE(sprintf(a, "%.3ls", wide_b), R(wide_b, 0, 12), W(a, 0, 4))
CASE(swprintf(wide, ROOM, L"%s!", b), R(b, 0, 11), W(wide, 0, 48))
CASE(swprintf(wide, ROOM, L"%ls!", wide_b), R(wide_b, 0, 44), W(wide, 0, 48))
CASE(fwprintf(wide_nothing, L"%s!", b), R(b, 0, 11))
WIDE_LISTED(vswprintf(wide, ROOM, L"%s!", list), W(wide, 0, 48))
WIDE_LISTED(vfwprintf(wide_nothing, L"%s!", list), NO_MORE)
CASE(warn(two, b), PRINTED) CASE(warnx(two, b), PRINTED) CASE(syslog(LOG_DEBUG, two, b), PRINTED)
CASE((wprintf)(L"%s!", b), R(b, 0, 11))
WIDE_LISTED(vwprintf(L"%s!", list), NO_MORE)
LISTED(vwarn(form, list), NO_MORE)
LISTED(vwarnx(form, list), NO_MORE)
LISTED(vsyslog(LOG_DEBUG, form, list), NO_MORE)
CASE(error(0, 0, two, b), PRINTED)

/* ---- Wide characters ---- */
CASE(wmempcpy(wide, wide_b, 3), R(wide_b, 0, 12), W(wide, 0, 12))
CASE(NUMBER(wmemchr(wide_b, L'g', 10)), R(wide_b, 0, 24)) CASE(NUMBER(wmemchr(wide_b, L'z', 9)), R(wide_b, 0, 36))
CASE(NUMBER(wmemcmp(wide_a, wide_b, 3)), R(wide_a, 0, 12), R(wide_b, 0, 12))
CASE(wcscpy(wide, wide_b), R(wide_b, 0, 44), W(wide, 0, 44)) CASE(wcpcpy(wide, wide_b), R(wide_b, 0, 44), W(wide, 0, 44))
CASE(wcsncpy(wide, wide_b, 4), R(wide_b, 0, 16), W(wide, 0, 16))
CASE(wcpncpy(wide, wide_b, 20), R(wide_b, 0, 44), W(wide, 0, 80))
CASE(wcscat(wide_a, wide_b), R(wide_a, 0, 24), R(wide_b, 0, 44), W(wide_a, 20, 44))
CASE(wcsncat(wide_a, wide_b, 4), R(wide_a, 0, 24), R(wide_b, 0, 16), W(wide_a, 20, 20))
CASE(NUMBER(wcscmp(wide_a, wide_c)), R(wide_a, 0, 16), R(wide_c, 0, 16))
CASE(NUMBER(wcsncmp(wide_a, wide_c, 2)), R(wide_a, 0, 8), R(wide_c, 0, 8))
CASE(NUMBER(wcscasecmp(wide_a, wide_c)), R(wide_a, 0, 16), R(wide_c, 0, 16))
CASE(NUMBER(wcsncasecmp(wide_a, wide_c, 2)), R(wide_a, 0, 8), R(wide_c, 0, 8))
CASE(NUMBER(wcscoll(wide_a, wide_c)), R(wide_a, 0, 24), R(wide_c, 0, 20))
CASE(NUMBER(wcsxfrm(wide, wide_a, ROOM)), R(wide_a, 0, 24), W(wide, 0, 24))
CASE(NUMBER(wcslen(wide_b)), R(wide_b, 0, 44)) CASE(NUMBER(wcsnlen(wide_b, 4)), R(wide_b, 0, 16))
CASE(NUMBER(wcswidth(wide_b, 4)), R(wide_b, 0, 16))
CASE(NUMBER(wcschr(wide_b, L'g')), R(wide_b, 0, 24)) CASE(NUMBER(wcschrnul(wide_b, L'z')), R(wide_b, 0, 44))
CASE(NUMBER(wcsrchr(wide_b, L'g')), R(wide_b, 0, 44))
CASE(NUMBER(wcsstr(wide_b, L"gam")), R(wide_b, 0, 32)) CASE(NUMBER(wcswcs(wide_b, wide_c)), R(wide_b, 0, 44), R(wide_c, 0, 20))
CASE(NUMBER(wcsspn(wide_b, L"abet")), R(wide_b, 0, 20)) CASE(NUMBER(wcscspn(wide_b, L" ")), R(wide_b, 0, 20))
CASE(NUMBER(wcspbrk(wide_b, wide_space)), R(wide_b, 0, 20), R(wide_space, 0, 8))
CASE(wcstok(wide_b, wide_space, wide_rest), R(wide_b, 0, 20), W(wide_b, 16, 4), R(wide_space, 0, 8), W(wide_rest, 0, 8))
CASE(wcstok(NULL, wide_space, wide_rest), R(wide_b, 0, 20), W(wide_b, 16, 4), R(wide_space, 0, 8), W(wide_rest, 0, 8))
CASE(NUMBER(wcsdup(wide_b)), R(wide_b, 0, 44))
#define WIDE_NUMBER(NAME) \
    CASE(NUMBER(NAME(wide_digits, wide_rest, 10)), R(wide_digits, 0, 12), W(wide_rest, 0, 8))
WIDE_NUMBER(wcstol) WIDE_NUMBER(wcstoll) WIDE_NUMBER(wcstoul) WIDE_NUMBER(wcstoull) WIDE_NUMBER(wcstoimax)
WIDE_NUMBER(wcstoumax) WIDE_NUMBER(wcstoq) WIDE_NUMBER(wcstouq)
#define WIDE_DECIMAL(NAME) CASE(NUMBER(NAME(wide_decimals, wide_rest)), R(wide_decimals, 0, 16), W(wide_rest, 0, 8))
WIDE_DECIMAL(wcstof) WIDE_DECIMAL(wcstod) WIDE_DECIMAL(wcstold) WIDE_DECIMAL(wcstof32) WIDE_DECIMAL(wcstof64)
WIDE_DECIMAL(wcstof32x) WIDE_DECIMAL(wcstof64x)
CASE(NUMBER(wcsftime(wide, ROOM, L"%H", AS(struct tm, big))), R(big, ONE(struct tm)), W(wide, 0, 12))
CASE(NUMBER(fgetws(wide, 20, wide_text())), W(wide, 0, 48))
CASE(NUMBER(fgetws_unlocked(wide, 20, wide_text())), W(wide, 0, 48))
CASE(fputws(wide_b, wide_nothing), R(wide_b, 0, 44)) CASE(fputws_unlocked(wide_b, wide_nothing), R(wide_b, 0, 44))
CASE(NUMBER(wctype(c)), R(c, 0, 5)) CASE(NUMBER(wctrans(c)), R(c, 0, 5))

/* ---- Multibyte characters ---- */
#define STATE AS(mbstate_t, big)
#define AT_STATE W(big, ONE(mbstate_t))
CASE(NUMBER(mblen(b, 4)), R(b, 0, 1)) CASE(NUMBER(mbtowc(wide, b, 4)), R(b, 0, 1), W(wide, 0, 4))
CASE(NUMBER(wctomb(a, L'x')), W(a, 0, 1)) CASE(NUMBER(mbrlen(b, 4, STATE)), R(b, 0, 1), AT_STATE)
CASE(NUMBER(mbrtowc(wide, b, 4, STATE)), R(b, 0, 1), W(wide, 0, 4), AT_STATE)
CASE(NUMBER(wcrtomb(a, L'x', STATE)), W(a, 0, 1), AT_STATE)
CASE(NUMBER(mbrtoc16(AS(char16_t, a), b, 4, STATE)), R(b, 0, 1), W(a, 0, 2), AT_STATE)
CASE(NUMBER(mbrtoc32(AS(char32_t, a), b, 4, STATE)), R(b, 0, 1), W(a, 0, 4), AT_STATE)
CASE(NUMBER(c16rtomb(a, u'x', STATE)), W(a, 0, 1), AT_STATE) CASE(NUMBER(c32rtomb(a, U'x', STATE)), W(a, 0, 1), AT_STATE)
CASE(NUMBER((mbsinit)(STATE)), R(big, ONE(mbstate_t)))
CASE(NUMBER(mbstowcs(wide, b, 4)), R(b, 0, 4), W(wide, 0, 16)) CASE(NUMBER(mbstowcs(wide, b, 40)), R(b, 0, 11), W(wide, 0, 44))
CASE(NUMBER(mbstowcs(NULL, b, 0)), R(b, 0, 11)) CASE(NUMBER(wcstombs(NULL, wide_b, 0)), R(wide_b, 0, 44))
CASE(NUMBER(wcstombs(a, wide_b, 4)), R(wide_b, 0, 16), W(a, 0, 4)) CASE(NUMBER(wcstombs(a, wide_b, 40)), R(wide_b, 0, 44), W(a, 0, 11))
CASE(NUMBER(mbsrtowcs(wide, AS(const char *, rest), 40, STATE)), R(b, 0, 11), W(rest, 0, 8), W(wide, 0, 44), AT_STATE)
CASE(NUMBER(wcsrtombs(a, AS(const wchar_t *, wide_rest), 40, STATE)), R(wide_b, 0, 44), W(wide_rest, 0, 8), W(a, 0, 11), AT_STATE)
size_t __mbrlen(const char *, size_t, mbstate_t *);
CASE(NUMBER(__mbrlen(b, 4, STATE)), R(b, 0, 1), AT_STATE)

/* ---- Strings and numbers ---- */
int __strverscmp(const char *, const char *);
char *__strerror_r(int, char *, size_t);
int __strcasecmp_l(const char *, const char *, locale_t);
int __strncasecmp_l(const char *, const char *, size_t, locale_t);
int __strcoll_l(const char *, const char *, locale_t);
size_t __strxfrm_l(char *, const char *, size_t, locale_t);
long __strtol_l(const char *, char **, int, locale_t);
long long __strtoll_l(const char *, char **, int, locale_t);
unsigned long __strtoul_l(const char *, char **, int, locale_t);
unsigned long long __strtoull_l(const char *, char **, int, locale_t);
float __strtof_l(const char *, char **, locale_t);
double __strtod_l(const char *, char **, locale_t);
long double __strtold_l(const char *, char **, locale_t);
size_t __strftime_l(char *, size_t, const char *, const struct tm *, locale_t);
int __xpg_strerror_r(int, char *, size_t);
char *__xpg_basename(char *);
char *dirname(char *);
CASE(swab(b, a, 7), R(b, 0, 6), W(a, 0, 6)) CASE(memfrob(a, 7), W(a, 0, 7)) CASE(NUMBER(strfry(a)), R(a, 0, 6), W(a, 0, 5))
CASE(NUMBER(strverscmp(a, c)), R(a, 0, 4), R(c, 0, 4)) CASE(NUMBER(__strverscmp(a, c)), R(a, 0, 4), R(c, 0, 4))
CASE(NUMBER(strxfrm(a, b, ROOM)), R(b, 0, 11), W(a, 0, 11)) CASE(NUMBER(strxfrm_l(a, b, ROOM, locale)), R(b, 0, 11), W(a, 0, 11))
CASE(NUMBER(__strxfrm_l(a, b, ROOM, locale)), R(b, 0, 11), W(a, 0, 11))
CASE(NUMBER(strerror_r(9999, a, ROOM)), W(a, 0, 19)) CASE(NUMBER(__strerror_r(9999, a, ROOM)), W(a, 0, 19))
CASE(NUMBER(__xpg_strerror_r(EPERM, a, ROOM)), W(a, 0, 24))
CASE(NUMBER(strcasecmp_l(a, c, locale)), R(a, 0, 4), R(c, 0, 4)) CASE(NUMBER(__strcasecmp_l(a, c, locale)), R(a, 0, 4), R(c, 0, 4))
CASE(NUMBER(strncasecmp_l(a, c, 2, locale)), R(a, 0, 2), R(c, 0, 2)) CASE(NUMBER(__strncasecmp_l(a, c, 2, locale)), R(a, 0, 2), R(c, 0, 2))
CASE(NUMBER(strcoll_l(a, c, locale)), R(a, 0, 6), R(c, 0, 5)) CASE(NUMBER(__strcoll_l(a, c, locale)), R(a, 0, 6), R(c, 0, 5))
CASE(NUMBER(basename(path)), R(path, 0, 17)) CASE(NUMBER(__xpg_basename(folder_path)), R(folder_path, 0, 6), W(folder_path, 4, 1))
CASE(NUMBER(dirname(path)), R(path, 0, 17), W(path, 12, 1)) CASE(NUMBER(a64l(digits)), R(digits, 0, 4))
CASE(NUMBER(l64a(5)), NO_MORE) CASE(NUMBER(gcvt(1.5, 4, a)), W(a, 0, 4))
CASE(NUMBER(ecvt_r(1.5, 4, AS(int, big), AS(int, other), a, ROOM)), W(big, 0, 4), W(other, 0, 4), W(a, 0, 5))
CASE(NUMBER(fcvt_r(1.5, 4, AS(int, big), AS(int, other), a, ROOM)), W(big, 0, 4), W(other, 0, 4), W(a, 0, 6))
CASE(NUMBER(ecvt(1.5, 4, AS(int, big), AS(int, other))), W(big, 0, 4), W(other, 0, 4))
CASE(NUMBER(fcvt(1.5, 4, AS(int, big), AS(int, other))), W(big, 0, 4), W(other, 0, 4))
CASE(NUMBER(strtok(b, space)), R(b, 0, 5), W(b, 4, 1), R(space, 0, 2))
#define LOCAL_NUMBER(NAME) CASE(NUMBER(NAME(digits, rest, 10, locale)), R(digits, 0, 3), W(rest, 0, 8))
LOCAL_NUMBER(strtol_l) LOCAL_NUMBER(strtoll_l) LOCAL_NUMBER(strtoul_l) LOCAL_NUMBER(strtoull_l) LOCAL_NUMBER(__strtol_l)
LOCAL_NUMBER(__strtoll_l) LOCAL_NUMBER(__strtoul_l) LOCAL_NUMBER(__strtoull_l)
#define LOCAL_DECIMAL(NAME) CASE(NUMBER(NAME(decimals, rest, locale)), R(decimals, 0, 4), W(rest, 0, 8))
LOCAL_DECIMAL(strtof_l) LOCAL_DECIMAL(strtod_l) LOCAL_DECIMAL(strtold_l) LOCAL_DECIMAL(__strtof_l)
LOCAL_DECIMAL(__strtod_l) LOCAL_DECIMAL(__strtold_l)
CASE(NUMBER(strtoq(digits, rest, 10)), R(digits, 0, 3), W(rest, 0, 8))
CASE(NUMBER(strtouq(digits, rest, 10)), R(digits, 0, 3), W(rest, 0, 8))
CASE(strfromd(a, ROOM, real_format, 1.5), R(real_format, 0, 5), W(a, 0, 5))
CASE(strfromf(a, 3, real_format, 1.5f), R(real_format, 0, 5), W(a, 0, 3))
CASE(strfroml(a, ROOM, real_format, 1.5l), R(real_format, 0, 5), W(a, 0, 5))

/* ---- Mathematics ---- */
#define PART(NAME, TYPE) CASE(NUMBER(NAME((TYPE)2.5, AS(int, big))), W(big, 0, 4))
PART(frexpf, float) PART(frexp, double) PART(frexpl, long double) PART(frexpf32, float) PART(frexpf64, double)
PART(frexpf32x, double) PART(frexpf64x, long double) PART(lgammaf_r, float) PART(lgamma_r, double)
PART(lgammal_r, long double) PART(lgammaf32_r, float) PART(lgammaf64_r, double) PART(lgammaf32x_r, double)
PART(lgammaf64x_r, long double)
#define SPLIT(NAME, TYPE) CASE(NUMBER(NAME((TYPE)2.5, AS(TYPE, big))), W(big, ONE(TYPE)))
SPLIT(modff, float) SPLIT(modf, double) SPLIT(modfl, long double) SPLIT(modff32, float) SPLIT(modff64, double)
SPLIT(modff32x, double) SPLIT(modff64x, long double)
#define QUOTIENT(NAME, TYPE) CASE(NUMBER(NAME((TYPE)2.5, (TYPE)2, AS(int, big))), W(big, 0, 4))
QUOTIENT(remquof, float) QUOTIENT(remquo, double) QUOTIENT(remquol, long double) QUOTIENT(remquof32, float)
QUOTIENT(remquof64, double) QUOTIENT(remquof32x, double) QUOTIENT(remquof64x, long double)
#define BOTH(NAME, TYPE) CASE(NAME((TYPE)2.5, AS(TYPE, big), AS(TYPE, other)), W(big, ONE(TYPE)), W(other, ONE(TYPE)))
BOTH(sincosf, float) BOTH(sincos, double) BOTH(sincosl, long double) BOTH(sincosf32, float) BOTH(sincosf64, double)
BOTH(sincosf32x, double) BOTH(sincosf64x, long double)
CASE(NUMBER(lgamma(2.5)), G(signgam_at, 0, 4))
/* A location races once. */
#define SIGNED(NAME) CASE(NUMBER(NAME(2.5)), NO_MORE)
SIGNED(lgammaf) SIGNED(lgammal) SIGNED(gammaf) SIGNED(gamma) SIGNED(gammal) SIGNED(lgammaf32)
SIGNED(lgammaf64) SIGNED(lgammaf32x) SIGNED(lgammaf64x)
#define TAGGED(NAME) CASE(NUMBER(NAME(digits) == 0), R(digits, 0, 4))
TAGGED(nanf) TAGGED(nan) TAGGED(nanl) TAGGED(nanf32) TAGGED(nanf64) TAGGED(nanf32x) TAGGED(nanf64x)
#define CANONICAL(NAME, TYPE) \
    CASE(NUMBER(NAME(AS(TYPE, big), AS(TYPE, other))), R(other, ONE(TYPE)), W(big, ONE(TYPE)))
CANONICAL(canonicalizef, float) CANONICAL(canonicalize, double) CANONICAL(canonicalizel, long double)
CANONICAL(canonicalizef32, float) CANONICAL(canonicalizef64, double) CANONICAL(canonicalizef32x, double)
CANONICAL(canonicalizef64x, long double)
CASE(NUMBER(getpayload(AS(double, big))), R(big, 0, 8)) CASE(NUMBER(getpayloadf(AS(float, big))), R(big, 0, 4))
CASE(NUMBER(getpayloadf32(AS(float, big))), R(big, 0, 4)) CASE(NUMBER(getpayloadf64(AS(double, big))), R(big, 0, 8))
CASE(NUMBER(getpayloadf32x(AS(double, big))), R(big, 0, 8))
CASE(NUMBER(totalorder(AS(double, big), AS(double, other))), R(big, 0, 8), R(other, 0, 8))
CASE(NUMBER(totalordermag(AS(double, big), AS(double, other))), R(big, 0, 8), R(other, 0, 8))
CASE(NUMBER(setpayload(AS(double, big), 2.0)), W(big, 0, 8))
CASE(NUMBER((fegetenv)(AS(fenv_t, big))), W(big, ONE(fenv_t)))
CASE(NUMBER((feholdexcept)(AS(fenv_t, big))), W(big, ONE(fenv_t)))
CASE(NUMBER((fesetenv)(AS(fenv_t, environment))), R(environment, ONE(fenv_t)))
CASE(NUMBER((feupdateenv)(AS(fenv_t, environment))), R(environment, ONE(fenv_t)))
CASE(NUMBER((fegetexceptflag)(AS(fexcept_t, big), FE_INEXACT)), W(big, ONE(fexcept_t)))
CASE(NUMBER((fesetexceptflag)(AS(fexcept_t, big), FE_INEXACT)), R(big, ONE(fexcept_t)))
CASE(NUMBER(fetestexceptflag(AS(fexcept_t, big), FE_INEXACT)), R(big, ONE(fexcept_t)))
CASE(NUMBER(fegetmode(AS(femode_t, big))), W(big, ONE(femode_t)))
CASE(NUMBER((fegetmode(AS(femode_t, other)), fesetmode(AS(femode_t, other)))), W(other, ONE(femode_t)))

/* ---- Random numbers: those with a state of their own ---- */
CASE(NUMBER(rand_r(AS(unsigned, big))), W(big, 0, 4)) CASE(NUMBER(erand48(AS(unsigned short, big))), W(big, 0, 6))
CASE(NUMBER(nrand48(AS(unsigned short, big))), W(big, 0, 6)) CASE(NUMBER(jrand48(AS(unsigned short, big))), W(big, 0, 6))
CASE(NUMBER(seed48(AS(unsigned short, big))), R(big, 0, 6)) CASE(lcong48(AS(unsigned short, big)), R(big, 0, 14))
CASE(NUMBER(random_r(AS(struct random_data, random_state), AS(int, big))), W(random_state, ONE(struct random_data)), W(big, 0, 4))
CASE(NUMBER(srandom_r(5, AS(struct random_data, random_state))), W(random_state, ONE(struct random_data)))
CASE(arc4random_buf(a, 7), W(a, 0, 7)) CASE(NUMBER(getrandom(a, 7, 0)), W(a, 0, 7)) CASE(NUMBER(getentropy(a, 7)), W(a, 0, 7))
CASE(NUMBER(rand() + random() + drand48() + lrand48() + mrand48()), NO_MORE) CASE(srand48(5), NO_MORE)
CASE((srand(5), srandom(5)), NO_MORE)

/* ---- Time ---- */
int __clock_gettime(clockid_t, struct timespec *);
int __nanosleep(const struct timespec *, struct timespec *);
int __gettimeofday(struct timeval *, void *);
struct tm *__gmtime_r(const time_t *, struct tm *);
#define SPAN W(big, ONE(struct timespec))
CASE(NUMBER(time(AS(time_t, big))), W(big, 0, 8)) CASE(NUMBER(clock_gettime(CLOCK_REALTIME, AS(struct timespec, big))), SPAN)
CASE(NUMBER(__clock_gettime(CLOCK_REALTIME, AS(struct timespec, big))), SPAN)
CASE(NUMBER(clock_getres(CLOCK_REALTIME, AS(struct timespec, big))), SPAN)
CASE(NUMBER(clock_settime(12345, AS(struct timespec, big))), R(big, ONE(struct timespec)))
CASE(NUMBER(clock_nanosleep(CLOCK_REALTIME, 0, AS(struct timespec, big), NULL)), R(big, ONE(struct timespec)))
CASE(NUMBER(nanosleep(AS(struct timespec, big), NULL)), R(big, ONE(struct timespec)))
CASE(NUMBER(__nanosleep(AS(struct timespec, big), NULL)), R(big, ONE(struct timespec)))
CASE(NUMBER(gettimeofday(AS(struct timeval, big), other)), W(big, ONE(struct timeval)), W(other, ONE(struct timezone)))
CASE(NUMBER(__gettimeofday(AS(struct timeval, big), NULL)), W(big, ONE(struct timeval)))
CASE(NUMBER(timespec_get(AS(struct timespec, big), TIME_UTC)), SPAN) CASE(NUMBER(timespec_getres(AS(struct timespec, big), TIME_UTC)), SPAN)
CASE(NUMBER(localtime(AS(time_t, big))), R(big, 0, 8)) CASE(NUMBER(gmtime(AS(time_t, big))), R(big, 0, 8))
CASE(NUMBER(localtime_r(AS(time_t, big), AS(struct tm, other))), R(big, 0, 8), W(other, ONE(struct tm)))
CASE(NUMBER(gmtime_r(AS(time_t, big), AS(struct tm, other))), R(big, 0, 8), W(other, ONE(struct tm)))
CASE(NUMBER(__gmtime_r(AS(time_t, big), AS(struct tm, other))), R(big, 0, 8), W(other, ONE(struct tm)))
CASE(NUMBER(asctime(AS(struct tm, day))), R(day, ONE(struct tm))) CASE(NUMBER(asctime_r(AS(struct tm, day), a)), R(day, ONE(struct tm)), W(a, 0, 26))
CASE(NUMBER(ctime(AS(time_t, big))), R(big, 0, 8)) CASE(NUMBER(ctime_r(AS(time_t, big), a)), R(big, 0, 8), W(a, 0, 26))
CASE((tzset(), *AS(int, big) = 1), W(big, 0, 4)) CASE(NUMBER(mktime(AS(struct tm, day))), W(day, ONE(struct tm))) CASE(NUMBER(timelocal(AS(struct tm, day))), W(day, ONE(struct tm)))
CASE(NUMBER(timegm(AS(struct tm, day))), W(day, ONE(struct tm)))
CASE(NUMBER(strftime(a, ROOM, hour, AS(struct tm, day))), R(hour, 0, 3), R(day, ONE(struct tm)), W(a, 0, 3))
CASE(NUMBER(strftime_l(a, ROOM, hour, AS(struct tm, day), locale)), R(hour, 0, 3), R(day, ONE(struct tm)), W(a, 0, 3))
CASE(NUMBER(__strftime_l(a, ROOM, hour, AS(struct tm, day), locale)), R(hour, 0, 3), R(day, ONE(struct tm)), W(a, 0, 3))
CASE(NUMBER(strptime(digits, hour, AS(struct tm, day))), R(hour, 0, 3), R(digits, 0, 1), W(day, ONE(struct tm)))
CASE(NUMBER(times(AS(struct tms, big))), W(big, ONE(struct tms))) CASE(NUMBER(getrusage(RUSAGE_SELF, AS(struct rusage, big))), W(big, ONE(struct rusage)))
CASE(NUMBER(getrlimit(RLIMIT_NOFILE, AS(struct rlimit, big))), W(big, ONE(struct rlimit)))
CASE(NUMBER(getrlimit64(RLIMIT_NOFILE, AS(struct rlimit64, big))), W(big, ONE(struct rlimit)))
CASE(NUMBER(setrlimit(12345, AS(struct rlimit, big))), R(big, ONE(struct rlimit))) CASE(NUMBER(setrlimit64(12345, AS(struct rlimit64, big))), R(big, ONE(struct rlimit)))
CASE(NUMBER(prlimit(0, RLIMIT_NOFILE, NULL, AS(struct rlimit, big))), W(big, ONE(struct rlimit)))
CASE(NUMBER(prlimit64(0, 12345, AS(struct rlimit64, big), NULL)), R(big, ONE(struct rlimit)))
CASE(NUMBER(getitimer(ITIMER_PROF, AS(struct itimerval, big))), W(big, ONE(struct itimerval)))
CASE(NUMBER(setitimer(ITIMER_PROF, AS(struct itimerval, other), AS(struct itimerval, big))), R(other, ONE(struct itimerval)), W(big, ONE(struct itimerval)))
CASE(NUMBER(timer_create(CLOCK_REALTIME, AS(struct sigevent, event), AS(timer_t, big))), R(event, ONE(struct sigevent)), W(big, 0, 8))
CASE(NUMBER(timer_gettime(timer, AS(struct itimerspec, big))), W(big, ONE(struct itimerspec)))
CASE(NUMBER(timer_settime(timer, 0, AS(struct itimerspec, other), AS(struct itimerspec, big))), R(other, ONE(struct itimerspec)), W(big, ONE(struct itimerspec)))
CASE(NUMBER(timerfd_gettime(timer_file, AS(struct itimerspec, big))), W(big, ONE(struct itimerspec)))
CASE(NUMBER(timerfd_settime(timer_file, 0, AS(struct itimerspec, other), AS(struct itimerspec, big))), R(other, ONE(struct itimerspec)), W(big, ONE(struct itimerspec)))

/* ---- Files by name: none is there ---- */
#define PATH R(path, 0, 17)
#define AT_PATH(...) CASE(NUMBER(__VA_ARGS__), PATH)
AT_PATH(fopen(path, "r")) AT_PATH(fopen64(path, "r")) CASE(NUMBER(fopen("/no", space)), R(space, 0, 2))
AT_PATH(freopen(path, "r", fopen("/dev/null", "r"))) AT_PATH(freopen64(path, "r", fopen("/dev/null", "r")))
CASE(NUMBER(fdopen(-1, c)), R(c, 0, 5)) CASE(NUMBER(popen(b, c)), R(b, 0, 11), R(c, 0, 5))
AT_PATH(open(path, O_RDONLY)) AT_PATH(open64(path, O_RDONLY)) AT_PATH(openat(AT_FDCWD, path, O_RDONLY))
AT_PATH(openat64(AT_FDCWD, path, O_RDONLY)) AT_PATH(creat(path, 0)) AT_PATH(creat64(path, 0)) AT_PATH(mkdir(path, 0))
AT_PATH(mkfifo(path, 0)) AT_PATH(chmod(path, 0)) AT_PATH(lchmod(path, 0)) AT_PATH(unlink(path)) AT_PATH(rmdir(path))
AT_PATH(chdir(path)) AT_PATH(chroot(path)) AT_PATH(remove(path)) AT_PATH(swapoff(path)) AT_PATH(umount(path))
AT_PATH(shm_unlink(path)) AT_PATH(mq_unlink(path)) AT_PATH(sem_unlink(path)) AT_PATH(access(path, 0))
AT_PATH(euidaccess(path, 0)) AT_PATH(eaccess(path, 0)) AT_PATH(umount2(path, 0)) AT_PATH(swapon(path, 0))
AT_PATH(truncate(path, 0)) AT_PATH(truncate64(path, 0)) AT_PATH(chown(path, 0, 0)) AT_PATH(lchown(path, 0, 0))
AT_PATH(mknod(path, 0, 0)) AT_PATH(unlinkat(AT_FDCWD, path, 0)) AT_PATH(mkdirat(AT_FDCWD, path, 0))
AT_PATH(mkfifoat(AT_FDCWD, path, 0)) AT_PATH(mknodat(AT_FDCWD, path, 0, 0)) AT_PATH(fchmodat(AT_FDCWD, path, 0, 0))
AT_PATH(fchownat(AT_FDCWD, path, 0, 0, 0)) AT_PATH(faccessat(AT_FDCWD, path, 0, 0)) AT_PATH(shm_open(path, 0, 0))
AT_PATH(inotify_add_watch(-1, path, 0)) AT_PATH(ftok(path, 1)) AT_PATH(pathconf(path, _PC_NAME_MAX))
AT_PATH(mq_open(path, O_RDONLY)) AT_PATH(sem_open(path, 0)) AT_PATH(canonicalize_file_name(path))
#define TWO_PATHS(...) CASE(NUMBER(__VA_ARGS__), PATH, R(other_path, 0, 7))
TWO_PATHS(rename(path, other_path)) TWO_PATHS(link(path, other_path)) TWO_PATHS(symlink(other_path, path))
TWO_PATHS(renameat(AT_FDCWD, path, AT_FDCWD, other_path)) TWO_PATHS(renameat2(AT_FDCWD, path, AT_FDCWD, other_path, 0))
TWO_PATHS(linkat(AT_FDCWD, path, AT_FDCWD, other_path, 0)) TWO_PATHS(symlinkat(other_path, AT_FDCWD, path))
CASE(close(memfd_create(b, 0)), R(b, 0, 11))
int __xstat(int, const char *, struct stat *);
int __lxstat(int, const char *, struct stat *);
int __fxstat(int, int, struct stat *);
int __xstat64(int, const char *, struct stat64 *);
int __lxstat64(int, const char *, struct stat64 *);
int __fxstat64(int, int, struct stat64 *);
#define STATUS R(root, 0, 2), W(big, ONE(struct stat))
CASE(NUMBER(stat(root, AS(struct stat, big))), STATUS) CASE(NUMBER(lstat(root, AS(struct stat, big))), STATUS)
CASE(NUMBER(stat64(root, AS(struct stat64, big))), STATUS) CASE(NUMBER(lstat64(root, AS(struct stat64, big))), STATUS)
CASE(NUMBER(__xstat(1, root, AS(struct stat, big))), STATUS) CASE(NUMBER(__lxstat(1, root, AS(struct stat, big))), STATUS)
CASE(NUMBER(__xstat64(1, root, AS(struct stat64, big))), STATUS) CASE(NUMBER(__lxstat64(1, root, AS(struct stat64, big))), STATUS)
CASE(NUMBER(fstatat(AT_FDCWD, root, AS(struct stat, big), 0)), STATUS)
CASE(NUMBER(fstatat64(AT_FDCWD, root, AS(struct stat64, big), 0)), STATUS)
CASE(NUMBER(fstat(zeros, AS(struct stat, big))), W(big, ONE(struct stat)))
CASE(NUMBER(fstat64(zeros, AS(struct stat64, big))), W(big, ONE(struct stat)))
CASE(NUMBER(__fxstat(1, zeros, AS(struct stat, big))), W(big, ONE(struct stat)))
CASE(NUMBER(__fxstat64(1, zeros, AS(struct stat64, big))), W(big, ONE(struct stat)))
CASE(NUMBER(statx(AT_FDCWD, root, 0, STATX_SIZE, AS(struct statx, big))), R(root, 0, 2), W(big, ONE(struct statx)))
CASE(NUMBER(statfs(root, AS(struct statfs, big))), R(root, 0, 2), W(big, ONE(struct statfs)))
CASE(NUMBER(statfs64(root, AS(struct statfs64, big))), R(root, 0, 2), W(big, ONE(struct statfs)))
CASE(NUMBER(statvfs(root, AS(struct statvfs, big))), R(root, 0, 2), W(big, ONE(struct statvfs)))
CASE(NUMBER(statvfs64(root, AS(struct statvfs64, big))), R(root, 0, 2), W(big, ONE(struct statvfs)))
CASE(NUMBER(fstatfs(zeros, AS(struct statfs, big))), W(big, ONE(struct statfs)))
CASE(NUMBER(fstatfs64(zeros, AS(struct statfs64, big))), W(big, ONE(struct statfs)))
CASE(NUMBER(fstatvfs(zeros, AS(struct statvfs, big))), W(big, ONE(struct statvfs)))
CASE(NUMBER(fstatvfs64(zeros, AS(struct statvfs64, big))), W(big, ONE(struct statvfs)))
#define TIMES(TYPE) R(big, 0, 2 * sizeof(TYPE))
CASE(NUMBER(utimensat(AT_FDCWD, path, AS(struct timespec, big), 0)), PATH, TIMES(struct timespec))
CASE(NUMBER(futimens(-1, AS(struct timespec, big))), TIMES(struct timespec))
CASE(NUMBER(utimes(path, AS(struct timeval, big))), PATH, TIMES(struct timeval))
CASE(NUMBER(lutimes(path, AS(struct timeval, big))), PATH, TIMES(struct timeval))
CASE(NUMBER(futimes(-1, AS(struct timeval, big))), TIMES(struct timeval))
CASE(NUMBER(utime(path, AS(struct utimbuf, big))), PATH, R(big, ONE(struct utimbuf)))
CASE(NUMBER((chdir("/"), getcwd(a, ROOM))), W(a, 0, 2)) CASE(NUMBER(realpath(root, big)), R(root, 0, 2), W(big, 0, 2))
CASE(NUMBER(readlink("/proc/self/fd/0", a, 4)), W(a, 0, 4)) CASE(NUMBER(readlink(path, a, 4)), PATH)
CASE(NUMBER(readlinkat(AT_FDCWD, "/proc/self/fd/0", a, 4)), W(a, 0, 4)) CASE(NUMBER(readlinkat(AT_FDCWD, path, a, 4)), PATH)
#define MADE(CALL) CASE(NUMBER(CALL), R(made, 0, 15), W(made, 8, 6))
MADE(mkstemp(made)) MADE(mkstemp64(made)) MADE(mkostemp(made, 0)) MADE(mkostemp64(made, 0)) MADE(mkdtemp(made))
MADE(mkstemps(made, 0)) MADE(mkstemps64(made, 0))

/* ---- Folders and patterns ---- */
CASE(closedir(opendir(root)), R(root, 0, 2)) CASE(NUMBER(getdents64(dirfd(folder), big, 31)), W(big, 0, 24))
CASE(NUMBER((readdir_r)(folder, AS(struct dirent, big), AS(struct dirent *, rest))), W(big, 0, 24), W(rest, 0, 8))
CASE(NUMBER((readdir64_r)(folder, AS(struct dirent64, big), AS(struct dirent64 *, rest))), W(big, 0, 24), W(rest, 0, 8))
CASE(NUMBER(scandir(root, AS(struct dirent **, rest), NULL, NULL)), R(root, 0, 2), W(rest, 0, 8))
CASE(NUMBER(scandir64(root, AS(struct dirent64 **, rest), NULL, NULL)), R(root, 0, 2), W(rest, 0, 8))
#define ORDERED(NAME, TYPE) CASE(NUMBER(NAME(AS(const TYPE *, entry), AS(const TYPE *, entry))), R(entry, 0, 8))
ORDERED(alphasort, struct dirent) ORDERED(alphasort64, struct dirent64) ORDERED(versionsort, struct dirent)
ORDERED(versionsort64, struct dirent64)
CASE(NUMBER(fnmatch(needle, b, 0)), R(needle, 0, 4), R(b, 0, 11))
CASE(NUMBER(glob(root, 0, NULL, AS(glob_t, big))), R(root, 0, 2), W(big, ONE(glob_t)))
CASE(NUMBER(glob64(root, 0, NULL, AS(glob64_t, big))), R(root, 0, 2), W(big, ONE(glob_t)))
CASE(globfree(AS(glob_t, big)), W(big, ONE(glob_t))) CASE(globfree64(AS(glob64_t, big)), W(big, ONE(glob_t)))
CASE(NUMBER(wordexp(c, AS(wordexp_t, big), 0)), R(c, 0, 5), W(big, ONE(wordexp_t)))
CASE(wordfree(AS(wordexp_t, big)), W(big, ONE(wordexp_t)))
CASE(NUMBER(regcomp(AS(regex_t, big), needle, 0)), R(needle, 0, 4), W(big, ONE(regex_t)))
CASE(NUMBER(regexec(AS(regex_t, compiled), b, 1, AS(regmatch_t, big), 0)), R(compiled, ONE(regex_t)), R(b, 0, 11), W(big, ONE(regmatch_t)))
CASE(NUMBER(regexec(AS(regex_t, compiled), a, 1, AS(regmatch_t, big), 0)), R(a, 0, 6))
CASE(NUMBER(regerror(REG_NOMATCH, AS(regex_t, compiled), a, 6)), W(a, 0, 6)) CASE(regfree(AS(regex_t, compiled)), W(compiled, ONE(regex_t)))

/* ---- More reading and writing ---- */
CASE(NUMBER(fgetpos(text, AS(fpos_t, big))), W(big, ONE(fpos_t))) CASE(NUMBER(fgetpos64(text, AS(fpos64_t, big))), W(big, ONE(fpos_t)))
CASE(NUMBER(fsetpos(text, AS(fpos_t, big))), R(big, ONE(fpos_t))) CASE(NUMBER(fsetpos64(text, AS(fpos64_t, big))), R(big, ONE(fpos_t)))
CASE(perror(b), R(b, 0, 11)) CASE(psignal(1, b), R(b, 0, 11)) CASE(herror(b), R(b, 0, 11))
#define GATHERED R(pieces, 0, 32), R(b, 0, 4), R(c, 0, 3)
#define SCATTERED R(pieces, 0, 32), W(b, 0, 4), W(c, 0, 3)
#define PIECES AS(struct iovec, pieces), 2
CASE(NUMBER(readv(zeros, PIECES)), SCATTERED) CASE(NUMBER(writev(fileno(nothing), PIECES)), GATHERED)
CASE(NUMBER(preadv(zeros, PIECES, 0)), SCATTERED) CASE(NUMBER(pwritev(fileno(nothing), PIECES, 0)), GATHERED)
CASE(NUMBER(preadv64(zeros, PIECES, 0)), SCATTERED) CASE(NUMBER(pwritev64(fileno(nothing), PIECES, 0)), GATHERED)
CASE(NUMBER(preadv2(zeros, PIECES, 0, 0)), SCATTERED) CASE(NUMBER(pwritev2(fileno(nothing), PIECES, 0, 0)), GATHERED)
CASE(NUMBER(preadv64v2(zeros, PIECES, 0, 0)), SCATTERED) CASE(NUMBER(pwritev64v2(fileno(nothing), PIECES, 0, 0)), GATHERED)
CASE(NUMBER(sendfile(-1, -1, AS(off_t, big), 4)), W(big, 0, 8)) CASE(NUMBER(sendfile64(-1, -1, AS(off64_t, big), 4)), W(big, 0, 8))
CASE(NUMBER(copy_file_range(-1, AS(off64_t, big), -1, AS(off64_t, other), 4, 0)), W(big, 0, 8), W(other, 0, 8))
CASE(NUMBER(splice(-1, AS(off64_t, big), -1, AS(off64_t, other), 4, 0)), W(big, 0, 8), W(other, 0, 8))
CASE((pipe(AS(int, big)), close(*AS(int, big)), close(AS(int, big)[1])), W(big, 0, 8))
CASE((pipe2(AS(int, big), 0), close(*AS(int, big)), close(AS(int, big)[1])), W(big, 0, 8))
CASE((eventfd_write(events, 1), eventfd_read(events, AS(eventfd_t, big))), W(big, 0, 8))
int __poll(struct pollfd *, nfds_t, int);
#define POLLED R(polled, 0, 6), R(polled, 8, 6), W(polled, 6, 2), W(polled, 14, 2)
CASE(NUMBER(poll(AS(struct pollfd, polled), 2, 0)), POLLED) CASE(NUMBER(__poll(AS(struct pollfd, polled), 2, 0)), POLLED)
CASE(NUMBER(ppoll(AS(struct pollfd, polled), 2, AS(struct timespec, big), AS(sigset_t, other))), POLLED, R(big, ONE(struct timespec)), R(other, ONE(sigset_t)))
CASE(NUMBER(select(2, AS(fd_set, a), AS(fd_set, c), AS(fd_set, set), AS(struct timeval, big))), W(big, ONE(struct timeval)))
CASE(NUMBER(select(70, AS(fd_set, big), NULL, NULL, AS(struct timeval, other))), W(big, 0, 16), W(other, ONE(struct timeval)))
CASE(NUMBER(pselect(70, AS(fd_set, big), NULL, NULL, AS(struct timespec, other), AS(sigset_t, third))), W(big, 0, 16), R(other, ONE(struct timespec)), R(third, ONE(sigset_t)))
CASE(NUMBER(epoll_ctl(-1, EPOLL_CTL_ADD, -1, AS(struct epoll_event, big))), R(big, ONE(struct epoll_event)))
CASE(NUMBER(epoll_wait(waiting, AS(struct epoll_event, big), 4, 0)), W(big, ONE(struct epoll_event)))
CASE(NUMBER(epoll_pwait(waiting, AS(struct epoll_event, big), 4, 0, AS(sigset_t, other))), W(big, ONE(struct epoll_event)), R(other, ONE(sigset_t)))
LATE(NUMBER(tcgetattr(terminal, AS(struct termios, big))), W(big, 0, terminal < 0 ? 0 : sizeof(struct termios)))
CASE(NUMBER(tcsetattr(-1, 0, AS(struct termios, big))), R(big, ONE(struct termios)))
CASE(cfmakeraw(AS(struct termios, big)), W(big, ONE(struct termios)))
CASE(NUMBER(cfgetispeed(AS(struct termios, big)) + cfgetospeed(AS(struct termios, big))), R(big, ONE(struct termios)))
CASE(NUMBER(cfsetispeed(AS(struct termios, big), 0)), W(big, ONE(struct termios)))
CASE(NUMBER(cfsetospeed(AS(struct termios, big), 0)), W(big, ONE(struct termios)))
CASE(NUMBER(cfsetspeed(AS(struct termios, big), 0)), W(big, ONE(struct termios)))
CASE(NUMBER(fcntl(zeros, F_SETLK, AS(struct flock, big))), R(big, ONE(struct flock)))
CASE(NUMBER(fcntl64(zeros, F_GETOWN_EX, AS(struct f_owner_ex, big))), W(big, ONE(struct f_owner_ex)))
CASE(NUMBER(fcntl(zeros, F_GETFD)), NO_MORE)
CASE(setvbuf(text, big, _IOFBF, 256), W(big, 0, 256)) CASE(setvbuf(text, NULL, _IONBF, 0), NO_MORE)
CASE(setbuffer(text, big, 256), W(big, 0, 256)) CASE(setbuf(text, big), W(big, 0, BUFSIZ))

/* ---- Sockets and names of the net ---- */
#define NAME AS(struct sockaddr, big)
#define SIZE_OF_NAME AS(socklen_t, size)
CASE(NUMBER(sendto(sockets[1], b, 7, 0, NULL, 0)), R(b, 0, 7)) CASE(NUMBER(sendto(-1, b, 7, 0, NAME, 16)), R(big, 0, 16))
CASE(NUMBER(recvfrom(sockets[0], a, 7, 0, NAME, SIZE_OF_NAME)), W(a, 0, 7), W(size, 0, 4))
CASE(NUMBER(sendmsg(sockets[1], AS(struct msghdr, message), 0)), R(message, ONE(struct msghdr)), GATHERED)
CASE(NUMBER(recvmsg(sockets[0], AS(struct msghdr, message), 0)), R(message, ONE(struct msghdr)), SCATTERED, W(message, 8, 4), W(message, 40, 12))
CASE(NUMBER(bind(-1, NAME, 16)), R(big, 0, 16)) CASE(NUMBER(connect(-1, NAME, 16)), R(big, 0, 16))
CASE(NUMBER(accept(-1, NAME, SIZE_OF_NAME)), R(size, 0, 4)) CASE(NUMBER(accept4(-1, NAME, SIZE_OF_NAME, 0)), R(size, 0, 4))
CASE(NUMBER(getsockname(sockets[0], NAME, SIZE_OF_NAME)), W(big, 0, 2), W(size, 0, 4))
CASE(NUMBER(getpeername(sockets[0], NAME, SIZE_OF_NAME)), W(big, 0, 2), W(size, 0, 4))
CASE(NUMBER(getsockopt(sockets[0], SOL_SOCKET, SO_TYPE, big, SIZE_OF_NAME)), W(big, 0, 4), W(size, 0, 4))
CASE(NUMBER(setsockopt(-1, SOL_SOCKET, SO_TYPE, big, 4)), R(big, 0, 4))
CASE((socketpair(AF_UNIX, SOCK_STREAM, 0, AS(int, big)), close(*AS(int, big)), close(AS(int, big)[1])), W(big, 0, 8))
CASE(NUMBER(inet_addr(digits)), R(digits, 0, 4)) CASE(NUMBER(inet_network(digits)), R(digits, 0, 4))
CASE(NUMBER(inet_aton(address, AS(struct in_addr, big))), R(address, 0, 10), W(big, 0, 4))
CASE(NUMBER(inet_pton(AF_INET, address, big)), R(address, 0, 10), W(big, 0, 4))
CASE(NUMBER(inet_ntop(AF_INET, big, a, ROOM)), R(big, 0, 4), W(a, 0, 8)) CASE(NUMBER(inet_ntop(AF_INET6, big, a, ROOM)), R(big, 0, 16), W(a, 0, 3))
CASE(NUMBER((getaddrinfo(address, NULL, AS(struct addrinfo, hints), AS(struct addrinfo *, rest)), freeaddrinfo(*AS(struct addrinfo *, rest)), 0)), W(rest, 0, 8))
CASE(NUMBER(getaddrinfo(address, digits, AS(struct addrinfo, hints), AS(struct addrinfo *, rest))), R(address, 0, 10), R(digits, 0, 4), R(hints, ONE(struct addrinfo)))
CASE(NUMBER(getnameinfo(AS(struct sockaddr, name), sizeof(struct sockaddr_in), a, ROOM, big, ROOM, NI_NUMERICHOST | NI_NUMERICSERV)), R(name, ONE(struct sockaddr_in)), W(a, 0, 8), W(big, 0, 2))
CASE(NUMBER(gethostbyname(address)), R(address, 0, 10)) CASE(NUMBER(getservbyname(b, c)), R(b, 0, 11), R(c, 0, 5))
CASE(NUMBER(getservbyport(1, c)), R(c, 0, 5)) CASE(NUMBER(getprotobyname(b)), R(b, 0, 11)) CASE(NUMBER(getprotobynumber(999)), NO_MORE)
CASE(NUMBER(if_nametoindex(c)), R(c, 0, 5)) LATE(NUMBER(if_indextoname(1, a)), W(a, 0, loop_size()))
CASE(NUMBER((getifaddrs(AS(struct ifaddrs *, rest)), freeifaddrs(NULL), 0)), W(rest, 0, 8))

/* ---- Users, groups and the system ---- */
CASE(NUMBER(getpwnam(c)), R(c, 0, 5)) CASE(NUMBER(getgrnam(c)), R(c, 0, 5)) CASE((getpwuid(0), getgrgid(0)), NO_MORE)
CASE((setpwent(), getpwent(), endpwent(), setgrent(), getgrent(), endgrent()), NO_MORE)
#define FOUND(TYPE) W(big, ONE(TYPE)), W(rest, 0, 8)
CASE(NUMBER(getpwnam_r(user, AS(struct passwd, big), many, 4096, AS(struct passwd *, rest))), R(user, 0, 5), FOUND(struct passwd))
CASE(NUMBER(getpwuid_r(0, AS(struct passwd, big), many, 4096, AS(struct passwd *, rest))), FOUND(struct passwd))
CASE(NUMBER(getgrnam_r(user, AS(struct group, big), many, 4096, AS(struct group *, rest))), R(user, 0, 5), FOUND(struct group))
CASE(NUMBER(getgrgid_r(0, AS(struct group, big), many, 4096, AS(struct group *, rest))), FOUND(struct group))
CASE(NUMBER(setgroups(2, AS(gid_t, big))), R(big, 0, 8)) LATE(NUMBER((setgroups(2, AS(gid_t, other)), getgroups(2, AS(gid_t, big)))), W(big, 0, getuid() ? 0 : 8))
#define THREE W(a, 0, 4), W(b, 0, 4), W(c, 0, 4)
CASE(NUMBER(getresuid(AS(uid_t, a), AS(uid_t, b), AS(uid_t, c))), THREE) CASE(NUMBER(getresgid(AS(gid_t, a), AS(gid_t, b), AS(gid_t, c))), THREE)
CASE((getlogin(), ttyname(terminal), ptsname(terminal), localeconv(), ctermid(NULL)), NO_MORE) CASE(NUMBER(getlogin_r(a, 0)), NO_MORE)
CASE(NUMBER(ttyname_r(terminal, a, ROOM)), NO_MORE) LATE(NUMBER(ptsname_r(terminal, a, ROOM)), W(a, 0, terminal < 0 ? 0 : strlen(ptsname(terminal)) + 1))
CASE(NUMBER(ctermid(a)), W(a, 0, 9)) LATE(NUMBER(gethostname(a, ROOM)), W(a, 0, host_size())) LATE(NUMBER(getdomainname(a, ROOM)), W(a, 0, domain_size()))
CASE(NUMBER(sethostname(big, 65)), R(big, 0, 65)) CASE(NUMBER(setdomainname(big, 65)), R(big, 0, 65))
CASE(NUMBER(uname(AS(struct utsname, big))), W(big, ONE(struct utsname))) CASE(NUMBER(sysinfo(AS(struct sysinfo, big))), W(big, ONE(struct sysinfo)))
CASE(NUMBER(getloadavg(AS(double, big), 2)), W(big, 0, 16)) CASE(NUMBER(confstr(_CS_PATH, a, 6)), W(a, 0, 6))
CASE(NUMBER(getenv(c)), R(c, 0, 5)) CASE(NUMBER(secure_getenv(c)), R(c, 0, 5)) CASE(NUMBER(setenv(c, b, 1)), R(c, 0, 5), R(b, 0, 11))
CASE(NUMBER(unsetenv(c)), R(c, 0, 5)) CASE(NUMBER(putenv(c)), R(c, 0, 5)) CASE(NUMBER(setlocale(LC_CTYPE, c)), R(c, 0, 5))
CASE(NUMBER(newlocale(LC_CTYPE_MASK, c, NULL)), R(c, 0, 5)) CASE(NUMBER((gettext)(b)), R(b, 0, 11)) CASE(NUMBER((dgettext)(c, b)), R(c, 0, 5), R(b, 0, 11))
CASE(NUMBER((dcgettext)(c, b, LC_MESSAGES)), R(c, 0, 5), R(b, 0, 11)) CASE(NUMBER((ngettext)(b, c, 1)), R(b, 0, 11), R(c, 0, 5))
CASE(NUMBER(textdomain(c)), R(c, 0, 5)) CASE(NUMBER(bindtextdomain(c, b)), R(c, 0, 5), R(b, 0, 11))
CASE(NUMBER(sigaction(SIGWINCH, AS(struct sigaction, zeroed(sizeof(struct sigaction))), AS(struct sigaction, big))), W(big, ONE(struct sigaction)))
CASE(NUMBER(iconv_open(c, b)), R(c, 0, 5), R(b, 0, 11))
CASE(NUMBER(iconv(converter, rest, (*size = 11, size), out, room)), R(b, 0, 11), W(rest, 0, 8), W(size, 0, 8), W(a, 0, 11), W(out, 0, 8), W(room, 0, 8))
CASE(NUMBER(dlopen(path, RTLD_NOW)), PATH)
CASE(NUMBER(dladdr((void *)prepare, AS(Dl_info, big))), W(big, ONE(Dl_info))) CASE(NUMBER(backtrace(AS(void *, big), 1)), W(big, 0, 8))
CASE(NUMBER(backtrace_symbols(AS(void *, big), 1)), R(big, 0, 8)) CASE(backtrace_symbols_fd(AS(void *, big), 1, fileno(nothing)), R(big, 0, 8))
CASE(NUMBER((optind = 1, getopt(2, words, c))), R(words, 0, 16), R(c, 0, 5), G(optind_at, 0, 4), G(optarg_at, 0, 8))
CASE(NUMBER((optind = 1, getopt_long(2, words, c, AS(struct option, big), AS(int, other)))), R(words, 0, 16), R(c, 0, 5), R(big, ONE(struct option)), W(other, 0, 4))
CASE(NUMBER((optind = 1, getopt_long_only(2, words, c, AS(struct option, big), NULL))), R(words, 0, 16), R(big, ONE(struct option)))
pid_t __waitpid(pid_t, int *, int);
CASE((wait(NULL), waitpid(-1, NULL, 0), __waitpid(-1, NULL, 0), wait3(NULL, 0, NULL), wait4(-1, NULL, 0, NULL), waitid(P_ALL, 0, NULL, 0)), NO_MORE)
CASE(NUMBER(mincore(page, 4096, AS(unsigned char, a))), W(a, 0, 1)) CASE(NUMBER(msync(page, 4096, MS_ASYNC)), R(page, 0, 4096))
CASE(NUMBER(munmap(big + 1, 16)), W(big, 1, 16)) CASE(NUMBER((long)mremap(big + 1, 16, 32, 0)), NO_MORE) CASE(NUMBER(msgsnd(-1, big, 4, 0)), R(big, 0, 12)) CASE(NUMBER(msgrcv(-1, big, 4, 0, 0)), NO_MORE)
CASE(NUMBER(semop(-1, AS(struct sembuf, big), 2)), R(big, 0, 2 * sizeof(struct sembuf))) CASE(NUMBER(mq_send(-1, b, 4, 0)), R(b, 0, 4))
CASE((mq_receive(-1, a, 4, NULL), mq_getattr(-1, AS(struct mq_attr, big))), NO_MORE) CASE(NUMBER(mq_setattr(-1, AS(struct mq_attr, big), NULL)), R(big, ONE(struct mq_attr)))

/* ---- Signals ---- */
#define SET AS(sigset_t, big)
CASE(sigemptyset(SET), W(big, ONE(sigset_t))) CASE(sigfillset(SET), W(big, ONE(sigset_t))) CASE(sigaddset(SET, 1), W(big, ONE(sigset_t)))
CASE(sigdelset(SET, 1), W(big, ONE(sigset_t))) CASE(NUMBER(sigismember(SET, 1)), R(big, ONE(sigset_t))) CASE(NUMBER(sigisemptyset(SET)), R(big, ONE(sigset_t)))
CASE(sigandset(SET, AS(sigset_t, other), AS(sigset_t, other)), R(other, ONE(sigset_t)), W(big, ONE(sigset_t)))
CASE(sigorset(SET, AS(sigset_t, other), AS(sigset_t, other)), R(other, ONE(sigset_t)), W(big, ONE(sigset_t)))
CASE(sigprocmask(SIG_BLOCK, AS(sigset_t, other), SET), R(other, ONE(sigset_t)), W(big, ONE(sigset_t)))
CASE(pthread_sigmask(SIG_BLOCK, AS(sigset_t, other), SET), R(other, ONE(sigset_t)), W(big, ONE(sigset_t)))
CASE(sigpending(SET), W(big, ONE(sigset_t))) CASE(NUMBER(sigtimedwait(AS(sigset_t, other), NULL, AS(struct timespec, big))), R(other, ONE(sigset_t)), R(big, ONE(struct timespec)))
CASE(NUMBER(sigaltstack(NULL, AS(stack_t, big))), W(big, ONE(stack_t)))

/* ---- Threads ---- */
#define MADE_AS(TYPE, ...) CASE(NUMBER(__VA_ARGS__), W(big, ONE(TYPE)))
#define ATTRIBUTES AS(pthread_attr_t, big)
MADE_AS(pthread_attr_t, pthread_attr_init(ATTRIBUTES)) MADE_AS(pthread_attr_t, pthread_attr_destroy(ATTRIBUTES))
#define SETS(NAME, TYPE) MADE_AS(TYPE, NAME(AS(TYPE, big), 0))
SETS(pthread_attr_setdetachstate, pthread_attr_t) SETS(pthread_attr_setinheritsched, pthread_attr_t) SETS(pthread_attr_setschedpolicy, pthread_attr_t)
SETS(pthread_attr_setscope, pthread_attr_t) SETS(pthread_attr_setstacksize, pthread_attr_t) SETS(pthread_attr_setguardsize, pthread_attr_t)
SETS(pthread_mutexattr_settype, pthread_mutexattr_t) SETS(pthread_mutexattr_setpshared, pthread_mutexattr_t) SETS(pthread_mutexattr_setprotocol, pthread_mutexattr_t)
SETS(pthread_mutexattr_setprioceiling, pthread_mutexattr_t) SETS(pthread_mutexattr_setrobust, pthread_mutexattr_t) SETS(pthread_condattr_setclock, pthread_condattr_t)
#define GETS(NAME, TYPE, VALUE) CASE(NUMBER(NAME(AS(TYPE, big), AS(VALUE, other))), R(big, ONE(TYPE)), W(other, ONE(VALUE)))
GETS(pthread_attr_getdetachstate, pthread_attr_t, int) GETS(pthread_attr_getinheritsched, pthread_attr_t, int) GETS(pthread_attr_getschedpolicy, pthread_attr_t, int)
GETS(pthread_attr_getscope, pthread_attr_t, int) GETS(pthread_attr_getstacksize, pthread_attr_t, size_t) GETS(pthread_attr_getguardsize, pthread_attr_t, size_t)
GETS(pthread_attr_getschedparam, pthread_attr_t, struct sched_param) GETS(pthread_mutexattr_gettype, pthread_mutexattr_t, int)
GETS(pthread_mutexattr_getpshared, pthread_mutexattr_t, int) GETS(pthread_mutexattr_getprotocol, pthread_mutexattr_t, int)
GETS(pthread_mutexattr_getprioceiling, pthread_mutexattr_t, int) GETS(pthread_mutexattr_getrobust, pthread_mutexattr_t, int)
CASE(NUMBER(pthread_attr_setschedparam(ATTRIBUTES, AS(struct sched_param, other))), R(other, ONE(struct sched_param)), W(big, ONE(pthread_attr_t)))
MADE_AS(pthread_attr_t, pthread_attr_setstack(ATTRIBUTES, NULL, 0)) CASE(NUMBER(pthread_attr_getstack(ATTRIBUTES, AS(void *, other), size)), R(big, ONE(pthread_attr_t)), W(other, 0, 8), W(size, 0, 8))
MADE_AS(pthread_attr_t, pthread_getattr_np(pthread_self(), ATTRIBUTES))
#define INITS(NAME, TYPE) MADE_AS(TYPE, NAME(AS(TYPE, big)))
INITS(pthread_mutexattr_init, pthread_mutexattr_t) INITS(pthread_mutexattr_destroy, pthread_mutexattr_t) INITS(pthread_mutex_destroy, pthread_mutex_t)
INITS(pthread_rwlock_destroy, pthread_rwlock_t) INITS(pthread_rwlockattr_init, pthread_rwlockattr_t) INITS(pthread_rwlockattr_destroy, pthread_rwlockattr_t)
INITS(pthread_cond_destroy, pthread_cond_t) INITS(pthread_condattr_init, pthread_condattr_t) INITS(pthread_condattr_destroy, pthread_condattr_t)
MADE_AS(pthread_barrier_t, (pthread_barrier_init(AS(pthread_barrier_t, big), NULL, 2), pthread_barrier_destroy(AS(pthread_barrier_t, big)))) INITS(pthread_spin_destroy, pthread_spinlock_t) INITS(sem_destroy, sem_t) INITS(cnd_init, cnd_t)
#define INITS_WITH(NAME, TYPE, WITH) CASE(NUMBER(NAME(AS(TYPE, big), AS(WITH, other))), R(other, ONE(WITH)), W(big, ONE(TYPE)))
INITS_WITH(pthread_mutex_init, pthread_mutex_t, pthread_mutexattr_t) INITS_WITH(pthread_rwlock_init, pthread_rwlock_t, pthread_rwlockattr_t)
INITS_WITH(pthread_cond_init, pthread_cond_t, pthread_condattr_t)
CASE(NUMBER(pthread_barrier_init(AS(pthread_barrier_t, big), NULL, 2)), W(big, ONE(pthread_barrier_t))) SETS(pthread_spin_init, pthread_spinlock_t) SETS(mtx_init, mtx_t)
CASE(mtx_destroy(AS(mtx_t, big)), W(big, ONE(mtx_t))) CASE(cnd_destroy(AS(cnd_t, big)), W(big, ONE(cnd_t))) MADE_AS(sem_t, sem_init(AS(sem_t, big), 0, 1))
CASE(NUMBER(sem_getvalue(AS(sem_t, other), AS(int, big))), W(big, 0, 4)) CASE(NUMBER(pthread_mutex_timedlock(AS(pthread_mutex_t, other), AS(struct timespec, big))), R(big, ONE(struct timespec)))
CASE((pthread_key_create(AS(pthread_key_t, big), NULL), pthread_key_delete(*AS(pthread_key_t, big))), W(big, 0, 4))
CASE((tss_create(AS(tss_t, big), NULL), tss_delete(*AS(tss_t, big))), W(big, 0, 4))
CASE(NUMBER(pthread_setname_np(pthread_self(), c)), R(c, 0, 5)) CASE(NUMBER((pthread_setname_np(pthread_self(), "alps"), pthread_getname_np(pthread_self(), a, ROOM))), W(a, 0, 5))
CASE(NUMBER(pthread_getaffinity_np(pthread_self(), sizeof(cpu_set_t), AS(cpu_set_t, big))), W(big, ONE(cpu_set_t))) CASE(NUMBER(pthread_setaffinity_np(pthread_self(), 8, AS(cpu_set_t, big))), R(big, 0, 8))
CASE(NUMBER(pthread_getcpuclockid(pthread_self(), AS(clockid_t, big))), W(big, 0, 4)) CASE(NUMBER(pthread_getschedparam(pthread_self(), AS(int, other), AS(struct sched_param, big))), W(other, 0, 4), W(big, ONE(struct sched_param)))
CASE(NUMBER(pthread_setschedparam(pthread_self(), 99, AS(struct sched_param, big))), R(big, ONE(struct sched_param))) CASE(pthread_setcancelstate(PTHREAD_CANCEL_ENABLE, AS(int, big)), W(big, 0, 4))
CASE(pthread_setcanceltype(PTHREAD_CANCEL_DEFERRED, AS(int, big)), W(big, 0, 4)) CASE(NUMBER(sched_getaffinity(0, sizeof(cpu_set_t), AS(cpu_set_t, big))), W(big, ONE(cpu_set_t)))
CASE(NUMBER(sched_setaffinity(-1, 8, AS(cpu_set_t, big))), R(big, 0, 8)) CASE(NUMBER(sched_getparam(0, AS(struct sched_param, big))), W(big, ONE(struct sched_param)))
CASE(NUMBER(sched_setparam(-1, AS(struct sched_param, big))), R(big, ONE(struct sched_param))) CASE(NUMBER(sched_setscheduler(-1, 0, AS(struct sched_param, big))), R(big, ONE(struct sched_param)))
CASE(NUMBER(sched_rr_get_interval(0, AS(struct timespec, big))), W(big, ONE(struct timespec))) CASE(NUMBER(__sched_cpucount(8, AS(cpu_set_t, big))), R(big, 0, 8))
CASE(__sched_cpufree(AS(cpu_set_t, b)), W(b, 0, 64)) CASE(NUMBER(thrd_sleep(AS(struct timespec, big), NULL)), R(big, ONE(struct timespec)))

/* ---- Trees, tables and lists ---- */
static int by_address(const void *one, const void *other) { return (one > other) - (one < other); }
void *__tsearch(const void *, void **, int (*)(const void *, const void *));
void *__tfind(const void *, void *const *, int (*)(const void *, const void *));
void *__tdelete(const void *, void **, int (*)(const void *, const void *));
CASE(NUMBER(tsearch(b, AS(void *, big), by_address)), W(big, 0, 8)) CASE(NUMBER(__tsearch(b, AS(void *, big), by_address)), W(big, 0, 8))
CASE(NUMBER(tfind(b, AS(void *, big), by_address)), R(big, 0, 8)) CASE(NUMBER(__tfind(b, AS(void *, big), by_address)), R(big, 0, 8))
CASE(NUMBER(tdelete(b, AS(void *, big), by_address)), W(big, 0, 8)) CASE(NUMBER(__tdelete(b, AS(void *, big), by_address)), W(big, 0, 8))
CASE(NUMBER(lfind(b, c, (*size = 4, size), 1, by_address)), W(size, 0, 8)) CASE(NUMBER(lsearch(b, a, (*size = 4, size), 1, by_address)), R(b, 0, 1), W(a, 4, 1), W(size, 0, 8))
CASE((hcreate(4), hsearch((ENTRY){b, NULL}, ENTER), hdestroy()), R(b, 0, 11))
CASE(insque(big, other), W(big, 0, 16), W(other, 0, 8)) CASE(remque(big), R(big, 0, 16))
CASE(NUMBER(reallocarray(b, 4, 4)), W(b, 0, 64)) CASE(NUMBER(posix_memalign(AS(void *, big), 16, 16)), W(big, 0, 8))

CASE(*AS(struct mallinfo, big) = mallinfo(), W(big, ONE(struct mallinfo))) CASE(*AS(struct mallinfo2, big) = mallinfo2(), W(big, ONE(struct mallinfo2)))

/* Headers may have these two inline. */
int plain_feof(FILE *) __asm__("feof_unlocked");
int plain_ferror(FILE *) __asm__("ferror_unlocked");

/* ---- What functions keep: a child and its parent use it, and so many bytes race ---- */
SHARED(0, errno = 1, errno = 2) SHARED(4, NUMBER(rand()), srand(5)) SHARED(4, (void)(drand48()), srand48(5)) SHARED(4, NUMBER(mblen(b, 4)), (void)(mblen(b, 4)))
SHARED(4, NUMBER(mbtowc(NULL, b, 4)), (void)(mbtowc(NULL, b, 4))) SHARED(4, NUMBER(wctomb(a, L'x')), (void)(wctomb(c, L'x')))
SHARED(0, NUMBER(mbrlen(b, 4, NULL)), (void)(mbrlen(b, 4, STATE))) SHARED(4, NUMBER(mbrlen(b, 4, NULL)), (void)(mbrlen(b, 4, NULL))) SHARED(4, NUMBER(mbrtowc(NULL, b, 4, NULL)), (void)(mbrtowc(NULL, b, 4, NULL)))
SHARED(4, NUMBER(wcrtomb(a, L'x', NULL)), (void)(wcrtomb(c, L'x', NULL))) SHARED(4, NUMBER(mbrtoc16(NULL, b, 4, NULL)), (void)(mbrtoc16(NULL, b, 4, NULL)))
SHARED(4, NUMBER(c16rtomb(a, u'x', NULL)), (void)(c16rtomb(c, u'x', NULL)))
SHARED(4, NUMBER(mbsrtowcs(NULL, AS(const char *, rest), 0, NULL)), (void)(mbsrtowcs(NULL, AS(const char *, rest), 0, NULL)))
SHARED(4, NUMBER(wcsrtombs(NULL, AS(const wchar_t *, wide_rest), 0, NULL)), (void)(wcsrtombs(NULL, AS(const wchar_t *, wide_rest), 0, NULL)))
SHARED(0, NUMBER(setlogmask(0)), (void)(setlogmask(0))) SHARED(4, NUMBER(setlogmask(1)), (void)(setlogmask(1)))
SHARED(8, setenv("x", "y", 1), (void)(getenv("x")))
SHARED(4, NUMBER(pthread_setspecific(99, b)), (void)(pthread_getspecific(99))) SHARED(4, NUMBER(tss_set(98, b)), (void)(tss_get(98)))
 SHARED(4, NUMBER(setlocale(LC_ALL, "C")), (void)(localeconv()))
SHARED(4, (void)(iconv(converter, NULL, NULL, NULL, NULL)), (void)(iconv(converter, NULL, NULL, NULL, NULL)))
SHARED(4, NUMBER(textdomain("x")), (void)(textdomain(NULL))) SHARED(4, NUMBER(getpwent()), setpwent()) SHARED(4, (void)(getgrent()), setgrent())
SHARED(0, (void)(strsep(&(char *){a}, " ")), (void)(strsep(&(char *){c}, " ")))
SHARED(0, (void)(strtok_r(a, " ", &(char *){NULL})), (void)(strtok_r(c, " ", &(char *){NULL})))
SHARED(4, hcreate(4), hdestroy()) SHARED(8, (void)(strtok(b, " ")), NUMBER(strtok(NULL, " ")))
SHARED(56, NUMBER(gmtime(AS(time_t, big)) == localtime(AS(time_t, big))), (void)(ctime(AS(time_t, big)))) SHARED(26, NUMBER(asctime(AS(struct tm, day))), (void)(ctime(AS(time_t, big))))
SHARED(2, NUMBER(l64a(5)), (void)(l64a(5))) SHARED(8, (putc_unlocked)('x', text), (getc_unlocked)(text))
SHARED(8, (fputc_unlocked)('x', text), (fgetc_unlocked)(text)) SHARED(8, clearerr_unlocked(text), (void)(plain_feof(text)))
SHARED(8, NUMBER(fflush_unlocked(text)), (putc_unlocked)('x', text)) SHARED(8, __fpurge(text), (putc_unlocked)('x', text))
SHARED(8, NUMBER(__fpending(text)), (putc_unlocked)('x', text)) SHARED(8, NUMBER(__fbufsize(text)), (putc_unlocked)('x', text))
SHARED(8, clearerr_unlocked(text), (void)(plain_ferror(text))) SHARED(8, clearerr_unlocked(text), (void)(fileno_unlocked(text)))
/* The order of a stream or a descriptor is 4 bytes; and what takes no lock, or closes the stream, races with all 8. The
   text and the letters are other streams for each of these, and the standard streams are the text. */
int plain_getc(FILE *) __asm__("_IO_getc");
int plain_putc(int, FILE *) __asm__("_IO_putc");
SHARED(4, (putc)('x', text), (fputc)('x', text)) SHARED(4, (getc)(text), (fgetc)(text)) SHARED(4, plain_putc('x', text), plain_putc('x', text))
SHARED(4, plain_getc(text), (ungetc)('x', text)) SHARED(4, (putchar)('x'), puts("x")) SHARED(4, (getchar)(), NUMBER(scanf("x")))
SHARED(4, (putwc)(L'x', letters), (fputwc)(L'x', letters)) SHARED(4, (getwc)(letters), (fgetwc)(letters)) SHARED(4, (stdin = letters, (getwchar)()), (void)(getwchar)())
SHARED(4, ungetwc(L'x', letters), (void)(getwc)(letters)) SHARED(4, (stdout = letters, (putwchar)(L'x')), (void)fputws(L"x", letters)) SHARED(4, printf("x"), fputs("x", text))
SHARED(4, fseek(text, 0, SEEK_SET), rewind(text)) SHARED(4, fseeko(text, 0, SEEK_SET), fseeko64(text, 0, SEEK_SET))
SHARED(4, NUMBER(lseek(fileno(letters), 0, SEEK_SET)), (void)lseek64(fileno(letters), 0, SEEK_SET))
SHARED(4, NUMBER(read(fileno(letters), a, 1)), (void)!write(fileno(letters), "x", 1)) SHARED(0, NUMBER(read(fileno(letters), a, 1)), (fgetc)(letters))
SHARED(0, fclose(open_memstream(&big, size)), (void)fclose(open_wmemstream(&wide, room)))
SHARED(0, NUMBER(close(dup2(zeros, 50))), (void)close(dup3(zeros, 50, 0))) SHARED(0, fputs("x", nothing), puts("x"))
SHARED(8, (fgetc)(text), fclose(text)) SHARED(8, (fgetc)(text), (getc_unlocked)(text)) SHARED(8, (fgetc)(text), clearerr_unlocked(text))
SHARED(8, (flockfile(text), (getc_unlocked)(text), funlockfile(text)), (getc_unlocked)(text)) SHARED(4, (ftrylockfile(text), (fgetc)(text)), (funlockfile(text), (fgetc)(text)))
SHARED(8, (fputs_unlocked)("x", text), (void)(fwrite_unlocked)("x", 1, 1, text)) SHARED(8, (void)(fgets_unlocked)(a, 9, text), (void)!(fread_unlocked)(b, 1, 9, text))
SHARED(8, (putchar_unlocked)('x'), (putchar_unlocked)('x')) SHARED(8, (getchar_unlocked)(), (getchar_unlocked)())
SHARED(8, NUMBER(readdir(folder)), (void)(telldir(folder))) SHARED(8, NUMBER(readdir64(folder)), seekdir(folder, 0))
SHARED(8, rewinddir(folder), (void)(telldir(folder)))

/* What ends the program or the whole system, or waits: each of them stands beside one that is tried above. */
__attribute__((used)) static void *const not_tried[] = {
    (void *)err, (void *)errx, (void *)verr, (void *)verrx, (void *)system, (void *)clearenv, (void *)sigsuspend,
    (void *)sigwait, (void *)sigwaitinfo, (void *)pthread_join, (void *)thrd_join};

/* ---- Jumps, whose buffer no hook sees copied ---- */
static void *unseen_copy(void *to, const void *from) {
    void *end = to;
    size_t bytes = sizeof(jmp_buf);
    __asm__ volatile("rep movsb" : "+D"(end), "+S"(from), "+c"(bytes) : : "memory");
    return to;
}
void __longjmp_chk(jmp_buf from, int value) __attribute__((noreturn));
#define JUMP_BUFFER big, 0, sizeof(jmp_buf)
#define JUMP(SET, JUMP) CASE(jmp_buf own; if (SET == 0) JUMP(unseen_copy(big, own), 1), R(JUMP_BUFFER))
CASE(sink = (setjmp)(*AS(jmp_buf, big)), W(JUMP_BUFFER))
CASE(sink = setjmp(*AS(jmp_buf, big)), W(JUMP_BUFFER))
CASE(sink = sigsetjmp(*AS(sigjmp_buf, big), 1), W(JUMP_BUFFER))
JUMP(setjmp(own), longjmp)
JUMP(setjmp(own), _longjmp)
JUMP(sigsetjmp(own, 1), siglongjmp)
JUMP(setjmp(own), __longjmp_chk)

/* ---- A wait for a word that another value has already, so it ends at once ---- */
CASE(sink = (int)syscall(SYS_futex, big, FUTEX_WAIT_PRIVATE, 1, NULL), R(big, 0, 4))
CASE(sink = (int)syscall(SYS_futex, big, FUTEX_WAIT, 1, third), R(big, 0, 4), R(third, ONE(struct timespec)))

/* ---- Walks, whose calls for each file are seen where they access memory ---- */
static int see_file(const char *file, const struct stat *about, int kind) { return file && about ? kind : 0; }
static int see_file64(const char *file, const struct stat64 *about, int kind) { return file && about ? kind : 0; }
static int meet(const char *file, const struct stat *about, int kind, struct FTW *at) { return file && about && at ? kind : 0; }
static int meet64(const char *file, const struct stat64 *about, int kind, struct FTW *at) { return file && about && at ? kind : 0; }
CASE(sink = ftw(path, see_file, 3), R(path, 0, 17)) CASE(sink = nftw(path, meet, 3, 0), R(path, 0, 17))
CASE(sink = ftw64(path, see_file64, 3), R(path, 0, 17)) CASE(sink = nftw64(path, meet64, 3, 0), R(path, 0, 17))
