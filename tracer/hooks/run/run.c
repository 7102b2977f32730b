/* How a run begins. */
#include "base/callbacks.h"
#include "records/course.h"
#include "run/detector.h"
#include "records/byte_granular.h"
#include "run/ends.h"
#include "shadow/frames.h"
#include "program/heap.h"
#include "records/lines.h"
#include "records/look.h"
#include "base/openmp.h"
#include "base/output.h"
#include "shadow/marks.h"
#include "shadow/own.h"
#include "records/places.h"
#include "base/settings.h"
#include "library/streams.h"
#include "program/parallel.h"
#include "program/watch.h"
#include "records/views.h"
#include "run/signals.h"

static void forget_strands(void) {
    byte_granular_forget();
    views_forget();
}

const struct callbacks callbacks = {.end_run = ends_end_run,
                                    .end_by_signal = signals_end_run,
                                    .forget_strands = forget_strands,
                                    .use_dead = heap_use_dead,
                                    .static_of = heap_static_of,
                                    .is_of_view = views_have,
                                    .leave_groups = parallel_leave_groups};

/* A number of bytes for the trace; where none is said, a quarter of the space that is free where it goes to a file. */
static void set_limit(bool is_file) {
    struct statvfs space;
    if (is_file && fstatvfs(output_of_run.file, &space) == 0)
        output_of_run.most = space.f_bavail * space.f_frsize / 4;
    output_of_run.at_limit = ends_at_limit;
    output_of_run.most = settings_number_or(SETTING_MAX_BYTES, output_of_run.most);
}

/* A trace that goes to a file has its places beside it, where nothing else was said. */
static void open_outputs(const char *name) {
    static char beside[4096];
    const char *places_name = settings_given(SETTING_PLACES);
    struct stat about;
    output_of_run.name = name;
    output_of_run.file = output_open(name, "SPBAGS_TRACE");
    bool is_file = fstat(output_of_run.file, &about) == 0 && S_ISREG(about.st_mode);
    set_limit(is_file);
    if (!places_name && is_file && strcmp(name, "-") != 0 && strncmp(name, "fd:", 3) != 0) {
        if ((size_t)snprintf(beside, sizeof beside, "%s.places", name) >= sizeof beside)
            tell_fault("SPBAGS_TRACE: the name is too long");
        places_name = beside;
    }
    if (places_name && *places_name)
        places_open(places_name);
}

/* What spbags-run asks for. */
static void open_ways(void) {
    const char *said = settings_text(SETTING_SAYS), *report = settings_text(SETTING_LOOK);
    const char *granules = settings_text(SETTING_DIVIDE), *waits = settings_text(SETTING_WAITED);
    const char *progress = settings_text(SETTING_PROGRESS);
    if (said) {
        tell_file = output_named_file("SPBAGS_SAYS", said);
        pthread_atfork(ends_refuse_fork, NULL, NULL);
    }
    course_last_record = settings_number_or(SETTING_LAST, UINT64_MAX);
    if (granules)
        byte_granular_begin(output_named_file("SPBAGS_DIVIDE", granules));
    if (report)
        look_begin(output_named_file("SPBAGS_LOOK", report));
    if (waits)
        openmp_open_waited(output_named_file("SPBAGS_WAITED", waits));
    if (progress)
        detector_share_progress(output_named_file("SPBAGS_PROGRESS", progress));
    settings_forget(SETTING_SAYS);
    settings_forget(SETTING_LOOK);
    settings_forget(SETTING_DIVIDE);
    settings_forget(SETTING_WAITED);
    settings_forget(SETTING_PROGRESS);
    settings_forget(SETTING_LAST);
}

/* What the library allocates for these streams depends on what they are, and all later addresses with it. */
static void give_streams_buffers(void) {
    static char input[4096], output[4096];
    setvbuf(stdin, input, _IOFBF, sizeof input);
    setvbuf(stdout, output, isatty(STDOUT_FILENO) ? _IOLBF : _IOFBF, sizeof output);
}

/* Where the program has one thread libstdc++ counts the owners of a shared_ptr without atomic operations. In a parallel
   run it has several. */
extern char __libc_single_threaded __attribute__((weak));

static void claim_threads(void) {
    if (&__libc_single_threaded)
        __libc_single_threaded = 0;
}

/* The stack as it may grow, up to where the environment stands above all frames. */
static void find_stack(void) {
    const size_t most = (size_t)1 << 30;
    struct rlimit limit;
    size_t size = most;
    if (getrlimit(RLIMIT_STACK, &limit) == 0 && limit.rlim_cur < most)
        size = limit.rlim_cur;
    uintptr_t end = (uintptr_t)environ;
    size_t room = openmp_room_for_members(&size);
    stacks_running_first = (end - size) & ~(uintptr_t)0xffff;
    stacks_running_size = (end & ~granules_mask) - stacks_running_first;
    stacks_first = stacks_running_first - room;
    stacks_size = room + stacks_running_size;
    stacks[0].first = stacks_running_first;
    stacks[0].end = stacks[0].quick_end = stacks[0].own_end = stacks_running_first + stacks_running_size;
    marks_begin(stacks_first, end);
    frames_begin(size);
}

static void read_settings(void) {
    doing.version = settings_digit(SETTING_VERSION);
    granules_shift = (unsigned)__builtin_ctz(settings_digit(SETTING_UNIT));
    granules_mask = ((uintptr_t)1 << granules_shift) - 1;
    doing.writing_repeats = settings_is(SETTING_REPEATS, "1");
    watch_set_patience();
    streams_judged = settings_is(SETTING_STREAMS, "1");
    heap_reuses = settings_is(SETTING_REUSE, "1");
    steps_may_leave_out = heap_reuses && !doing.writing_repeats;
}

static void put_header(void) {
    const char *header = doing.version == 2 ? "trace 2\n" : "trace 1\n";
    memcpy(output_room(&output_of_run), header, strlen(header));
    output_of_run.used += strlen(header);
}

__attribute__((constructor(101))) static void start(void) {
    const char *name = settings_text(SETTING_TRACE);
    settings_help();
    ends_read_settings();
    if (!name && !DOING_HAS_DETECTOR) {
        if (ends_racy_status != ENDS_PROGRAMS_OWN)
            tell_fault("SPBAGS_EXITCODE asks for a report, and there is no detector inside: link without --trace");
        tell("SPBAGS_TRACE isn't set, so no trace is written");
        return;
    }
    read_settings();
    stacks_running_thread = __builtin_thread_pointer();
    lines_begin();
    give_streams_buffers();
    claim_threads();
    if (name)
        open_outputs(name);
    else
        detector_begin();
    open_ways();
    /* A traced program that this one starts would write over the trace, or over the report. */
    settings_forget(SETTING_TRACE);
    settings_forget(SETTING_REPORT);
    settings_forget(SETTING_PLACES);
    granules_need_lifetimes();
    find_stack();
    own_begin();
    ends_begin();
    if (name && !doing.looking)
        put_header();
    doing.plain = !byte_granular_any && !doing.writing_repeats && course_last_record == UINT64_MAX;
    doing.plainest = doing.plain && !doing.looking && doing.version == 2;
    views_follow();
    doing.tracing = true;
    frames_find_short_way();
    signals_catch();
    watch_begin();
}
