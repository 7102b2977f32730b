/* What the compiler calls where a function begins and ends: a mark, too. */
volatile char mark_before_spawn, mark_after_spawn, mark_sync, mark_begin, mark_end, mark_child, mark_enter, mark_exit,
    mark_finished;

void __cyg_profile_func_enter(void *function, void *from) {
    (void)function, (void)from;
    mark_enter = 1;
}

void __cyg_profile_func_exit(void *function, void *from) {
    (void)function, (void)from;
    mark_exit = 1;
}
