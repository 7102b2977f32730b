#error "oneTBB's task_scheduler_observer can't be traced: the run has one thread, and no scheduler"
