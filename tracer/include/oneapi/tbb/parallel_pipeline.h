#error "oneTBB's parallel_pipeline can't be traced: its filters wait for one another, which no fork and join says"
