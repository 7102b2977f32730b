#error "oneTBB's memory_pool can't be traced: memory that comes again looks like a race"
