#error "oneTBB's concurrent_lru_cache can't be traced"
