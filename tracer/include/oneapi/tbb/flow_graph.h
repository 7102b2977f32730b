#error "oneTBB's flow graphs can't be traced: their nodes wait for messages, which no fork and join says"
