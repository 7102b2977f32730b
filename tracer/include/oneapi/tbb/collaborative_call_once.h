#error "oneTBB's collaborative_call_once can't be traced: take std::call_once"
