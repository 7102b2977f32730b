int still(void) { return 1; }
