int outside_library(int *at) { return *at += 30; }
