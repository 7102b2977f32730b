int outside_member(int n) { return n + 20; }
