int total;
void add(int n) {
    total += n; /* [add] */
}
