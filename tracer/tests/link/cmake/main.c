#include <stdio.h>
void add(int); int still(void);
int main(void) {
#pragma omp parallel for
    for (int i = 0; i < 8; i++)
        add(still());
    return 0;
}
