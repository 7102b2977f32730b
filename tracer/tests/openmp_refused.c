/* Every line with the tag is refused, and no other. */
#include <omp.h>

static int a, b, row[8];

int main(void) {
    omp_event_handle_t event;
#pragma omp task detach(event) /* [refused] */
    b = 1;
#pragma omp target map(tofrom : a) /* [refused] */
    a = 2;
#pragma omp teams /* [refused] */
    a = 3;
    int depend = 1;
#ifndef __clang__
#pragma omp parallel for collapse(2) /* [refused] */
    for (int i = 0; i < 8; i++)
        for (int j = i; j < 8; j++)
            a = row[j];
#endif
#pragma omp parallel for collapse(2)
    for (int i = 0; i < 8; i++)
        for (int j = 0; j < 8; j++)
            a = row[j];
#pragma omp parallel allocate(a) private(a) /* [refused] */
    a = 4;
#pragma omp parallel for reduction(inscan, + : a) /* [refused] */
    for (int i = 0; i < 8; i++) {
        row[i] = a;
#pragma omp scan exclusive(a) /* [refused] */
        a += i;
    }
#pragma omp parallel
#pragma omp loop /* [refused] */
    for (int i = 0; i < 8; i++)
        row[i] = i;
#pragma omp parallel for ordered(1)
    for (int i = 1; i < 8; i++) {
#pragma omp ordered depend(sink : i - 1) /* [refused] */
        row[i] += row[i - 1];
#pragma omp ordered depend(source) /* [refused] */
    }
#pragma omp critical(target)
    depend++;
#pragma omp parallel for schedule(guided, 2) firstprivate(depend) if (depend > 0)
    for (int i = 0; i < 8; i++)
        row[i] = depend;
#pragma omp parallel for simd schedule(static)
    for (int i = 0; i < 8; i++)
        row[i] = i;
#pragma omp atomic write
    a = omp_get_level();
    return 0;
}
