// The product by the schoolbook. The build sets MODULUS, SUM, the type of the sums, and TIMES, the name of the function.
// A sum of 16 bits may wrap: that is exact modulo 4096, and modulo 3 no sum reaches 2^16.
#include "contestants.h"

void TIMES(const uint16_t *x, const uint16_t *y, uint16_t *out) {
    SUM p[2 * N + 1] = {0};
    for (int i = 0; i < N; i++)
        for (int j = 0; j < N; j++)
            p[i + j] += (SUM)x[i] * y[j];
    SUM top = MODULUS - p[N] % MODULUS;
    for (int i = 0; i < N; i++)
        out[i] = ((SUM)(p[i] + p[i + L]) % MODULUS + top) % MODULUS;
}
