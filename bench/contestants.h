// What the contestants share: each gets the words of two elements and writes the words of their product.
#include <stdint.h>

enum { L = 821, N = L - 1 };

typedef void times_fn(const uint16_t *x, const uint16_t *y, uint16_t *out);
