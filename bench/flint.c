// The product by FLINT's nmod_poly_mul. The build sets MODULUS and TIMES, the name of the function.
#include "contestants.h"
#include <flint/nmod_poly.h>

static void set(nmod_poly_t poly, const uint16_t *words) {
    for (int i = 0; i < N; i++)
        poly->coeffs[i] = words[i];
    poly->length = N;
    _nmod_poly_normalise(poly);
}

void TIMES(const uint16_t *x, const uint16_t *y, uint16_t *out) {
    // Made by the first call, so that no timed call pays for them.
    static nmod_poly_t f, g, product;
    static int made;
    if (!made) {
        nmod_poly_init2(f, MODULUS, N);
        nmod_poly_init2(g, MODULUS, N);
        nmod_poly_init2(product, MODULUS, 2 * N + 1);
        made = 1;
    }
    set(f, x);
    set(g, y);
    nmod_poly_mul(product, f, g);
    mp_limb_t *p = product->coeffs;
    for (slong i = product->length; i < 2 * N + 1; i++)
        p[i] = 0;
    mp_limb_t top = MODULUS - p[N];
    for (int i = 0; i < N; i++)
        out[i] = (p[i] + p[i + L] + top) % MODULUS;
}
