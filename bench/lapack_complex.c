/* For scale: the 8 by 8 complex factorization in double by LAPACK, as a program that has no need of exact bits would call it. */
#include <complex.h>
#include <stdint.h>
#include <string.h>

#include "double.h"

enum { N = 8, WORK = 64 * N };

typedef double complex element;

void zgeqrf_(const int *m, const int *n, element *a, const int *lda, element *tau, element *work, const int *lwork, int *info);
void zungqr_(const int *m, const int *n, const int *k, element *a, const int *lda, const element *tau, element *work,
             const int *lwork, int *info);

/* LAPACK stores columns one after the other. */
static void load(const uint8_t *record, element *a)
{
    for (int i = 0; i < N; i++) {
        for (int j = 0; j < N; j++) {
            const uint8_t *bytes = record + 1 + 4 * (N * i + j);
            a[N * j + i] = part(bytes) + part(bytes + 2) * I;
        }
    }
}

/* Q and R of a matrix record, each column by column. Answers 0, or LAPACK's error number. */
int lapack_complex_factor(const uint8_t *record, element *q, element *r)
{
    const int n = N, lwork = WORK;
    element tau[N], work[WORK];
    int info;
    load(record, q);
    zgeqrf_(&n, &n, q, &n, tau, work, &lwork, &info);
    if (info != 0) {
        return info;
    }
    memset(r, 0, N * N * sizeof *r);
    for (int j = 0; j < N; j++) {
        memcpy(r + N * j, q + N * j, (size_t)(j + 1) * sizeof *r);
    }
    zungqr_(&n, &n, &n, q, &n, tau, work, &lwork, &info);
    return info;
}
