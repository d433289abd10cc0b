/* For scale: the 16 by 16 real factorization in double by LAPACK, which stores columns one after the other. */
#include <stdint.h>
#include <string.h>

#include "double.h"

enum { N = 16, WORK = 64 * N };

void dgeqrf_(const int *m, const int *n, double *a, const int *lda, double *tau, double *work, const int *lwork, int *info);
void dorgqr_(const int *m, const int *n, const int *k, double *a, const int *lda, const double *tau, double *work,
             const int *lwork, int *info);

static void load(const uint8_t *record, double *a)
{
    for (int i = 0; i < 8; i++) {
        for (int j = 0; j < 8; j++) {
            const uint8_t *element = record + 1 + 4 * (8 * i + j);
            double re = part(element);
            double im = part(element + 2);
            a[N * j + i] = re;
            a[N * (j + 8) + i + 8] = re;
            a[N * j + i + 8] = im;
            a[N * (j + 8) + i] = -im;
        }
    }
}

/* Q and R of a matrix record, each column by column. Answers 0, or LAPACK's error number. */
int lapack_factor(const uint8_t *record, double *q, double *r)
{
    const int n = N, lwork = WORK;
    double tau[N], work[WORK];
    int info;
    load(record, q);
    dgeqrf_(&n, &n, q, &n, tau, work, &lwork, &info);
    if (info != 0) {
        return info;
    }
    memset(r, 0, N * N * sizeof *r);
    for (int j = 0; j < N; j++) {
        memcpy(r + N * j, q + N * j, (size_t)(j + 1) * sizeof *r);
    }
    dorgqr_(&n, &n, &n, q, &n, tau, work, &lwork, &info);
    return info;
}
