// For scale: the 16 by 16 real factorization in double by Eigen, whose matrices store columns one after the other.
#include <Eigen/Dense>
#include <cstdint>

#include "double.h"

using Real = Eigen::Matrix<double, 16, 16>;

static Real loaded(const uint8_t *record)
{
    Real a;
    for (int i = 0; i < 8; i++) {
        for (int j = 0; j < 8; j++) {
            const uint8_t *element = record + 1 + 4 * (8 * i + j);
            double re = part(element);
            double im = part(element + 2);
            a(i, j) = re;
            a(i + 8, j + 8) = re;
            a(i + 8, j) = im;
            a(i, j + 8) = -im;
        }
    }
    return a;
}

// Q and R of a matrix record, each column by column. Answers 0: it cannot fail.
extern "C" int eigen_factor(const uint8_t *record, double *q, double *r)
{
    Eigen::HouseholderQR<Real> factors(loaded(record));
    Eigen::Map<Real> q_matrix(q), r_matrix(r);
    q_matrix = factors.householderQ();
    r_matrix = factors.matrixQR().triangularView<Eigen::Upper>();
    return 0;
}
