/* Verify in C, with the structs and the numbers of the engine's header, so that a caller does the same for either. */
#ifndef VERIFY_H
#define VERIFY_H

#include "hubqr_verify.h"
#include "name.h"

struct hubqr_verdict NAME(verify)(const uint8_t *matrix, size_t matrix_len, const uint8_t *result, size_t result_len);

#endif
