/*
 * Adding snapshots and writing their matrix in C, with the structs and the numbers of the engine's header, so that a caller does
 * the same for either.
 */
#ifndef COVARIANCE_H
#define COVARIANCE_H

#include "hubqr_covariance.h"
#include "name.h"

/* The engine's interface: the sums go by value, in and out. */
struct hubqr_add_reply NAME(add_by_value)(struct hubqr_snapshot snapshot, struct hubqr_sums sums);
uint8_t NAME(write_by_value)(struct hubqr_sums sums, uint8_t *buffer, size_t buffer_len);

/* The sums stay where they are. Shared halves: each product of samples i and j serves elements (i, j) and (j, i). */
uint8_t NAME(add_in_place)(struct hubqr_sums *sums, struct hubqr_snapshot snapshot);
uint8_t NAME(add_shared_halves)(struct hubqr_sums *sums, struct hubqr_snapshot snapshot);
uint8_t NAME(write_in_place)(const struct hubqr_sums *sums, uint8_t *buffer, size_t buffer_len);

#endif
