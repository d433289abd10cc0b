/* The weights in C, with the structs and the numbers of the engine's header, so that a caller does the same for either. */
#ifndef WEIGHTS_H
#define WEIGHTS_H

#include "hubqr_weights.h"
#include "name.h"

struct hubqr_weights_reply NAME(weights)(const uint8_t *record, size_t record_len, struct hubqr_snapshot targets);

#endif
