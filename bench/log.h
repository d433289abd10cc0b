/* The log in C, with the structs and the numbers of the engine's header, so that a caller does the same for either. */
#ifndef LOG_H
#define LOG_H

#include "hubqr_log.h"
#include "name.h"

struct hubqr_log_reply NAME(log_add)(uint32_t kind, uint32_t day, const uint8_t *body, size_t body_len, size_t used,
                                     uint8_t *buffer, size_t buffer_len);
struct hubqr_log_reply NAME(log_sweep)(uint32_t day, size_t used, uint8_t *buffer, size_t buffer_len);
struct hubqr_log_entry NAME(log_next)(size_t at, size_t used, const uint8_t *buffer, size_t buffer_len);

#endif
