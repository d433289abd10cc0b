/*
 * The desk in C, with the structs and the numbers of the engine's header, so that a caller does the same for either. It serves a
 * sector by the engine's own Load, Run and Fetch, so that nothing but the desk is compared. What waits is loaded so too: unlike
 * the engine's desk, this one drops a record that was made up and that Load refuses.
 */
#ifndef DESK_H
#define DESK_H

#include "hubqr.h"
#include "name.h"

struct hubqr_desk_reply NAME(desk_begin)(uint32_t role, struct hubqr_desk desk);
struct hubqr_desk_reply NAME(desk_set_shares)(uint32_t role, struct hubqr_desk desk, struct hubqr_shares shares);
struct hubqr_desk_load_reply NAME(desk_hand_in)(uint32_t role, struct hubqr_desk desk, uint32_t sector, const uint8_t *record,
                                                size_t record_len, int32_t *area, size_t area_len);
struct hubqr_desk_run_reply NAME(desk_run)(uint32_t role, struct hubqr_desk desk, uint32_t sector, uint16_t request,
                                           int32_t *area, size_t area_len);
struct hubqr_desk_reply NAME(desk_fetch)(uint32_t role, struct hubqr_desk desk, uint32_t sector, int32_t *area,
                                         size_t area_len, uint8_t *buffer, size_t buffer_len);

#endif
