/*
 * Sizes and places of all structs in the headers, and the numbers of the roles, as the archive was compiled with them, for the
 * tests in C and in C++.
 */
#ifndef LAYOUT_H
#define LAYOUT_H

#include "hubqr.h"

#include <assert.h>

#define SIZE(type, bytes) static_assert(sizeof(struct type) == (bytes), "size of struct " #type)
#define PLACE(type, field, offset) static_assert(offsetof(struct type, field) == (offset), "place of " #type "." #field)

SIZE(hubqr_job, 8);
PLACE(hubqr_job, turn, 0);
PLACE(hubqr_job, made, 4);

SIZE(hubqr_load_reply, 12);
PLACE(hubqr_load_reply, number, 0);
PLACE(hubqr_load_reply, heard, 1);
PLACE(hubqr_load_reply, job, 4);

SIZE(hubqr_run_reply, 24);
PLACE(hubqr_run_reply, number, 0);
PLACE(hubqr_run_reply, job, 4);
PLACE(hubqr_run_reply, count, 12);
PLACE(hubqr_run_reply, clamps_r, 16);
PLACE(hubqr_run_reply, clamps_q, 20);

SIZE(hubqr_read_reply, 12);
PLACE(hubqr_read_reply, number, 0);
PLACE(hubqr_read_reply, job, 4);

SIZE(hubqr_whole_reply, 12);
PLACE(hubqr_whole_reply, number, 0);
PLACE(hubqr_whole_reply, heard, 1);
PLACE(hubqr_whole_reply, clamps_r, 4);
PLACE(hubqr_whole_reply, clamps_q, 8);

SIZE(hubqr_sample, 4);
PLACE(hubqr_sample, re, 0);
PLACE(hubqr_sample, im, 2);

SIZE(hubqr_snapshot, 32);
PLACE(hubqr_snapshot, samples, 0);

SIZE(hubqr_sums, 1032);
PLACE(hubqr_sums, count, 0);
PLACE(hubqr_sums, words, 8);

SIZE(hubqr_add_reply, 1040);
PLACE(hubqr_add_reply, number, 0);
PLACE(hubqr_add_reply, sums, 8);

SIZE(hubqr_weight, 16);
PLACE(hubqr_weight, re, 0);
PLACE(hubqr_weight, im, 8);

SIZE(hubqr_weights_reply, 136);
PLACE(hubqr_weights_reply, number, 0);
PLACE(hubqr_weights_reply, weights, 8);

SIZE(hubqr_verdict, 2);
PLACE(hubqr_verdict, number, 0);
PLACE(hubqr_verdict, yes, 1);

static_assert(HUBQR_VIEWER == 0, "the viewer's number");
static_assert(HUBQR_FITTER == 1, "the fitter's number");
static_assert(HUBQR_OPERATOR == 2, "the operator's number");
static_assert(HUBQR_NOT_ALLOWED == 15, "the number of a call that is not allowed to a role");

SIZE(hubqr_desk, 2168);
PLACE(hubqr_desk, jobs, 0);
PLACE(hubqr_desk, heard, 64);
PLACE(hubqr_desk, shares, 72);
PLACE(hubqr_desk, left, 88);
PLACE(hubqr_desk, waits, 104);
PLACE(hubqr_desk, records, 112);
static_assert(112 + sizeof(((struct hubqr_desk *)0)->records) == sizeof(struct hubqr_desk), "no byte behind the records");

SIZE(hubqr_desk_reply, 2172);
PLACE(hubqr_desk_reply, desk, 0);
PLACE(hubqr_desk_reply, number, 2168);

SIZE(hubqr_shares, 16);
PLACE(hubqr_shares, shares, 0);

SIZE(hubqr_desk_load_reply, 2180);
PLACE(hubqr_desk_load_reply, desk, 0);
PLACE(hubqr_desk_load_reply, number, 2168);
PLACE(hubqr_desk_load_reply, heard, 2169);
PLACE(hubqr_desk_load_reply, job, 2172);

SIZE(hubqr_desk_run_reply, 2192);
PLACE(hubqr_desk_run_reply, desk, 0);
PLACE(hubqr_desk_run_reply, number, 2168);
PLACE(hubqr_desk_run_reply, job, 2172);
PLACE(hubqr_desk_run_reply, count, 2180);
PLACE(hubqr_desk_run_reply, clamps_r, 2184);
PLACE(hubqr_desk_run_reply, clamps_q, 2188);

SIZE(hubqr_desk_heard_reply, 2172);
PLACE(hubqr_desk_heard_reply, desk, 0);
PLACE(hubqr_desk_heard_reply, number, 2168);
PLACE(hubqr_desk_heard_reply, heard, 2169);

SIZE(hubqr_log_reply, 16);
PLACE(hubqr_log_reply, number, 0);
PLACE(hubqr_log_reply, used, 8);

SIZE(hubqr_log_entry, 40);
PLACE(hubqr_log_entry, number, 0);
PLACE(hubqr_log_entry, kind, 4);
PLACE(hubqr_log_entry, day, 8);
PLACE(hubqr_log_entry, body, 16);
PLACE(hubqr_log_entry, body_len, 24);
PLACE(hubqr_log_entry, next, 32);

#endif
