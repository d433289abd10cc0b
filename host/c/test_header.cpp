// Shows that hubqr.h and what it includes are C++ headers too: they compile as C++17 and their functions link by their C names.
#include "hubqr.h"
#include "layout.h"

#include <algorithm>
#include <array>
#include <cstdio>
#include <cstring>
#include <string_view>
#include <utility>

static_assert(HUBQR_R_ONE == 32768 * 8192, "one in Q1.15, times 2^13");
static_assert(HUBQR_Q_ONE == 1 << 30, "one in Q");

static std::array<uint8_t, HUBQR_MATRIX_RECORD_BYTES> record{HUBQR_KIND_MATRIX};
static std::array<int32_t, HUBQR_AREA_WORDS> area;
static std::array<uint8_t, HUBQR_RESULT_RECORD_BYTES> buffer;

static bool is_job(hubqr_job job, uint32_t turn, uint32_t made)
{
    return job.turn == turn && job.made == made;
}

static bool accepted()
{
    record[2] = HUBQR_HEARD_ABOVE + 1; // the real part of element (0, 0), which is enough for antenna 0 to be heard
    auto factored = hubqr_whole(record.data(), record.size(), area.data(), area.size(), buffer.data(), buffer.size());
    auto restored = hubqr_read(buffer.data(), buffer.size(), area.data(), area.size());
    auto ran = hubqr_run(restored.job, 1, area.data(), area.size());
    bool unclamped = factored.clamps_r == 0 && factored.clamps_q == 0 && ran.clamps_r == 0 && ran.clamps_q == 0;
    return factored.number == HUBQR_ACCEPTED && factored.heard == 1 && restored.number == HUBQR_ACCEPTED &&
           is_job(restored.job, 120, 0) && ran.number == HUBQR_ACCEPTED && is_job(ran.job, 120, 0) && ran.count == 0 && unclamped;
}

// The matrix has nothing but (17, 0) at (0, 0), so that no turn is made, in two instalments that hand the job on.
static bool in_instalments()
{
    auto loaded = hubqr_load(record.data(), record.size(), area.data(), area.size());
    hubqr_job job = loaded.job;
    bool begun = loaded.number == HUBQR_ACCEPTED && is_job(job, 0, 0);
    uint32_t count = 0;
    while (job.turn < HUBQR_TURNS) {
        auto ran = hubqr_run(job, 60, area.data(), area.size());
        if (ran.number != HUBQR_ACCEPTED) {
            return false;
        }
        count += ran.count;
        job = ran.job;
    }
    auto fetched = hubqr_fetch(job, area.data(), area.size(), buffer.data(), buffer.size());
    return begun && count == 120 && is_job(job, 120, 0) && fetched == HUBQR_ACCEPTED;
}

// Words as large as they can be in the last column, which holds Q, are cut once.
static bool clamped()
{
    area.fill(1000);
    area[HUBQR_AREA_COLUMNS * 14 + 31] = area[HUBQR_AREA_COLUMNS * 15 + 31] = INT32_MAX;
    auto ran = hubqr_run({119, 7}, 1, area.data(), area.size());
    return ran.number == HUBQR_ACCEPTED && is_job(ran.job, 120, 8) && ran.count == 1 && ran.clamps_r == 0 && ran.clamps_q == 1;
}

static bool refused()
{
    auto loaded = hubqr_load(nullptr, 0, area.data(), area.size());
    auto fetched = hubqr_fetch({120, 0}, area.data(), area.size(), buffer.data(), 0);
    hubqr_job job{5, 6};
    auto ran = hubqr_run_at(&job, 1, area.data(), area.size());
    record[2] = HUBQR_HEARD_ABOVE;
    auto unheard = hubqr_load(record.data(), record.size(), area.data(), area.size());
    return loaded.number == HUBQR_WRONG_KIND && fetched == HUBQR_BUFFER_TOO_SHORT && ran.number == HUBQR_NO_SUCH_JOB &&
           is_job(ran.job, 5, 6) && is_job(job, 5, 6) && unheard.number == HUBQR_NONE_HEARD;
}

// 1 + 2i times the conjugate of 3 + 4i is 11 + 2i; the samples are 256 times that. The diagonal has 5 and 25, so that antenna 1
// alone is heard.
static bool covariance()
{
    hubqr_snapshot snapshot{};
    snapshot.samples[0] = {256, 512};
    snapshot.samples[1] = {768, 1024};
    hubqr_sums sums = hubqr_sums_none();
    bool none = hubqr_write_matrix(sums, record.data(), record.size()) == HUBQR_NONE_ADDED;
    auto added = hubqr_add_snapshot(snapshot, sums);
    bool by_pointer = hubqr_add_snapshot_at(&sums, snapshot) == HUBQR_ACCEPTED;
    bool same = sums.count == 1 && std::equal(sums.words, sums.words + HUBQR_SUM_WORDS, added.sums.words);
    bool written = hubqr_write_matrix_at(&sums, record.data(), record.size()) == HUBQR_ACCEPTED;
    auto loaded = hubqr_load(record.data(), record.size(), area.data(), area.size());
    return none && added.number == HUBQR_ACCEPTED && added.sums.count == 1 && by_pointer && same && written && record[6] == 11 &&
           record[8] == 2 && loaded.number == HUBQR_ACCEPTED && loaded.heard == 2;
}

// With 3 on R's diagonal and one on Q's, a target part of 1 makes 8192 / 3 of the same part of a weight.
static bool weighted()
{
    buffer.fill(0);
    buffer[0] = HUBQR_KIND_RESULT;
    for (int n = 0; n < 16; n++) {
        buffer[4 + 4 * 17 * n] = 3;
        buffer[1 + 4 * (256 + 17 * n)] = 0x40;
    }
    hubqr_snapshot targets{};
    targets.samples[2] = {0, 1};
    auto reply = hubqr_weights(buffer.data(), buffer.size(), targets);
    buffer[4] = 0;
    auto zero = hubqr_weights(buffer.data(), buffer.size(), targets);
    return reply.number == HUBQR_ACCEPTED && reply.weights[2].re == 0 && reply.weights[2].im == 8192.0 / 3 &&
           zero.number == HUBQR_ZERO_DIAGONAL && zero.weights[2].im == 0;
}

// The matrix has nothing but one half at (0, 0). What Whole writes gets yes. R(0, 0) that is 8 steps too large gets no, and the
// matrix in the place of the result is refused.
static bool verified()
{
    record.fill(0);
    record[0] = HUBQR_KIND_MATRIX;
    record[1] = 0x40;
    auto factored = hubqr_whole(record.data(), record.size(), area.data(), area.size(), buffer.data(), buffer.size());
    auto right = hubqr_verify(record.data(), record.size(), buffer.data(), buffer.size());
    buffer[2] ^= 1; // R(0, 0) is 2^27 + 2^16
    auto wrong = hubqr_verify(record.data(), record.size(), buffer.data(), buffer.size());
    auto same = hubqr_verify(record.data(), record.size(), record.data(), record.size());
    auto none = hubqr_verify(record.data(), record.size(), nullptr, 0);
    return factored.number == HUBQR_ACCEPTED && right.number == HUBQR_ACCEPTED && right.yes == 1 &&
           wrong.number == HUBQR_ACCEPTED && wrong.yes == 0 && same.number == HUBQR_WRONG_KIND && same.yes == 0 &&
           none.number == HUBQR_WRONG_KIND && none.yes == 0;
}

// A sector works through rounds by its share. The matrix has nothing but (17, 0) at (0, 0), so that its turns are skipped, and
// paid.
static bool served()
{
    record.fill(0);
    record[0] = HUBQR_KIND_MATRIX;
    record[2] = HUBQR_HEARD_ABOVE + 1;
    hubqr_desk desk = hubqr_desk_new();
    auto loaded = hubqr_desk_hand_in(HUBQR_OPERATOR, desk, 7, record.data(), record.size(), area.data(), area.size());
    desk = loaded.desk;
    bool begun = loaded.number == HUBQR_ACCEPTED && loaded.heard == 1 && is_job(loaded.job, 0, 0) && desk.left[7] == 15;
    auto ran = hubqr_desk_run(HUBQR_OPERATOR, desk, 7, 10, area.data(), area.size());
    desk = ran.desk;
    bool granted = ran.number == HUBQR_ACCEPTED && ran.count == 10 && is_job(desk.jobs[7], 10, 0) && desk.left[7] == 5;
    auto number = hubqr_desk_set_shares_at(HUBQR_OPERATOR, &desk, {{0, 0, 0, 0, 0, 0, 0, 120}});
    bool shared = number == HUBQR_ACCEPTED && desk.left[7] == 5;
    bool next = hubqr_desk_begin_at(HUBQR_OPERATOR, &desk) == HUBQR_ACCEPTED && desk.left[7] == 120 && desk.left[6] == 0;
    auto rest = hubqr_desk_run_at(HUBQR_OPERATOR, &desk, 7, 120, area.data(), area.size());
    bool finished = rest.number == HUBQR_ACCEPTED && rest.count == 110 && desk.left[7] == 10;
    auto fetched = hubqr_desk_fetch(HUBQR_OPERATOR, desk, 7, area.data(), area.size(), buffer.data(), buffer.size());
    auto cut = hubqr_desk_fetch_at(HUBQR_OPERATOR, &desk, 7, area.data(), area.size(), buffer.data(), 0);
    return begun && granted && shared && next && finished && fetched.number == HUBQR_ACCEPTED && buffer[0] == HUBQR_KIND_RESULT &&
           cut == HUBQR_BUFFER_TOO_SHORT;
}

// The next matrix of sector 2 is handed in when no turn of the first is made. It waits; a Fetch that is refused for its short
// buffer brings nothing in, nor does a fitter's, and it is loaded when the operator fetches the first. Its antenna is 1, and that
// of the first is 0.
static bool early()
{
    auto next = record;
    std::swap(next[2], next[2 + 4 * 9]);
    hubqr_desk desk = hubqr_desk_new();
    auto loaded = hubqr_desk_hand_in_at(HUBQR_OPERATOR, &desk, 2, record.data(), record.size(), area.data(), area.size());
    auto kept = hubqr_desk_hand_in(HUBQR_OPERATOR, desk, 2, next.data(), next.size(), area.data(), area.size());
    auto waits = hubqr_desk_hand_in_at(HUBQR_OPERATOR, &desk, 2, next.data(), next.size(), area.data(), area.size());
    bool waiting = loaded.desk.waits[2] == 0 && kept.desk.waits[2] == 1 && waits.heard == 1 && desk.waits[2] == 1 &&
                   std::equal(next.begin(), next.end(), desk.records + 2 * HUBQR_MATRIX_RECORD_BYTES);
    desk.left[2] = 120;
    bool ran = hubqr_desk_run_at(HUBQR_OPERATOR, &desk, 2, 120, area.data(), area.size()).count == 120;
    auto cut = hubqr_desk_fetch(HUBQR_OPERATOR, desk, 2, area.data(), area.size(), buffer.data(), 2048);
    bool refused = cut.number == HUBQR_BUFFER_TOO_SHORT && cut.desk.waits[2] == 1 && cut.desk.jobs[2].turn == HUBQR_TURNS;
    auto words = area;
    buffer.fill(0);
    auto seen = hubqr_desk_fetch_at(HUBQR_FITTER, &desk, 2, area.data(), area.size(), buffer.data(), buffer.size());
    bool left = seen == HUBQR_ACCEPTED && buffer[0] == HUBQR_KIND_RESULT && desk.waits[2] == 1 && area == words;
    auto result = buffer;
    auto fetched = hubqr_desk_fetch_at(HUBQR_OPERATOR, &desk, 2, area.data(), area.size(), buffer.data(), buffer.size());
    bool brought_in = desk.waits[2] == 0 && desk.heard[2] == 2 && is_job(desk.jobs[2], 0, 0) && desk.left[2] == 0;
    return waiting && ran && refused && left && fetched == HUBQR_ACCEPTED && buffer == result && brought_in &&
           area[HUBQR_AREA_COLUMNS + 1] == 17 * 8192;
}

// The count of sector 0, which is loaded then, is used up until the next round begins; and there is no sector 256.
static bool turned_away()
{
    hubqr_desk desk = hubqr_desk_begin(HUBQR_OPERATOR, hubqr_desk_new()).desk;
    desk.left[0] = 0;
    auto loaded = hubqr_desk_hand_in_at(HUBQR_OPERATOR, &desk, 0, record.data(), record.size(), area.data(), area.size());
    auto ran = hubqr_desk_run_at(HUBQR_OPERATOR, &desk, 0, 1, area.data(), area.size());
    bool used_up = ran.number == HUBQR_COUNT_USED_UP && is_job(ran.job, 0, 0) && ran.count == 0 && desk.left[0] == 0;
    bool next = hubqr_desk_begin_at(HUBQR_OPERATOR, &desk) == HUBQR_ACCEPTED && desk.left[0] == HUBQR_FIRST_SHARE;
    auto heard = hubqr_desk_heard(HUBQR_OPERATOR, desk, 0), none = hubqr_desk_heard_at(HUBQR_OPERATOR, &desk, 256);
    return loaded.number == HUBQR_ACCEPTED && used_up && next && heard.number == HUBQR_ACCEPTED && heard.heard == 1 &&
           none.number == HUBQR_NO_SUCH_SECTOR && none.heard == 0;
}

// 121 turns are no shares of a round, however they are dealt out, and 120 are.
static bool shared_out()
{
    hubqr_shares shares{{15, 15, 15, 15, 15, 15, 15, 16}};
    hubqr_desk desk = hubqr_desk_new();
    auto refused = hubqr_desk_set_shares(HUBQR_OPERATOR, desk, shares);
    bool by_pointer = hubqr_desk_set_shares_at(HUBQR_OPERATOR, &desk, shares) == HUBQR_SHARES_EXCEED_ROUND;
    bool kept = desk.shares[7] == HUBQR_FIRST_SHARE && refused.desk.shares[7] == HUBQR_FIRST_SHARE;
    shares.shares[0] = 14;
    auto accepted = hubqr_desk_set_shares(HUBQR_OPERATOR, desk, shares);
    bool set = std::equal(shares.shares, shares.shares + HUBQR_SECTORS, accepted.desk.shares);
    return refused.number == HUBQR_SHARES_EXCEED_ROUND && by_pointer && kept && accepted.number == HUBQR_ACCEPTED && set &&
           accepted.desk.left[0] == 15 && hubqr_desk_begin(HUBQR_OPERATOR, accepted.desk).desk.left[0] == 14;
}

// Who may make which call, of a role or a number that is none, for sector 3, where a result is finished, and for sector 8, by
// value and by pointer. The desk is the same after each call that is refused, and all other fields are 0.
static bool allowed(uint32_t role, bool heard, bool fetch, bool others)
{
    hubqr_desk desk = hubqr_desk_new();
    desk.heard[3] = 0x55;
    area.fill(0);
    auto kept = [before = desk](const hubqr_desk &after) { return std::memcmp(&before, &after, sizeof before) == 0; };
    auto is = [](bool may, int number, int otherwise) { return number == (may ? otherwise : int{HUBQR_NOT_ALLOWED}); };
    auto asked = hubqr_desk_heard(role, desk, 3), nowhere = hubqr_desk_heard_at(role, &desk, 8);
    bool seen = is(heard, asked.number, HUBQR_ACCEPTED) && asked.heard == (heard ? 0x55 : 0) && kept(asked.desk) &&
                is(heard, nowhere.number, HUBQR_NO_SUCH_SECTOR) && nowhere.heard == 0 && kept(nowhere.desk);
    auto fetched = hubqr_desk_fetch(role, desk, 3, area.data(), area.size(), buffer.data(), buffer.size());
    auto unfetched = hubqr_desk_fetch_at(role, &desk, 8, nullptr, 0, nullptr, 0);
    bool read = is(fetch, fetched.number, HUBQR_ACCEPTED) && kept(fetched.desk) && is(fetch, unfetched, HUBQR_NO_SUCH_SECTOR);
    auto handed_in = hubqr_desk_hand_in(role, desk, 8, record.data(), record.size(), area.data(), area.size());
    auto ran = hubqr_desk_run_at(role, &desk, 3, 15, nullptr, 0);
    bool worked = is(others, handed_in.number, HUBQR_NO_SUCH_SECTOR) && kept(handed_in.desk) && handed_in.heard == 0 &&
                  is(others, ran.number, HUBQR_AREA_TOO_SHORT) && kept(ran.desk) && is_job(ran.job, 0, 0) && ran.count == 0;
    auto begun = hubqr_desk_begin(role, desk);
    auto shared = hubqr_desk_set_shares_at(role, &desk, {{121}});
    return seen && read && worked && is(others, begun.number, HUBQR_ACCEPTED) && kept(begun.desk) &&
           is(others, shared, HUBQR_SHARES_EXCEED_ROUND) && kept(desk);
}

// A role is an enumerator, and any other number of 32 bits is none.
static bool by_role()
{
    bool none = true;
    for (uint32_t role : {3u, 255u, 256u, 257u, 258u, 65538u, UINT32_MAX}) {
        none = none && allowed(role, false, false, false);
    }
    return none && allowed(HUBQR_VIEWER, true, false, false) && allowed(HUBQR_FITTER, true, true, false) &&
           allowed(HUBQR_OPERATOR, true, true, true);
}

// A heard byte of day 100 and a result of day 184 in a local buffer that nothing was written to. A second result does not fit,
// the heard byte is swept on day 190, and what is left behind stands behind the used bytes.
static bool logged()
{
    std::array<uint8_t, HUBQR_LOG_RESULT_BYTES + HUBQR_LOG_HEARD_BYTES> log;
    uint8_t heard = 0x42;
    size_t used = 0;
    auto none = hubqr_log_sweep(100, used, log.data(), log.size());
    auto first = hubqr_log_add(HUBQR_LOG_HEARD, 100, &heard, 1, used, log.data(), log.size());
    bool begun = none.number == HUBQR_ACCEPTED && none.used == 0 && first.number == HUBQR_ACCEPTED && first.used == 6;
    used = first.used;
    auto added = hubqr_log_add_at(HUBQR_LOG_RESULT, 184, buffer.data(), buffer.size(), &used, log.data(), log.size());
    auto full = hubqr_log_add_at(HUBQR_LOG_RESULT, 184, buffer.data(), buffer.size(), &used, log.data(), log.size());
    bool kept = added == HUBQR_ACCEPTED && full == HUBQR_NO_ROOM && used == log.size();
    auto early = hubqr_log_sweep(189, used, log.data(), log.size());
    auto swept = hubqr_log_sweep_at(190, &used, log.data(), log.size());
    bool closed = early.used == log.size() && swept == HUBQR_ACCEPTED && used == HUBQR_LOG_RESULT_BYTES;
    auto entry = hubqr_log_next(0, used, log.data(), log.size()), end = hubqr_log_next(entry.next, used, log.data(), log.size());
    return begun && kept && closed && entry.kind == HUBQR_LOG_RESULT && entry.day == 184 && entry.body_len == buffer.size() &&
           std::equal(buffer.begin(), buffer.end(), log.data() + entry.body) && end.kind == 0 && end.next == used &&
           std::equal(buffer.end() - HUBQR_LOG_HEARD_BYTES, buffer.end(), log.end() - HUBQR_LOG_HEARD_BYTES);
}

// 16 first, then 1, 2 and 17; a refusal answers a used count of 0, and by pointer leaves it as it is.
static bool unlogged()
{
    std::array<uint8_t, HUBQR_LOG_HEARD_BYTES> log{HUBQR_LOG_REFUSAL, 0, 0, 0x4e, 0x20, HUBQR_NONE_HEARD};
    auto before = log;
    auto is = [&](uint32_t kind, size_t length, size_t used, int number) {
        size_t kept = used;
        auto reply = hubqr_log_add(kind, 20000, buffer.data(), length, used, log.data(), log.size());
        auto by_pointer = hubqr_log_add_at(kind, 20000, buffer.data(), length, &kept, log.data(), log.size());
        return reply.number == number && reply.used == 0 && by_pointer == number && kept == used;
    };
    size_t cut = 5;
    auto swept = hubqr_log_sweep(20000, cut, log.data(), log.size());
    bool broken = swept.number == HUBQR_BROKEN_LOG && swept.used == 0 && is(0, 0, cut, HUBQR_BROKEN_LOG) &&
                  hubqr_log_sweep_at(20000, &cut, log.data(), log.size()) == HUBQR_BROKEN_LOG && cut == 5 &&
                  hubqr_log_next(0, cut, log.data(), log.size()).number == HUBQR_BROKEN_LOG;
    return broken && is(261, 0, 6, HUBQR_WRONG_KIND) && is(5, 2048, 6, HUBQR_WRONG_LENGTH) && is(7, 1, 6, HUBQR_NO_ROOM) &&
           hubqr_log_sweep(0, 0, nullptr, 0).number == HUBQR_ACCEPTED && log == before;
}

int main()
{
    bool named = hubqr_version() == HUBQR_VERSION && hubqr_refusal_words(HUBQR_ACCEPTED) == std::string_view("accepted");
    bool calls = accepted() && in_instalments() && clamped() && refused() && covariance() && weighted() && verified();
    bool desk = served() && early() && turned_away() && shared_out() && by_role();
    bool holds = calls && desk && logged() && unlogged() && named;
    std::puts(holds ? "hubqr C++ face: passed" : "hubqr C++ face: FAILED");
    return holds ? 0 : 1;
}
