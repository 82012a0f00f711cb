/*
 * Where values came from, through the static library: a group in which every origin occurs. A line for each point has its code, its value in
 * the quarter hour, what remains of that after all shares, and its origin.
 */
#include <inttypes.h>
#include <stdio.h>
#include <stdlib.h>
#include <string.h>

#include "share.h"

static const char text[] =
    "G   2   6 0\n"
    "D 859182400220162071 0\n"
    "D 859182400220162088 0\n"
    "O 859182400220162095 0 1   1  2500\n"
    "O 859182400220162101 0 2   1  2000   2  2000\n"
    "O 859182400220162118 0 1   2  2500\n"
    "O 859182400220162125 1 1   1  1000\n"
    "O 859182400220162132 0 1   2  1000\n"
    "O 859182400220162149 2 1   1   500\n";

/* A submission, with the weeks before the day that is evaluated. */
struct submission {
    uint64_t code;
    uint64_t weeks;
    uint64_t quarter;
    int64_t value;
};

static const struct submission submissions[] = {
    {859182400220162071, 0, 49, 1200},
    {859182400220162088, 4, 49, 400},
    {859182400220162088, 3, 49, 410},
    {859182400220162088, 2, 49, 390},
    {859182400220162088, 1, 49, 401},
    {859182400220162095, 3, 49, -150},
    {859182400220162101, 4, 49, -400},
    {859182400220162101, 2, 49, -301},
    {859182400220162118, 3, 49, -101},
    {859182400220162118, 2, 49, -101},
    {859182400220162118, 1, 49, -100},
    {859182400220162125, 1, 49, -800},
    {859182400220162132, 1, 50, -700},
    {859182400220162149, 0, 49, -90},
};

/* How many submissions there are, and how many numbers a journal of them has. */
enum { SUBMISSIONS = sizeof submissions / sizeof submissions[0], JOURNAL = 3 * SUBMISSIONS };

/* What each origin means. */
static const char *const meanings[] = {
    [SHARE_MEASURED] = "measured: the quarter hour has a reading",
    [SHARE_MEAN_OF_ONE_WEEK] = "no reading: the reading of one earlier week",
    [SHARE_MEAN_OF_TWO_WEEKS] = "no reading: the mean of the readings of two earlier weeks",
    [SHARE_MEAN_OF_THREE_WEEKS] = "no reading: the mean of the readings of three earlier weeks",
    [SHARE_MEAN_OF_FOUR_WEEKS] = "no reading: the mean of the readings of four earlier weeks",
    [SHARE_ZERO_BY_STATUS] = "no reading: zero, since the point is not active",
    [SHARE_ZERO_FOR_LACK] = "no reading: zero, since none of the four earlier weeks has one",
};

/* Ends the program where a call was refused. */
static void need_accepted(uint64_t answer) {
    if (answer != SHARE_ACCEPTED) {
        fprintf(stderr, "refused: %" PRIu64 "\n", answer);
        exit(1);
    }
}

/* Adds each pair's share to the numbers of its producer and of its consumer, which stand by point, and gives the number of pairs. */
static size_t add_shares(const struct share_registration *group, const uint64_t *shares, uint64_t *shared) {
    size_t pair = 0;
    for (size_t consumer = 0; consumer < group->consumers; consumer++)
        for (size_t place = 5 * consumer; place < 5 * consumer + group->counts[consumer]; place++) {
            shared[group->sources[place] - 1] += shares[pair];
            shared[group->producers + consumer] += shares[pair];
            pair++;
        }
    return pair;
}

/* A line for each point. Its shares and what remains add up to its value. */
static void print_points(const struct share_registration *group, const uint64_t *result) {
    uint64_t shared[64] = {0};
    const uint64_t *withdrawals = result + add_shares(group, result, shared);
    const uint64_t *supplies = withdrawals + group->consumers;
    const uint64_t *origins = supplies + group->producers;
    for (size_t point = 0; point < group->producers + group->consumers; point++) {
        uint64_t remaining = point < group->producers ? supplies[point] : withdrawals[point - group->producers];
        printf("%" PRIu64 "%8" PRIu64 "%8" PRIu64 "  %s\n", group->codes[point], shared[point] + remaining, remaining,
               meanings[origins[point]]);
    }
}

int main(void) {
    struct share_read_answer read = share_read((const uint8_t *)text, strlen(text));
    need_accepted(read.answer);
    struct share_fresh_answer fresh = share_fresh(read.registration);
    need_accepted(fresh.answer);
    struct share_day_answer date = share_day(20240130);
    need_accepted(date.answer);
    struct share_service service = fresh.service;
    uint64_t journal[JOURNAL] = {0};
    for (size_t i = 0; i < SUBMISSIONS; i++) {
        struct submission s = submissions[i];
        struct share_measurement m = {.code = s.code, .day = date.day - 7 * s.weeks, .quarter = s.quarter, .value = s.value};
        need_accepted(share_submit(&service, journal, JOURNAL, 1000, m).answer);
    }
    uint64_t result[SHARE_RESULT_MOST];
    uint64_t until = service.state.last;
    need_accepted(share_evaluate(service, journal, JOURNAL, date.day, 49, until, result, SHARE_RESULT_MOST).answer);
    print_points(&service.registration, result);
    return 0;
}
