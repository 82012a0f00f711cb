/*
 * The proved server for electricity sharing by quarter hours, as a static library for C (x86-64).
 *
 *     cd crates/share_c && rt lib                   writes crates/share_c/out/libshare_c.a
 *     cc program.c -I crates/share_c crates/share_c/out/libshare_c.a
 *
 * Every call is total: it takes any numbers and any contents, ends, and refuses what it cannot do. The library has no memory of its own: it
 * allocates nothing, keeps no pointer, and has no global variable. The caller owns record, journal, text, buffer and result list, lends them
 * for the length of a call, and gets them back when it returns. Calls on different records and journals may run at the same time on
 * different threads; calls on one record and its journal must not. A clear needs about 160 KB of stack, every other call less than 50 KB.
 *
 * What the caller must see to, since no call can look: a pointer is not NULL, is aligned for its type, and has behind it as many elements as
 * the length beside it says; a length of 0 needs a pointer that is not NULL too, as that of an array. What is lent for writing
 * overlaps nothing else that is lent to the same call. Nothing but the calls writes a record and its journal, which belong together.
 *
 * Numbers: energy is in hundredths of a kWh; a stamp is a number from 1 to 999999999999 that rises with each reading stored; days count
 * from 1 January 2024, which is day 0, to 31 December 2099, which is day 27758; the quarter hours of a day count from 1 to 92, 96 or 100.
 */
#ifndef SHARE_H
#define SHARE_H

#include <stddef.h>
#include <stdint.h>

#ifdef __cplusplus
extern "C" {
#endif

/*
 * Answers. Every answer has a first number, `answer`: 0 where the call was accepted, else one of these. A refused call gives zeros beside
 * it and alters no record, journal, result list or buffer.
 */
enum {
    SHARE_ACCEPTED = 0,
    SHARE_NOT_IN_COLUMNS = 1,             /* a line is not in its columns, is missing, or is one too many */
    SHARE_CODE_FALSE = 2,                 /* a code has not 18 digits, begins with 0, or has a false check digit */
    SHARE_COUNT_OUTSIDE = 3,              /* no producer, no consumer, more than 64 points, or a consumer that names none or more than 5 producers */
    SHARE_CODE_TWICE = 4,                 /* a code stands twice in the group */
    SHARE_STATUS_OR_ITERATION_ABOVE = 5,  /* a status above 3 or an iteration above 1 */
    SHARE_PRODUCER_OR_KEY_WRONG = 6,      /* a producer's number is unknown or twice on one line, or a key is outside 1 to 10000 */
    SHARE_KEYS_ABOVE = 7,                 /* a producer's keys sum to more than 10000 */
    SHARE_CODE_NOT_IN_GROUP = 8,          /* the code is not one of the group's */
    SHARE_NO_SUCH_DAY = 9,                /* there is no such date, day or changeover day, or the day has no such quarter */
    SHARE_VALUE_WRONG = 10,               /* a negative value for a producer, a positive one for a consumer, or one above 99999999 in size */
    SHARE_DAY_CLEARED = 11,               /* the day is cleared, or one of the four weeks before an evaluated day may be */
    SHARE_STAMP_OUTSIDE = 12,             /* the stamp of an evaluation or of a clear is below the kept stamp or above the last one */
    SHARE_CLOCK_OUTSIDE = 13,             /* the clock is above 999999999999, or the last stamp is that */
    SHARE_JOURNAL_FULL = 14,              /* a new entry is needed and fewer than three numbers of the journal are left */
    SHARE_DAMAGED = 15,                   /* the registration, the record or the journal breaks a rule */
    SHARE_TOO_SHORT = 16                  /* the result list or the buffer is too short */
};

/*
 * Origins. The last numbers of a result say of each point where its value in the quarter hour came from, by one of these. Readings up to
 * the evaluation's stamp count, and one of 0 is a reading; an earlier week's reading is that of the quarter hour 7, 14, 21 or 28 days
 * before that starts at the same time by the wall clock: the first of the two where clocks went back on that day and the time came
 * twice; there is none where they went forward and the time was left out.
 */
enum {
    /* The quarter hour has a reading, which is the value, whatever the point's status. */
    SHARE_MEASURED = 0,
    /* The quarter hour has no reading; the value is the reading of one earlier week. */
    SHARE_MEAN_OF_ONE_WEEK = 1,
    /* The quarter hour has no reading; the value is the mean of the readings of two earlier weeks. */
    SHARE_MEAN_OF_TWO_WEEKS = 2,
    /* The quarter hour has no reading; the value is the mean of the readings of three earlier weeks. */
    SHARE_MEAN_OF_THREE_WEEKS = 3,
    /* The quarter hour has no reading; the value is the mean of the readings of four earlier weeks. */
    SHARE_MEAN_OF_FOUR_WEEKS = 4,
    /* The quarter hour has no reading, and the point's status is above 0; the value is zero, whatever the earlier weeks have. */
    SHARE_ZERO_BY_STATUS = 5,
    /* The quarter hour has no reading, the point's status is 0, and no earlier week has a reading; the value is zero. */
    SHARE_ZERO_FOR_LACK = 6
};

/*
 * SHARE_TEXT_MOST bytes hold the text of every registration. SHARE_RESULT_MOST numbers hold every result; that no undamaged registration needs more is
 * proved in crates/evaluation.
 */
#define SHARE_TEXT_MOST 4552
#define SHARE_RESULT_MOST 423

/* How many entries the table of changeover days has: two for each year from 2024 to 2099. */
#define SHARE_CHANGEOVER_COUNT 152

/*
 * A group. Points stand from 0, producers first; `codes` and `statuses` are by point, `counts` by consumer. The producers that consumer c
 * names stand, in falling priority, from place 5 * c on: in `sources` by their numbers, counted from 1, and in `keys` with their keys in
 * hundredths of a percent. A status is 0 active, 1 inactive, 2 suspended, 3 without meter. What is not used is 0.
 */
struct share_registration {
    size_t producers;
    size_t consumers;
    uint8_t iteration;
    uint64_t codes[64];
    uint8_t statuses[64];
    uint8_t counts[64];
    uint8_t sources[320];
    uint16_t keys[320];
};

/* What is kept of a group beside its registration: the kept stamp and the kept day of the last clear, how many entries the journal has. */
struct share_numbers {
    uint64_t kept_stamp;
    uint64_t kept_day;
    size_t entries;
};

/* What changes of a record: the last stamp given, and the group's numbers. */
struct share_state {
    uint64_t last;
    struct share_numbers numbers;
};

/* The record of a service: made by share_fresh, altered by share_submit and share_clear. It may be copied and stored as it is. */
struct share_service {
    struct share_registration registration;
    struct share_state state;
};

/* What a submission brings: the code of a point, a day and its quarter, and the value, positive for a supply and negative for a withdrawal. */
struct share_measurement {
    uint64_t code;
    uint64_t day;
    uint64_t quarter;
    int64_t value;
};

/* The answers: first the number of the answer, then what the call gives, zeros where it is refused. */
struct share_read_answer {
    uint64_t answer;
    struct share_registration registration;
};
struct share_write_answer {
    uint64_t answer;
    size_t bytes;
};
struct share_fresh_answer {
    uint64_t answer;
    struct share_service service;
};
struct share_submit_answer {
    uint64_t answer;
    uint64_t stamp;
};
struct share_clear_answer {
    uint64_t answer;
    size_t dropped;
};
struct share_evaluate_answer {
    uint64_t answer;
    size_t rounds;
};
struct share_day_answer {
    uint64_t answer;
    uint64_t day;
};

/*
 * Reads a registration from its text of G, D and O lines. Refused by 1 to 7; lines are tested in turn, and then the group as a whole.
 */
struct share_read_answer share_read(const uint8_t *text, size_t text_length);

/*
 * Writes the text of a registration to the front of a buffer and gives the number of its bytes; later bytes stay. Refused by 15, 16, in this
 * order. What is written is read back equal.
 */
struct share_write_answer share_write(struct share_registration registration, uint8_t *out, size_t out_length);

/*
 * A service made from a registration alone: no entries, and all stamps and days 0. Its journal may be any list of numbers, whatever they
 * are; it has room for a third as many entries. Refused by 15.
 */
struct share_fresh_answer share_fresh(struct share_registration registration);

/*
 * Submits a measurement. Gives the stamp of its reading: where the newest reading for its code, day and quarter has the same value nothing
 * is stored, and the stamp is that reading's; else an entry is stored, with the greater of the clock and the last stamp + 1. Record and
 * journal are altered in place. Refused by 15, 8, 9, 11, 10, 13, 14, in this order.
 */
struct share_submit_answer share_submit(struct share_service *service, uint64_t *journal, size_t journal_length, uint64_t clock,
                                        struct share_measurement measurement);

/*
 * Clears the journal: entries of days below `day` are dropped, and of the others, among those up to `stamp`, all but the newest for each
 * code, day and quarter; later ones stay. Day and stamp become the kept ones. Gives the number of entries dropped; their room is used
 * again. Record and journal are altered in place. Refused by 15, 9, 11, 12, in this order.
 */
struct share_clear_answer share_clear(struct share_service *service, uint64_t *journal, size_t journal_length, uint64_t day,
                                      uint64_t stamp);

/*
 * Evaluates a quarter hour as of stamp `until`, from the kept stamp to the last one. The result list gets each pair's share (consumers in
 * order, priorities within), then what remains of each withdrawal, then of each supply, then the origin of each point's value, producers
 * first; later numbers stay. So it needs a number for each pair and two for each point: with as many pairs as `counts` sum to, the
 * withdrawals begin at place `pairs`, the supplies at `pairs + consumers`, the origins at `pairs + consumers + producers`. Gives the round
 * count. Two accepted evaluations of one quarter hour as of one stamp give the same, origins included, whatever was submitted or cleared
 * between them. Refused by 15, 9, 11, 12, 16, in this order.
 */
struct share_evaluate_answer share_evaluate(struct share_service service, const uint64_t *journal, size_t journal_length, uint64_t day,
                                            uint64_t quarter, uint64_t until, uint64_t *result, size_t result_length);

/* The day of a date, which is written as the number YYYYMMDD. Refused by 9. */
struct share_day_answer share_day(uint64_t date);

/*
 * The day at a place of the table of changeover days; places count from 0. At place 2n stands the last Sunday of March of the year 2024 + n,
 * a day of 92 quarter hours, at place 2n + 1 that of October, a day of 100; no other day has 92 or 100. Refused by 9 from place
 * SHARE_CHANGEOVER_COUNT on.
 */
struct share_day_answer share_changeover(uint64_t place);

/* The date YYYYMMDD of a day, 0 where the calendar has no such day. */
uint64_t share_date(uint64_t day);

/* How many quarter hours a day has: 92, 96 or 100, and 0 where the calendar has no such day. */
uint64_t share_quarters(uint64_t day);

#ifdef __cplusplus
}
#endif

#endif
