/* Case LIST through the static library: a group is read, three measurements are submitted, and their quarter hour is evaluated. */
#include <inttypes.h>
#include <stdio.h>
#include <string.h>

#include "share.h"

static const char text[] =
    "G   1   2 1\n"
    "D 859182400220162071 0\n"
    "O 859182400220162088 0 1   1  4000\n"
    "O 859182400220162095 0 1   1  6000\n";

struct submission {
    uint64_t clock;
    uint64_t code;
    int64_t value;
};

static const struct submission submissions[] = {
    {1000, 859182400220162071, 1001},
    {1000, 859182400220162088, -100},
    {990, 859182400220162095, -900},
};

/* The lines of a result: each consumer's shares, what remains of each withdrawal, what remains of each supply, the origin of each point's value. */
static void print_result(const struct share_registration *group, const uint64_t *result) {
    size_t at = 0;
    for (size_t consumer = 0; consumer < group->consumers; consumer++)
        for (size_t place = 5 * consumer; place < 5 * consumer + group->counts[consumer]; place++)
            printf("S%4zu%4u%10" PRIu64 "\n", consumer + 1, (unsigned)group->sources[place], result[at++]);
    for (size_t consumer = 0; consumer < group->consumers; consumer++)
        printf("U%4zu%10" PRIu64 "\n", consumer + 1, result[at++]);
    for (size_t producer = 0; producer < group->producers; producer++)
        printf("V%4zu%10" PRIu64 "\n", producer + 1, result[at++]);
    for (size_t point = 0; point < group->producers + group->consumers; point++)
        printf("W%4zu%2" PRIu64 "\n", point + 1, result[at++]);
}

int main(void) {
    struct share_read_answer read = share_read((const uint8_t *)text, strlen(text));
    struct share_fresh_answer fresh = share_fresh(read.registration);
    struct share_day_answer date = share_day(20240102);
    if (read.answer != SHARE_ACCEPTED || fresh.answer != SHARE_ACCEPTED || date.answer != SHARE_ACCEPTED) {
        fprintf(stderr, "refused: %" PRIu64 " %" PRIu64 " %" PRIu64 "\n", read.answer, fresh.answer, date.answer);
        return 1;
    }
    struct share_service service = fresh.service;
    uint64_t journal[30] = {0};
    for (size_t i = 0; i < sizeof submissions / sizeof submissions[0]; i++) {
        struct submission s = submissions[i];
        struct share_measurement m = {.code = s.code, .day = date.day, .quarter = 1, .value = s.value};
        struct share_submit_answer a = share_submit(&service, journal, 30, s.clock, m);
        printf("A%4" PRIu64 "%13" PRIu64 "\n", a.answer, a.stamp);
    }
    uint64_t result[SHARE_RESULT_MOST];
    struct share_evaluate_answer e = share_evaluate(service, journal, 30, date.day, 1, 1002, result, SHARE_RESULT_MOST);
    printf("R%4" PRIu64 "%2zu\n", e.answer, e.rounds);
    if (e.answer == SHARE_ACCEPTED)
        print_result(&service.registration, result);
    return 0;
}
