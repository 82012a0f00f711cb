/* The changeover days from 2024 to 2099 through the static library, one to a line. */
#include <inttypes.h>
#include <stdio.h>

#include "share.h"

int main(void) {
    for (uint64_t place = 0; place < SHARE_CHANGEOVER_COUNT; place++) {
        struct share_day_answer changeover = share_changeover(place);
        if (changeover.answer != SHARE_ACCEPTED) {
            fprintf(stderr, "refused: %" PRIu64 "\n", changeover.answer);
            return 1;
        }
        printf("%6" PRIu64 "\n", changeover.day);
    }
    return share_changeover(SHARE_CHANGEOVER_COUNT).answer != SHARE_NO_SUCH_DAY;
}
