/* One busy peer fills its line; three others are served in turn between. */
#include <inttypes.h>
#include <stdio.h>

#include "gunthyd.h"

#define BUSY 7

static uint64_t queue[GUNTHYD_INTAKE_QUEUE_WORDS];

static void put(uint64_t line, uint64_t handle) {
    uint64_t said = gunthyd_intake_put(queue, GUNTHYD_INTAKE_QUEUE_WORDS, line, handle);
    if (said != GUNTHYD_INTAKE_STORED)
        printf("peer %" PRIu64 ": handle %" PRIu64 " refused, %" PRIu64 "\n", line, handle, said);
}

int main(void) {
    uint64_t answer[GUNTHYD_INTAKE_ANSWER_WORDS];

    if (gunthyd_intake_start(queue, GUNTHYD_INTAKE_QUEUE_WORDS) != GUNTHYD_INTAKE_READY)
        return 1;
    for (uint64_t n = 0; n <= GUNTHYD_INTAKE_PLACES; n++)
        put(BUSY, 700 + n);
    for (uint64_t n = 0; n < 2; n++) {
        put(3, 300 + n);
        put(90, 900 + n);
        put(255, 2550 + n);
    }
    while (gunthyd_intake_turn(queue, GUNTHYD_INTAKE_QUEUE_WORDS, answer, GUNTHYD_INTAKE_ANSWER_WORDS) == GUNTHYD_INTAKE_SERVED)
        printf("peer %" PRIu64 ": handle %" PRIu64 "\n", answer[GUNTHYD_INTAKE_ANSWER_LINE], answer[GUNTHYD_INTAKE_ANSWER_HANDLE]);
    return 0;
}
