/* Judges Ackermann's function and calls it with 2 and 1, in memory of fixed size. */
#include <pegsienna.h>
#include <stdio.h>

enum { WAYS = 16, DEPTH = 8, ROOM = 100 };

static const uint8_t ack[] = {2, 3, 0, 2, 1, 0, 1, 3, 3, 5, 0, 2, 0, 0, 2, 1, 1, 5, 0, 2, 0, 2, 5, 0, 2, 0, 4, 0, 0};
static const uint8_t two_and_one[] = {1, 0, 1, 0, 0, 1, 0, 0};

static uint32_t work[65536];
static uint8_t out[64];

int main(void) {
    if (pegsienna_go_words(sizeof ack, WAYS, sizeof two_and_one, DEPTH, ROOM) > sizeof work / sizeof work[0]) {
        puts("the work memory is too small");
        return 1;
    }
    uint32_t verdict = pegsienna_judge(ack, sizeof ack, WAYS, work, sizeof work / sizeof work[0]);
    if (verdict != PEGSIENNA_ENDS) {
        printf("not judged to end: %u\n", (unsigned)verdict);
        return 1;
    }
    pegsienna_ran ran = pegsienna_go(ack, sizeof ack, WAYS, 0, two_and_one, sizeof two_and_one, DEPTH, ROOM, out, sizeof out, work,
                                     sizeof work / sizeof work[0]);
    if (ran.answer != PEGSIENNA_VALUE) {
        printf("no value: %u\n", (unsigned)ran.answer);
        return 1;
    }
    size_t nodes = 0;
    for (size_t i = 0; i < ran.bytes; i++) nodes += out[i];
    printf("ack(2, 1) has %zu nodes; room left: %u\n", nodes, (unsigned)ran.room);
    return 0;
}
