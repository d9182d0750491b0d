/* A bench with 64 relays M and 16 registers D over packed tables: sets D2, and answers a controller that reads it in both codes. */
#include <stdio.h>
#include <string.h>

#include "bench.h"

/* What each refusing call is wanted to answer. */
static int want(const char *what, uint32_t status, uint32_t wanted) {
    if (status == wanted) {
        return 0;
    }
    fprintf(stderr, "%s: status %u, not %u\n", what, (unsigned)status, (unsigned)wanted);
    return 1;
}

/* Calls with bad arguments, each of which is declined by its status. */
static int refusals(uint16_t *words, size_t count, const uint32_t *extents) {
    uint8_t reply[BENCH_REPLY_SPACE];
    static bench_registration registration;
    int bad = 0;
    bad += want("eleven extents", bench_packed_needed(extents, 11).status, BENCH_BAD_EXTENTS);
    bad += want("a word too few", bench_packed_set(words, count - 1, extents, 12, BENCH_D, 0, 1), BENCH_NO_ROOM);
    bad += want("no such device", bench_packed_read(words, count, extents, 12, 12, 0).status, BENCH_BAD_DEVICE);
    bad += want("D16", bench_packed_read(words, count, extents, 12, BENCH_D, 16).status, BENCH_OUTSIDE);
    bad += want("M0 = 2", bench_packed_set(words, count, extents, 12, BENCH_M, 0, 2), BENCH_TOO_WIDE);
    bad += want("code 2",
                bench_packed_take_frame(2, reply, 0, reply, sizeof reply, words, count, extents, 12, false, &registration).status,
                BENCH_BAD_CODE);
    registration.registered = true;
    registration.words = 193;
    bad += want("193 accesses",
                bench_packed_take_frame(0, reply, 0, reply, sizeof reply, words, count, extents, 12, false, &registration).status,
                BENCH_BAD_REGISTRATION);
    return bad;
}

int main(void) {
    static const uint8_t binary[] = {0x50, 0, 0, 0xFF, 0xFF, 3, 0, 12, 0, 16, 0, 1, 4, 0, 0, 2, 0, 0, 0xA8, 1, 0};
    static const char ascii[] = "500000FF03FF000018001004010000D*0000020001";
    uint32_t extents[BENCH_DEVICES] = {0};
    uint16_t words[20] = {0};
    uint8_t reply[BENCH_REPLY_SPACE];
    bench_registration registration = {0};
    bench_answer answer;
    size_t i;

    extents[BENCH_M] = 64;
    extents[BENCH_D] = 16;
    if (bench_packed_needed(extents, 12).units != 20) {
        return 1;
    }
    if (bench_packed_set(words, 20, extents, 12, BENCH_D, 2, 0x1234) != BENCH_DONE) {
        return 1;
    }
    answer = bench_packed_take_frame(BENCH_BINARY, binary, sizeof binary, reply, sizeof reply, words, 20, extents, 12, false,
                                     &registration);
    printf("binary: taken %zu, reply", answer.taken);
    for (i = 0; i < answer.length; i++) {
        printf(" %02X", (unsigned)reply[i]);
    }
    printf("\n");
    answer = bench_packed_take_frame(BENCH_ASCII, (const uint8_t *)ascii, strlen(ascii), reply, sizeof reply, words, 20, extents, 12,
                                     false, &registration);
    printf("ASCII:  taken %zu, reply %.*s\n", answer.taken, (int)answer.length, (const char *)reply);
    return refusals(words, 20, extents) > 0;
}
