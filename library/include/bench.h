/* The bench server as a library: a server that opens the points of a motor test bench to a controller in the MELSEC 3E and 4E
 * forms, in binary and in ASCII. One request frame goes in and one reply frame comes out; there is no input or output here, no
 * allocation, and nothing is kept from call to call but in what the caller lends. docs/PROTOCOL.md has the rules.
 *
 * Points. A point is a device and a number from 0. A device is named by its place in the order of their codes, BENCH_M to BENCH_TN
 * below; a bit device's point is 0 or 1, a word device's 0 to 65,535.
 *
 * Extents. How many points each device has: 12 numbers in the order of the places, each 0 to 65,536. They are passed to each call,
 * the same ones over the same storage.
 *
 * Storage. The points lie in storage that the caller lends for each call, the devices one behind the other in the order of the
 * places. What holds no point is kept as it is.
 *   packed tables (bench_packed_..): 16-bit words. A word a word point; sixteen bit points a word, the lowest number in bit 0, each
 *     device beginning on a fresh word.
 *   a byte image (bench_image_..): bytes. Two bytes a word point, the low byte first; a byte a bit point, in which 00 is 0 and any
 *     other byte 1, written as 00 or 01.
 *
 * Refusals. Each call tests its arguments before all else and answers a status: 0, or why it was declined, and then nothing that was
 * lent is changed. Tests stand in the order code, count of extents, room, registration, device, number, value.
 *
 * What the caller owes, as with any C function: each pointer points to as many elements as its length says, aligned and not NULL
 * (also at length 0); what is lent to be written (storage, reply space, registration) overlaps nothing else that the call is passed,
 * and no other thread touches it during the call; a bool holds 0 or 1. A call may run beside others over other storage. */
#ifndef BENCH_H
#define BENCH_H

#include <stdbool.h>
#include <stddef.h>
#include <stdint.h>

#ifdef __cplusplus
extern "C" {
#endif

/* The devices, by their places. */
enum {
    BENCH_M = 0,   /* bits */
    BENCH_SM = 1,  /* bits */
    BENCH_L = 2,   /* bits */
    BENCH_X = 3,   /* bits */
    BENCH_Y = 4,   /* bits */
    BENCH_B = 5,   /* bits */
    BENCH_D = 6,   /* words */
    BENCH_SD = 7,  /* words */
    BENCH_ZR = 8,  /* words */
    BENCH_W = 9,   /* words */
    BENCH_TS = 10, /* bits */
    BENCH_TN = 11, /* words */
    BENCH_DEVICES = 12
};

/* The codes of a frame. */
enum { BENCH_BINARY = 0, BENCH_ASCII = 1 };

/* Statuses. */
enum {
    BENCH_DONE = 0,
    BENCH_NO_ROOM = 9,            /* an extent above 65,536, or storage too short */
    BENCH_OUTSIDE = 11,           /* the point's number is not below its device's extent */
    BENCH_TOO_WIDE = 13,          /* a value above 1 for a bit device */
    BENCH_BAD_CODE = 101,         /* neither BENCH_BINARY nor BENCH_ASCII */
    BENCH_BAD_EXTENTS = 102,      /* not 12 extents */
    BENCH_BAD_DEVICE = 103,       /* a place above 11 */
    BENCH_BAD_REGISTRATION = 104  /* more than 192 accesses, or one with a place above 11 */
};

/* The least reply space that a frame is served with, in bytes; a shorter one is fault 1. */
#define BENCH_REPLY_SPACE 4096

/* How many accesses can be registered. */
#define BENCH_ACCESSES 192

/* A device by its place, and the number of the first point of an access. */
typedef struct {
    uint32_t device;
    uint32_t number;
} bench_access;

/* What a controller has registered to be monitored: `words` accesses of one word, and behind them `doubles` of a double word. All zero
 * is nothing registered. The caller keeps it between calls, one for each server, and only reads it. */
typedef struct {
    bool registered;
    uint32_t words;
    uint32_t doubles;
    bench_access entries[BENCH_ACCESSES];
} bench_registration;

/* How many units storage takes: words for packed tables, bytes for an image; 0 where the status is not 0. */
typedef struct {
    size_t units;
    uint32_t status;
} bench_size;

/* What a point holds; 0 where the status is not 0. */
typedef struct {
    uint32_t status;
    uint32_t value;
} bench_value;

/* What taking a frame came to. With a status other than 0 all else is 0. */
typedef struct {
    size_t taken;    /* bytes of the frame that were taken; those behind belong to the next call. 0 for a frame not taken up */
    size_t length;   /* bytes of the reply, at the front of the reply space; 0 for a frame not taken up */
    size_t place;    /* where the fault was found, in bytes from the frame's front; 0 without one */
    uint32_t fault;  /* 0: none. 1 to 6: the frame was not taken up. Else the end code of the error reply */
    uint32_t status;
} bench_answer;

/* How many units storage of these extents takes.
 * Refused: BENCH_BAD_EXTENTS, BENCH_NO_ROOM (an extent above 65,536). */
bench_size bench_packed_needed(const uint32_t *extents, size_t extents_len);
bench_size bench_image_needed(const uint32_t *extents, size_t extents_len);

/* What a point holds. The storage is not changed, but borrowed as if it were written.
 * Refused: BENCH_BAD_EXTENTS, BENCH_NO_ROOM, BENCH_BAD_DEVICE, BENCH_OUTSIDE. */
bench_value bench_packed_read(uint16_t *words, size_t words_len, const uint32_t *extents, size_t extents_len, uint32_t device,
                              uint32_t number);
bench_value bench_image_read(uint8_t *bytes, size_t bytes_len, const uint32_t *extents, size_t extents_len, uint32_t device,
                             uint32_t number);

/* Gives a point a value: the bench's own setting, which no write flag binds. Answers the status.
 * Refused: BENCH_BAD_EXTENTS, BENCH_NO_ROOM, BENCH_BAD_DEVICE, BENCH_OUTSIDE, BENCH_TOO_WIDE. */
uint32_t bench_packed_set(uint16_t *words, size_t words_len, const uint32_t *extents, size_t extents_len, uint32_t device,
                          uint32_t number, uint16_t value);
uint32_t bench_image_set(uint8_t *bytes, size_t bytes_len, const uint32_t *extents, size_t extents_len, uint32_t device,
                         uint32_t number, uint16_t value);

/* Takes the frame at the front of `frame`, in the code that is named, carries its request out and writes one reply at the front of
 * `reply`, whose space behind the reply is kept. Any bytes may be handed in. Write commands are carried out only with the write flag.
 * Status 0 says that the arguments are good; whether the frame met a fault is told by `fault`. What is taken lies within `frame`, the
 * reply within `reply`. A call that tells a fault changes no unit of the storage and nothing of the registration; one that sends no
 * reply changes no byte of the reply space.
 * Refused: BENCH_BAD_CODE, BENCH_BAD_EXTENTS, BENCH_NO_ROOM, BENCH_BAD_REGISTRATION. */
bench_answer bench_packed_take_frame(uint32_t code, const uint8_t *frame, size_t frame_len, uint8_t *reply, size_t reply_len,
                                     uint16_t *words, size_t words_len, const uint32_t *extents, size_t extents_len, bool write_flag,
                                     bench_registration *registration);
bench_answer bench_image_take_frame(uint32_t code, const uint8_t *frame, size_t frame_len, uint8_t *reply, size_t reply_len,
                                    uint8_t *bytes, size_t bytes_len, const uint32_t *extents, size_t extents_len, bool write_flag,
                                    bench_registration *registration);

#ifdef __cplusplus
}
#endif

#endif
