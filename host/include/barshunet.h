/* The C function of Barshunet: target/staticlib/librecord.a, made by `tools/build record_c`. */
#ifndef BARSHUNET_H
#define BARSHUNET_H

#include <stddef.h>
#include <stdint.h>

#ifdef __cplusplus
extern "C" {
#endif

/* Bytes of an event record. */
#define BARSHUNET_RECORD 120

/* Where its fields stand: little-endian, spare bytes 0. docs/RECORD.md has what a message's fields are. */
#define BARSHUNET_AT_KIND 0          /* u8: BARSHUNET_FRAME or BARSHUNET_MESSAGE */
#define BARSHUNET_AT_RANK 1          /* u8: rank 0 to 2; of a message the sum of 1, 2, 4 for those heard */
#define BARSHUNET_AT_FLAGS 2         /* u8: sum of BARSHUNET_DOWNLINK and so on */
#define BARSHUNET_AT_PAYLOAD_LEN 3   /* u8: 0 to 12 */
#define BARSHUNET_AT_AUTH_LEN 4      /* u8: 2 to 5 */
#define BARSHUNET_AT_REPAIR 5        /* u8: BARSHUNET_UNCHANGED and so on */
#define BARSHUNET_AT_REPAIR_PLACE 6  /* u16: bit of the body, from 0 */
#define BARSHUNET_AT_DEVICE 8        /* u32 */
#define BARSHUNET_AT_COUNTER 12      /* u16 */
#define BARSHUNET_AT_PAYLOAD 16      /* 12 bytes, 0 past its length */
#define BARSHUNET_AT_AUTH 28         /* 5 bytes, 0 past its length */
#define BARSHUNET_AT_DEPTH 33        /* u8: half decibels of the dips, rounded down, 255 for that and more */
#define BARSHUNET_AT_MARK 34         /* u8: of a message BARSHUNET_INSIDE or BARSHUNET_OUTSIDE, 0 where no start second was given */
#define BARSHUNET_AT_CLOCK_PPM 36    /* i32: over 0 where the sender is slow */
#define BARSHUNET_AT_RSSI 40         /* binary32, dBm */
#define BARSHUNET_AT_SPAN_RANKS 44   /* 3 u8, 255 where there is no span */
#define BARSHUNET_AT_TIME 48         /* binary64, stream seconds */
#define BARSHUNET_AT_END 56          /* binary64: a frame's end, or the end of a message's rank 0 */
#define BARSHUNET_AT_SPANS 64        /* 3 times two binary64: start and end of a message's frames */
#define BARSHUNET_AT_START 112       /* u64: start sample */

/* Kinds */
#define BARSHUNET_FRAME 1
#define BARSHUNET_MESSAGE 2

/* Flags */
#define BARSHUNET_DOWNLINK 1
#define BARSHUNET_CONTROL 2
#define BARSHUNET_CRC_RIGHT 4
#define BARSHUNET_BIT 8              /* a single-bit message */
#define BARSHUNET_BIT_TRUE 16
#define BARSHUNET_END_KNOWN 32       /* of a message: BARSHUNET_AT_END has the end of rank 0 */

/* Repairs */
#define BARSHUNET_UNCHANGED 0
#define BARSHUNET_INSERTED_0 1
#define BARSHUNET_INSERTED_1 2
#define BARSHUNET_DELETED 3
#define BARSHUNET_FLIPPED 4

/* Marks */
#define BARSHUNET_INSIDE 1
#define BARSHUNET_OUTSIDE 2

/* Decodes the bits of one uplink frame, a byte 0 or 1 each, that start somewhere in its preamble.
   0: the first 120 bytes of record are the frame's event record, with clock, RSSI, times, start and depth 0.
   255: there is no frame in the bits. 2: record is shorter than 120. 3: over 1,024 bits. 9: a bit byte over 1.
   On any answer but 0 nothing is written; bytes past the first 120 never are. The two may not overlap. */
uint8_t sigfox_decode_bits(const uint8_t *bits, size_t bits_len, uint8_t *record, size_t record_len);

#ifdef __cplusplus
}
#endif

#endif
