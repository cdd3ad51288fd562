/* Decodes bits from the command line, as 0s and 1s, into an event record (README.md). */
#include <stdio.h>
#include <string.h>

#include "barshunet.h"

/* A number of so many bytes, the lowest first. */
static unsigned long number(const uint8_t *bytes, int count) {
    unsigned long n = 0;
    while (count-- > 0) n = 256 * n + bytes[count];
    return n;
}

int main(int argc, char **argv) {
    uint8_t bits[2048], record[BARSHUNET_RECORD];
    const char *text = argc == 2 ? argv[1] : "";
    size_t count = strlen(text);
    if (argc != 2 || count > sizeof bits) {
        fprintf(stderr, "usage: example BITS\n");
        return 2;
    }
    for (size_t i = 0; i < count; i++) bits[i] = (uint8_t)(text[i] - '0');
    uint8_t answer = sigfox_decode_bits(bits, count, record, sizeof record);
    if (answer != 0) {
        printf(answer == 255 ? "no frame\n" : "refused: %d\n", answer);
        return 1;
    }
    printf("device %08lx counter %lu rank %d crc %s payload ", number(record + BARSHUNET_AT_DEVICE, 4),
           number(record + BARSHUNET_AT_COUNTER, 2), record[BARSHUNET_AT_RANK],
           record[BARSHUNET_AT_FLAGS] & BARSHUNET_CRC_RIGHT ? "right" : "wrong");
    int length = record[BARSHUNET_AT_PAYLOAD_LEN];
    for (int i = 0; i < length; i++) printf("%02x", record[BARSHUNET_AT_PAYLOAD + i]);
    printf("%s\n", length ? "" : "-");
    return 0;
}
