/* Reads the frame rows of a log, and compares the length of each with what the library says. Each frame is spread into its
 * bits and read from them again; with one bit turned, or one bit short, it is none, or another one. */
#include "support.h"

static void turned(const uint8_t *bits, fttcan_size count, const fttcan_frame *frame) {
    uint8_t other[FTTCAN_MOST_FRAME_BITS];
    fttcan_size turn, place;
    for (turn = 0; turn < count; turn++) {
        fttcan_frame found;
        uint32_t status;
        memset(&found, 0, sizeof found);
        place = count;
        memcpy(other, bits, count);
        other[turn] ^= 1;
        status = fttcan_read_wire(other, count, &found, &place);
        WANT(status == FTTCAN_TEXT || (status == FTTCAN_OK && memcmp(&found, frame, sizeof found) != 0));
        if (status == FTTCAN_TEXT)
            WANT(place <= count);
    }
    for (place = 0; place < count; place += 7) {
        fttcan_frame found;
        fttcan_size where = 0;
        STATUS(FTTCAN_TEXT, fttcan_read_wire(bits, place, &found, &where));
        WANT(where == place);
    }
}

static void one(uint32_t length, const fttcan_frame *frame, int is_whole) {
    uint8_t bits[FTTCAN_MOST_FRAME_BITS + 1];
    uint32_t said = 0;
    fttcan_size count = 0, place = 0;
    fttcan_frame read;
    memset(&read, 0, sizeof read);
    STATUS(FTTCAN_OK, fttcan_wire_length(frame->id, frame->bytes, frame->len, &said));
    WANT(said == length);
    STATUS(FTTCAN_ROOM, fttcan_wire_bits(frame->id, frame->bytes, frame->len, bits, length - 1, &count));
    WANT(count == length);
    STATUS(FTTCAN_OK, fttcan_wire_bits(frame->id, frame->bytes, frame->len, bits, sizeof bits, &count));
    WANT(count == length);
    STATUS(FTTCAN_OK, fttcan_read_wire(bits, count, &read, &place));
    WANT(read.id == frame->id && read.len == frame->len && memcmp(read.bytes, frame->bytes, 8) == 0);
    if (is_whole)
        turned(bits, count, frame);
}

int main(void) {
    char line[512];
    unsigned many = 0;
    while (fgets(line, sizeof line, stdin)) {
        fttcan_frame frame;
        unsigned length, id, byte;
        int at = 0;
        memset(&frame, 0, sizeof frame);
        if (sscanf(line, "frame,%*u,%u,%x,%n", &length, &id, &at) != 2 || !at)
            continue;
        frame.id = (uint16_t)id;
        while (frame.len < 8 && sscanf(line + at + 2 * frame.len, "%2x", &byte) == 1)
            frame.bytes[frame.len++] = (uint8_t)byte;
        one(length, &frame, many++ % 50 == 0);
    }
    WANT(many > 0);
    return ended("frames");
}
