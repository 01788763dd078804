/* The calls on frames and triggers: each call once where it is answered, and once for each status that it can answer but FTTCAN_MEMORY: refuse.c has that. */
#include "support.h"

static void of_frames(void) {
    static const uint8_t data[8] = {0x00, 0x00, 0x87, 0x20, 0, 0, 0, 0};
    fttcan_trigger trigger = {{0, 0}, 0, 0}, told = {{9, 9}, 9, 9};
    fttcan_frame frames[3];
    uint8_t bits[FTTCAN_MOST_FRAME_BITS], payload[8];
    uint32_t length = 9;
    fttcan_size count = 9, place;
    memset(frames, 0, sizeof frames);
    STATUS(FTTCAN_OK, fttcan_wire_length(0, data, 8, &length));
    WANT(length == 124);
    length = 9;
    STATUS(FTTCAN_ARGUMENT, fttcan_wire_length(0x7F0, data, 8, &length));
    STATUS(FTTCAN_ARGUMENT, fttcan_wire_length(0, data, 9, &length));
    STATUS(FTTCAN_ARGUMENT, fttcan_wire_length(0xFFFF, data, 1, &length));
    STATUS(FTTCAN_ARGUMENT, fttcan_wire_bits(0x7F0, data, 8, bits, sizeof bits, &count));
    WANT(length == 9 && count == 9);
    memset(bits, 0, sizeof bits);
    bits[3] = 2;
    STATUS(FTTCAN_ARGUMENT, fttcan_read_wire(bits, 50, &frames[0], &count));
    WANT(count == 9);
    bits[3] = 0;
    STATUS(FTTCAN_TEXT, fttcan_read_wire(bits, 50, &frames[0], &count));
    WANT(count == 5);
    trigger.cycle = 0x1FF;
    trigger.window = 16383;
    trigger.flags.low = ((uint64_t)1 << 40) - 1;
    STATUS(FTTCAN_ROOM, fttcan_trigger_encode(40, &trigger, frames, 0, &count));
    WANT(count == 1);
    STATUS(FTTCAN_OK, fttcan_trigger_encode(40, &trigger, frames, 1, &count));
    WANT(count == 1 && frames[0].id == 0 && frames[0].len == 8 && frames[0].bytes[0] == 0xFF);
    STATUS(FTTCAN_OK, fttcan_trigger_decode(40, frames, 1, &told));
    WANT(told.cycle == 0xFF && told.window == 16383 && same_mask(told.flags, trigger.flags));
    trigger.window = 16384;
    STATUS(FTTCAN_ARGUMENT, fttcan_trigger_encode(40, &trigger, frames, 3, &count));
    trigger.window = 0;
    trigger.flags.low = (uint64_t)1 << 40;
    STATUS(FTTCAN_ARGUMENT, fttcan_trigger_encode(40, &trigger, frames, 3, &count));
    STATUS(FTTCAN_ARGUMENT, fttcan_trigger_encode(41, &trigger, frames, 3, &count));
    trigger.flags.high = (uint64_t)1 << 31;
    STATUS(FTTCAN_OK, fttcan_trigger_encode(96, &trigger, frames, 3, &count));
    WANT(count == 2 && frames[0].id == 0 && frames[1].id == 1);
    STATUS(FTTCAN_OK, fttcan_trigger_decode(96, frames, 2, &told));
    WANT(told.cycle == 0xFF && told.window == 0 && same_mask(told.flags, trigger.flags));
    STATUS(FTTCAN_TEXT, fttcan_trigger_decode(96, frames, 1, &told));
    STATUS(FTTCAN_TEXT, fttcan_trigger_decode(40, frames + 1, 1, &told));
    STATUS(FTTCAN_ARGUMENT, fttcan_trigger_decode(97, frames, 2, &told));
    frames[2] = frames[1];
    STATUS(FTTCAN_TEXT, fttcan_trigger_decode(96, frames, 3, &told));
    frames[2].id = 0x7F0;
    STATUS(FTTCAN_ARGUMENT, fttcan_trigger_decode(96, frames, 3, &told));
    frames[0].len = 9;
    STATUS(FTTCAN_ARGUMENT, fttcan_trigger_decode(40, frames, 1, &told));
    trigger.flags.high = (uint64_t)1 << 32;
    STATUS(FTTCAN_ARGUMENT, fttcan_trigger_encode(96, &trigger, frames, 3, &count));
    STATUS(FTTCAN_OK, fttcan_payload(0x0102030405060708, payload, 8));
    for (place = 0; place < 8; place++)
        WANT(payload[place] == place + 1);
    STATUS(FTTCAN_OK, fttcan_payload(0x0102030405060708, payload, 3));
    WANT(payload[0] == 6 && payload[1] == 7 && payload[2] == 8 && payload[3] == 4);
    STATUS(FTTCAN_ARGUMENT, fttcan_payload(0, bits, 9));
}

/* The guard of the example guard-edge: E = 1000, G = 135, a window of 270. A frame of n bytes may start at t where
 * 135 <= t and t + 55 + 10 n <= 730. */
static void of_fits(void) {
    static const fttcan_layout layout = {1000, 0, 270, 40};
    fttcan_layout bad = layout;
    uint8_t dlc, fits = 9;
    for (dlc = 0; dlc <= 8; dlc++) {
        const uint64_t last = 1000 - 270 - 55 - 10 * (uint64_t)dlc;
        STATUS(FTTCAN_OK, fttcan_fits(&layout, last, dlc, 270, &fits));
        WANT(fits == 1);
        STATUS(FTTCAN_OK, fttcan_fits(&layout, last + 1, dlc, 270, &fits));
        WANT(fits == 0);
        STATUS(FTTCAN_OK, fttcan_fits(&layout, 135, dlc, 270, &fits));
        WANT(fits == 1);
        STATUS(FTTCAN_OK, fttcan_fits(&layout, 134, dlc, 270, &fits));
        WANT(fits == 0);
        /* The same in cycle 7, with an empty window. */
        STATUS(FTTCAN_OK, fttcan_fits(&layout, 7000 + 1000 - 55 - 10 * (uint64_t)dlc, dlc, 0, &fits));
        WANT(fits == 1);
        STATUS(FTTCAN_OK, fttcan_fits(&layout, 7001 + 1000 - 55 - 10 * (uint64_t)dlc, dlc, 0, &fits));
        WANT(fits == 0);
        STATUS(FTTCAN_OK, fttcan_fits(&layout, 7134, dlc, 0, &fits));
        WANT(fits == 0);
    }
    fits = 9;
    STATUS(FTTCAN_ARGUMENT, fttcan_fits(&layout, 200, 9, 270, &fits));
    STATUS(FTTCAN_ARGUMENT, fttcan_fits(&layout, 200, 0, 271, &fits));
    bad.window = 1000;
    STATUS(FTTCAN_ARGUMENT, fttcan_fits(&bad, 200, 0, 270, &fits));
    bad = layout;
    bad.slots = 50;
    STATUS(FTTCAN_ARGUMENT, fttcan_fits(&bad, 200, 0, 270, &fits));
    bad = layout;
    bad.cycle = 399;
    STATUS(FTTCAN_ARGUMENT, fttcan_fits(&bad, 200, 0, 270, &fits));
    WANT(fits == 9);
}

int main(void) {
    of_frames();
    of_fits();
    return ended("calls_frames");
}
