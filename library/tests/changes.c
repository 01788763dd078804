/* Messages that tell changes and tables: each call and status, and messages whose frames are lost, doubled, mixed up and
 * changed, many times. changes SEED TIMES. */
#include "support.h"

enum { MOST = 300, FRAMES = 1400, ROOM = FTTCAN_COLLECT_ROOM(MOST) };

static uint64_t drawn;

static uint64_t draw(uint64_t below) {
    drawn ^= drawn << 13;
    drawn ^= drawn >> 7;
    drawn ^= drawn << 17;
    return drawn % below;
}

/* ---- The bytes of FORMATS.md, by hand. */

static void of_bytes(void) {
    /* A change of number 0x01020304 from cycle 0x0A0B0C0D0E on: 8 bytes of node 1 in slot 5, priority 9, phase 2, period 0x1234,
     * deadline 3. Its sum is what zlib's crc32 says: 0x6FD38D44. */
    static const uint8_t text[27] = {4, 3, 2, 1, 0, 1, 0, 14, 13, 12, 11, 10, 0, 5, 1, 8, 9, 2, 0, 0x34, 0x12, 3, 0,
                                     0x44, 0x8D, 0xD3, 0x6F};
    const fttcan_op op = {FTTCAN_ADD, {2, 0x1234, 3, 5, 1, 8, 9}};
    fttcan_frame frames[6];
    fttcan_size count = 9, place, byte;
    STATUS(FTTCAN_OK, fttcan_change_encode(0x7EF, 0x01020304, UINT64_C(0x0A0B0C0D0E), &op, 1, frames, 6, &count));
    WANT(count == 6);
    for (place = 0; place < 6; place++) {
        WANT(frames[place].id == 0x7EF && frames[place].len == (place < 5 ? 8 : 5));
        WANT(frames[place].bytes[0] == 4 && frames[place].bytes[1] == place && frames[place].bytes[2] == 0);
        for (byte = 0; byte < 5 && 5 * place + byte < 27; byte++)
            WANT(frames[place].bytes[3 + byte] == text[5 * place + byte]);
    }
    WANT(frames[5].bytes[5] == 0 && frames[5].bytes[7] == 0);
}

/* A table of one entry without an end, of number 1, and of one with an end: origin 7, end 2^42 - 1. zlib's crc32 says 0xCA04DB16. */
static void of_table_bytes(void) {
    static const uint8_t text[55] = {1, 0, 0, 0, 1, 2, 0,
                                     7, 0, 0, 0, 0, 0, 0xFF, 0xFF, 0xFF, 0xFF, 0xFF, 0x03, 5, 1, 8, 9, 2, 0, 0x34, 0x12, 3, 0,
                                     0, 0, 0, 0, 0, 0, 0xFF, 0xFF, 0xFF, 0xFF, 0xFF, 0xFF, 6, 2, 0, 0, 0, 0, 1, 0, 1, 0,
                                     0x16, 0xDB, 0x04, 0xCA};
    const fttcan_placed placed[2] = {{7, (UINT64_C(1) << 42) - 1, {2, 0x1234, 3, 5, 1, 8, 9}, 1}, {0, 77, {0, 1, 1, 6, 2, 0, 0}, 0}};
    fttcan_placed back[2];
    fttcan_frame frames[11];
    fttcan_told told;
    fttcan_size count = 9, place, byte;
    STATUS(FTTCAN_OK, fttcan_table_encode(0x200, 1, placed, 2, frames, 11, &count));
    WANT(count == 11);
    for (place = 0; place < 11; place++)
        for (byte = 0; byte < 5 && 5 * place + byte < 55; byte++)
            WANT(frames[place].bytes[3 + byte] == text[5 * place + byte]);
    STATUS(FTTCAN_OK, fttcan_table_decode(text, sizeof text, &told, back, 2, &count));
    WANT(told.kind == FTTCAN_TELLS_TABLE && told.number == 1 && told.count == 2 && told.start == 0 && count == 2);
    WANT(same_placed(&back[0], &placed[0]) && same_placed(&back[1], &placed[1]) && back[1].end == 0);
}

/* ---- Each status. */

static void of_statuses(void) {
    fttcan_op ops[17], back[16];
    fttcan_placed placed[2] = {{0, 0, {0, 1, 1, 5, 1, 8, 0}, 0}, {0, 0, {0, 1, 1, 6, 1, 8, 0}, 0}}, table[2];
    fttcan_frame frames[40], frame;
    fttcan_collected collected = {0, 0, 0, 0, 0, 0};
    fttcan_told told = {9, 9, 9, 9};
    uint8_t room[FTTCAN_COLLECT_ROOM(9)];
    fttcan_size count = 77, place;
    memset(ops, 0, sizeof ops);
    memset(room, 0xA5, sizeof room);
    STATUS(FTTCAN_ARGUMENT, fttcan_change_encode(0x1FF, 1, 0, ops, 1, frames, 40, &count));
    STATUS(FTTCAN_ARGUMENT, fttcan_change_encode(0x7F0, 1, 0, ops, 1, frames, 40, &count));
    STATUS(FTTCAN_ARGUMENT, fttcan_change_encode(0x200, 1, UINT64_C(1) << 40, ops, 1, frames, 40, &count));
    STATUS(FTTCAN_ARGUMENT, fttcan_change_encode(0x200, 1, 0, ops, 0, frames, 40, &count));
    STATUS(FTTCAN_ARGUMENT, fttcan_change_encode(0x200, 1, 0, ops, 17, frames, 40, &count));
    ops[15].kind = 3;
    STATUS(FTTCAN_ARGUMENT, fttcan_change_encode(0x200, 1, 0, ops, 16, frames, 40, &count));
    WANT(count == 77);
    ops[15].kind = FTTCAN_REMOVE;
    ops[15].entry.slot = 95;
    ops[15].entry.period = 7;
    STATUS(FTTCAN_ROOM, fttcan_change_encode(0x200, 1, 0, ops, 16, frames, 38, &count));
    WANT(count == 39);
    STATUS(FTTCAN_OK, fttcan_change_encode(0x200, 1, (UINT64_C(1) << 40) - 1, ops, 16, frames, 39, &count));
    for (place = 38; place > 0; place--)
        STATUS(FTTCAN_NO, fttcan_collect(&collected, &frames[place], room, sizeof room, &told));
    WANT(told.kind == 9 && told.start == 9);
    STATUS(FTTCAN_OK, fttcan_collect(&collected, &frames[0], room, sizeof room, &told));
    WANT(told.kind == FTTCAN_TELLS_CHANGE && told.number == 1 && told.count == 16 && told.start == (UINT64_C(1) << 40) - 1);
    STATUS(FTTCAN_ROOM, fttcan_change_decode(room, sizeof room, &told, back, 15, &count));
    WANT(count == 16);
    STATUS(FTTCAN_OK, fttcan_change_decode(room, sizeof room, &told, back, 16, &count));
    WANT(back[15].kind == FTTCAN_REMOVE && back[15].entry.slot == 95 && back[15].entry.period == 0 && back[14].kind == FTTCAN_ADD);
    count = 77;
    STATUS(FTTCAN_TEXT, fttcan_table_decode(room, sizeof room, &told, table, 2, &count));
    STATUS(FTTCAN_TEXT, fttcan_change_decode(room, 6, &told, back, 16, &count));
    STATUS(FTTCAN_TEXT, fttcan_change_decode(room, 191, &told, back, 16, &count));
    WANT(count == 77);
    STATUS(FTTCAN_OK, fttcan_change_decode(room, 192, &told, back, 16, &count));
    room[20] ^= 4;
    STATUS(FTTCAN_TEXT, fttcan_change_decode(room, sizeof room, &told, back, 16, &count));
    /* Tables. */
    count = 77;
    STATUS(FTTCAN_ARGUMENT, fttcan_table_encode(0x1FF, 1, placed, 2, frames, 40, &count));
    STATUS(FTTCAN_ARGUMENT, fttcan_table_encode(0x200, 1, placed, 4097, frames, 40, &count));
    placed[1].origin = UINT64_C(1) << 42;
    STATUS(FTTCAN_ARGUMENT, fttcan_table_encode(0x200, 1, placed, 2, frames, 40, &count));
    placed[1].origin = 0;
    placed[1].ended = 1;
    placed[1].end = UINT64_C(1) << 42;
    STATUS(FTTCAN_ARGUMENT, fttcan_table_encode(0x200, 1, placed, 2, frames, 40, &count));
    WANT(count == 77);
    placed[1].end = 3;
    STATUS(FTTCAN_ROOM, fttcan_table_encode(0x200, 1, placed, 2, frames, 10, &count));
    WANT(count == 11);
    STATUS(FTTCAN_OK, fttcan_table_encode(0x200, 7, placed, 0, frames, 3, &count));
    WANT(count == 3);
    for (place = 0; place < 3; place++)
        STATUS(place < 2 ? FTTCAN_NO : FTTCAN_OK, fttcan_collect(&collected, &frames[place], room, FTTCAN_COLLECT_ROOM(0), &told));
    STATUS(FTTCAN_OK, fttcan_table_decode(room, 11, &told, table, 0, &count));
    WANT(told.number == 7 && told.count == 0 && count == 0);
    STATUS(FTTCAN_TEXT, fttcan_change_decode(room, 11, &told, back, 16, &count));
    STATUS(FTTCAN_OK, fttcan_table_encode(0x200, 8, placed, 2, frames, 40, &count));
    for (place = 0; place < 11; place++)
        STATUS(place < 10 ? FTTCAN_NO : FTTCAN_OK, fttcan_collect(&collected, &frames[place], room, FTTCAN_COLLECT_ROOM(2), &told));
    STATUS(FTTCAN_ROOM, fttcan_table_decode(room, sizeof room, &told, table, 1, &count));
    WANT(count == 2);
    /* Frames that are none, and rooms that are too small. */
    frame = frames[0];
    frame.id = 0x7F0;
    STATUS(FTTCAN_ARGUMENT, fttcan_collect(&collected, &frame, room, sizeof room, &told));
    frame.id = 0x200;
    frame.len = 9;
    STATUS(FTTCAN_ARGUMENT, fttcan_collect(&collected, &frame, room, sizeof room, &told));
    frame.len = 3;
    STATUS(FTTCAN_TEXT, fttcan_collect(&collected, &frame, room, sizeof room, &told));
    memset(&collected, 0, sizeof collected);
    STATUS(FTTCAN_NO, fttcan_collect(&collected, &frames[0], room, FTTCAN_COLLECT_ROOM(1), &told));
    STATUS(FTTCAN_ROOM, fttcan_collect(&collected, &frames[1], room, FTTCAN_COLLECT_ROOM(1), &told));
    STATUS(FTTCAN_ROOM, fttcan_collect(&collected, &frames[0], room, 0, &told));
    frame = frames[0];
    frame.bytes[3] ^= 1;
    memset(&collected, 0, sizeof collected);
    STATUS(FTTCAN_TEXT, fttcan_collect(&collected, &frame, room, sizeof room, &told));
    collected.wanted = 1;
    collected.parts = 2;
    STATUS(FTTCAN_ARGUMENT, fttcan_collect(&collected, &frames[0], room, sizeof room, &told));
}

/* The sum of CRC-32, as a form of its own: from the highest bit on, over bits that are turned round. */
static uint32_t sum_of(const uint8_t *text, size_t len) {
    uint32_t sum = 0xFFFFFFFF, turned = 0;
    unsigned bit;
    for (; len > 0; len--, text++)
        for (bit = 0; bit < 8; bit++) {
            uint32_t top = sum >> 31 ^ (uint32_t)(*text >> bit & 1);
            sum = sum << 1 ^ (top ? UINT32_C(0x04C11DB7) : 0);
        }
    for (bit = 0; bit < 32; bit++)
        turned |= (~sum >> bit & 1) << (31 - bit);
    return turned;
}

/* A text with a right sum is read only if it is as it is written. */
static void of_forms(void) {
    const fttcan_op op = {FTTCAN_REMOVE, {0, 0, 0, 5, 0, 0, 0}};
    fttcan_op back[16];
    fttcan_placed table[2];
    fttcan_frame frames[40];
    fttcan_told told;
    uint8_t text[64];
    fttcan_size count, place;
    unsigned byte;
    STATUS(FTTCAN_OK, fttcan_change_encode(0x200, 1, 3, &op, 1, frames, 40, &count));
    for (place = 0; place < count; place++)
        memcpy(text + 5 * place, frames[place].bytes + 3, 5);
    for (byte = 0; byte < 23; byte++) {
        uint32_t sum;
        unsigned bit;
        uint8_t kept = text[byte];
        /* The number, the start and the slot may be any others, and nothing else: another kind has other bytes. */
        int may = byte < 4 || (byte > 6 && byte < 12) || byte == 13;
        for (bit = 0; bit < 8; bit++) {
            text[byte] = (uint8_t)(kept ^ 1u << bit);
            sum = sum_of(text, 23);
            text[23] = (uint8_t)sum, text[24] = (uint8_t)(sum >> 8), text[25] = (uint8_t)(sum >> 16), text[26] = (uint8_t)(sum >> 24);
            if (byte == 12)
                may = text[12] == FTTCAN_ADD || text[12] == FTTCAN_CHANGE;
            STATUS(may ? FTTCAN_OK : FTTCAN_TEXT, fttcan_change_decode(text, sizeof text, &told, back, 16, &count));
        }
        text[byte] = kept;
    }
    memset(text, 0, sizeof text);
    text[4] = FTTCAN_TELLS_TABLE;
    text[5] = 1;
    for (byte = 0; byte < 4; byte++) {
        uint32_t sum;
        text[12] = byte == 1 ? 0x04 : 0x03;
        memset(text + 13, byte == 3 ? 0xFF : 0, 6);
        text[18] = byte == 2 ? 0x04 : byte == 3 ? 0xFF : 0x03;
        sum = sum_of(text, 29);
        text[29] = (uint8_t)sum, text[30] = (uint8_t)(sum >> 8), text[31] = (uint8_t)(sum >> 16), text[32] = (uint8_t)(sum >> 24);
        STATUS(byte % 3 == 0 ? FTTCAN_OK : FTTCAN_TEXT, fttcan_table_decode(text, 33, &told, table, 2, &count));
        if (byte % 3 == 0)
            WANT(table[0].ended == (byte == 0) && table[0].origin == UINT64_C(3) << 40);
    }
}

/* A message that is repeated comes out each time, and one that replaces another of its number when it is repeated. */
static void of_repeats(void) {
    fttcan_placed placed[2] = {{1, 0, {0, 1, 1, 5, 1, 8, 0}, 0}, {0, 0, {0, 1, 1, 6, 1, 8, 0}, 0}}, other[2];
    fttcan_frame frames[11], others[11];
    fttcan_collected collected = {0, 0, 0, 0, 0, 0};
    fttcan_told told;
    uint8_t room[FTTCAN_COLLECT_ROOM(2)];
    fttcan_size count, place;
    unsigned times, whole;
    STATUS(FTTCAN_OK, fttcan_table_encode(0x200, 5, placed, 2, frames, 11, &count));
    memcpy(other, placed, sizeof other);
    other[0].entry.deadline = 9;
    STATUS(FTTCAN_OK, fttcan_table_encode(0x200, 5, other, 2, others, 11, &count));
    for (times = 0; times < 3; times++)
        for (place = 0; place < count; place++)
            STATUS(place + 1 < count ? FTTCAN_NO : FTTCAN_OK, fttcan_collect(&collected, &frames[place], room, sizeof room, &told));
    /* The parts 5 and 6 are left, and part 5 differs. */
    for (place = 5; place < 7; place++)
        STATUS(FTTCAN_NO, fttcan_collect(&collected, &frames[place], room, sizeof room, &told));
    for (times = whole = 0; times < 2; times++)
        for (place = 0; place < count; place++)
            if (fttcan_collect(&collected, &others[place], room, sizeof room, &told) == FTTCAN_OK) {
                fttcan_placed back[2];
                fttcan_size many;
                STATUS(FTTCAN_OK, fttcan_table_decode(room, sizeof room, &told, back, 2, &many));
                WANT(back[0].entry.deadline == 9 && times == 1 && place == 4);
                whole++;
            }
    WANT(whole == 1);
}

/* ---- Messages on a bus that loses, doubles, delays and changes frames. */

typedef struct {
    fttcan_told told;
    fttcan_op ops[16];
    fttcan_placed table[MOST];
    fttcan_frame frames[FRAMES];
    fttcan_size count;
} message;

static fttcan_entry any_entry(void) {
    fttcan_entry entry;
    entry.phase = (uint16_t)draw(65536);
    entry.period = (uint16_t)draw(65536);
    entry.deadline = (uint16_t)draw(65536);
    entry.slot = (uint8_t)draw(256);
    entry.node = (uint8_t)draw(256);
    entry.length = (uint8_t)draw(256);
    entry.priority = (uint8_t)draw(256);
    return entry;
}

static void make(message *m, uint32_t number) {
    fttcan_size place;
    memset(m, 0, sizeof *m);
    m->told.number = number;
    if (draw(2)) {
        m->told.kind = FTTCAN_TELLS_CHANGE;
        m->told.start = draw(UINT64_C(1) << 40);
        m->told.count = (uint16_t)(1 + draw(16));
        for (place = 0; place < m->told.count; place++) {
            m->ops[place].kind = (uint8_t)draw(3);
            m->ops[place].entry = any_entry();
            if (m->ops[place].kind == FTTCAN_REMOVE) {
                uint8_t slot = m->ops[place].entry.slot;
                memset(&m->ops[place].entry, 0, sizeof(fttcan_entry));
                m->ops[place].entry.slot = slot;
            }
        }
        STATUS(FTTCAN_OK, fttcan_change_encode(0x200, number, m->told.start, m->ops, m->told.count, m->frames, FRAMES, &m->count));
        return;
    }
    m->told.kind = FTTCAN_TELLS_TABLE;
    m->told.count = (uint16_t)draw(draw(8) ? 12 : MOST + 1);
    for (place = 0; place < m->told.count; place++) {
        m->table[place].origin = draw(UINT64_C(1) << 42);
        m->table[place].ended = (uint8_t)draw(2);
        m->table[place].end = m->table[place].ended ? draw(UINT64_C(1) << 42) : 0;
        m->table[place].entry = any_entry();
    }
    STATUS(FTTCAN_OK, fttcan_table_encode(0x200, number, m->table, m->told.count, m->frames, FRAMES, &m->count));
}

/* Whether what came out is this message. */
static int is(const message *m, const fttcan_told *told, const uint8_t *room) {
    static fttcan_placed table[MOST];
    fttcan_op ops[16];
    fttcan_told again;
    fttcan_size count = 0, place;
    if (told->number != m->told.number || told->kind != m->told.kind || told->count != m->told.count || told->start != m->told.start)
        return 0;
    if (told->kind == FTTCAN_TELLS_CHANGE) {
        STATUS(FTTCAN_OK, fttcan_change_decode(room, ROOM, &again, ops, 16, &count));
        for (place = 0; place < count; place++)
            if (ops[place].kind != m->ops[place].kind || !same_entry(&ops[place].entry, &m->ops[place].entry))
                return 0;
    } else {
        STATUS(FTTCAN_OK, fttcan_table_decode(room, ROOM, &again, table, MOST, &count));
        for (place = 0; place < count; place++)
            if (!same_placed(&table[place], &m->table[place]))
                return 0;
    }
    return count == m->told.count && again.number == told->number && again.kind == told->kind && again.count == told->count
        && again.start == told->start;
}

static message sent[3];
static uint8_t room[ROOM];

/* All frames of a message in any order, some twice: it comes out, at the last one that was missing and not before. */
static void all_given(void) {
    static uint16_t order[2 * FRAMES];
    static uint8_t came[FRAMES];
    fttcan_collected collected;
    fttcan_size count = 0, left, place;
    fttcan_told told;
    memset(&collected, 0, sizeof collected);
    memset(came, 0, sizeof came);
    if (draw(2))
        memset(room, (int)draw(256), sizeof room);
    /* What is left of the message after it is forgotten. */
    for (place = draw(3); place > 0; place--)
        fttcan_collect(&collected, &sent[2].frames[draw(sent[2].count)], room, ROOM, &told);
    for (place = 0; place < sent[0].count; place++) {
        order[count++] = (uint16_t)place;
        if (draw(4) == 0)
            order[count++] = (uint16_t)place;
    }
    if (draw(3))
        for (place = count - 1; place > 0; place--) {
            fttcan_size other = draw(place + 1);
            uint16_t kept = order[place];
            order[place] = order[other];
            order[other] = kept;
        }
    left = sent[0].count;
    for (place = 0; place < count && left; place++) {
        uint32_t status = fttcan_collect(&collected, &sent[0].frames[order[place]], room, ROOM, &told);
        left -= !came[order[place]];
        came[order[place]] = 1;
        WANT(status == (left ? FTTCAN_NO : FTTCAN_OK));
        if (status == FTTCAN_OK)
            WANT(is(&sent[0], &told, room));
    }
    WANT(left == 0);
}

/* Frames of three messages, lost, doubled, mixed up and changed: what comes out is one of them. */
static unsigned long mixed(void) {
    fttcan_collected collected;
    fttcan_size times = 200 + draw(600), at = 0, from = draw(3);
    fttcan_told told;
    unsigned long whole = 0;
    memset(&collected, 0, sizeof collected);
    for (; times > 0; times--) {
        fttcan_frame frame;
        unsigned what = (unsigned)draw(100);
        if (at >= sent[from].count || what == 0) {
            at = 0;
            from = draw(3);
        }
        if (what == 1)
            at = draw(sent[from].count);
        frame = sent[from].frames[at++];
        if (what == 2)
            at--;
        if (what == 3)
            continue;
        if (what == 4)
            frame.bytes[draw(8)] ^= (uint8_t)(1 + draw(255));
        if (what == 5)
            frame.len = (uint8_t)draw(9);
        if (fttcan_collect(&collected, &frame, room, draw(50) ? ROOM : ROOM - 1, &told) == FTTCAN_OK) {
            WANT(is(&sent[0], &told, room) || is(&sent[1], &told, room) || is(&sent[2], &told, room));
            whole++;
        }
    }
    return whole;
}

int main(int count, char **words) {
    unsigned long times = count > 2 ? strtoul(words[2], NULL, 10) : 2000, done, whole = 0;
    drawn = (count > 1 ? strtoull(words[1], NULL, 10) : 1) * UINT64_C(0x9E3779B97F4A7C15) + 1;
    of_bytes();
    of_table_bytes();
    of_statuses();
    of_forms();
    of_repeats();
    for (done = 0; done < times && wrong < 9; done++) {
        uint32_t number = (uint32_t)draw(UINT64_C(1) << 32);
        make(&sent[0], number);
        /* Another number, or one that has the same low byte, or the same number for something else. */
        make(&sent[1], draw(3) ? (uint32_t)draw(UINT64_C(1) << 32) : draw(2) ? number + 256 : number);
        make(&sent[2], number + 1);
        all_given();
        whole += mixed();
    }
    printf("%lu messages that were given whole came out; of mixed frames %lu came out, and none was wrong\n", done, whole);
    return ended("changes");
}
