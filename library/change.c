/* Messages by which a master tells its nodes an accepted change, or the table: their frames, written and collected.
 *
 * docs/FORMATS.md, "Changes on the wire", has the bytes. Nothing here is proved. It takes no memory, keeps no pointer, and
 * needs nothing of the rest of the library, nor of a C library. */
#include "fttcan.h"

enum {
    HEAD = 7,          /* the number, the kind and the count */
    SUM = 4,           /* the CRC-32 at the end */
    START = 5,         /* the start of a change */
    OP = 11,           /* the kind of an operation, and its entry */
    PLACED = 22,       /* origin, end, entry */
    MARK = 3,          /* what a frame says beside its part of the text: the number's low byte, and which part it is */
    PART = 5,          /* the bytes of the text in each frame but the last one */
    FIRST_ID = 0x200,  /* the least asynchronous identifier */
    LAST_ID = 0x7EF
};

#define STARTS_END ((uint64_t)1 << 40)
#define CYCLES_END ((uint64_t)1 << 42)
#define NO_END (((uint64_t)1 << 48) - 1)

/* ---- Numbers, the lowest byte first. */

static void put_number(uint8_t *at, uint64_t number, unsigned count) {
    unsigned place;
    for (place = 0; place < count; place++)
        at[place] = (uint8_t)(number >> (8 * place));
}

static uint64_t number_at(const uint8_t *at, unsigned count) {
    uint64_t number = 0;
    unsigned place;
    for (place = count; place > 0; place--)
        number = number << 8 | at[place - 1];
    return number;
}

/* The sum goes on with a byte: the CRC-32 of IEEE 802.3. It begins with all ones, and ends with its complement. */
static uint32_t with_byte(uint32_t sum, uint8_t byte) {
    unsigned bit;
    sum ^= byte;
    for (bit = 0; bit < 8; bit++)
        sum = sum >> 1 ^ (sum & 1 ? UINT32_C(0xEDB88320) : 0);
    return sum;
}

static uint32_t sum_of(const uint8_t *text, fttcan_size len) {
    uint32_t sum = UINT32_C(0xFFFFFFFF);
    fttcan_size place;
    for (place = 0; place < len; place++)
        sum = with_byte(sum, text[place]);
    return ~sum;
}

/* ---- Messages as frames. A text is never whole in memory here: its bytes go to the frames one by one. */

typedef struct {
    fttcan_frame *room;
    fttcan_size len;
    uint32_t sum;
    uint16_t id;
    uint8_t number;
} writer;

static void write_bytes(writer *w, const uint8_t *bytes, unsigned count) {
    unsigned place;
    for (place = 0; place < count; place++, w->len++) {
        fttcan_frame *frame = w->room + w->len / PART;
        if (w->len % PART == 0) {
            unsigned byte;
            frame->id = w->id;
            frame->len = MARK;
            frame->bytes[0] = w->number;
            put_number(frame->bytes + 1, w->len / PART, 2);
            for (byte = MARK; byte < 8; byte++)
                frame->bytes[byte] = 0;
        }
        frame->bytes[frame->len++] = bytes[place];
        w->sum = with_byte(w->sum, bytes[place]);
    }
}

static void write_number(writer *w, uint64_t number, unsigned count) {
    uint8_t bytes[8];
    put_number(bytes, number, count);
    write_bytes(w, bytes, count);
}

static void write_entry(writer *w, const fttcan_entry *entry) {
    write_number(w, entry->slot, 1);
    write_number(w, entry->node, 1);
    write_number(w, entry->length, 1);
    write_number(w, entry->priority, 1);
    write_number(w, entry->phase, 2);
    write_number(w, entry->period, 2);
    write_number(w, entry->deadline, 2);
}

static writer begun(fttcan_frame *room, uint16_t id, uint32_t number, uint8_t kind, fttcan_size count) {
    writer w;
    w.room = room;
    w.len = 0;
    w.sum = UINT32_C(0xFFFFFFFF);
    w.id = id;
    w.number = (uint8_t)number;
    write_number(&w, number, 4);
    write_number(&w, kind, 1);
    write_number(&w, count, 2);
    return w;
}

static void finish(writer *w) { write_number(w, (uint32_t)~w->sum, SUM); }

static fttcan_size length_of(uint8_t kind, fttcan_size count) {
    return kind == FTTCAN_TELLS_CHANGE ? HEAD + START + OP * count + SUM : HEAD + PLACED * count + SUM;
}

static fttcan_size parts_of(fttcan_size len) { return (len + PART - 1) / PART; }

static int is_id(uint16_t id) { return id >= FIRST_ID && id <= LAST_ID; }

static const fttcan_entry no_entry = {0, 0, 0, 0, 0, 0, 0};

uint32_t fttcan_change_encode(uint16_t id, uint32_t number, uint64_t start, const fttcan_op *ops, fttcan_size ops_count,
                              fttcan_frame *room, fttcan_size room_count, fttcan_size *count) {
    fttcan_size place, frames;
    writer w;
    if (!is_id(id) || start >= STARTS_END || ops_count < 1 || ops_count > FTTCAN_MOST_OPS)
        return FTTCAN_ARGUMENT;
    for (place = 0; place < ops_count; place++)
        if (ops[place].kind > FTTCAN_CHANGE)
            return FTTCAN_ARGUMENT;
    frames = parts_of(length_of(FTTCAN_TELLS_CHANGE, ops_count));
    *count = frames;
    if (frames > room_count)
        return FTTCAN_ROOM;
    w = begun(room, id, number, FTTCAN_TELLS_CHANGE, ops_count);
    write_number(&w, start, START);
    for (place = 0; place < ops_count; place++) {
        fttcan_entry entry = ops[place].entry;
        if (ops[place].kind == FTTCAN_REMOVE) {
            entry = no_entry;
            entry.slot = ops[place].entry.slot;
        }
        write_number(&w, ops[place].kind, 1);
        write_entry(&w, &entry);
    }
    finish(&w);
    return FTTCAN_OK;
}

uint32_t fttcan_table_encode(uint16_t id, uint32_t number, const fttcan_placed *placed, fttcan_size placed_count,
                             fttcan_frame *room, fttcan_size room_count, fttcan_size *count) {
    fttcan_size place, frames;
    writer w;
    if (!is_id(id) || placed_count > FTTCAN_MOST_PLACED)
        return FTTCAN_ARGUMENT;
    for (place = 0; place < placed_count; place++)
        if (placed[place].origin >= CYCLES_END || (placed[place].ended && placed[place].end >= CYCLES_END))
            return FTTCAN_ARGUMENT;
    frames = parts_of(length_of(FTTCAN_TELLS_TABLE, placed_count));
    *count = frames;
    if (frames > room_count)
        return FTTCAN_ROOM;
    w = begun(room, id, number, FTTCAN_TELLS_TABLE, placed_count);
    for (place = 0; place < placed_count; place++) {
        write_number(&w, placed[place].origin, 6);
        write_number(&w, placed[place].ended ? placed[place].end : NO_END, 6);
        write_entry(&w, &placed[place].entry);
    }
    finish(&w);
    return FTTCAN_OK;
}

/* ---- Texts, read. */

/* How long a text is by its head; 0 if that is none. */
static fttcan_size length_by(const uint8_t *text) {
    uint8_t kind = text[4];
    fttcan_size count = (fttcan_size)number_at(text + 5, 2);
    if (kind == FTTCAN_TELLS_CHANGE)
        return count < 1 || count > FTTCAN_MOST_OPS ? 0 : length_of(kind, count);
    return kind != FTTCAN_TELLS_TABLE || count > FTTCAN_MOST_PLACED ? 0 : length_of(kind, count);
}

static fttcan_entry entry_at(const uint8_t *at) {
    fttcan_entry entry = no_entry;
    entry.slot = at[0];
    entry.node = at[1];
    entry.length = at[2];
    entry.priority = at[3];
    entry.phase = (uint16_t)number_at(at + 4, 2);
    entry.period = (uint16_t)number_at(at + 6, 2);
    entry.deadline = (uint16_t)number_at(at + 8, 2);
    return entry;
}

/* Whether an operation is as it is written: of a kind that there is, and a removal with a slot alone. */
static int is_op(const uint8_t *at) {
    unsigned place;
    if (at[0] != FTTCAN_REMOVE)
        return at[0] <= FTTCAN_CHANGE;
    for (place = 2; place < OP; place++)
        if (at[place])
            return 0;
    return 1;
}

static int is_placed(const uint8_t *at) {
    uint64_t end = number_at(at + 6, 6);
    return number_at(at, 6) < CYCLES_END && (end < CYCLES_END || end == NO_END);
}

/* Whether the bytes begin with a whole message, and what it is. */
static int is_message(const uint8_t *text, fttcan_size text_len, fttcan_told *told) {
    fttcan_size len, place;
    if (text_len < HEAD)
        return 0;
    len = length_by(text);
    if (len == 0 || len > text_len || number_at(text + len - SUM, SUM) != sum_of(text, len - SUM))
        return 0;
    told->number = (uint32_t)number_at(text, 4);
    told->kind = text[4];
    told->count = (uint16_t)number_at(text + 5, 2);
    told->start = told->kind == FTTCAN_TELLS_CHANGE ? number_at(text + HEAD, START) : 0;
    if (told->kind == FTTCAN_TELLS_TABLE) {
        for (place = 0; place < told->count; place++)
            if (!is_placed(text + HEAD + PLACED * place))
                return 0;
        return 1;
    }
    for (place = 0; place < told->count; place++)
        if (!is_op(text + HEAD + START + OP * place))
            return 0;
    return told->start < STARTS_END;
}

uint32_t fttcan_change_decode(const uint8_t *text, fttcan_size text_len, fttcan_told *told, fttcan_op *room, fttcan_size room_count,
                              fttcan_size *count) {
    fttcan_told said;
    fttcan_size place;
    if (!is_message(text, text_len, &said) || said.kind != FTTCAN_TELLS_CHANGE)
        return FTTCAN_TEXT;
    *count = said.count;
    if (said.count > room_count)
        return FTTCAN_ROOM;
    for (place = 0; place < said.count; place++) {
        const uint8_t *at = text + HEAD + START + OP * place;
        room[place].kind = at[0];
        room[place].entry = entry_at(at + 1);
    }
    *told = said;
    return FTTCAN_OK;
}

uint32_t fttcan_table_decode(const uint8_t *text, fttcan_size text_len, fttcan_told *told, fttcan_placed *room,
                             fttcan_size room_count, fttcan_size *count) {
    fttcan_told said;
    fttcan_size place;
    if (!is_message(text, text_len, &said) || said.kind != FTTCAN_TELLS_TABLE)
        return FTTCAN_TEXT;
    *count = said.count;
    if (said.count > room_count)
        return FTTCAN_ROOM;
    for (place = 0; place < said.count; place++) {
        const uint8_t *at = text + HEAD + PLACED * place;
        uint64_t end = number_at(at + 6, 6);
        room[place].origin = number_at(at, 6);
        room[place].ended = end != NO_END;
        room[place].end = end == NO_END ? 0 : end;
        room[place].entry = entry_at(at + 12);
    }
    *told = said;
    return FTTCAN_OK;
}

/* ---- Frames, collected. The text is at the front of the room, and at its end a bit for each part that came: the first
 *      parts have the last byte. */

static uint8_t *marks_of(uint8_t *room, fttcan_size room_len, fttcan_size part) { return room + room_len - 1 - part / 8; }

static int has_part(uint8_t *room, fttcan_size room_len, fttcan_size part) {
    return *marks_of(room, room_len, part) >> part % 8 & 1;
}

/* Whether so many bytes of text, and the bits of their parts, have room. */
static int has_room(fttcan_size len, fttcan_size room_len) {
    return len + (parts_of(len) + 7) / 8 <= room_len;
}

/* Nothing is collected any more. The bits of all parts that have room are cleared. */
static void forget(fttcan_collected *collected, uint8_t *room, fttcan_size room_len) {
    fttcan_size place, marks = (parts_of(room_len) + 7) / 8;
    for (place = 0; place < marks && place < room_len; place++)
        room[room_len - 1 - place] = 0;
    collected->parts = collected->wanted = collected->last = 0;
    collected->number = collected->begun = collected->whole = 0;
}

static uint32_t dropped(fttcan_collected *collected, uint8_t *room, fttcan_size room_len, uint32_t status) {
    forget(collected, room, room_len);
    return status;
}

/* Takes what the head says, if that is known now: FTTCAN_OK, or why it is dropped. */
static uint32_t by_head(fttcan_collected *collected, uint8_t *room, fttcan_size room_len) {
    fttcan_size len;
    if (collected->wanted || !has_part(room, room_len, 0) || !has_part(room, room_len, 1))
        return FTTCAN_OK;
    len = length_by(room);
    if (len == 0)
        return FTTCAN_TEXT;
    if (!has_room(len, room_len))
        return FTTCAN_ROOM;
    collected->wanted = (uint32_t)parts_of(len);
    /* A last part that came before has the bytes that it has to have, and none behind it came. */
    if (collected->last ? collected->last != len : (len % PART && has_part(room, room_len, collected->wanted - 1)))
        return FTTCAN_TEXT;
    return collected->parts > collected->wanted ? FTTCAN_TEXT : FTTCAN_OK;
}

/* Whether a part of so many bytes can be one of what is collected. */
static int fits_head(const fttcan_collected *collected, const uint8_t *room, fttcan_size part, unsigned used) {
    if (collected->wanted) {
        fttcan_size len = length_by(room), before = PART * part;
        return part < collected->wanted && used == (len - before < PART ? len - before : PART);
    }
    if (collected->last)
        return part * PART < collected->last && (used == PART || part * PART + used == collected->last);
    return 1;
}

/* Whether the part came already, with the same bytes. */
static int is_same(uint8_t *room, const fttcan_frame *frame, fttcan_size part, unsigned used) {
    unsigned place;
    for (place = 0; place < used; place++)
        if (room[PART * part + place] != frame->bytes[MARK + place])
            return 0;
    return 1;
}

uint32_t fttcan_collect(fttcan_collected *collected, const fttcan_frame *frame, uint8_t *room, fttcan_size room_len,
                        fttcan_told *told) {
    fttcan_size part, place;
    unsigned used;
    uint32_t status;
    fttcan_told said;
    if (frame->id > LAST_ID || frame->len > 8 || (collected->wanted && collected->parts > collected->wanted))
        return FTTCAN_ARGUMENT;
    if (frame->len <= MARK)
        return FTTCAN_TEXT;
    used = frame->len - (unsigned)MARK;
    part = (fttcan_size)number_at(frame->bytes + 1, 2);
    if (!has_room(PART * part + used, room_len))
        return FTTCAN_ROOM;
    /* A frame of another message begins that one. */
    if (!collected->begun || collected->whole || collected->number != frame->bytes[0]
        || !fits_head(collected, room, part, used)
        || (has_part(room, room_len, part) && !is_same(room, frame, part, used)))
        forget(collected, room, room_len);
    collected->begun = 1;
    collected->number = frame->bytes[0];
    if (has_part(room, room_len, part))
        return FTTCAN_NO;
    for (place = 0; place < used; place++)
        room[PART * part + place] = frame->bytes[MARK + place];
    *marks_of(room, room_len, part) |= (uint8_t)(1u << part % 8);
    collected->parts++;
    if (used < PART)
        collected->last = (uint32_t)(PART * part + used);
    if (part == 0 && room[0] != collected->number)
        return dropped(collected, room, room_len, FTTCAN_TEXT);
    status = by_head(collected, room, room_len);
    if (status != FTTCAN_OK)
        return dropped(collected, room, room_len, status);
    if (!collected->wanted || collected->parts < collected->wanted)
        return FTTCAN_NO;
    if (!is_message(room, room_len, &said))
        return dropped(collected, room, room_len, FTTCAN_TEXT);
    collected->whole = 1;
    *told = said;
    return FTTCAN_OK;
}
