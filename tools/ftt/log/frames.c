/* Reads the usual lines of long recordings and logs, for tools/fttlog. What it does is what the readers in Python do, which
 * are always there: recording.py for lines of `candump -L`, own.py for rows of a log. Any other line is handed back to them,
 * by its place in the text. tools/check-conform compares both. It needs a C compiler and nothing else; fast.py builds it.
 *
 * Nothing of it is proved, and nothing that is proved rests on it.
 */
#include <stddef.h>
#include <stdint.h>

/* A frame of a recording. Of any other line `identifier` is OTHER, and `nanos` the place of the line in the text. */
struct recorded {
    int64_t nanos;
    uint16_t identifier;
    uint8_t bits, size, data[8], rest[4];
    uint64_t line;
};

/* A row of a log: `frame` with its start, or `open` with its cycle. `place` is that of the row in the text, and `order` its
 * number among the rows, from 0 on. Masks are little endian, as in a trigger. */
struct row {
    int64_t number;
    uint32_t width;
    uint16_t identifier;
    uint8_t kind, size, data[8];
    uint32_t order;
    uint8_t mask[12];
    uint64_t place;
};

enum { OTHER = 0xffff, FRAME = 1, OPEN = 2, ANY = 3 };

/* The value of a hexadecimal digit; -1 of any other letter. */
static int digit_of(char letter, int is_upper_taken)
{
    if (letter >= '0' && letter <= '9')
        return letter - '0';
    if (letter >= 'a' && letter <= 'f')
        return letter - 'a' + 10;
    return is_upper_taken && letter >= 'A' && letter <= 'F' ? letter - 'A' + 10 : -1;
}

/* The identifiers of this profile: triggers, slots, asynchronous messages. */
static int is_own(unsigned identifier)
{
    return identifier <= 1 || (identifier >= 0x100 && identifier < 0x160) || (identifier >= 0x200 && identifier <= 0x7ef);
}

/* A frame that is being counted: the last bit and how often it stood there, the CRC register, and the bits so far. */
struct wire {
    unsigned last, run, crc, bits;
};

/* One bit more, with the stuff bit that it brings. The CRC sequence is stuffed and not counted in itself. */
static void put(struct wire *wire, unsigned bit, int is_crc)
{
    if (!is_crc) {
        unsigned carry = (wire->crc >> 14 ^ bit) & 1;
        wire->crc = (wire->crc << 1 & 0x7fff) ^ (carry ? 0x4599 : 0);
    }
    wire->run = bit == wire->last ? wire->run + 1 : 1;
    wire->last = bit;
    wire->bits++;
    if (wire->run == 5) {
        wire->last = !bit;
        wire->run = 1;
        wire->bits++;
    }
}

static void put_number(struct wire *wire, unsigned number, int width, int is_crc)
{
    while (width-- > 0)
        put(wire, number >> width & 1, is_crc);
}

/* The length of a data frame in bit times, with stuff bits and intermission: CAN 2.0 Part A. */
unsigned fttlog_bits(unsigned identifier, const uint8_t *data, unsigned size)
{
    struct wire wire = {1, 1, 0, 0};
    put_number(&wire, identifier << 3, 15, 0); /* start of frame, identifier, RTR, IDE and r0 */
    put_number(&wire, size, 4, 0);
    for (unsigned at = 0; at < size; at++)
        put_number(&wire, data[at], 8, 0);
    put_number(&wire, wire.crc, 15, 1);
    return wire.bits + 13; /* delimiters, acknowledgement, end of frame and intermission */
}

/* Data bytes from `at` on, up to any other letter: how many, or -1 where it are more than eight or half a byte. */
static int data_at(const char **at, const char *end, uint8_t *data, int is_upper_taken)
{
    int size = 0;
    while (end - *at >= 1 && digit_of(**at, is_upper_taken) >= 0) {
        if (size == 8 || end - *at < 2 || digit_of((*at)[1], is_upper_taken) < 0)
            return -1;
        data[size++] = (uint8_t)(digit_of(**at, is_upper_taken) << 4 | digit_of((*at)[1], is_upper_taken));
        *at += 2;
    }
    return size;
}

/* A line of candump -L in its usual form: (SECONDS.MICROS) INTERFACE ID#DATA, with a direction or none. */
static int usual(const char *at, const char *end, const char *interface, size_t letters, int is_any, struct recorded *out)
{
    int64_t seconds = 0, micros = 0;
    int many = 0;
    if (at == end || *at++ != '(')
        return 0;
    for (; at < end && *at >= '0' && *at <= '9'; at++, many++)
        seconds = seconds * 10 + (*at - '0');
    if (many == 0 || many > 12 || at == end || *at++ != '.')
        return 0;
    for (many = 0; at < end && *at >= '0' && *at <= '9'; at++, many++)
        micros = micros * 10 + (*at - '0');
    if (many != 6 || end - at < 2 || *at++ != ')' || *at++ != ' ')
        return 0;
    for (size_t place = 0; place < letters; place++)
        if (at == end || *at++ != interface[place])
            return 0;
    if (end - at < 5 || *at++ != ' ')
        return 0;
    unsigned identifier = 0;
    for (many = 0; many < 3; many++, at++) {
        int digit = digit_of(*at, 1);
        if (digit < 0)
            return 0;
        identifier = identifier << 4 | (unsigned)digit;
    }
    if (*at++ != '#' || (is_any ? identifier > 0x7ff : !is_own(identifier)))
        return 0;
    int size = data_at(&at, end, out->data, 1);
    if (size < 0)
        return 0;
    if (end - at >= 2 && *at == ' ' && (at[1] == 'R' || at[1] == 'T'))
        at += 2;
    for (; at < end; at++)
        if (*at != ' ' && *at != '\t' && *at != '\r')
            return 0;
    out->nanos = (seconds * 1000000 + micros) * 1000;
    out->identifier = (uint16_t)identifier;
    out->size = (uint8_t)size;
    out->bits = is_any ? 0 : (uint8_t)fttlog_bits(identifier, out->data, (unsigned)size);
    return 1;
}

/* The lines of a text of whole lines, of which the first has this number. There has to be room for one record a line. How many
 * records there are, and how many of other lines; lines of blanks have none. Frames of any identifier with 11 bits are taken,
 * without their lengths on the bus, or those of this profile, with their lengths. */
size_t fttlog_recorded(const char *text, size_t length, uint64_t line, const char *interface, size_t letters, int is_any,
                       struct recorded *out, size_t *others)
{
    size_t found = 0;
    *others = 0;
    const char *at = text, *last = text + length;
    for (; at < last; line++) {
        const char *end = at;
        int is_blank = 1;
        for (; end < last && *end != '\n'; end++)
            is_blank &= *end == ' ' || *end == '\t' || *end == '\r';
        if (!is_blank) {
            struct recorded *it = &out[found++];
            it->line = line;
            if (letters == 0 || !usual(at, end, interface, letters, is_any, it)) {
                it->identifier = OTHER;
                it->nanos = at - text;
                it->size = 0;
                ++*others;
            }
        }
        at = end + 1;
    }
    return found;
}

/* A number without needless noughts, and the comma after it, or the end where it is the last field. */
static int number_at(const char **at, const char *end, int is_last, int64_t *number)
{
    int many = 0;
    *number = 0;
    if (end - *at >= 2 && **at == '0' && (*at)[1] >= '0' && (*at)[1] <= '9')
        return 0;
    for (; *at < end && **at >= '0' && **at <= '9'; (*at)++, many++)
        *number = *number * 10 + (**at - '0');
    if (many == 0 || many > 18)
        return 0;
    return is_last ? *at == end : *at < end && *(*at)++ == ',';
}

/* Whether a word stands here; it is passed then. */
static int passed(const char **at, const char *end, const char *word)
{
    const char *here = *at;
    for (; *word; word++, here++)
        if (here == end || *here != *word)
            return 0;
    *at = here;
    return 1;
}

static int frame_row(const char *at, const char *end, struct row *out)
{
    int64_t length;
    if (!passed(&at, end, "frame,") || !number_at(&at, end, 0, &out->number) || !number_at(&at, end, 0, &length))
        return 0;
    if (length > 0xffffffff || end - at < 4)
        return 0;
    out->width = (uint32_t)length;
    out->identifier = 0;
    for (int many = 0; many < 3; many++, at++) {
        int digit = digit_of(*at, 0);
        if (digit < 0)
            return 0;
        out->identifier = (uint16_t)(out->identifier << 4 | digit);
    }
    if (*at++ != ',')
        return 0;
    int size = data_at(&at, end, out->data, 0);
    out->size = (uint8_t)size;
    out->kind = FRAME;
    return size >= 0 && at == end;
}

static int open_row(const char *at, const char *end, struct row *out)
{
    int64_t width;
    if (!passed(&at, end, "open,") || !number_at(&at, end, 0, &out->number))
        return 0;
    const char *mask = at;
    while (at < end && digit_of(*at, 0) >= 0)
        at++;
    ptrdiff_t digits = at - mask;
    if ((digits != 10 && digits != 24) || at == end || *at++ != ',' || !number_at(&at, end, 1, &width) || width > 0xffffffff)
        return 0;
    for (int place = 0; place < 12; place++)
        out->mask[place] = 0;
    int is_wide = 0;
    for (ptrdiff_t place = 0; place < digits; place++) {
        int digit = digit_of(mask[place], 0);
        ptrdiff_t nibble = digits - 1 - place;
        out->mask[nibble / 2] |= (uint8_t)(digit << 4 * (nibble % 2));
        is_wide |= place < 14 && digit;
    }
    out->width = (uint32_t)width;
    out->kind = OPEN;
    return digits == 10 || is_wide;
}

/* The rows of a text of whole lines, one record each; or without the frames of slots after the first one of a cycle. How many
 * there are. */
size_t fttlog_rows(const char *text, size_t length, int is_short, struct row *out)
{
    size_t found = 0;
    uint32_t order = 0;
    int is_slot_out = 0;
    const char *at = text, *last = text + length;
    while (at < last) {
        const char *end = at;
        while (end < last && *end != '\n')
            end++;
        const char *behind = end > at && end[-1] == '\r' ? end - 1 : end;
        struct row *it = &out[found];
        if (!frame_row(at, behind, it) && !open_row(at, behind, it))
            it->kind = ANY;
        it->place = (uint64_t)(at - text);
        it->order = order++;
        int is_slot = it->kind == FRAME && it->identifier >= 0x100 && it->identifier < 0x160;
        is_slot_out = it->kind == OPEN ? 0 : is_slot_out;
        if (!is_short || !is_slot || !is_slot_out)
            found++;
        is_slot_out |= is_slot;
        at = end + 1;
    }
    return found;
}

/* What these functions are: readers ask for it, so that no other library of this name is taken. */
unsigned fttlog_form(void)
{
    return sizeof(struct recorded) << 8 | sizeof(struct row);
}
