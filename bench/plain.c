/* The station of document 01, with of 02, in plain C on the same memory as the library, and the checker of
 * a yardstick for `./llinkhiro bench`, not a product. The face is that of llinkhiro.h under other names, so that one program
 * can hold both. */
#include "llinkhiro.h"

#include <stdbool.h>
#include <stdlib.h>
#include <string.h>

enum { AXES = 16, SITUATIONS = 4, CODES = 8, BLOCK = 240, HEADER = 4, ADDRESS = 6, PARAMETERS = 39, REPLY = HEADER + BLOCK };
enum { S1 = 1, S2 = 2, S3 = 3, S4 = 4, S51 = 51, S52 = 52 };
enum { READ = 0x5E, WRITE = 0x5F, SLOT = 0, INDEX = 47 };
enum { KEPT = 16, SETTINGS = 18, LAST_NUMBER = 65535 };
enum { REQUEST = 0x01, CHANGE = 0x02, FAILED = 0x80 };
enum { SIZE_1 = 0x41, SIZE_2 = 0x42, SIZE_4 = 0x43, NOTHING = 0x40, ERROR = 0x44 };
enum type { I16 = 3, I32 = 4, U8 = 5, U16 = 6 };

/* The versions of the settings: of each element the numbers of all slots side by side, low byte first; version n stands in slot
 * (n - 1) % KEPT. A slot not yet in use holds fresh settings. */
struct versions {
    uint8_t p9900[KEPT][2], p9901[8][KEPT][2], p10111[KEPT][2];
    uint8_t p30001[4][KEPT][2], p30002[KEPT][2], p30003[KEPT][2], p30004[2][KEPT][4];
    uint8_t last[2]; /* the last number used; 0 for none */
};

/* Bytes alone, but for the versions high byte first: no padding and any alignment. */
struct part {
    uint8_t p930[2], p944[2], p947[SITUATIONS][CODES][2], p965[2], p9900[2], p9901[8][2];
    uint8_t p10100[2], p10101[2], p10102[2], p10103[2], p10111[2];
    uint8_t p30001[4][2], p30002[2], p30003[2], p30004[2][4];
    uint8_t state, effective[2], length, response[BLOCK];
    struct versions versions;
};

_Static_assert(sizeof(struct part) == 1004 && offsetof(struct part, versions) == 362, "the library's layout");
_Static_assert(__BYTE_ORDER__ == __ORDER_LITTLE_ENDIAN__, "the versions are read and written as the processor's own numbers");

static const uint8_t zeros[BLOCK];

static unsigned word(const uint8_t b[2])
{
    return (unsigned)b[0] << 8 | b[1];
}

static int32_t signed_double(const uint8_t b[4])
{
    return (int32_t)((uint32_t)word(b) << 16 | word(b + 2));
}

static void put_word(uint8_t b[2], unsigned n)
{
    b[0] = (uint8_t)(n >> 8);
    b[1] = (uint8_t)n;
}

static void put_double(uint8_t b[4], int32_t n)
{
    put_word(b, (uint32_t)n >> 16);
    put_word(b + 2, (uint32_t)n);
}

/* Low byte first. */
static uint16_t low_word(const uint8_t b[2])
{
    uint16_t n;

    memcpy(&n, b, sizeof n);
    return n;
}

static int32_t low_double(const uint8_t b[4])
{
    int32_t n;

    memcpy(&n, b, sizeof n);
    return n;
}

static void put_low_word(uint8_t b[2], unsigned n)
{
    memcpy(b, &(uint16_t){ (uint16_t)n }, 2);
}

static void put_low_double(uint8_t b[4], int32_t n)
{
    memcpy(b, &n, sizeof n);
}

static bool zero(const uint8_t *b, size_t len)
{
    return memcmp(b, zeros, len) == 0;
}

/* Bytes of values with the fill byte after an odd number of them; values of two or four bytes are never odd. */
static size_t filled(size_t bytes)
{
    return bytes + bytes % 2;
}

/* Whether what is left begins with so many bytes of values and their fill byte, which is 0. */
static bool values_readable(const uint8_t *values, size_t bytes, size_t left)
{
    return filled(bytes) <= left && (filled(bytes) == bytes || values[bytes] == 0);
}

/* ---- Parameters ---------------------------------------------------------------------------------------------- */

struct parameter {
    int32_t low, high;
    uint16_t at;
    uint8_t type, size, size_code;
    uint8_t elements; /* 0: simple */
    bool writable;
};

#define BY_SIZE(type, one, two, four) ((type) == U8 ? (one) : (type) == I32 ? (four) : (two))
#define ROW(pnu, type, elements, writable, low, high) \
    case pnu: { \
        static const struct parameter p = { low, high, offsetof(struct part, p##pnu), type, BY_SIZE(type, 1, 2, 4), \
                                            BY_SIZE(type, SIZE_1, SIZE_2, SIZE_4), elements, writable }; \
        return &p; \
    }

static const struct parameter *find(unsigned pnu)
{
    switch (pnu) {
        ROW(930, U16, 0, false, 0, 0)
        ROW(944, U16, 0, false, 0, 0)
        ROW(947, U16, SITUATIONS * CODES, false, 0, 0)
        ROW(965, U8, 2, false, 0, 0)
        ROW(9900, U16, 0, true, 0, 65535)
        ROW(9901, U16, 8, true, 0, 65535)
        ROW(10100, U16, 0, false, 0, 0)
        ROW(10101, I16, 0, false, 0, 0)
        ROW(10102, U16, 0, false, 0, 0)
        ROW(10103, I16, 0, false, 0, 0)
        ROW(10111, U16, 0, true, 1, 60000)
        ROW(30001, U16, 4, true, 0, 3000)
        ROW(30002, U16, 0, true, 0, 16384)
        ROW(30003, U16, 0, true, 0, 32767)
        ROW(30004, I32, 2, true, -100000, 100000)
    }
    return NULL;
}

/* ---- Versions ------------------------------------------------------------------------------------------------ */

/* Whether the settings of every slot lie inside their limits; any word is inside those of 9900 and 9901. No test ends it early,
 * so that the compiler can take many slots at a time. */
static bool versions_formed(const struct versions *v)
{
    uint16_t words = 0;
    uint32_t doubles = 0;

    for (unsigned slot = 0; slot < KEPT; slot++) {
        words |= (uint16_t)(low_word(v->p10111[slot]) - 1) > 59999; /* 1 to 60000 */
        words |= low_word(v->p30001[0][slot]) > 3000;
        words |= low_word(v->p30001[1][slot]) > 3000;
        words |= low_word(v->p30001[2][slot]) > 3000;
        words |= low_word(v->p30001[3][slot]) > 3000;
        words |= low_word(v->p30002[slot]) > 16384;
        words |= low_word(v->p30003[slot]) > 32767;
    }
    for (unsigned slot = 0; slot < KEPT; slot++) {
        doubles |= (uint32_t)low_double(v->p30004[0][slot]) + 100000 > 200000;
        doubles |= (uint32_t)low_double(v->p30004[1][slot]) + 100000 > 200000;
    }
    return (words | doubles) == 0;
}

/* The settings into a slot. */
static void keep(struct part *part, unsigned slot)
{
    struct versions *v = &part->versions;

    put_low_word(v->p9900[slot], word(part->p9900));
    for (unsigned i = 0; i < 8; i++)
        put_low_word(v->p9901[i][slot], word(part->p9901[i]));
    put_low_word(v->p10111[slot], word(part->p10111));
    for (unsigned i = 0; i < 4; i++)
        put_low_word(v->p30001[i][slot], word(part->p30001[i]));
    put_low_word(v->p30002[slot], word(part->p30002));
    put_low_word(v->p30003[slot], word(part->p30003));
    for (unsigned i = 0; i < 2; i++)
        put_low_double(v->p30004[i][slot], signed_double(part->p30004[i]));
}

/* The settings from a slot. */
static void restore(struct part *part, unsigned slot)
{
    const struct versions *v = &part->versions;

    put_word(part->p9900, low_word(v->p9900[slot]));
    for (unsigned i = 0; i < 8; i++)
        put_word(part->p9901[i], low_word(v->p9901[i][slot]));
    put_word(part->p10111, low_word(v->p10111[slot]));
    for (unsigned i = 0; i < 4; i++)
        put_word(part->p30001[i], low_word(v->p30001[i][slot]));
    put_word(part->p30002, low_word(v->p30002[slot]));
    put_word(part->p30003, low_word(v->p30003[slot]));
    for (unsigned i = 0; i < 2; i++)
        put_double(part->p30004[i], low_double(v->p30004[i][slot]));
}

/* The settings as they are become the next version; its number. */
static uint16_t take(struct part *part)
{
    unsigned last = low_word(part->versions.last);

    keep(part, last % KEPT);
    put_low_word(part->versions.last, last + 1);
    return (uint16_t)(last + 1);
}

static struct llinkhiro_listed list(const struct part *part)
{
    unsigned last = low_word(part->versions.last), kept = last < KEPT ? last : KEPT;

    return (struct llinkhiro_listed){ (uint16_t)(last - kept + 1), (uint16_t)kept, 0 };
}

static bool used_up(const struct part *part)
{
    return low_word(part->versions.last) == LAST_NUMBER;
}

/* ---- A part -------------------------------------------------------------------------------------------------- */

static bool situation_formed(const uint8_t codes[CODES][2])
{
    unsigned used = 0;

    for (; used < CODES && word(codes[used]) != 0; used++)
        for (unsigned i = 0; i < used; i++)
            if (word(codes[i]) == word(codes[used]))
                return false;
    return zero(codes[0] + 2 * used, 2 * (CODES - used));
}

/* The bytes of values in the next block of a response of this kind, by its format and count; -1 where none may stand so. */
static int item_bytes(unsigned kind, unsigned format, unsigned count)
{
    switch (format) {
    case NOTHING: return kind == (CHANGE | FAILED) && count == 0 ? 0 : -1;
    case ERROR: return kind != REQUEST && count == 1 ? 2 : -1;
    case SIZE_1:
    case SIZE_2:
    case SIZE_4: return kind != (CHANGE | FAILED) && count > 0 ? (int)(count << (format - SIZE_1)) : -1;
    default: return -1;
    }
}

static bool header_readable(const uint8_t *block, size_t len)
{
    return len >= HEADER && len <= BLOCK && block[0] != 0 && block[3] >= 1 && block[3] <= PARAMETERS;
}

static bool response_readable(const uint8_t *block, size_t len)
{
    size_t at = HEADER;
    bool failed = false;

    if (!header_readable(block, len))
        return false;
    unsigned kind = block[1];
    if (kind == CHANGE)
        return len == HEADER;
    if (kind != REQUEST && kind != (REQUEST | FAILED) && kind != (CHANGE | FAILED))
        return false;
    for (unsigned left = block[3]; left > 0; left--) {
        if (len - at < 2)
            return false;
        int bytes = item_bytes(kind, block[at], block[at + 1]);
        if (bytes < 0 || !values_readable(block + at + 2, (size_t)bytes, len - at - 2))
            return false;
        failed |= block[at] == ERROR;
        at += 2 + filled((size_t)bytes);
    }
    return at == len && (kind == REQUEST || failed);
}

static bool waiting_formed(const struct part *part, unsigned axis)
{
    unsigned len = part->length;

    if (len > BLOCK || !zero(part->response + len, BLOCK - len))
        return false;
    return len == 0 || (response_readable(part->response, len) && part->response[2] == axis);
}

static bool limits_formed(const struct part *part)
{
    unsigned rpm = word(part->p10111);
    bool formed = rpm >= 1 && rpm <= 60000 && word(part->p30002) <= 16384 && word(part->p30003) <= 32767;

    for (unsigned i = 0; i < 4; i++)
        formed &= word(part->p30001[i]) <= 3000;
    for (unsigned i = 0; i < 2; i++)
        formed &= (uint32_t)signed_double(part->p30004[i]) + 100000 <= 200000;
    return formed;
}

static bool well_formed(const struct part *part, unsigned axis)
{
    unsigned s = part->state;

    if (!((s >= S1 && s <= S4) || s == S51 || s == S52))
        return false;
    if (word(part->p930) != 1 || part->p965[0] != 3 || part->p965[1] != 41)
        return false;
    for (unsigned i = 0; i < SITUATIONS; i++)
        if (!situation_formed(part->p947[i]))
            return false;
    return limits_formed(part) && versions_formed(&part->versions) && waiting_formed(part, axis);
}

/* Refusals 1 and 2; the caller's part where there is none. */
static unsigned own_part(uint8_t *station, size_t station_len, uint32_t owner, struct part **part)
{
    if (owner < 1 || owner > AXES)
        return 1;
    if (station_len != AXES * sizeof **part)
        return 2;
    *part = (struct part *)station + (owner - 1);
    return well_formed(*part, owner) ? 0 : 2;
}

size_t plain_size(void)
{
    return AXES * sizeof(struct part);
}

uint8_t plain_fresh(uint8_t *station, size_t station_len)
{
    if (station_len != plain_size())
        return 2;
    memset(station, 0, station_len);
    for (struct part *part = (struct part *)station; part < (struct part *)station + AXES; part++) {
        put_word(part->p930, 1);
        part->p965[0] = 3;
        part->p965[1] = 41;
        put_word(part->p10102, 0x0340);
        put_word(part->p10111, 1500);
        put_word(part->p30002, 164);
        put_word(part->p30003, 16384);
        part->state = S1;
        for (unsigned slot = 0; slot < KEPT; slot++)
            keep(part, slot);
    }
    return 0;
}

/* ---- The cycle ----------------------------------------------------------------------------------------------- */

static bool bit(unsigned word, unsigned number)
{
    return word >> number & 1;
}

static void count_fault(struct part *part)
{
    put_word(part->p944, word(part->p944) + 1);
}

/* Step 2. */
static void acknowledge(struct part *part, unsigned stw1, uint16_t fault)
{
    if (!bit(stw1, 7) || bit(word(part->p10100), 7) || fault != 0 || word(part->p947[0][0]) == 0)
        return;
    memmove(part->p947[1], part->p947[0], (SITUATIONS - 1) * sizeof part->p947[0]);
    memset(part->p947[0], 0, sizeof part->p947[0]);
    count_fault(part);
}

/* Step 3. */
static void record_fault(struct part *part, uint16_t fault)
{
    for (unsigned i = 0; fault != 0 && i < CODES; i++) {
        unsigned code = word(part->p947[0][i]);

        if (code == fault)
            return;
        if (code == 0) {
            put_word(part->p947[0][i], fault);
            count_fault(part);
            return;
        }
    }
}

/* Step 4 without a fault. */
static unsigned next_state(unsigned state, unsigned w, bool standstill)
{
    bool b0 = bit(w, 0), b1 = bit(w, 1), b2 = bit(w, 2), b3 = bit(w, 3);

    switch (state) {
    case S1: return !b0 && b1 && b2 ? S2 : S1;
    case S2: return !b1 || !b2 ? S1 : b0 ? S3 : S2;
    case S3: return !b1 || !b2 ? S1 : !b0 ? S2 : b3 ? S4 : S3;
    case S4: return !b1 ? S1 : !b2 ? S52 : !b0 ? S51 : !b3 ? S3 : S4;
    case S51: return !b1 ? S1 : !b2 ? S52 : b0 && b3 ? S4 : standstill || !b3 ? S2 : S51;
    default: return !b1 || standstill || !b3 ? S1 : S52;
    }
}

/* Bits 0, 1, 2 and 6 of the status word. */
static unsigned state_bits(unsigned state)
{
    return state == S1 ? 0x40 : state == S2 ? 0x01 : state == S4 ? 0x07 : 0x03;
}

/* Steps 1 to 7. */
static struct llinkhiro_cycled cycled(struct part *part, unsigned flags, uint16_t stw1, int16_t nsoll, int16_t nist, uint16_t fault)
{
    unsigned w = bit(stw1, 10) ? stw1 : word(part->p10100);
    int16_t setpoint = bit(stw1, 10) ? nsoll : (int16_t)word(part->p10101), effective = 0;

    acknowledge(part, w, fault);
    record_fault(part, fault);
    bool faulted = word(part->p947[0][0]) != 0;
    unsigned state = faulted ? S1 : next_state(part->state, w, bit(flags, 0));
    if (state == S4 && bit(w, 4) && bit(w, 6))
        effective = bit(w, 5) ? setpoint : (int16_t)word(part->effective);
    bool near = abs(effective - nist) <= (int)word(part->p30002);
    bool fast = abs(nist) >= (int)word(part->p30003);
    unsigned status = state_bits(state) | faulted << 3 | (w & 0x06) << 3 | bit(flags, 1) << 7 | near << 8 | 1 << 9 | fast << 10;
    part->state = (uint8_t)state;
    put_word(part->effective, (uint16_t)effective);
    put_word(part->p10100, w);
    put_word(part->p10101, (uint16_t)setpoint);
    put_word(part->p10102, status);
    put_word(part->p10103, (uint16_t)nist);
    int32_t rpm = effective * (int32_t)word(part->p10111) / 16384;
    return (struct llinkhiro_cycled){ rpm, (uint16_t)status, (uint8_t)state, 0 };
}

struct llinkhiro_cycled plain_cycle(uint8_t *station, size_t station_len, uint32_t axis, uint32_t flags, uint16_t stw1,
                                    int16_t nsoll, int16_t nist, uint16_t fault)
{
    struct part *part;
    unsigned number = own_part(station, station_len, axis, &part);

    if (number == 0 && flags > 3)
        number = 12;
    if (number != 0)
        return (struct llinkhiro_cycled){ 0, 0, 0, (uint8_t)number };
    return cycled(part, flags, stw1, nsoll, nist, fault);
}

/* ---- Requests ------------------------------------------------------------------------------------------------ */

static unsigned format_size(unsigned format)
{
    switch (format) {
    case SIZE_1: case 2: case 5: return 1;
    case SIZE_2: case 3: case 6: return 2;
    case SIZE_4: case 4: case 7: return 4;
    default: return 0;
    }
}

static bool request_readable(const uint8_t *block, size_t len)
{
    if (!header_readable(block, len) || (block[1] != REQUEST && block[1] != CHANGE))
        return false;
    size_t at = HEADER + (size_t)block[3] * ADDRESS;
    for (unsigned left = block[1] == CHANGE ? block[3] : 0; left > 0; left--) {
        if (at + 2 > len || format_size(block[at]) == 0)
            return false;
        size_t bytes = format_size(block[at]) * block[at + 1];
        if (!values_readable(block + at + 2, bytes, len - at - 2))
            return false;
        at += 2 + filled(bytes);
    }
    return at == len;
}

/* The elements that an address names: how many, and their first byte in the part. */
struct place {
    const struct parameter *parameter;
    unsigned elements;
    size_t at;
};

/* The rules for every address: the error, or -1 and the place. */
static int locate(const uint8_t address[ADDRESS], struct place *place)
{
    const struct parameter *p = find(word(address + 2));
    unsigned elements = address[1], first = word(address + 4);

    if (p == NULL)
        return 0x00;
    if (address[0] != 0x10)
        return address[0] == 0x20 ? 0x09 : address[0] == 0x30 ? 0x0F : 0x16;
    if (p->elements == 0 && (first != 0 || elements > 1))
        return 0x04;
    if (p->elements != 0 && elements == 0)
        return 0x16;
    if (p->elements != 0 && first + elements > p->elements)
        return 0x03;
    *place = (struct place){ p, elements == 0 ? 1 : elements, p->at + (size_t)first * p->size };
    return -1;
}

/* Whether n values all lie inside a parameter's limits. */
static bool inside(const struct parameter *p, const uint8_t *value, unsigned n)
{
    for (; n > 0; n--, value += p->size) {
        int32_t x = p->type == I32 ? signed_double(value) : (int32_t)word(value); /* no other type is writable */

        if (x < p->low || x > p->high)
            return false;
    }
    return true;
}

/* The rules for an address of a change and its values: the error, or -1 and the place to store them in. */
static inline int allow(const uint8_t *address, const uint8_t *values, struct place *to)
{
    int error = locate(address, to);

    if (error >= 0)
        return error;
    if (!to->parameter->writable)
        return 0x01;
    if (values[0] != to->parameter->type && values[0] != to->parameter->size_code)
        return 0x05;
    if (values[1] != to->elements)
        return 0x18;
    return inside(to->parameter, values + 2, to->elements) ? -1 : 0x02;
}

/* One address of a change: -1, its elements stored and counted; or the error, and none is. */
static int change(struct part *part, const uint8_t *address, const uint8_t *values, uint16_t *stored)
{
    struct place to = { NULL, 0, 0 };
    int error = allow(address, values, &to);

    if (error >= 0)
        return error;
    memcpy((uint8_t *)part + to.at, values + 2, to.elements * to.parameter->size);
    *stored += (uint16_t)to.elements;
    return -1;
}

/* The values after these. */
static const uint8_t *next_values(const uint8_t *values)
{
    return values + 2 + filled(format_size(values[0]) * values[1]);
}

/* Adds the error's block; with it the response is one of failure. */
static uint8_t *add_error(struct part *part, uint8_t *to, int error)
{
    part->response[1] |= FAILED;
    memcpy(to, (uint8_t[]){ ERROR, 1, 0, (uint8_t)error }, 4);
    return to + 4;
}

/* Writes the blocks of the response to a request from `to` on; their end. All is 0 there before, so fill bytes need no write. */
static uint8_t *read_all(struct part *part, const uint8_t *block, uint8_t *to)
{
    const uint8_t *address = block + HEADER;

    for (unsigned left = block[3]; left > 0; left--, address += ADDRESS) {
        struct place from = { NULL, 0, 0 };
        int error = locate(address, &from);
        size_t bytes = error < 0 ? from.elements * from.parameter->size : 0;

        if (error < 0 && (size_t)(to - part->response) + 2 + filled(bytes) > BLOCK - 4 * (left - 1))
            error = 0x15;
        if (error >= 0) {
            to = add_error(part, to, error);
            continue;
        }
        *to++ = from.parameter->size_code;
        *to++ = (uint8_t)from.elements;
        memcpy(to, (uint8_t *)part + from.at, bytes);
        to += filled(bytes);
    }
    return to;
}

/* The same for a change: no blocks where all went well. */
static uint8_t *change_all(struct part *part, const uint8_t *block, uint8_t *to, uint16_t *stored)
{
    const uint8_t *address = block + HEADER, *values = address + (size_t)block[3] * ADDRESS;
    uint8_t *start = to;

    for (unsigned left = block[3]; left > 0; left--, address += ADDRESS) {
        int error = change(part, address, values, stored);

        values = next_values(values);
        if (error >= 0) {
            to = add_error(part, to, error);
            continue;
        }
        *to++ = NOTHING;
        *to++ = 0;
    }
    if (part->response[1] & FAILED)
        return to;
    memset(start, 0, (size_t)(to - start));
    return start;
}

/* Whether a readable block would store an element. What an address may store hangs on no other and on nothing stored. */
static bool would_store(const uint8_t *block)
{
    const uint8_t *address = block + HEADER, *values = address + (size_t)block[3] * ADDRESS;

    for (unsigned left = block[1] == CHANGE ? block[3] : 0; left > 0; left--, address += ADDRESS) {
        struct place to;

        if (allow(address, values, &to) < 0)
            return true;
        values = next_values(values);
    }
    return false;
}

/* ---- Frames -------------------------------------------------------------------------------------------------- */

/* Refusals 5 to 11, and 15. */
static unsigned refusal(const struct part *part, unsigned farm, const uint8_t *frame, size_t frame_len)
{
    bool read = frame[0] == READ;
    size_t len = frame[3], after = frame_len - HEADER;

    if (frame[1] != SLOT)
        return 5;
    if (frame[2] != INDEX)
        return 6;
    if (len > BLOCK || after != (read ? 0 : len))
        return 7;
    if (read != (part->length != 0))
        return 8;
    if (read)
        return len < part->length ? 9 : 0;
    if (!request_readable(frame + HEADER, len))
        return 10;
    if (frame[HEADER + 2] != farm)
        return 11;
    return used_up(part) && would_store(frame + HEADER) ? 15 : 0;
}

static struct llinkhiro_framed fetch(struct part *part, uint8_t *reply)
{
    unsigned len = part->length;

    memcpy(reply, (uint8_t[]){ READ, SLOT, INDEX, (uint8_t)len }, HEADER);
    memcpy(reply + HEADER, part->response, len);
    memset(part->response, 0, len);
    part->length = 0;
    return (struct llinkhiro_framed){ (uint16_t)(HEADER + len), 0, 0 };
}

static struct llinkhiro_framed work(struct part *part, const uint8_t *frame, uint8_t *reply)
{
    const uint8_t *block = frame + HEADER;
    uint8_t *to = part->response + HEADER;
    uint16_t stored = 0;

    memcpy(part->response, block, HEADER);
    to = block[1] == REQUEST ? read_all(part, block, to) : change_all(part, block, to, &stored);
    part->length = (uint8_t)(to - part->response);
    if (stored > 0)
        take(part);
    memcpy(reply, frame, HEADER);
    return (struct llinkhiro_framed){ HEADER, stored, 0 };
}

struct llinkhiro_framed plain_frame(uint8_t *station, size_t station_len, uint32_t farm, const uint8_t *frame,
                                    size_t frame_len, uint8_t *reply, size_t reply_len)
{
    static const uint8_t codes[] = {
        [5] = 0xB2, [6] = 0xB0, [7] = 0xB1, [8] = 0xB5, [9] = 0xB7, [10] = 0xB8, [11] = 0xB6, [15] = 0xA1
    };
    struct part *part;
    unsigned number = own_part(station, station_len, farm, &part);

    if (number == 0 && reply_len < REPLY)
        number = 3;
    if (number == 0 && (frame_len < HEADER || (frame[0] != READ && frame[0] != WRITE)))
        number = 4;
    if (number != 0)
        return (struct llinkhiro_framed){ 0, 0, (uint8_t)number };
    number = refusal(part, farm, frame, frame_len);
    if (number != 0) {
        memcpy(reply, (uint8_t[]){ frame[0] | FAILED, 0x80, codes[number], 0 }, HEADER);
        return (struct llinkhiro_framed){ HEADER, 0, (uint8_t)number };
    }
    return frame[0] == READ ? fetch(part, reply) : work(part, frame, reply);
}

/* A write and the fetch of its response. A read is refused as no frame at all would be: 4, after 1 to 3. */
struct llinkhiro_framed plain_exchange(uint8_t *station, size_t station_len, uint32_t farm, const uint8_t *frame,
                                       size_t frame_len, uint8_t *reply, size_t reply_len)
{
    bool reads = frame_len > 0 && frame[0] == READ;
    struct llinkhiro_framed written = plain_frame(station, station_len, farm, frame, reads ? 0 : frame_len, reply, reply_len);

    if (written.number != 0)
        return written;
    struct llinkhiro_framed fetched = fetch((struct part *)station + (farm - 1), reply);
    fetched.stored = written.stored;
    return fetched;
}

/* ---- Old settings -------------------------------------------------------------------------------------------- */

struct llinkhiro_listed plain_versions(const uint8_t *station, size_t station_len, uint32_t farm)
{
    struct part *part;
    unsigned number = own_part((uint8_t *)station, station_len, farm, &part); /* which writes nothing */

    return number != 0 ? (struct llinkhiro_listed){ 0, 0, (uint8_t)number } : list(part);
}

/* Refusals 14 and 15 of going back. A version that is not kept is never one of those from the oldest on. */
static unsigned version_refusal(const struct part *part, uint32_t version)
{
    struct llinkhiro_listed kept = list(part);

    if (version < kept.oldest || version - kept.oldest >= kept.kept)
        return 14;
    return used_up(part) ? 15 : 0;
}

/* The version is restored before the new one is taken, which may stand in its slot. */
struct llinkhiro_returned plain_go_back(uint8_t *station, size_t station_len, uint32_t farm, uint32_t version)
{
    struct part *part;
    unsigned number = own_part(station, station_len, farm, &part);

    if (number == 0)
        number = version_refusal(part, version);
    if (number != 0)
        return (struct llinkhiro_returned){ 0, 0, (uint8_t)number };
    restore(part, (version - 1) % KEPT);
    return (struct llinkhiro_returned){ SETTINGS, take(part), 0 };
}

/* ---- The checker --------------------------------------------------------------------------------------------- */

/* Whether block k of a readable response has as many values as address k asked, or none. The request is readable too, and
 * names as many parameters. */
static bool counts_asked(const uint8_t *request, const uint8_t *response)
{
    const uint8_t *address = request + HEADER, *item = response + HEADER;

    for (unsigned left = response[3]; left > 0; left--, address += ADDRESS) {
        unsigned format = item[0], count = item[1], asked = address[1] == 0 ? 1 : address[1];

        if (format != ERROR && count != asked)
            return false;
        item += 2 + filled(format == ERROR ? 2 : count << (format - SIZE_1));
    }
    return true;
}

/* The checks in order; 0 is yes. Of a change no values come back. */
uint8_t plain_check(const uint8_t *request, size_t request_len, const uint8_t *response, size_t response_len)
{
    if (!request_readable(request, request_len))
        return 1;
    if (!response_readable(response, response_len))
        return 2;
    if (response[0] != request[0])
        return 3;
    if (response[2] != request[2])
        return 4;
    if (response[3] != request[3])
        return 5;
    if ((response[1] & ~FAILED) != request[1])
        return 6;
    return request[1] == CHANGE || counts_asked(request, response) ? 0 : 7;
}
