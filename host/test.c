/* A test of the station's C face against documents 01 and 02. Every expected byte was worked out from them by hand, but
 * for the replies of merged calls beside an accepted write, which come from the write and the fetch themselves, and for
 * long runs of versions, which are kept here by R-7's rule, from a table of the settings and their limits.
 *
 * Each call is made on memories of its own with guard bytes of a known pattern on both sides, and everything is checked
 * after it: the answer, the reply, the reply memory past it, the frame, the station and all guards. A refused call must
 * leave the whole station as it was, an accepted one every part but its own. Every frame is sent by the merged call
 * too, on a copy of the station; where the write is accepted, it is held against the write and a fetch in turn. Every
 * response to a merged call is then checked for its request, and must pass.
 *
 *   test       names what failed, counts each group, and ends with `N checks, M failed`
 *   test -v    names every check
 */
#define _DEFAULT_SOURCE /* for MAP_ANONYMOUS */

#include "llinkhiro.h"

#include <inttypes.h>
#include <stdarg.h>
#include <stdbool.h>
#include <stdio.h>
#include <stdlib.h>
#include <string.h>
#include <sys/mman.h>
#include <unistd.h>

enum { AXES = 16, GUARD = 64, REPLY = 244, LARGEST_BLOCK = 240 };

/* ---- Checks -------------------------------------------------------------------------------------------------- */

static bool loud;
static unsigned long checks, failed;

static void check(const char *name, const char *what, bool holds)
{
    checks++;
    if (!holds)
        failed++;
    if (!holds || loud)
        printf("%s %s: %s\n", holds ? "ok" : "FAILED", name, what);
}

static void check_number(const char *name, const char *what, int64_t got, int64_t wanted)
{
    check(name, what, got == wanted);
    if (got != wanted)
        printf("    got %" PRId64 ", wanted %" PRId64 "\n", got, wanted);
}

static void check_bytes(const char *name, const char *what, const uint8_t *got, const uint8_t *wanted, size_t len)
{
    size_t same = 0;

    while (same < len && got[same] == wanted[same])
        same++;
    check(name, what, same == len);
    if (same < len)
        printf("    byte %zu: got %02X, wanted %02X\n", same, (unsigned)got[same], (unsigned)wanted[same]);
}

/* A check's name made of numbers; good until the next one is made. */
static const char *named(const char *format, ...)
{
    static char name[160];
    va_list numbers;

    va_start(numbers, format);
    vsnprintf(name, sizeof name, format, numbers);
    va_end(numbers);
    return name;
}

/* ---- Bytes --------------------------------------------------------------------------------------------------- */

struct bytes {
    size_t len;
    uint8_t at[320];
};

/* Adds the bytes of a hex text. */
static void add(struct bytes *bytes, const char *text)
{
    char *end;

    for (unsigned long byte = strtoul(text, &end, 16); end != text; byte = strtoul(text, &end, 16)) {
        if (bytes->len == sizeof bytes->at)
            abort();
        bytes->at[bytes->len++] = (uint8_t)byte;
        text = end;
    }
}

static void add_times(struct bytes *bytes, unsigned times, const char *text)
{
    for (unsigned i = 0; i < times; i++)
        add(bytes, text);
}

static struct bytes hex(const char *text)
{
    struct bytes bytes = { 0, { 0 } };

    add(&bytes, text);
    return bytes;
}

/* The block of a frame or a reply: what stands after the four bytes of its header. */
static struct bytes block_of(struct bytes framed)
{
    framed.len = framed.len < 4 ? 0 : framed.len - 4;
    memmove(framed.at, framed.at + 4, framed.len);
    return framed;
}

/* ---- Lent memory --------------------------------------------------------------------------------------------- */

struct memory {
    uint8_t *all;
    size_t before; /* guard bytes, then `len` bytes that are lent, then guard bytes */
    size_t len;
    size_t after;
    void *pages; /* NULL where malloc gave it */
    size_t pages_len;
};

/* Where lent memory stands: between guard bytes; bare, for a checker of memory to watch; or against a page that cannot
 * be touched, so that a read or a write outside ends the program there and then (`test -v` shows how far it came). */
static enum placing { GUARDED, BARE, FENCED_ABOVE, FENCED_BELOW } placing;
static size_t offset; /* bytes from an aligned address to the lent memory */

static void stop_unless(bool holds)
{
    if (holds)
        return;
    fprintf(stderr, "no memory for the test\n");
    exit(EXIT_FAILURE);
}

static void *memory_or_stop(size_t len)
{
    void *got = malloc(len == 0 ? 1 : len);

    stop_unless(got != NULL);
    return got;
}

/* Pages that may be touched between two that may not. */
static uint8_t *fenced(struct memory *lent)
{
    size_t page = (size_t)sysconf(_SC_PAGESIZE), inner = (lent->len + page) / page * page;

    lent->pages_len = inner + 2 * page;
    lent->pages = mmap(NULL, lent->pages_len, PROT_NONE, MAP_PRIVATE | MAP_ANONYMOUS, -1, 0);
    stop_unless(lent->pages != MAP_FAILED);
    uint8_t *first = (uint8_t *)lent->pages + page;
    stop_unless(mprotect(first, inner, PROT_READ | PROT_WRITE) == 0);
    return placing == FENCED_BELOW ? first : first + inner - lent->len;
}

static void give_back(struct memory *lent)
{
    if (lent->pages != NULL)
        munmap(lent->pages, lent->pages_len);
    else
        free(lent->all);
}

/* No two neighbours have the same byte, so that a shifted copy shows too. */
static uint8_t pattern(size_t place)
{
    return (uint8_t)(0x5B + 37 * place);
}

static struct memory lend(size_t len)
{
    size_t guard = placing == GUARDED ? GUARD : 0;
    struct memory lent = { NULL, guard + offset, len, guard, NULL, 0 };
    size_t all = lent.before + len + lent.after;

    lent.all = placing == FENCED_ABOVE || placing == FENCED_BELOW ? fenced(&lent) : memory_or_stop(all);
    for (size_t i = 0; i < all; i++)
        lent.all[i] = pattern(i);
    return lent;
}

static uint8_t *start(const struct memory *lent)
{
    return lent->all + lent->before;
}

/* Memory with these bytes in it, and zeros after them. */
static struct memory lend_bytes(const struct bytes *bytes, size_t zeros)
{
    struct memory lent = lend(bytes->len + zeros);

    memset(start(&lent), 0, lent.len);
    memcpy(start(&lent), bytes->at, bytes->len);
    return lent;
}

static uint8_t *copy_of(const struct memory *lent)
{
    uint8_t *copy = memory_or_stop(lent->len);

    memcpy(copy, start(lent), lent->len);
    return copy;
}

static bool guards_kept(const struct memory *lent)
{
    bool kept = true;

    for (size_t i = 0; i < lent->before + lent->len + lent->after; i++)
        if (i < lent->before || i >= lent->before + lent->len)
            kept = kept && lent->all[i] == pattern(i);
    return kept;
}

/* ---- Frames used in many places ------------------------------------------------------------------------------ */

/* Farm 1 writes marks 1000 and 3001; the second is over its limit of 3000, so that neither is stored. */
static const char write_marks[] = "5F 00 2F 10  07 02 01 01  10 02 75 31 00 00  42 02 03 E8 0B B9";
static const char marks_response[] = "5E 00 2F 08  07 82 01 01  44 01 00 02";
/* Farm 1 writes marks 2500 and 3000, and both are stored. */
static const char store_marks[] = "5F 00 2F 10  07 02 01 01  10 02 75 31 00 00  42 02 09 C4 0B B8";
enum { MARKS_STORED = 2 };
static const char stored_response[] = "5E 00 2F 04  07 02 01 01";
/* Farm 1 writes mark 3001, which fails, and 5 to 9900, which is stored. */
static const char store_half[] = "5F 00 2F 18  07 02 01 02  10 01 75 31 00 00  10 01 26 AC 00 00  42 01 0B B9  42 01 00 05";
/* Farm 1 reads PNU 930, which is 1. Eight bytes wait afterwards. */
static const char read_930[] = "5F 00 2F 0A  07 01 01 01  10 01 03 A2 00 00";
static const char response_930[] = "5E 00 2F 08  07 01 01 01  42 01 00 01";
/* Farm 1 reads all four marks. */
static const char read_marks[] = "5F 00 2F 0A  08 01 01 01  10 04 75 31 00 00";
/* Farm 2 writes its mark 0, to 2000. */
static const char mark_of_farm_2[] = "5F 00 2F 0E  07 02 02 01  10 01 75 31 00 00  42 01 07 D0";
static const char fetch[] = "5E 00 2F F0";

/* ---- Blocks used in many places ------------------------------------------------------------------------------ */

/* A request of one element and its response. */
static const char request_block[] = "07 01 01 01  10 01 03 A2 00 00";
static const char response_block[] = "07 01 01 01  42 01 00 01";
/* A change of one element and its two responses: done, and not done. */
static const char change_block[] = "07 02 01 01  10 01 75 31 00 00  42 01 03 E8";
static const char done_block[] = "07 02 01 01";
static const char failed_block[] = "07 82 01 01  44 01 00 02";

/* ---- Calls, each with all that must hold after it ------------------------------------------------------------ */

static struct memory station; /* the one that the calls below are made on */

static size_t part_size(void)
{
    return llinkhiro_size() / AXES;
}

static uint8_t *part(uint32_t axis)
{
    return start(&station) + (axis - 1) * part_size();
}

/* The first `len` bytes of the station in a memory of their own. */
static struct memory station_again(size_t len)
{
    struct memory again = lend(len);

    memcpy(start(&again), start(&station), len);
    return again;
}

/* The station is as before, but for the owner's part; owner 0 is nobody. */
static void check_station(const char *name, const uint8_t *before, uint32_t owner)
{
    size_t from = owner == 0 ? station.len : (owner - 1) * part_size();
    size_t to = owner == 0 ? station.len : from + part_size();

    check_bytes(name, owner == 0 ? "station unchanged" : "parts below unchanged", start(&station), before, from);
    if (owner != 0)
        check_bytes(name, "parts above unchanged", start(&station) + to, before + to, station.len - to);
    check(name, "guards of the station", guards_kept(&station));
}

static void fresh(const char *name, uint8_t number)
{
    uint8_t *before = copy_of(&station);

    check_number(name, "number", llinkhiro_fresh(start(&station), station.len), number);
    if (number != 0)
        check_bytes(name, "station unchanged", start(&station), before, station.len);
    check(name, "guards of the station", guards_kept(&station));
    free(before);
}

struct turn { /* a control cycle and its answer */
    uint32_t axis, flags;
    uint16_t stw1;
    int16_t nsoll, nist;
    uint16_t fault;
    uint8_t number, state;
    uint16_t status;
    int32_t rpm;
};

static void cycle(const char *name, struct turn t)
{
    uint8_t *before = copy_of(&station);
    struct llinkhiro_cycled got =
        llinkhiro_cycle(start(&station), station.len, t.axis, t.flags, t.stw1, t.nsoll, t.nist, t.fault);

    check_number(name, "number", got.number, t.number);
    check_number(name, "state", got.state, t.state);
    check_number(name, "status", got.status, t.status);
    check_number(name, "rpm", got.rpm, t.rpm);
    check_station(name, before, t.number == 0 ? t.axis : 0);
    free(before);
}

struct sending { /* a frame and its answer */
    uint32_t farm;
    struct bytes frame;
    size_t more; /* zeros after the frame's bytes */
    size_t reply_len;
    uint8_t number;
    uint16_t stored;
    struct bytes reply;
};

/* The calls that take a frame, llinkhiro_frame and llinkhiro_exchange, have one face. */
typedef struct llinkhiro_framed frame_call(uint8_t *station, size_t station_len, uint32_t farm, const uint8_t *frame,
                                           size_t frame_len, uint8_t *reply, size_t reply_len);

static void send_by(frame_call *call, const char *name, struct sending s)
{
    struct memory frame = lend_bytes(&s.frame, s.more), reply = lend(s.reply_len);
    uint8_t *frame_before = copy_of(&frame), *reply_before = copy_of(&reply), *before = copy_of(&station);
    struct llinkhiro_framed got =
        call(start(&station), station.len, s.farm, start(&frame), frame.len, start(&reply), reply.len);
    size_t replied = s.reply.len;

    check_number(name, "number", got.number, s.number);
    check_number(name, "reply length", got.length, (int64_t)replied);
    check_number(name, "elements stored", got.stored, s.stored);
    check_bytes(name, "reply", start(&reply), s.reply.at, replied);
    check_bytes(name, "past the reply", start(&reply) + replied, reply_before + replied, reply.len - replied);
    check(name, "guards of the reply", guards_kept(&reply));
    check_bytes(name, "frame unchanged", start(&frame), frame_before, frame.len);
    check(name, "guards of the frame", guards_kept(&frame));
    check_station(name, before, s.number == 0 ? s.farm : 0);
    give_back(&frame);
    give_back(&reply);
    free(frame_before);
    free(reply_before);
    free(before);
}

/* The reply of a fetch after the write, both made on the present station. Each is checked where it is sent itself. */
static struct bytes written_and_fetched(const struct sending *s)
{
    struct bytes reply = { 0, { 0 } }, read = hex(fetch);

    llinkhiro_frame(start(&station), station.len, s->farm, s->frame.at, s->frame.len, reply.at, REPLY);
    reply.len = llinkhiro_frame(start(&station), station.len, s->farm, read.at, read.len, reply.at, REPLY).length;
    return reply;
}

/* The names of the checks say how it is sent. */
static void send_told(frame_call *call, const char *how, const char *name, struct sending s)
{
    char title[224];

    snprintf(title, sizeof title, "%s, %s", how, name);
    send_by(call, title, s);
}

struct pair { /* a request block and a response block, each with zeros after its bytes, and what their check answers */
    struct bytes request;
    size_t request_zeros;
    struct bytes response;
    size_t response_zeros;
    uint8_t number;
};

static void check_pair(const char *name, struct pair p)
{
    struct memory request = lend_bytes(&p.request, p.request_zeros);
    struct memory response = lend_bytes(&p.response, p.response_zeros);
    uint8_t *request_before = copy_of(&request), *response_before = copy_of(&response);
    uint8_t got = llinkhiro_check(start(&request), request.len, start(&response), response.len);

    check_number(name, "number of the check", got, p.number);
    check_bytes(name, "request unchanged", start(&request), request_before, request.len);
    check(name, "guards of the request", guards_kept(&request));
    check_bytes(name, "response unchanged", start(&response), response_before, response.len);
    check(name, "guards of the response", guards_kept(&response));
    give_back(&request);
    give_back(&response);
    free(request_before);
    free(response_before);
}

/* The common case: nothing after the blocks. */
static void pair_of(const char *name, struct bytes request, struct bytes response, uint8_t number)
{
    check_pair(name, (struct pair){ request, 0, response, 0, number });
}

static void pair(const char *name, const char *request, const char *response, uint8_t number)
{
    pair_of(name, hex(request), hex(response), number);
}

/* R-4: a response of our own passes for its request. A block that number 10 refused fails check 1 with any response. */
static void check_response(const char *name, const struct sending *s)
{
    if (s->number == 0)
        pair_of(name, block_of(s->frame), block_of(s->reply), 0);
    if (s->number == 10)
        pair_of(name, block_of(s->frame), hex(response_block), 1);
}

static void exchange_sent(const char *name, struct sending s)
{
    send_told(llinkhiro_exchange, "merged call", name, s);
    check_response(name, &s);
}

/* The merged call of a frame, from its answer by llinkhiro_frame. R-3: a read is 4, after 1 to 3; a refused write is
 * the write alone; an accepted one is the write and a fetch in turn. */
static void exchange_too(const char *name, struct sending s)
{
    struct memory present = station, in_turn = station_again(station.len), merged = station_again(station.len);

    if (s.frame.len > 0 && s.frame.at[0] == 0x5E && (s.number == 0 || s.number > 4)) {
        s.number = 4;
        s.reply.len = 0;
    }
    station = in_turn;
    if (s.number == 0)
        s.reply = written_and_fetched(&s);
    station = merged;
    exchange_sent(name, s);
    if (s.number == 0) {
        check_bytes(name, "station after the merged call", start(&merged), start(&in_turn), station.len);
        send_told(llinkhiro_frame, "8: none waits after the merged call", name,
                  (struct sending){ s.farm, hex(fetch), 0, REPLY, 8, 0, hex("DE 80 B5 00") });
    }
    station = present;
    give_back(&in_turn);
    give_back(&merged);
}

/* A frame by both calls: by the merged one on a copy of the station, by llinkhiro_frame on the station itself. */
static void send(const char *name, struct sending s)
{
    exchange_too(name, s);
    send_by(llinkhiro_frame, name, s);
}

/* The common case: a reply memory of exactly 244 bytes. */
static void frame(const char *name, uint32_t farm, const char *bytes, uint8_t number, uint16_t stored,
                  const char *reply)
{
    send(name, (struct sending){ farm, hex(bytes), 0, REPLY, number, stored, hex(reply) });
}

/* The same for the merged call alone, on the station itself. */
static void exchange(const char *name, uint32_t farm, const char *bytes, uint8_t number, uint16_t stored,
                     const char *reply)
{
    exchange_sent(name, (struct sending){ farm, hex(bytes), 0, REPLY, number, stored, hex(reply) });
}

/* Another station memory in place of the present one: a fresh station's bytes, cut or followed by the pattern. */
static void station_of(size_t len)
{
    struct memory whole = lend(llinkhiro_size()), next = lend(len);

    check_number("station lent", "number", llinkhiro_fresh(start(&whole), whole.len), 0);
    check("station lent", "guards of the station", guards_kept(&whole));
    memcpy(start(&next), start(&whole), len < whole.len ? len : whole.len);
    give_back(&whole);
    give_back(&station);
    station = next;
}

static void fresh_station(void)
{
    station_of(llinkhiro_size());
}

static void list(const char *name, uint32_t farm, uint8_t number, uint16_t oldest, uint16_t kept)
{
    uint8_t *before = copy_of(&station);
    struct llinkhiro_listed got = llinkhiro_versions(start(&station), station.len, farm);

    check_number(name, "number of the list", got.number, number);
    check_number(name, "oldest", got.oldest, oldest);
    check_number(name, "kept", got.kept, kept);
    check_station(name, before, 0);
    free(before);
}

/* A going back and the version that it takes; 0 where it is refused. */
static void go_back(const char *name, uint32_t farm, uint32_t version, uint8_t number, uint16_t taken)
{
    uint8_t *before = copy_of(&station);
    struct llinkhiro_returned got = llinkhiro_go_back(start(&station), station.len, farm, version);

    check_number(name, "number of the going back", got.number, number);
    check_number(name, "elements stored", got.stored, number == 0 ? 18 : 0);
    check_number(name, "version taken", got.version, taken);
    check_station(name, before, number == 0 ? farm : 0);
    free(before);
}

/* ---- Groups of checks ---------------------------------------------------------------------------------------- */

/* The structs as a host's compiler lays them out are those that the library answers in. */
static void layout(void)
{
    check_number("cycled", "size", sizeof(struct llinkhiro_cycled), 8);
    check_number("cycled", "status", offsetof(struct llinkhiro_cycled, status), 4);
    check_number("cycled", "state", offsetof(struct llinkhiro_cycled, state), 6);
    check_number("cycled", "number", offsetof(struct llinkhiro_cycled, number), 7);
    check_number("framed", "size", sizeof(struct llinkhiro_framed), 6);
    check_number("framed", "stored", offsetof(struct llinkhiro_framed, stored), 2);
    check_number("framed", "number", offsetof(struct llinkhiro_framed, number), 4);
    check_number("listed", "size", sizeof(struct llinkhiro_listed), 6);
    check_number("listed", "kept", offsetof(struct llinkhiro_listed, kept), 2);
    check_number("listed", "number", offsetof(struct llinkhiro_listed, number), 4);
    check_number("returned", "size", sizeof(struct llinkhiro_returned), 6);
    check_number("returned", "version", offsetof(struct llinkhiro_returned, version), 2);
    check_number("returned", "number", offsetof(struct llinkhiro_returned, number), 4);
}

static void fresh_refused(size_t len)
{
    station_of(len);
    fresh(named("fresh on %zu bytes", len), 2);
}

/* Number 2 of the fresh call, and what a fresh call leaves, whatever stood there before. */
static void sizes(void)
{
    size_t size = llinkhiro_size();

    check("size", "not 0", size != 0);
    check_number("size", "in 16 equal parts", (int64_t)(size % AXES), 0);
    fresh_refused(0);
    fresh_refused(1);
    fresh_refused(part_size());
    fresh_refused(size - part_size());
    fresh_refused(size - 1);
    fresh_refused(size + 1);
    fresh_refused(size + part_size());
    fresh_refused(2 * size);
    fresh_refused(size + 256);
    fresh_refused(size + 65536);
    check_number("size", "the same again", (int64_t)llinkhiro_size(), (int64_t)size);

    fresh_station();
    uint8_t *first = copy_of(&station);
    memset(start(&station), 0xFF, size);
    fresh("fresh over FF", 0);
    check_bytes("fresh over FF", "a fresh station", start(&station), first, size);
    memset(start(&station), 0, size);
    fresh("fresh over 00", 0);
    check_bytes("fresh over 00", "a fresh station", start(&station), first, size);
    frame("used", 1, store_marks, 0, MARKS_STORED, "5F 00 2F 10");
    fresh("fresh over a used station", 0);
    check_bytes("fresh over a used station", "a fresh station", start(&station), first, size);
    free(first);
}

/* 01's listing as R-6 has it: four cycles, two frames, the denied frame. */
static void worked(void)
{
    fresh_station();
    cycle("worked cycle 1", (struct turn){ .axis = 1, .stw1 = 0x047E, .state = 2, .status = 0x0331 });
    cycle("worked cycle 2", (struct turn){ .axis = 1, .stw1 = 0x047F, .state = 3, .status = 0x0333 });
    cycle("worked cycle 3", (struct turn){ .axis = 1, .stw1 = 0x047F, .nsoll = 0x2000,
                                           .state = 4, .status = 0x0237, .rpm = 750 });
    cycle("worked cycle 4", (struct turn){ .axis = 1, .stw1 = 0x047D, .state = 1, .status = 0x0360 });
    frame("worked write", 1, write_marks, 0, 0, "5F 00 2F 10");
    frame("worked fetch", 1, fetch, 0, 0, marks_response);
    frame("worked denial", 2, write_marks, 11, 0, "DF 80 B6 00");
}

/* The marks as they are then kept: none was stored. By itself mark 3000 is stored, 3001 is not. */
static void marks(void)
{
    worked();
    frame("marks read", 1, read_marks, 0, 0, "5F 00 2F 0A");
    frame("marks fetched", 1, fetch, 0, 0, "5E 00 2F 0E  08 01 01 01  42 04 00 00 00 00 00 00 00 00");
    frame("mark 3000", 1, "5F 00 2F 0E  09 02 01 01  10 01 75 31 00 03  42 01 0B B8", 0, 1, "5F 00 2F 0E");
    frame("mark 3000 fetched", 1, fetch, 0, 0, "5E 00 2F 04  09 02 01 01");
    frame("mark 3001", 1, "5F 00 2F 0E  0A 02 01 01  10 01 75 31 00 03  42 01 0B B9", 0, 0, "5F 00 2F 0E");
    frame("mark 3001 fetched", 1, fetch, 0, 0, "5E 00 2F 08  0A 82 01 01  44 01 00 02");
    frame("marks read again", 1, read_marks, 0, 0, "5F 00 2F 0A");
    frame("marks fetched again", 1, fetch, 0, 0, "5E 00 2F 0E  08 01 01 01  42 04 00 00 00 00 00 00 0B B8");
    frame("farm 2 reads its marks", 2, "5F 00 2F 0A  08 01 02 01  10 04 75 31 00 00", 0, 0, "5F 00 2F 0A");
    frame("farm 2 fetches its marks", 2, fetch, 0, 0, "5E 00 2F 0E  08 01 02 01  42 04 00 00 00 00 00 00 00 00");
    frame("one mark twice, both stores count", 1,
          "5F 00 2F 18  0B 02 01 02  10 01 75 31 00 00 10 01 75 31 00 00  42 01 03 E8 06 01 03 E8", 0, 2,
          "5F 00 2F 18");
}

/* Number 1. A number of more than 8 or 16 bits does not become a small one. */
static void farms_and_axes(void)
{
    static const uint32_t none[] = { 0, 17, 18, 32, 255, 256, 257, 65536, 65537, 0x01000001, 0x80000001, UINT32_MAX };

    fresh_station();
    for (size_t i = 0; i < sizeof none / sizeof none[0]; i++) {
        frame(named("frame of farm %" PRIu32, none[i]), none[i], read_930, 1, 0, "");
        cycle(named("cycle of axis %" PRIu32, none[i]),
              (struct turn){ .axis = none[i], .stw1 = 0x047E, .number = 1 });
        list(named("list of farm %" PRIu32, none[i]), none[i], 1, 0, 0);
        go_back(named("going back of farm %" PRIu32, none[i]), none[i], 1, 1, 0);
    }
}

/* Every farm reads its own 930 and every axis turns, each in its own part. */
static void all_sixteen(void)
{
    fresh_station();
    for (uint32_t k = 1; k <= AXES; k++) {
        struct bytes request = hex(read_930), response = hex(response_930);

        request.at[6] = response.at[6] = (uint8_t)k;
        send(named("farm %" PRIu32 " reads 930", k),
             (struct sending){ k, request, 0, REPLY, 0, 0, hex("5F 00 2F 0A") });
        cycle(named("axis %" PRIu32 " ready", k),
              (struct turn){ .axis = k, .stw1 = 0x047E, .state = 2, .status = 0x0331 });
        send(named("farm %" PRIu32 " fetches 930", k), (struct sending){ k, hex(fetch), 0, REPLY, 0, 0, response });
    }
}

/* Number 12. Flags of more than 8 bits do not become small ones. Bit 1 is the warning, ZSW1 bit 7. */
static void flags(void)
{
    static const uint16_t status[4] = { 0x0331, 0x0331, 0x03B1, 0x03B1 };
    static const uint32_t high[] = { 4, 5, 7, 8, 255, 256, 257, 258, 65536, 65537, 0x80000000, UINT32_MAX };

    for (uint32_t f = 0; f < 4; f++) {
        fresh_station();
        cycle(named("flags %" PRIu32, f),
              (struct turn){ .axis = 3, .flags = f, .stw1 = 0x047E, .state = 2, .status = status[f] });
    }
    for (size_t i = 0; i < sizeof high / sizeof high[0]; i++)
        cycle(named("flags %" PRIu32, high[i]),
              (struct turn){ .axis = 3, .flags = high[i], .stw1 = 0x047F, .number = 12 });
}

/* Sets of refusal numbers that a call deserves, of checks that a pair fails, or of marks or addresses that are bad: bit k
 * stands for number k. */
static bool has(unsigned set, unsigned number)
{
    return set >> number & 1;
}

static uint8_t smallest(unsigned set)
{
    uint8_t number = 1;

    while (!has(set, number))
        number++;
    return number;
}

static const char *listed(unsigned set)
{
    static char list[40];

    list[0] = '\0';
    for (unsigned number = 1; number <= 15; number++)
        if (has(set, number))
            snprintf(list + strlen(list), sizeof list - strlen(list), " %u", number);
    return list;
}

/* Where the versions of a farm stand in its part is the library's own; so is where the last number used stands in them.
 * Each setting has a column of all slots, low byte first; the tests that alter them and compare every byte say so. */
enum { KEPT = 16, SETTINGS = 18, VERSIONS_AT = 362, LAST_AT = VERSIONS_AT + 640, VERSIONS_END = LAST_AT + 2 };

/* As after 65535 versions, but for what stands in those that are kept. */
static void use_up(uint32_t farm)
{
    memset(part(farm) + LAST_AT, 0xFF, 2);
}

/* The two ways to deserve number 2: a station one byte short, or the caller's part all FF, its marks over the limit. */
enum spoiling { CUT, OVERWRITTEN };

static const char *spoiled(unsigned set, enum spoiling how)
{
    return !has(set, 2) ? "" : how == CUT ? ", station cut short" : ", part overwritten";
}

static void spoil(enum spoiling how, uint32_t axis)
{
    struct memory whole = station;

    if (how == OVERWRITTEN) {
        memset(part(axis), 0xFF, part_size());
        return;
    }
    station = station_again(whole.len - 1);
    give_back(&whole);
}

static void cycle_deserving(unsigned set, enum spoiling how)
{
    fresh_station();
    if (has(set, 2))
        spoil(how, 16);
    cycle(named("cycle that deserves%s%s", listed(set), spoiled(set, how)),
          (struct turn){ .axis = has(set, 1) ? 17 : 16, .flags = has(set, 12) ? 4 : 3, .stw1 = 0x047E, .nsoll = -1,
                         .nist = -1, .fault = 1, .number = smallest(set) });
}

/* A cycle that deserves several of 1, 2 and 12 is answered the smallest. */
static void cycle_order(void)
{
    for (unsigned set = 1 << 1; set < 1 << 13; set++)
        if ((set & ~(1u << 1 | 1u << 2 | 1u << 12)) == 0) {
            cycle_deserving(set, CUT);
            if (has(set, 2))
                cycle_deserving(set, OVERWRITTEN);
        }
}

/* A frame of farm 1 made to deserve each number of the set and no other; set 0 is accepted. Where the numbers of the
 * versions are used up, 15 is deserved by a change. */
static struct bytes frame_deserving(unsigned set, bool write)
{
    struct bytes made = hex(has(set, 15) ? store_marks : write ? read_930 : has(set, 9) ? "5E 00 2F 07" : fetch);

    if (has(set, 4))
        made.at[0] = 0x5D;
    if (has(set, 5))
        made.at[1] = 1;
    if (has(set, 6))
        made.at[2] = 46;
    if (has(set, 7))
        add(&made, "00"); /* one byte more than the length says */
    if (has(set, 10))
        made.at[4] = 0; /* reference 0 */
    if (has(set, 11))
        made.at[6] = 2; /* axis 2 */
    return made;
}

/* The reply of document 01's table, or of R-7, to a refused frame. */
static struct bytes refusal_reply(uint8_t number, bool write)
{
    static const char *const code[16] = { [5] = "B2", "B0", "B1", "B5", "B7", "B8", "B6", [15] = "A1" };
    struct bytes reply = { 0, { 0 } };

    if (number >= 5) {
        add(&reply, write ? "DF 80" : "DE 80");
        add(&reply, code[number]);
        add(&reply, "00");
    }
    return reply;
}

static void frame_spoiled(unsigned set, bool write, enum spoiling how)
{
    fresh_station();
    if (write == has(set, 8)) /* a response waits */
        frame("response left waiting", 1, read_930, 0, 0, "5F 00 2F 0A");
    if (has(set, 15))
        use_up(1);
    if (has(set, 2))
        spoil(how, 1);
    send(named("%s that deserves%s%s", write ? "write" : "read", listed(set), spoiled(set, how)),
         (struct sending){ has(set, 1) ? 17 : 1, frame_deserving(set, write), 0, has(set, 3) ? REPLY - 1 : REPLY,
                           smallest(set), 0, refusal_reply(smallest(set), write) });
}

static void frame_answered_smallest(unsigned set, bool write)
{
    frame_spoiled(set, write, CUT);
    if (has(set, 2))
        frame_spoiled(set, write, OVERWRITTEN);
}

/* A frame that deserves several numbers is answered the smallest, for every set of numbers that can meet: only a read
 * can deserve 9, and not beside 8; only a write can deserve 10, 11 and 15. */
static void frame_order(void)
{
    frame_answered_smallest(1 << 15, true);
    for (unsigned set = 1 << 1; set < 1 << 12; set += 1 << 1) {
        if (!has(set, 9)) {
            frame_answered_smallest(set, true);
            frame_answered_smallest(set | 1 << 15, true);
        }
        if (!has(set, 10) && !has(set, 11) && !(has(set, 8) && has(set, 9)))
            frame_answered_smallest(set, false);
    }
}

/* Numbers 4 to 8 by the frame's first four bytes and its length, on an idle axis. */
static void frame_headers(void)
{
    fresh_station();
    frame("4: no byte", 1, "", 4, 0, "");
    frame("4: one byte", 1, "5F", 4, 0, "");
    frame("4: three bytes of a write", 1, "5F 00 2F", 4, 0, "");
    frame("4: three bytes of a read", 1, "5E 00 2F", 4, 0, "");
    frame("4: three bytes, slot 1", 1, "5E 01 2F", 4, 0, "");
    frame("4: function 5D", 1, "5D 00 2F F0", 4, 0, "");
    frame("4: function 60", 1, "60 00 2F F0", 4, 0, "");
    frame("4: function DE", 1, "DE 00 2F F0", 4, 0, "");
    frame("4: function DF", 1, "DF 00 2F 0A  07 01 01 01  10 01 03 A2 00 00", 4, 0, "");
    frame("4: function 00", 1, "00 00 2F F0", 4, 0, "");
    frame("5: write to slot 1", 1, "5F 01 2F 0A  07 01 01 01  10 01 03 A2 00 00", 5, 0, "DF 80 B2 00");
    frame("5: read of slot 255", 1, "5E FF 2F F0", 5, 0, "DE 80 B2 00");
    frame("6: write to index 46", 1, "5F 00 2E 0A  07 01 01 01  10 01 03 A2 00 00", 6, 0, "DF 80 B0 00");
    frame("6: read of index 48", 1, "5E 00 30 F0", 6, 0, "DE 80 B0 00");
    frame("6: read of index 0", 1, "5E 00 00 F0", 6, 0, "DE 80 B0 00");
    frame("7: write with a byte more", 1, "5F 00 2F 0A  07 01 01 01  10 01 03 A2 00 00 00", 7, 0, "DF 80 B1 00");
    frame("7: write with a byte less", 1, "5F 00 2F 0A  07 01 01 01  10 01 03 A2 00", 7, 0, "DF 80 B1 00");
    frame("7: write with nothing after 0A", 1, "5F 00 2F 0A", 7, 0, "DF 80 B1 00");
    frame("7: write with a byte after 00", 1, "5F 00 2F 00 07", 7, 0, "DF 80 B1 00");
    frame("7: read with a byte after it", 1, "5E 00 2F F0 00", 7, 0, "DE 80 B1 00");
    frame("7: read with the one byte it wants", 1, "5E 00 2F 01 00", 7, 0, "DE 80 B1 00");
    frame("7: read wants 241", 1, "5E 00 2F F1", 7, 0, "DE 80 B1 00");
    frame("7: read wants 255", 1, "5E 00 2F FF", 7, 0, "DE 80 B1 00");
    frame("8: read with none waiting", 1, "5E 00 2F F0", 8, 0, "DE 80 B5 00");
    frame("8: read of 0 bytes with none waiting", 1, "5E 00 2F 00", 8, 0, "DE 80 B5 00");
}

/* Refusals before 8, made on an idle axis and with a response waiting, which outlives them. */
static void idle_and_waiting(void (*refusals)(void))
{
    fresh_station();
    refusals();
    frame("8: none waits after refusals", 1, fetch, 8, 0, "DE 80 B5 00");
    frame("response left waiting", 1, read_930, 0, 0, "5F 00 2F 0A");
    refusals();
    frame("the response outlived refusals", 1, fetch, 0, 0, response_930);
}

static void other_functions(void)
{
    for (unsigned function = 0; function < 256; function++) {
        struct bytes write = hex(read_930), read = hex(fetch);

        if (function == 0x5E || function == 0x5F)
            continue;
        write.at[0] = read.at[0] = (uint8_t)function;
        send(named("4: function %02X before a block", function),
             (struct sending){ 1, write, 0, REPLY, 4, 0, hex("") });
        send(named("4: function %02X alone", function), (struct sending){ 1, read, 0, REPLY, 4, 0, hex("") });
    }
}

/* Number 4 for every function byte but the two. */
static void functions(void)
{
    idle_and_waiting(other_functions);
}

/* Number 7 for frames too long for a length byte: a length of more than 8 or 16 bits does not become a small one. */
static void long_frames(void)
{
    static const size_t more[] = { 256, 512, 65536, 131072 };
    struct bytes write_241 = hex("5F 00 2F F1");

    fresh_station();
    add_times(&write_241, LARGEST_BLOCK + 1, "07");
    send("7: write of 241 bytes", (struct sending){ 1, write_241, 0, REPLY, 7, 0, hex("DF 80 B1 00") });
    for (size_t i = 0; i < sizeof more / sizeof more[0]; i++) {
        send(named("7: write with %zu bytes more", more[i]),
             (struct sending){ 1, hex(read_930), more[i], REPLY, 7, 0, hex("DF 80 B1 00") });
        send(named("7: write with %zu bytes after 00", more[i]),
             (struct sending){ 1, hex("5F 00 2F 00"), more[i], REPLY, 7, 0, hex("DF 80 B1 00") });
        send(named("7: read with %zu bytes after it", more[i]),
             (struct sending){ 1, hex(fetch), more[i], REPLY, 7, 0, hex("DE 80 B1 00") });
    }
}

/* Numbers 10 and 11: blocks that cannot be read, and readable ones of another axis. */
static void blocks(void)
{
    fresh_station();
    frame("10: empty block", 1, "5F 00 2F 00", 10, 0, "DF 80 B8 00");
    frame("10: header alone", 1, "5F 00 2F 04  07 01 01 01", 10, 0, "DF 80 B8 00");
    frame("10: reference 0", 1, "5F 00 2F 0A  00 01 01 01  10 01 03 A2 00 00", 10, 0, "DF 80 B8 00");
    frame("10: identifier 00", 1, "5F 00 2F 0A  07 00 01 01  10 01 03 A2 00 00", 10, 0, "DF 80 B8 00");
    frame("10: identifier 03", 1, "5F 00 2F 0A  07 03 01 01  10 01 03 A2 00 00", 10, 0, "DF 80 B8 00");
    frame("10: identifier 81", 1, "5F 00 2F 0A  07 81 01 01  10 01 03 A2 00 00", 10, 0, "DF 80 B8 00");
    frame("10: no parameter", 1, "5F 00 2F 04  07 01 01 00", 10, 0, "DF 80 B8 00");
    frame("10: 40 parameters", 1, "5F 00 2F 0A  07 01 01 28  10 01 03 A2 00 00", 10, 0, "DF 80 B8 00");
    frame("10: address cut", 1, "5F 00 2F 09  07 01 01 01  10 01 03 A2 00", 10, 0, "DF 80 B8 00");
    frame("10: second address missing", 1, "5F 00 2F 0A  07 01 01 02  10 01 03 A2 00 00", 10, 0, "DF 80 B8 00");
    frame("10: a byte after a request", 1, "5F 00 2F 0B  07 01 01 01  10 01 03 A2 00 00 00", 10, 0, "DF 80 B8 00");
    frame("10: change without values", 1, "5F 00 2F 0A  07 02 01 01  10 01 75 31 00 00", 10, 0, "DF 80 B8 00");
    frame("10: format 40", 1, "5F 00 2F 0E  07 02 01 01  10 01 75 31 00 00  40 01 03 E8", 10, 0, "DF 80 B8 00");
    frame("10: format 08", 1, "5F 00 2F 10  07 02 01 01  10 01 75 31 00 00  08 01 00 00 00 00", 10, 0, "DF 80 B8 00");
    frame("10: value cut", 1, "5F 00 2F 0D  07 02 01 01  10 01 75 31 00 00  42 01 03", 10, 0, "DF 80 B8 00");
    frame("10: byte left over", 1, "5F 00 2F 0F  07 02 01 01  10 01 75 31 00 00  42 01 03 E8 00", 10, 0,
          "DF 80 B8 00");
    frame("11: axis 2", 1, "5F 00 2F 0A  07 01 02 01  10 01 03 A2 00 00", 11, 0, "DF 80 B6 00");
    frame("11: axis 0", 1, "5F 00 2F 0A  07 01 00 01  10 01 03 A2 00 00", 11, 0, "DF 80 B6 00");
    frame("11: axis 17", 1, "5F 00 2F 0A  07 01 11 01  10 01 03 A2 00 00", 11, 0, "DF 80 B6 00");
    frame("11: axis 255", 1, "5F 00 2F 0A  07 01 FF 01  10 01 03 A2 00 00", 11, 0, "DF 80 B6 00");
    frame("11: farm 2's own marks from farm 1", 1, "5F 00 2F 0E  07 02 02 01  10 01 75 31 00 00  42 01 03 E8", 11, 0,
          "DF 80 B6 00");
    frame("nothing waits after refusals", 1, fetch, 8, 0, "DE 80 B5 00");
}

static void replied_into(size_t len)
{
    fresh_station();
    send(named("write with %zu bytes for the reply", len),
         (struct sending){ 1, hex(read_930), 0, len, 0, 0, hex("5F 00 2F 0A") });
    send(named("denied write with %zu bytes for the reply", len),
         (struct sending){ 2, hex(read_930), 0, len, 11, 0, hex("DF 80 B6 00") });
    send(named("fetch with %zu bytes for the reply", len),
         (struct sending){ 1, hex(fetch), 0, len, 0, 0, hex(response_930) });
}

/* Number 3, for every frame whatever its reply would be, and reply memories of 244 bytes and more. */
static void reply_sizes(void)
{
    static const size_t small[] = { 0, 1, 4, 12, 128, LARGEST_BLOCK, REPLY - 1 };
    static const size_t enough[] = { REPLY, REPLY + 1, 255, 256, 257, 300, 65535, 65536, 65537 };

    fresh_station();
    frame("response left waiting", 1, read_930, 0, 0, "5F 00 2F 0A");
    for (size_t i = 0; i < sizeof small / sizeof small[0]; i++) {
        send(named("3: write with %zu bytes for the reply", small[i]),
             (struct sending){ 2, hex(read_930), 0, small[i], 3, 0, hex("") });
        send(named("3: fetch with %zu bytes for the reply", small[i]),
             (struct sending){ 1, hex(fetch), 0, small[i], 3, 0, hex("") });
        send(named("3: no frame with %zu bytes for the reply", small[i]),
             (struct sending){ 1, hex(""), 0, small[i], 3, 0, hex("") });
    }
    frame("the response outlived number 3", 1, fetch, 0, 0, response_930);
    for (size_t i = 0; i < sizeof enough / sizeof enough[0]; i++)
        replied_into(enough[i]);
}

static void work_refused(size_t len)
{
    station_of(len);
    frame(named("2: write on %zu bytes of station", len), 1, read_930, 2, 0, "");
    frame(named("2: read on %zu bytes of station", len), 16, fetch, 2, 0, "");
    frame(named("2: no frame on %zu bytes of station", len), 1, "", 2, 0, "");
    cycle(named("2: cycle on %zu bytes of station", len), (struct turn){ .axis = 1, .stw1 = 0x047E, .number = 2 });
    list(named("2: list on %zu bytes of station", len), 1, 2, 0, 0);
    go_back(named("2: going back on %zu bytes of station", len), 16, 1, 2, 0);
}

/* Number 2 by the station's size. */
static void station_sizes(void)
{
    work_refused(0);
    work_refused(1);
    work_refused(part_size());
    work_refused(llinkhiro_size() - part_size());
    work_refused(llinkhiro_size() - 1);
    work_refused(llinkhiro_size() + 1);
    work_refused(llinkhiro_size() + part_size());
    work_refused(llinkhiro_size() + 65536);
}

/* A response waits until it is fetched: it outlives 8, 9 and all other refusals, and cycles; and it is fetched once. */
static void waiting(void)
{
    fresh_station();
    uint8_t *idle = copy_of(&station);
    frame("read 930", 1, read_930, 0, 0, "5F 00 2F 0A");
    frame("8: the same write again", 1, read_930, 8, 0, "DF 80 B5 00");
    frame("8: a change", 1, store_marks, 8, 0, "DF 80 B5 00");
    frame("8: before 10", 1, "5F 00 2F 00", 8, 0, "DF 80 B5 00");
    frame("8: before 11", 1, "5F 00 2F 0A  07 01 02 01  10 01 03 A2 00 00", 8, 0, "DF 80 B5 00");
    frame("9: wants 0", 1, "5E 00 2F 00", 9, 0, "DE 80 B7 00");
    frame("9: wants 1", 1, "5E 00 2F 01", 9, 0, "DE 80 B7 00");
    frame("9: wants one too few", 1, "5E 00 2F 07", 9, 0, "DE 80 B7 00");
    frame("7: wants 241", 1, "5E 00 2F F1", 7, 0, "DE 80 B1 00");
    frame("6: index 48", 1, "5E 00 30 F0", 6, 0, "DE 80 B0 00");
    frame("wants just what waits", 1, "5E 00 2F 08", 0, 0, response_930);
    check_bytes("fetched", "the station as it was idle", start(&station), idle, station.len);
    frame("8: nothing waits", 1, "5E 00 2F 08", 8, 0, "DE 80 B5 00");
    frame("written anew", 1, read_930, 0, 0, "5F 00 2F 0A");
    cycle("12 with a response waiting", (struct turn){ .axis = 1, .flags = 4, .number = 12 });
    cycle("a cycle with a response waiting",
          (struct turn){ .axis = 1, .stw1 = 0x047E, .state = 2, .status = 0x0331 });
    frame("fetched after a cycle", 1, fetch, 0, 0, response_930);
    free(idle);
}

/* Reads in every form: whole and cut; of other slots and indices; wanting nothing, too little, just what waits, too
 * much; with bytes after them. */
static const char *const reads[] = {
    "5E", "5E 00", "5E 00 2F", "5E 01 2F", fetch, "5E 00 2F 00", "5E 00 2F 07", "5E 00 2F 08", "5E 00 2F F1",
    "5E 00 2F FF", "5E 01 2F F0", "5E FF 2F 08", "5E 00 2E F0", "5E 00 00 08", "5E 00 FF 00", "5E FF FF FF FF",
    "5E 00 2F F0 00", "5E 00 2F 01 00", "5E 00 2F 0A  07 01 01 01  10 01 03 A2 00 00",
    "5E 00 2F 0A  00 00 02 00  10 01 03 A2 00 00",
};

static void read_exchanged(const char *read)
{
    static const size_t lens[] = { 0, REPLY - 1, REPLY, REPLY + 1, 65536 };

    for (size_t i = 0; i < sizeof lens / sizeof lens[0]; i++)
        exchange_sent(named("%s with %zu bytes for the reply", read, lens[i]),
                      (struct sending){ 1, hex(read), 0, lens[i], lens[i] < REPLY ? 3 : 4, 0, hex("") });
    exchange(named("1: %s of farm 17", read), 17, read, 1, 0, "");
}

static void reads_exchanged(void)
{
    for (size_t i = 0; i < sizeof reads / sizeof reads[0]; i++)
        read_exchanged(reads[i]);
}

/* Number 4 of the merged call for every read, after 1 to 3. */
static void merged_reads(void)
{
    idle_and_waiting(reads_exchanged);
    memset(part(1), 0, part_size());
    exchange("2: a read of a part all 00", 1, fetch, 2, 0, "");
}

/* Merged calls one after the other: reads, changes, errors and a denial. What is stored is the write's, and no response
 * is left for the next. */
static void merged_calls(void)
{
    fresh_station();
    exchange("marks stored", 1, store_marks, 0, MARKS_STORED, stored_response);
    exchange("11: marks denied", 2, store_marks, 11, 0, "DF 80 B6 00");
    exchange("marks not stored", 1, write_marks, 0, 0, marks_response);
    exchange("marks read", 1, read_marks, 0, 0, "5E 00 2F 0E  08 01 01 01  42 04 09 C4 0B B8 00 00 00 00");
    exchange("all stored", 1,
             "5F 00 2F 1A  09 02 01 02  10 02 75 31 00 02  10 01 27 7F 00 00  42 02 0B B8 00 01  06 01 03 E8", 0, 3,
             "5E 00 2F 04  09 02 01 02");
    exchange("all read", 1, "5F 00 2F 16  0A 01 01 03  10 04 75 31 00 00  10 01 27 7F 00 00  10 01 03 C5 00 01", 0, 0,
             "5E 00 2F 16  0A 01 01 03  42 04 09 C4 0B B8 0B B8 00 01  42 01 03 E8  41 01 29 00");
    exchange("an error beside a value", 1, "5F 00 2F 10  0B 01 01 02  10 05 75 31 00 00  10 01 03 A2 00 00", 0, 0,
             "5E 00 2F 0C  0B 81 01 02  44 01 00 03  42 01 00 01");
    exchange("farm 16", 16, "5F 00 2F 0A  0C 01 10 01  10 01 03 A2 00 00", 0, 0,
             "5E 00 2F 08  0C 01 10 01  42 01 00 01");
    cycle("a cycle goes on", (struct turn){ .axis = 1, .stw1 = 0x047E, .state = 2, .status = 0x0331 });
    exchange("its word read", 1, "5F 00 2F 0A  0D 01 01 01  10 01 27 74 00 00", 0, 0,
             "5E 00 2F 08  0D 01 01 01  42 01 04 7E");
    frame("8: none waits", 1, fetch, 8, 0, "DE 80 B5 00");
    frame("a write by itself", 1, read_930, 0, 0, "5F 00 2F 0A");
    frame("its fetch", 1, fetch, 0, 0, response_930);
}

/* Number 8 of the merged call: a response that somebody forgot waits on, and is fetched as it was. */
static void merged_waiting(void)
{
    fresh_station();
    frame("a write whose fetch is forgotten", 1, read_930, 0, 0, "5F 00 2F 0A");
    exchange("8: the same request", 1, read_930, 8, 0, "DF 80 B5 00");
    exchange("7: a byte less", 1, "5F 00 2F 0A  07 01 01 01  10 01 03 A2 00", 7, 0, "DF 80 B1 00");
    exchange("4: the forgotten fetch", 1, fetch, 4, 0, "");
    exchange("farm 2 has none waiting", 2, mark_of_farm_2, 0, 1, "5E 00 2F 04  07 02 02 01");
    frame("9: wants one too few", 1, "5E 00 2F 07", 9, 0, "DE 80 B7 00");
    frame("fetched at last", 1, fetch, 0, 0, response_930);
    exchange("goes through then", 1, store_marks, 0, MARKS_STORED, stored_response);
    exchange("and again", 1, read_930, 0, 0, response_930);
}

static void farm_1_begins(void)
{
    cycle("farm 1 begins", (struct turn){ .axis = 1, .stw1 = 0x047E, .state = 2, .status = 0x0331 });
    frame("farm 1 begins", 1, store_marks, 0, MARKS_STORED, "5F 00 2F 10");
}

static void farm_1_ends(void)
{
    cycle("farm 1 ends", (struct turn){ .axis = 1, .stw1 = 0x047F, .state = 3, .status = 0x0333 });
    frame("farm 1 ends", 1, fetch, 0, 0, stored_response);
}

static void farm_2_begins(void)
{
    cycle("farm 2 begins", (struct turn){ .axis = 2, .stw1 = 0x047E, .fault = 0x1234, .state = 1, .status = 0x0378 });
    frame("farm 2 begins", 2, mark_of_farm_2, 0, 1, "5F 00 2F 0E");
}

static void farm_2_ends(void)
{
    cycle("farm 2 ends", (struct turn){ .axis = 2, .stw1 = 0x047E, .fault = 0x5678, .state = 1, .status = 0x0378 });
    frame("farm 2 ends", 2, mark_of_farm_2, 8, 0, "DF 80 B5 00");
}

/* Farms 1 and 2 in turn: the same answers and the same parts as each alone. */
static void neighbours(void)
{
    fresh_station();
    farm_1_begins();
    farm_1_ends();
    uint8_t *alone_1 = copy_of(&station);
    fresh_station();
    farm_2_begins();
    farm_2_ends();
    uint8_t *alone_2 = copy_of(&station);
    fresh_station();
    uint8_t *untouched = copy_of(&station);
    farm_2_begins();
    farm_1_begins();
    farm_1_ends();
    farm_2_ends();
    size_t size = part_size();
    check_bytes("farms in turn", "farm 1's part as alone", part(1), alone_1, size);
    check_bytes("farms in turn", "farm 2's part as alone", part(2), alone_2 + size, size);
    check_bytes("farms in turn", "all other parts fresh", part(3), untouched + 2 * size, (AXES - 2) * size);
    frame("farm 2 fetches its own", 2, fetch, 0, 0, "5E 00 2F 04  07 02 02 01");
    free(alone_1);
    free(alone_2);
    free(untouched);
}

static void overwritten(uint32_t axis, uint8_t with)
{
    uint32_t neighbour = axis % AXES + 1;
    struct bytes request = hex(read_930), theirs = request;

    request.at[6] = (uint8_t)axis;
    theirs.at[6] = (uint8_t)neighbour;
    fresh_station();
    memset(part(axis), with, part_size());
    send(named("2: farm %" PRIu32 " with its part all %02X", axis, (unsigned)with),
         (struct sending){ axis, request, 0, REPLY, 2, 0, hex("") });
    send(named("2: read of farm %" PRIu32 " with its part all %02X", axis, (unsigned)with),
         (struct sending){ axis, hex(fetch), 0, REPLY, 2, 0, hex("") });
    cycle(named("2: axis %" PRIu32 " with its part all %02X", axis, (unsigned)with),
          (struct turn){ .axis = axis, .stw1 = 0x047E, .number = 2 });
    list(named("2: list of farm %" PRIu32 " with its part all %02X", axis, (unsigned)with), axis, 2, 0, 0);
    go_back(named("2: going back of farm %" PRIu32 " with its part all %02X", axis, (unsigned)with), axis, 65535, 2, 0);
    send(named("farm %" PRIu32 " beside a part all %02X", neighbour, (unsigned)with),
         (struct sending){ neighbour, theirs, 0, REPLY, 0, 0, hex("5F 00 2F 0A") });
    cycle(named("axis %" PRIu32 " beside a part all %02X", neighbour, (unsigned)with),
          (struct turn){ .axis = neighbour, .stw1 = 0x047E, .state = 2, .status = 0x0331 });
    list(named("list of farm %" PRIu32 " beside a part all %02X", neighbour, (unsigned)with), neighbour, 0, 1, 0);
}

/* Number 2 by the caller's own part. All FF has marks over their limit, all 00 has 10111 under its own. */
static void overwritten_parts(void)
{
    for (uint32_t axis = 1; axis <= AXES; axis++) {
        overwritten(axis, 0xFF);
        overwritten(axis, 0x00);
    }
    fresh("a fresh station mends the parts", 0);
    frame("after mending", 1, read_930, 0, 0, "5F 00 2F 0A");
}

/* Farm 1's part in farm 2's place: well-formed there while idle, but not with a waiting response of axis 1. */
static void moved_parts(void)
{
    worked();
    exchange("marks to be moved", 1, store_marks, 0, MARKS_STORED, stored_response);
    memcpy(part(2), part(1), part_size());
    frame("farm 2 reads the marks moved to it", 2, "5F 00 2F 0A  08 01 02 01  10 04 75 31 00 00", 0, 0,
          "5F 00 2F 0A");
    frame("farm 2 fetches the marks moved to it", 2, fetch, 0, 0,
          "5E 00 2F 0E  08 01 02 01  42 04 09 C4 0B B8 00 00 00 00");
    frame("a response of axis 1", 1, read_930, 0, 0, "5F 00 2F 0A");
    memcpy(part(2), part(1), part_size());
    frame("2: fetch of a response of axis 1", 2, fetch, 2, 0, "");
    cycle("2: cycle beside a response of axis 1", (struct turn){ .axis = 2, .stw1 = 0x047E, .number = 2 });
    frame("farm 1 fetches it", 1, fetch, 0, 0, response_930);
}

/* All is in the lent memory: a station goes on at another address, and two stations know nothing of each other. */
static void moved_station(void)
{
    fresh_station();
    frame("before the move", 1, store_marks, 0, MARKS_STORED, "5F 00 2F 10");
    struct memory other = station_again(station.len), first = station;
    station = other;
    frame("moved station: fetch", 1, fetch, 0, 0, stored_response);
    frame("moved station: read", 1, read_marks, 0, 0, "5F 00 2F 0A");
    station = first;
    frame("first station: fetch", 1, fetch, 0, 0, stored_response);
    station = other;
    frame("moved station: fetch again", 1, fetch, 0, 0, "5E 00 2F 0E  08 01 01 01  42 04 09 C4 0B B8 00 00 00 00");
    give_back(&first);
}

/* Four reads of all 947: the fourth would pass 240 bytes and gets 0x15; the block is 206 bytes. */
static void four_947(void)
{
    struct bytes request = hex("5F 00 2F 1C  07 01 01 04"), response = hex("5E 00 2F CE  07 81 01 04");

    add_times(&request, 4, "10 20 03 B3 00 00");
    for (unsigned i = 0; i < 3; i++) {
        add(&response, "42 20");
        add_times(&response, 32, "00 00");
    }
    add(&response, "44 01 00 15");
    fresh_station();
    send("four reads of 947", (struct sending){ 1, request, 0, REPLY, 0, 0, hex("5F 00 2F 1C") });
    frame("9: four 947, wants 205", 1, "5E 00 2F CD", 9, 0, "DE 80 B7 00");
    send("four 947 fetched", (struct sending){ 1, hex("5E 00 2F CE"), 0, REPLY, 0, 0, response });
}

/* A response of just 240 bytes fills the reply memory: three whole 947 and 18 elements of a fourth. */
static void full_reply(void)
{
    struct bytes request = hex("5F 00 2F 1C  07 01 01 04"), response = hex("5E 00 2F F0  07 01 01 04");

    add_times(&request, 3, "10 20 03 B3 00 00");
    add(&request, "10 12 03 B3 00 00");
    for (unsigned i = 0; i < 3; i++) {
        add(&response, "42 20");
        add_times(&response, 32, "00 00");
    }
    add(&response, "42 12");
    add_times(&response, 18, "00 00");
    fresh_station();
    send("a response of 240 bytes", (struct sending){ 1, request, 0, REPLY, 0, 0, hex("5F 00 2F 1C") });
    frame("9: wants 239 of 240", 1, "5E 00 2F EF", 9, 0, "DE 80 B7 00");
    exchange("8: 240 bytes wait", 1, read_930, 8, 0, "DF 80 B5 00");
    send("240 bytes fetched", (struct sending){ 1, hex(fetch), 0, REPLY, 0, 0, response });
    exchange_sent("240 bytes", (struct sending){ 1, request, 0, REPLY, 0, 0, response });
}

/* 39 parameters in 238 bytes, each I32 so that the response has 238 bytes too; 40 do not fit a length of 240. */
static void thirty_nine(void)
{
    struct bytes request = hex("5F 00 2F EE  07 01 01 27"), response = hex("5E 00 2F EE  07 01 01 27");
    struct bytes forty = hex("5F 00 2F F4  07 01 01 28");

    add_times(&request, 39, "10 01 75 34 00 00");
    add_times(&response, 39, "43 01 00 00 00 00");
    add_times(&forty, 40, "10 01 75 34 00 00");
    fresh_station();
    send("39 parameters", (struct sending){ 1, request, 0, REPLY, 0, 0, hex("5F 00 2F EE") });
    send("39 parameters fetched", (struct sending){ 1, hex(fetch), 0, REPLY, 0, 0, response });
    send("7: 40 parameters in 244 bytes", (struct sending){ 1, forty, 0, REPLY, 7, 0, hex("DF 80 B1 00") });
    request.at[7] = 0x28;
    send("10: 40 parameters in 238 bytes", (struct sending){ 1, request, 0, REPLY, 10, 0, hex("DF 80 B8 00") });
    request.at[3] = 0xF0;
    add(&request, "10 01");
    send("10: 40 parameters in 240 bytes", (struct sending){ 1, request, 0, REPLY, 10, 0, hex("DF 80 B8 00") });
}

/* The largest readable writes: 228 byte values for 9901, which wants words, or 227 and their fill byte. */
static void full_write(void)
{
    static const char response[] = "5E 00 2F 08  0C 82 01 01  44 01 00 05";
    struct bytes even = hex("5F 00 2F F0  0C 02 01 01  10 08 26 AD 00 00  41 E4"), odd = even;

    add_times(&even, 228, "AA");
    odd.at[15] = 227;
    add_times(&odd, 227, "AA");
    add(&odd, "00");
    fresh_station();
    send("a block of 240 bytes", (struct sending){ 1, even, 0, REPLY, 0, 0, hex("5F 00 2F F0") });
    frame("a block of 240 bytes fetched", 1, fetch, 0, 0, response);
    send("240 bytes with a fill byte", (struct sending){ 1, odd, 0, REPLY, 0, 0, hex("5F 00 2F F0") });
    frame("240 bytes with a fill byte fetched", 1, fetch, 0, 0, response);
    odd.at[243] = 0xAA;
    send("10: 240 bytes, fill byte AA", (struct sending){ 1, odd, 0, REPLY, 10, 0, hex("DF 80 B8 00") });
    odd.at[3] = 239;
    odd.len--;
    send("10: 239 bytes, no fill byte", (struct sending){ 1, odd, 0, REPLY, 10, 0, hex("DF 80 B8 00") });
    frame("8: none was worked", 1, fetch, 8, 0, "DE 80 B5 00");
}

/* A change of 9900, which wants a word, by byte values (number, values, what follows), and of a mark behind them. Where
 * it is readable the mark is stored. */
static void fill_byte(uint8_t format, const char *values, uint8_t number)
{
    struct bytes change = hex("5F 00 2F 00  0D 02 01 02  10 01 26 AC 00 00  10 01 75 31 00 00");

    change.at[change.len++] = format;
    add(&change, values);
    add(&change, "42 01 03 E8");
    change.at[3] = (uint8_t)(change.len - 4);
    struct bytes reply = number == 0 ? change : refusal_reply(number, true);
    reply.len = 4; /* an acknowledgement is as the frame begins */
    send(named("format %02X, values %s", (unsigned)format, values),
         (struct sending){ 1, change, 0, REPLY, number, number == 0, reply });
    if (number == 0)
        frame("the mark behind byte values", 1, fetch, 0, 0, "5E 00 2F 0A  0D 82 01 02  44 01 00 05  40 00");
}

/* Number 10 by fill bytes: behind an odd number of bytes stands one zero, behind an even number none. */
static void fill_bytes_written(void)
{
    static const uint8_t formats[] = { 0x41, 2, 5 };

    fresh_station();
    for (size_t i = 0; i < sizeof formats; i++) {
        fill_byte(formats[i], "01 05 00", 0);
        fill_byte(formats[i], "03 05 06 07 00", 0);
        fill_byte(formats[i], "02 05 06", 0);
        fill_byte(formats[i], "00", 0);
        fill_byte(formats[i], "01 05 01", 10);
        fill_byte(formats[i], "01 05 FF", 10);
        fill_byte(formats[i], "03 05 06 07 80", 10);
        fill_byte(formats[i], "01 05", 10);
        fill_byte(formats[i], "01 05 00 00", 10);
        fill_byte(formats[i], "02 05 06 00", 10);
        fill_byte(formats[i], "00 00", 10);
    }
}

/* Elements of 965 as they are read. Ten single ones and three whole 947 are 242 bytes, so the last gets 0x15; without
 * fill bytes they would fit. The block is 180 bytes. */
static void fill_bytes_read(void)
{
    struct bytes request = hex("5F 00 2F 52  07 01 01 0D"), response = hex("5E 00 2F B4  07 81 01 0D");

    fresh_station();
    frame("one element of 965", 1, "5F 00 2F 0A  07 01 01 01  10 01 03 C5 00 00", 0, 0, "5F 00 2F 0A");
    frame("9: 965 without its fill byte", 1, "5E 00 2F 07", 9, 0, "DE 80 B7 00");
    frame("one element of 965 fetched", 1, "5E 00 2F 08", 0, 0, "5E 00 2F 08  07 01 01 01  41 01 03 00");
    frame("965 among others", 1, "5F 00 2F 16  07 01 01 03  10 01 03 C5 00 01  10 02 03 C5 00 00  10 01 03 A2 00 00",
          0, 0, "5F 00 2F 16");
    frame("965 among others fetched", 1, fetch, 0, 0,
          "5E 00 2F 10  07 01 01 03  41 01 29 00  41 02 03 29  42 01 00 01");
    add_times(&request, 10, "10 01 03 C5 00 00");
    add_times(&response, 10, "41 01 03 00");
    add_times(&request, 3, "10 20 03 B3 00 00");
    for (unsigned i = 0; i < 2; i++) {
        add(&response, "42 20");
        add_times(&response, 32, "00 00");
    }
    add(&response, "44 01 00 15");
    send("ten of 965 and three 947", (struct sending){ 1, request, 0, REPLY, 0, 0, hex("5F 00 2F 52") });
    send("ten of 965 and three 947 fetched", (struct sending){ 1, hex(fetch), 0, REPLY, 0, 0, response });
}

/* Farm 1's part is ill-formed by what waits in it. */
static void ill_formed(const char *why)
{
    frame(named("2: fetch, %s", why), 1, fetch, 2, 0, "");
    frame(named("2: write, %s", why), 1, read_930, 2, 0, "");
    cycle(named("2: cycle, %s", why), (struct turn){ .axis = 1, .stw1 = 0x047E, .number = 2 });
}

/* Number 2 by a fill byte. Where a response waits is the library's own, so its length and its bytes are looked for. */
static void fill_bytes_waiting(void)
{
    struct bytes response = hex("08  07 01 01 01  41 01 03 00");
    size_t last = part_size() - response.len, at = 0;

    fresh_station();
    frame("one element of 965", 1, "5F 00 2F 0A  07 01 01 01  10 01 03 C5 00 00", 0, 0, "5F 00 2F 0A");
    while (at < last && memcmp(part(1) + at, response.at, response.len) != 0)
        at++;
    check("one element of 965", "waits in the part", memcmp(part(1) + at, response.at, response.len) == 0);
    part(1)[at + 8] = 0xFF;
    ill_formed("fill byte FF");
    part(1)[at + 8] = 0;
    part(1)[at] = 7;
    ill_formed("no fill byte");
    part(1)[at] = 9;
    ill_formed("two fill bytes");
    part(1)[at] = 8;
    frame("one element of 965 fetched", 1, fetch, 0, 0, "5E 00 2F 08  07 01 01 01  41 01 03 00");
}

/* Every error word of the address rules, beside addresses that work. */
static void addresses(void)
{
    fresh_station();
    frame("read errors", 1,
          "5F 00 2F 34  0A 01 01 08  10 01 00 01 00 00  20 01 03 A2 00 00  30 01 03 A2 00 00  11 01 03 A2 00 00 "
          "10 01 03 A2 00 01  10 00 75 31 00 00  10 02 75 31 00 03  10 00 03 A2 00 00", 0, 0, "5F 00 2F 34");
    frame("read errors fetched", 1, fetch, 0, 0,
          "5E 00 2F 24  0A 81 01 08  44 01 00 00  44 01 00 09  44 01 00 0F  44 01 00 16 "
          "44 01 00 04  44 01 00 16  44 01 00 03  42 01 00 01");
    frame("change errors", 1,
          "5F 00 2F 4E  0B 02 01 07  10 01 03 A2 00 00  10 01 26 AC 00 00  10 02 26 AD 00 00  10 01 75 32 00 00 "
          "10 00 75 33 00 00  10 01 75 34 00 01  10 01 75 34 00 00  42 01 00 01  41 01 05 00  42 01 00 07 "
          "42 01 40 01  06 01 7F FF  04 01 FF FE 79 60  43 01 FF FE 79 5F", 0, 2, "5F 00 2F 4E");
    frame("change errors fetched", 1, fetch, 0, 0,
          "5E 00 2F 1C  0B 82 01 07  44 01 00 01  44 01 00 05  44 01 00 18  44 01 00 02  40 00  40 00  44 01 00 02");
    frame("read what was stored", 1,
          "5F 00 2F 22  0C 01 01 05  10 01 75 32 00 00  10 01 75 33 00 00  10 02 75 34 00 00  10 02 03 C5 00 00 "
          "10 01 27 7F 00 00", 0, 0, "5F 00 2F 22");
    frame("what was stored", 1, fetch, 0, 0,
          "5E 00 2F 1E  0C 01 01 05  42 01 00 A4  42 01 7F FF  43 02 00 00 00 00 FF FE 79 60  41 02 03 29 "
          "42 01 05 DC");
}

/* Marks and offsets that are neither fresh nor those that a failing change has. */
static void elements_set(void)
{
    fresh_station();
    exchange("marks and offsets set", 1,
             "5F 00 2F 24  07 02 01 02  10 04 75 31 00 00  10 02 75 34 00 00  42 04 01 11 02 22 03 33 04 44 "
             "43 02 00 00 11 11 FF FF EE EE", 0, 6, "5E 00 2F 04  07 02 01 02");
}

/* So many marks, from a given one on, are to become 3000, but for a set of bad ones, number 1 the first, which are 3001. */
static void marks_written(uint8_t first, uint8_t count, unsigned bad)
{
    struct bytes change = hex("5F 00 2F 00  07 02 01 01  10 00 75 31 00 00  42 00");
    struct bytes kept = hex("5E 00 2F 0E  08 01 01 01  42 04 01 11 02 22 03 33 04 44");
    const char *name = named("%u marks from mark %u on, bad%s", (unsigned)count, (unsigned)first, listed(bad));

    change.at[9] = change.at[15] = count;
    change.at[13] = first;
    for (unsigned number = 1; number <= count; number++)
        add(&change, has(bad, number) ? "0B B9" : "0B B8");
    change.at[3] = (uint8_t)(change.len - 4);
    if (bad == 0)
        memcpy(kept.at + 10 + 2 * first, change.at + 16, 2 * (size_t)count);
    struct bytes acknowledgement = change;
    acknowledgement.len = 4;
    elements_set();
    send(name, (struct sending){ 1, change, 0, REPLY, 0, bad == 0 ? count : 0, acknowledgement });
    frame(name, 1, fetch, 0, 0, bad == 0 ? stored_response : marks_response);
    exchange_sent(name, (struct sending){ 1, hex(read_marks), 0, REPLY, 0, 0, kept });
}

/* Marks 0 and 1, both offsets, marks 2 and 3: a set of these addresses, number 1 the first, has a bad value each and is
 * not stored; the others are. */
static void addresses_written(unsigned bad)
{
    static const char *const format[] = { "42 02", "43 02", "06 02" };
    static const char *const before[] = { "01 11 02 22", "00 00 11 11 FF FF EE EE", "03 33 04 44" };
    static const char *const good[] = { "05 55 06 66", "00 00 22 22 FF FF DD DD", "07 77 08 88" };
    static const char *const wrong[] = { "05 55 0B B9", "00 00 22 22 FF FE 79 5F", "0B B9 08 88" };
    struct bytes change = hex("5F 00 2F 2C  07 02 01 03  10 02 75 31 00 00  10 02 75 34 00 00  10 02 75 31 00 02");
    struct bytes response = hex("5E 00 2F 00  07 82 01 03"), kept = hex("5E 00 2F 18  08 01 01 02  42 04");
    const char *kept_of[3], *name = named("three addresses, bad%s", listed(bad));
    uint16_t stored = 0;

    for (unsigned k = 0; k < 3; k++) {
        bool fails = has(bad, k + 1);

        add(&change, format[k]);
        add(&change, fails ? wrong[k] : good[k]);
        add(&response, fails ? "44 01 00 02" : "40 00");
        kept_of[k] = fails ? before[k] : good[k];
        stored += fails ? 0 : 2;
    }
    response.at[3] = (uint8_t)(response.len - 4);
    if (bad == 0)
        response = hex("5E 00 2F 04  07 02 01 03");
    add(&kept, kept_of[0]);
    add(&kept, kept_of[2]);
    add(&kept, "43 02");
    add(&kept, kept_of[1]);
    elements_set();
    send(name, (struct sending){ 1, change, 0, REPLY, 0, stored, hex("5F 00 2F 2C") });
    send(name, (struct sending){ 1, hex(fetch), 0, REPLY, 0, 0, response });
    exchange_sent(name, (struct sending){ 1, hex("5F 00 2F 10  08 01 01 02  10 04 75 31 00 00  10 02 75 34 00 00"), 0,
                                          REPLY, 0, 0, kept });
}

/* R-6: "An address is stored whole or not at all." Every part of the marks with every set of bad ones, every set of bad
 * addresses, and the same marks twice in one change: what the one stored is not undone by the other. */
static void stored_whole(void)
{
    static const char kept[] = "5E 00 2F 0E  08 01 01 01  42 04 05 55 06 66 07 77 08 88";

    for (uint8_t first = 0; first < 4; first++)
        for (uint8_t count = 1; first + count <= 4; count++)
            for (unsigned bad = 0; bad < 2u << count; bad += 2)
                marks_written(first, count, bad);
    for (unsigned bad = 0; bad < 2u << 3; bad += 2)
        addresses_written(bad);
    elements_set();
    exchange("marks good, then bad", 1,
             "5F 00 2F 24  07 02 01 02  10 04 75 31 00 00  10 04 75 31 00 00  42 04 05 55 06 66 07 77 08 88 "
             "42 04 09 99 09 99 09 99 0B B9", 0, 4, "5E 00 2F 0A  07 82 01 02  40 00  44 01 00 02");
    exchange("marks good, then bad: read", 1, read_marks, 0, 0, kept);
    elements_set();
    exchange("marks bad, then good", 1,
             "5F 00 2F 24  07 02 01 02  10 04 75 31 00 00  10 04 75 31 00 00  42 04 09 99 09 99 09 99 0B B9 "
             "42 04 05 55 06 66 07 77 08 88", 0, 4, "5E 00 2F 0A  07 82 01 02  44 01 00 02  40 00");
    exchange("marks bad, then good: read", 1, read_marks, 0, 0, kept);
}

/* Element 0 of each parameter, no two the same, as elements_apart leaves them; of a number that is none, error 0x00. */
static const char *element_0(unsigned pnu)
{
    switch (pnu) {
    case 930:
        return "42 01 00 01";
    case 944:
        return "42 01 00 02";
    case 947:
        return "42 01 AB CD";
    case 965:
        return "41 01 03 00";
    case 9900:
        return "42 01 11 11";
    case 9901:
        return "42 01 22 22";
    case 10100:
        return "42 01 04 00";
    case 10101:
        return "42 01 00 64";
    case 10102:
        return "42 01 03 48";
    case 10103:
        return "42 01 00 07";
    case 10111:
        return "42 01 33 33";
    case 30001:
        return "42 01 04 44";
    case 30002:
        return "42 01 05 55";
    case 30003:
        return "42 01 06 66";
    case 30004:
        return "43 01 00 00 07 77";
    default:
        return "44 01 00 00";
    }
}

/* Two codes for the counter and the buffer, a word and speeds, and a change of each parameter that can be written. */
static void elements_apart(void)
{
    struct turn fault = { .axis = 1, .stw1 = 0x0400, .nsoll = 100, .nist = 7, .state = 1, .status = 0x0348 };

    fresh_station();
    fault.fault = 0xABCD;
    cycle("a code", fault);
    fault.fault = 0x1234;
    cycle("a second code", fault);
    exchange("all that can be written", 1,
             "5F 00 2F 4C  07 02 01 07  10 01 26 AC 00 00  10 01 26 AD 00 00  10 01 27 7F 00 00  10 01 75 31 00 00 "
             "10 01 75 32 00 00  10 01 75 33 00 00  10 01 75 34 00 00  42 01 11 11  42 01 22 22  42 01 33 33 "
             "42 01 04 44  42 01 05 55  42 01 06 66  43 01 00 00 07 77", 0, 7, "5E 00 2F 04  07 02 01 07");
}

/* R-5: "its answer stays the same for every number". All 65536 are read, 39 in each call and the rest in the last; every
 * call has some that are none, so its response is 81. */
static void every_number(void)
{
    elements_apart();
    for (unsigned pnu = 0; pnu <= 0xFFFF;) {
        struct bytes request = hex("5F 00 2F 00  07 01 01 00"), response = hex("5E 00 2F 00  07 81 01 00");
        const char *name = named("numbers from %u on", pnu);

        for (; pnu <= 0xFFFF && request.at[7] < 39; pnu++) {
            add(&request, "10 01 00 00 00 00");
            request.at[request.len - 4] = (uint8_t)(pnu >> 8);
            request.at[request.len - 3] = (uint8_t)pnu;
            request.at[7]++;
            add(&response, element_0(pnu));
        }
        request.at[3] = (uint8_t)(request.len - 4);
        response.at[3] = (uint8_t)(response.len - 4);
        response.at[7] = request.at[7];
        exchange_sent(name, (struct sending){ 1, request, 0, REPLY, 0, 0, response });
    }
}

/* All six states, the sides of bit 8, bit 10, and signed numbers both ways. 047F leads on, 047E ramps down, 047B stops
 * quickly, 045F holds the setpoint, 043F takes it away, and a word of 0 is not taken. */
static const struct turn turns[] = {
    { .stw1 = 0x047F, .state = 1, .status = 0x0370 },
    { .stw1 = 0x047E, .state = 2, .status = 0x0331 },
    { .stw1 = 0x047F, .nsoll = 8192, .state = 3, .status = 0x0333 },
    { .stw1 = 0x047F, .nsoll = 8192, .nist = 8028, .state = 4, .status = 0x0337, .rpm = 750 },
    { .stw1 = 0x047F, .nsoll = 8192, .nist = 8027, .state = 4, .status = 0x0237, .rpm = 750 },
    { .stw1 = 0x047F, .nsoll = 8192, .nist = 8356, .state = 4, .status = 0x0337, .rpm = 750 },
    { .stw1 = 0x047F, .nsoll = 8192, .nist = 8357, .state = 4, .status = 0x0237, .rpm = 750 },
    { .stw1 = 0x047F, .nsoll = 16384, .nist = 16384, .state = 4, .status = 0x0737, .rpm = 1500 },
    { .stw1 = 0x047F, .nsoll = -16384, .nist = -16384, .state = 4, .status = 0x0737, .rpm = -1500 },
    { .stw1 = 0x047F, .nsoll = -16383, .nist = -16383, .state = 4, .status = 0x0337, .rpm = -1499 },
    { .stw1 = 0x047F, .nsoll = -1, .state = 4, .status = 0x0337, .rpm = 0 },
    { .stw1 = 0x047F, .nsoll = 32767, .nist = 32767, .state = 4, .status = 0x0737, .rpm = 2999 },
    { .stw1 = 0x047F, .nsoll = -32768, .nist = -32768, .state = 4, .status = 0x0737, .rpm = -3000 },
    { .stw1 = 0x047F, .nsoll = 32767, .nist = -32768, .state = 4, .status = 0x0637, .rpm = 2999 },
    { .stw1 = 0x0000, .nsoll = 5, .state = 4, .status = 0x0237, .rpm = 2999 },
    { .stw1 = 0x045F, .nsoll = 5, .nist = 32767, .state = 4, .status = 0x0737, .rpm = 2999 },
    { .stw1 = 0x043F, .nsoll = 5, .state = 4, .status = 0x0337 },
    { .stw1 = 0x047E, .state = 51, .status = 0x0333 },
    { .stw1 = 0x047E, .flags = 2, .state = 51, .status = 0x03B3 },
    { .stw1 = 0x047F, .state = 4, .status = 0x0337 },
    { .stw1 = 0x047B, .state = 52, .status = 0x0313 },
    { .stw1 = 0x047B, .flags = 2, .state = 52, .status = 0x0393 },
    { .stw1 = 0x047B, .flags = 1, .state = 1, .status = 0x0350 },
    { .stw1 = 0x047E, .state = 2, .status = 0x0331 },
    { .stw1 = 0x047F, .state = 3, .status = 0x0333 },
    { .stw1 = 0x047F, .state = 4, .status = 0x0337 },
    { .stw1 = 0x047E, .state = 51, .status = 0x0333 },
    { .stw1 = 0x047E, .flags = 3, .state = 2, .status = 0x03B1 },
};

static void cycles(void)
{
    fresh_station();
    for (size_t i = 0; i < sizeof turns / sizeof turns[0]; i++) {
        struct turn t = turns[i];

        t.axis = 16;
        cycle(named("cycle %zu", i + 1), t);
    }
}

/* A fault and its acknowledgement, as the cycle answers and as a farm reads them (944, 947, 10100 to 10103). */
static void faults(void)
{
    fresh_station();
    cycle("fault", (struct turn){ .axis = 1, .stw1 = 0x047E, .fault = 0xFEDC, .state = 1, .status = 0x0378 });
    frame("fault read", 1, "5F 00 2F 10  0D 01 01 02  10 01 03 B0 00 00  10 02 03 B3 00 00", 0, 0, "5F 00 2F 10");
    frame("fault fetched", 1, fetch, 0, 0, "5E 00 2F 0E  0D 01 01 02  42 01 00 01  42 02 FE DC 00 00");
    cycle("acknowledged", (struct turn){ .axis = 1, .stw1 = 0x04FE, .nsoll = -2, .nist = -3, .state = 2,
                                         .status = 0x0331 });
    frame("acknowledged read", 1, "5F 00 2F 10  0D 01 01 02  10 01 03 B0 00 00  10 09 03 B3 00 00", 0, 0,
          "5F 00 2F 10");
    frame("acknowledged fetched", 1, fetch, 0, 0,
          "5E 00 2F 1C  0D 01 01 02  42 01 00 02  42 09 00 00 00 00 00 00 00 00 00 00 00 00 00 00 00 00 FE DC");
    frame("words read", 1,
          "5F 00 2F 1C  0E 01 01 04  10 01 27 74 00 00  10 01 27 75 00 00  10 01 27 76 00 00  10 01 27 77 00 00", 0, 0,
          "5F 00 2F 1C");
    frame("words fetched", 1, fetch, 0, 0,
          "5E 00 2F 14  0E 01 01 04  42 01 04 FE  42 01 FF FE  42 01 03 31  42 01 FF FD");
}

/* The settings: the parameters that can be written, with the places of their elements in a part. */
static const struct setting {
    uint16_t pnu;
    uint8_t elements, size;
    size_t at;
    int32_t low, high, fresh;
} settings[] = {
    { 9900, 1, 2, 70, 0, 65535, 0 },
    { 9901, 8, 2, 72, 0, 65535, 0 },
    { 10111, 1, 2, 96, 1, 60000, 1500 },
    { 30001, 4, 2, 98, 0, 3000, 0 },
    { 30002, 1, 2, 106, 0, 16384, 164 },
    { 30003, 1, 2, 108, 0, 32767, 16384 },
    { 30004, 2, 4, 110, -100000, 100000, 0 },
};

enum { WRITABLE = sizeof settings / sizeof settings[0] };

/* Numbers of 2 or 4 bytes: high byte first in frames and in what is settled now, low byte first in versions. */
static void put_high(uint8_t *to, int32_t number, unsigned size)
{
    for (unsigned i = 0; i < size; i++)
        to[i] = (uint8_t)((uint32_t)number >> 8 * (size - 1 - i));
}

static void put_low(uint8_t *to, int32_t number, unsigned size)
{
    for (unsigned i = 0; i < size; i++)
        to[i] = (uint8_t)((uint32_t)number >> 8 * i);
}

static int32_t low_number(const uint8_t *from, unsigned size)
{
    uint32_t number = 0;

    for (unsigned i = 0; i < size; i++)
        number |= (uint32_t)from[i] << 8 * i;
    return (int32_t)number;
}

struct values { /* of all settings, in the order of the table */
    int32_t at[SETTINGS];
};

static struct values fresh_values(void)
{
    struct values fresh;
    int32_t *to = fresh.at;

    for (size_t i = 0; i < WRITABLE; i++)
        for (unsigned element = 0; element < settings[i].elements; element++)
            *to++ = settings[i].fresh;
    return fresh;
}

/* Values that tell the nth change and each element apart: every fourth time all low limits, or all high ones. */
static struct values nth_values(uint32_t n)
{
    struct values nth;
    int32_t *to = nth.at;

    for (size_t i = 0; i < WRITABLE; i++)
        for (unsigned element = 0; element < settings[i].elements; element++) {
            int64_t range = (int64_t)settings[i].high - settings[i].low + 1;
            int64_t apart = (INT64_C(7919) * n + 271 * element) % range;

            *to++ = n % 4 == 1 ? settings[i].low : n % 4 == 2 ? settings[i].high : (int32_t)(settings[i].low + apart);
        }
    return nth;
}

enum { FARM = 5 }; /* the farm whose versions are tested; the others' are fresh */

/* A frame that changes all settings, or with no values one that reads them. */
static struct bytes settings_frame(const struct values *values)
{
    struct bytes frame = hex(values == NULL ? "5F 00 2F 00  07 01 05 07" : "5F 00 2F 00  07 02 05 07");
    const int32_t *from = values == NULL ? NULL : values->at;

    for (size_t i = 0; i < WRITABLE; i++) {
        add(&frame, "10 00 00 00 00 00");
        frame.at[frame.len - 5] = settings[i].elements;
        put_high(frame.at + frame.len - 4, settings[i].pnu, 2);
    }
    for (size_t i = 0; values != NULL && i < WRITABLE; i++) {
        frame.at[frame.len++] = settings[i].size == 4 ? 0x43 : 0x42;
        frame.at[frame.len++] = settings[i].elements;
        for (unsigned element = 0; element < settings[i].elements; element++, frame.len += settings[i].size)
            put_high(frame.at + frame.len, *from++, settings[i].size);
    }
    frame.at[3] = (uint8_t)(frame.len - 4);
    return frame;
}

/* The fetch of what is read so: the change's own values, after the header. */
static struct bytes settings_response(const struct values *values)
{
    struct bytes change = settings_frame(values), response = hex("5E 00 2F 3A  07 01 05 07");

    memcpy(response.at + response.len, change.at + 8 + 6 * WRITABLE, 54);
    response.len += 54;
    return response;
}

/* The farm's settings and versions, by the rule. */
static struct expected {
    struct values now, slots[KEPT];
    uint32_t last;
} expected;

static void expect_fresh(void)
{
    expected.now = fresh_values();
    expected.last = 0;
    for (unsigned slot = 0; slot < KEPT; slot++)
        expected.slots[slot] = expected.now;
}

/* What is settled now becomes the next version. */
static void expect_version(struct values now)
{
    expected.now = now;
    expected.slots[expected.last++ % KEPT] = now;
}

static uint16_t expected_kept(void)
{
    return (uint16_t)(expected.last < KEPT ? expected.last : KEPT);
}

static uint16_t expected_oldest(void)
{
    return (uint16_t)(expected.last - expected_kept() + 1);
}

static struct values expected_in(uint32_t version)
{
    return expected.slots[(version - 1) % KEPT];
}

/* Writes what is expected into a part. */
static void put_expected(uint8_t *to)
{
    uint8_t *column = to + VERSIONS_AT;
    unsigned k = 0;

    for (size_t i = 0; i < WRITABLE; i++)
        for (unsigned element = 0; element < settings[i].elements; element++, k++) {
            unsigned size = settings[i].size;

            put_high(to + settings[i].at + size * element, expected.now.at[k], size);
            for (unsigned slot = 0; slot < KEPT; slot++, column += size)
                put_low(column, expected.slots[slot].at[k], size);
        }
    put_low(to + LAST_AT, (int32_t)expected.last, 2);
}

/* The farm's part is as before, but for the settings and versions, which are as expected; so is the list. */
static void check_versions(const char *name, const uint8_t *before)
{
    uint8_t *wanted = memory_or_stop(part_size());

    memcpy(wanted, before + (FARM - 1) * part_size(), part_size());
    put_expected(wanted);
    check_bytes(name, "own part", part(FARM), wanted, part_size());
    list(name, FARM, 0, expected_oldest(), expected_kept());
    free(wanted);
}

/* A station on which the farm has fresh settings and no version; they stand in the slots that are not yet in use. */
static void fresh_farm(void)
{
    fresh_station();
    expect_fresh();
    check_number("fresh farm", "size of a part", (int64_t)part_size(), VERSIONS_END);
    check_versions("fresh farm", start(&station));
    for (uint32_t axis = 1; axis <= AXES; axis++)
        check_bytes(named("fresh farm %" PRIu32, axis), "part", part(axis), part(FARM), part_size());
}

/* All settings by a write, which takes the version, and by the fetch, which takes none. */
static void write_settings(const char *name, struct values values)
{
    struct bytes change = settings_frame(&values), acknowledgement = change;
    uint8_t *before = copy_of(&station);

    acknowledgement.len = 4;
    send_by(llinkhiro_frame, name, (struct sending){ FARM, change, 0, REPLY, 0, SETTINGS, acknowledgement });
    expect_version(values);
    list(name, FARM, 0, expected_oldest(), expected_kept());
    frame(name, FARM, fetch, 0, 0, "5E 00 2F 04  07 02 05 07");
    check_versions(name, before);
    free(before);
}

static void merge_settings(const char *name, struct values values)
{
    uint8_t *before = copy_of(&station);

    exchange_sent(name, (struct sending){ FARM, settings_frame(&values), 0, REPLY, 0, SETTINGS,
                                          hex("5E 00 2F 04  07 02 05 07") });
    expect_version(values);
    check_versions(name, before);
    free(before);
}

static void return_to(const char *name, uint32_t version)
{
    uint8_t *before = copy_of(&station);

    expect_version(expected_in(version));
    go_back(name, FARM, version, 0, (uint16_t)expected.last);
    check_versions(name, before);
    free(before);
}

static void check_settings(const char *name)
{
    struct bytes response = settings_response(&expected.now);

    exchange_sent(name, (struct sending){ FARM, settings_frame(NULL), 0, REPLY, 0, 0, response });
}

/* The next version, in the three ways by turns. */
static void next_version(void)
{
    const char *name = named("version %" PRIu32, expected.last + 1);

    if (expected.last % 3 == 0)
        write_settings(name, nth_values(expected.last + 1));
    else if (expected.last % 3 == 1)
        merge_settings(name, nth_values(expected.last + 1));
    else
        return_to(name, expected_oldest());
}

static void farm_with(uint32_t versions)
{
    fresh_farm();
    while (expected.last < versions)
        next_version();
}

/* The list from fresh until the slots have been used twice over, and that of a farm beside it. */
static void versions_listed(void)
{
    fresh_farm();
    while (expected.last < 2 * KEPT + 2) {
        next_version();
        list("farm 4 beside it", FARM - 1, 0, 1, 0);
    }
    check_settings("settings after versions");
    fresh("fresh again", 0);
    list("fresh again", FARM, 0, 1, 0);
}

/* A merged call that stores so many elements of farm 1, and the number of versions after it. */
static void taken(const char *name, const char *bytes, uint16_t stored, const char *reply, uint16_t versions)
{
    exchange(name, 1, bytes, 0, stored, reply);
    list(name, 1, 0, 1, versions);
}

/* One version for each call that stores something, equal or not, in one address or in many; none for any other. */
static void version_takers(void)
{
    static const char good_twice[] =
        "5F 00 2F 18  07 02 01 02  10 01 75 31 00 00  10 01 75 31 00 00  42 01 00 01  42 01 00 02";

    fresh_station();
    taken("a read takes none", read_930, 0, response_930, 0);
    taken("a change that fails takes none", write_marks, 0, marks_response, 0);
    taken("a change takes one", store_marks, MARKS_STORED, stored_response, 1);
    taken("the same again takes one", store_marks, MARKS_STORED, stored_response, 2);
    taken("one address of two stored", store_half, 1, "5E 00 2F 0A  07 82 01 02  44 01 00 02  40 00", 3);
    taken("two addresses stored", good_twice, 2, "5E 00 2F 04  07 02 01 02", 4);
    frame("10: not readable", 1, "5F 00 2F 00", 10, 0, "DF 80 B8 00");
    exchange("11: farm 2's axis", 1, mark_of_farm_2, 11, 0, "DF 80 B6 00");
    cycle("a cycle", (struct turn){ .axis = 1, .stw1 = 0x047E, .state = 2, .status = 0x0331 });
    frame("a write", 1, read_930, 0, 0, "5F 00 2F 0A");
    frame("8: a change while its response waits", 1, store_marks, 8, 0, "DF 80 B5 00");
    frame("its fetch", 1, fetch, 0, 0, response_930);
    list("refusals, a cycle and a fetch take none", 1, 0, 1, 4);
    go_back("a going back takes one", 1, 4, 0, 5);
    go_back("14: one that is refused takes none", 1, 6, 14, 0);
    list("after goings back", 1, 0, 1, 5);
    list("farm 2's change was refused", 2, 0, 1, 0);
}

/* To the newest, to the oldest of 16, and back from there; and twice to the same. */
static void going_back(void)
{
    farm_with(1);
    return_to("to the only one", 1);
    return_to("to the only one again", 1);
    return_to("to what went back", 2);
    farm_with(KEPT + 5);
    check_settings("before going back");
    return_to("to the newest", expected.last);
    return_to("to the oldest of 16", expected_oldest());
    check_settings("the oldest of 16");
    return_to("and back from it", expected.last - 1);
    check_settings("back from it");
    uint32_t version = expected_oldest() + 7;
    return_to("to one of 16", version);
    return_to("to it again", version);
    check_settings("to it again");
    merge_settings("a change after it", nth_values(3));
    return_to("and back from that", expected.last - 1);
}

/* Each version that is kept, with 1 to 18 taken: on a copy of the station, by the settings read and by every byte. */
static void every_version(void)
{
    fresh_farm();
    while (expected.last < KEPT + 2) {
        next_version();
        struct expected present = expected;
        for (uint32_t version = expected_oldest(); version <= present.last; version++) {
            struct memory whole = station;

            station = station_again(whole.len);
            return_to(named("to %" PRIu32 " of %" PRIu32, version, present.last), version);
            check_settings(named("settings of %" PRIu32 " of %" PRIu32, version, present.last));
            give_back(&station);
            station = whole;
            expected = present;
        }
    }
}

/* Words that lead a fresh axis to each state, and one with a fault. */
static const struct way {
    uint8_t state;
    uint16_t words[4];
    uint16_t fault;
} ways[] = {
    { 1, { 0 }, 0 },
    { 2, { 0x047E }, 0 },
    { 3, { 0x047E, 0x047F }, 0 },
    { 4, { 0x047E, 0x047F, 0x047F }, 0 },
    { 51, { 0x047E, 0x047F, 0x047F, 0x047E }, 0 },
    { 52, { 0x047E, 0x047F, 0x047F, 0x047B }, 0 },
    { 1, { 0x047E, 0x047F, 0x047F, 0x047F }, 0xFEDC },
};

/* The state, the faults and the words are left, and so is a response that waits: of all bytes of the part only the
 * settings and the versions are others. The cycle after it uses the speed gone back to: 100 % is 60000. */
static void state_kept(const struct way *way, bool waiting)
{
    struct llinkhiro_cycled got = { 0, 0, 1, 0 };

    farm_with(4);
    const char *name = named("state S%u, fault %04X%s", (unsigned)way->state, (unsigned)way->fault,
                             waiting ? ", a response waits" : "");
    for (unsigned i = 0; i < 4 && way->words[i] != 0; i++)
        got = llinkhiro_cycle(start(&station), station.len, FARM, 0, way->words[i], 16384, -7, i == 3 ? way->fault : 0);
    check_number(name, "state", got.state, way->state);
    if (waiting)
        frame(name, FARM, "5F 00 2F 0A  07 01 05 01  10 01 03 A2 00 00", 0, 0, "5F 00 2F 0A");
    return_to(name, 2);
    return_to(name, 3);
    return_to(name, 2);
    if (waiting)
        frame(name, FARM, fetch, 0, 0, "5E 00 2F 08  07 01 05 01  42 01 00 01");
    check_settings(name);
    if (way->state == 4)
        cycle(name, (struct turn){ .axis = FARM, .stw1 = 0x047F, .nsoll = 16384, .state = 4, .status = 0x0337,
                                   .rpm = 60000 });
}

static void every_state(void)
{
    for (size_t i = 0; i < sizeof ways / sizeof ways[0]; i++) {
        state_kept(&ways[i], false);
        state_kept(&ways[i], true);
    }
}

/* A going back of farm 16 made to deserve each number of the set and no other; a list of it is made too. Version 1 is
 * kept until the numbers are used up, 65535 from then on. */
static void going_back_deserving(unsigned set, enum spoiling how)
{
    uint32_t farm = has(set, 1) ? 17 : 16, kept = has(set, 15) ? 65535 : 1, not_kept = has(set, 15) ? 1 : 65535;

    fresh_station();
    exchange("version 1", 16, "5F 00 2F 0E  07 02 10 01  10 01 75 31 00 00  42 01 07 D0", 0, 1,
             "5E 00 2F 04  07 02 10 01");
    if (has(set, 15))
        use_up(16);
    if (has(set, 2))
        spoil(how, 16);
    go_back(named("going back that deserves%s%s", listed(set), spoiled(set, how)), farm,
            has(set, 14) ? not_kept : kept, smallest(set), 0);
    if (smallest(set) <= 2)
        list(named("list that deserves%s%s", listed(set), spoiled(set, how)), farm, smallest(set), 0, 0);
}

/* A going back that deserves several of 1, 2, 14 and 15 is answered the smallest, and so is a list of 1 and 2. */
static void going_back_order(void)
{
    for (unsigned set = 1 << 1; set < 1 << 16; set++)
        if ((set & ~(1u << 1 | 1u << 2 | 1u << 14 | 1u << 15)) == 0) {
            going_back_deserving(set, CUT);
            if (has(set, 2))
                going_back_deserving(set, OVERWRITTEN);
        }
}

/* 14 for 0, for what is kept no more and for what is not yet taken, with so many versions. */
static void numbers_around(uint32_t versions)
{
    farm_with(versions);
    go_back(named("14: 0 of %" PRIu32, versions), FARM, 0, 14, 0);
    for (uint32_t version = 1; version <= versions + KEPT; version++)
        if (version < expected_oldest() || version > versions)
            go_back(named("14: %" PRIu32 " of %" PRIu32, version, versions), FARM, version, 14, 0);
}

/* Number 14. A version of more than 16 bits does not become a small one. */
static void not_kept(void)
{
    static const uint32_t more[] = { 0x10000, 0x20000, 0x01000000, 0x80000000, 0xFFFF0000, 0xFFFFFF00 };

    numbers_around(0);
    numbers_around(1);
    numbers_around(KEPT - 1);
    numbers_around(KEPT);
    numbers_around(KEPT + 1);
    numbers_around(2 * KEPT + 1);
    for (size_t i = 0; i < sizeof more / sizeof more[0]; i++)
        for (uint32_t version = expected_oldest() - 1u; version <= expected.last + 1; version++)
            go_back(named("14: %" PRIu32, more[i] + version), FARM, more[i] + version, 14, 0);
    go_back("14: 65535", FARM, 65535, 14, 0);
    go_back("14: 65536", FARM, 65536, 14, 0);
    go_back("14: the largest number", FARM, UINT32_MAX, 14, 0);
    go_back("14: of a farm that has none", FARM + 1, 1, 14, 0);
}

/* Number 15 for whatever would store an element, beside what is answered as ever; and the number before it. */
static void used_up(void)
{
    static const char bad[] =
        "5F 00 2F 1A  07 02 01 02  10 02 75 31 00 00  10 01 03 A2 00 00  42 02 00 01 0B B9  42 01 00 01";

    fresh_station();
    exchange("marks to be kept", 1, store_marks, 0, MARKS_STORED, stored_response);
    use_up(1);
    part(1)[LAST_AT]--;
    list("one number left", 1, 0, 65519, KEPT);
    exchange("the last number", 1, store_marks, 0, MARKS_STORED, stored_response);
    list("no number left", 1, 0, 65520, KEPT);
    frame("15: a change", 1, store_marks, 15, 0, "DF 80 A1 00");
    frame("15: a change of which one address fails", 1, store_half, 15, 0, "DF 80 A1 00");
    frame("8: nothing waits", 1, fetch, 8, 0, "DE 80 B5 00");
    exchange("a change of which every address fails", 1, bad, 0, 0,
             "5E 00 2F 0C  07 82 01 02  44 01 00 02  44 01 00 01");
    exchange("marks read", 1, read_marks, 0, 0, "5E 00 2F 0E  08 01 01 01  42 04 09 C4 0B B8 00 00 00 00");
    frame("a read", 1, read_930, 0, 0, "5F 00 2F 0A");
    frame("8: before 15", 1, store_marks, 8, 0, "DF 80 B5 00");
    go_back("15: while a response waits", 1, 65520, 15, 0);
    frame("its fetch", 1, fetch, 0, 0, response_930);
    go_back("15: to the oldest", 1, 65520, 15, 0);
    go_back("15: to the newest", 1, 65535, 15, 0);
    go_back("14: before the oldest", 1, 65519, 14, 0);
    go_back("14: after the newest", 1, 65536, 14, 0);
    go_back("14: version 0", 1, 0, 14, 0);
    cycle("a cycle", (struct turn){ .axis = 1, .stw1 = 0x047E, .state = 2, .status = 0x0331 });
    exchange("farm 2 has numbers left", 2, mark_of_farm_2, 0, 1, "5E 00 2F 04  07 02 02 01");
    list("farm 2 has numbers left", 2, 0, 1, 1);
    fresh("fresh starts the numbers again", 0);
    exchange("a change after that", 1, store_marks, 0, MARKS_STORED, stored_response);
    list("a change after that", 1, 0, 1, 1);
}

enum { CHANGES = 70000, LAST_NUMBER = 65535, MARK_0 = 10 };

/* The ways of a change, by turns: mark 0 by a merged call, all settings by a write and its fetch, going back. */
enum { ONE_MERGED = 1, ALL_WRITTEN = 2, WAYS = 3 };

/* The nth change of the farm, with no checks around it. The reply is that of the merged call or of the write. */
static struct llinkhiro_framed changed(uint32_t n, uint8_t reply[REPLY])
{
    struct values values = nth_values(n);
    struct bytes mark = hex("5F 00 2F 0E  07 02 05 01  10 01 75 31 00 00  42 01 00 00"), read = hex(fetch);
    struct bytes all = settings_frame(&values);
    uint8_t *at = start(&station), fetched[REPLY];

    if (n % WAYS == ONE_MERGED) {
        put_high(mark.at + 16, values.at[MARK_0], 2);
        return llinkhiro_exchange(at, station.len, FARM, mark.at, mark.len, reply, REPLY);
    }
    if (n % WAYS == ALL_WRITTEN) {
        struct llinkhiro_framed written = llinkhiro_frame(at, station.len, FARM, all.at, all.len, reply, REPLY);
        llinkhiro_frame(at, station.len, FARM, read.at, read.len, fetched, REPLY);
        return written;
    }
    struct llinkhiro_returned returned = llinkhiro_go_back(at, station.len, FARM, expected_oldest());
    return (struct llinkhiro_framed){ 0, returned.stored, returned.number };
}

/* What it leaves by the rule. */
static void expect_changed(uint32_t n)
{
    struct values values = n % WAYS == ALL_WRITTEN ? nth_values(n) : expected.now;

    if (n % WAYS == ONE_MERGED)
        values.at[MARK_0] = nth_values(n).at[MARK_0];
    expect_version(n % WAYS == 0 ? expected_in(expected_oldest()) : values);
}

static void change_accepted(uint32_t n, const uint8_t *before)
{
    uint8_t reply[REPLY];
    struct llinkhiro_framed got = changed(n, reply);
    struct llinkhiro_listed kept = llinkhiro_versions(start(&station), station.len, FARM);
    const char *name = named("change %" PRIu32, n);

    expect_changed(n);
    check_number(name, "number", got.number, 0);
    check_number(name, "stored", got.stored, n % WAYS == ONE_MERGED ? 1 : SETTINGS);
    check_number(name, "oldest", kept.oldest, expected_oldest());
    check_number(name, "kept", kept.kept, expected_kept());
    if (n % 1000 == 0 || n == LAST_NUMBER)
        check_versions(name, before);
}

static void change_refused(uint32_t n, const uint8_t *before)
{
    struct bytes refusal = hex("DF 80 A1 00");
    uint8_t reply[REPLY];
    struct llinkhiro_framed got = changed(n, reply);
    const char *name = named("change %" PRIu32, n);

    check_number(name, "number", got.number, 15);
    check_number(name, "stored", got.stored, 0);
    check_number(name, "reply length", got.length, n % WAYS == 0 ? 0 : 4);
    check_bytes(name, "reply", reply, refusal.at, got.length);
    check(name, "station unchanged", memcmp(start(&station), before, station.len) == 0);
}

/* What is answered as ever when the numbers are used up: reads, changes that fail, cycles, lists, and other farms. */
static void after_used_up(void)
{
    uint8_t *before = copy_of(&station);

    check_settings("settings read");
    frame("a read", FARM, "5F 00 2F 0A  07 01 05 01  10 01 03 A2 00 00", 0, 0, "5F 00 2F 0A");
    frame("its fetch", FARM, fetch, 0, 0, "5E 00 2F 08  07 01 05 01  42 01 00 01");
    frame("a change that fails", FARM, "5F 00 2F 0E  07 02 05 01  10 01 75 31 00 00  42 01 0B B9", 0, 0,
          "5F 00 2F 0E");
    frame("why it failed", FARM, fetch, 0, 0, "5E 00 2F 08  07 82 05 01  44 01 00 02");
    check_versions("after reads and a change that fails", before);
    cycle("a cycle", (struct turn){ .axis = FARM, .stw1 = 0x047F, .nist = 32767, .state = 1, .status = 0x0670 });
    exchange("farm 6 changes a mark", FARM + 1, "5F 00 2F 0E  07 02 06 01  10 01 75 31 00 00  42 01 0B B8", 0, 1,
             "5E 00 2F 04  07 02 06 01");
    go_back("farm 6 goes back", FARM + 1, 1, 0, 2);
    list("farm 6", FARM + 1, 0, 1, 2);
    for (uint32_t version = LAST_NUMBER - KEPT + 1; version <= LAST_NUMBER; version++) {
        go_back(named("15: to %" PRIu32, version), FARM, version, 15, 0);
        go_back(named("14: to %" PRIu32, version - KEPT), FARM, version - KEPT, 14, 0);
        go_back(named("14: to %" PRIu32, version + KEPT), FARM, version + KEPT, 14, 0);
        go_back(named("14: to %" PRIu32, version + 65536), FARM, version + 65536, 14, 0);
    }
    free(before);
}

/* R-7: "numbers run from 1 to 65535, each used once." Every further change is 15. */
static void many_changes(void)
{
    fresh_farm();
    uint8_t *before = copy_of(&station);
    for (uint32_t n = 1; n <= LAST_NUMBER; n++)
        change_accepted(n, before);
    check_station("65535 changes", before, FARM);
    uint8_t *used = copy_of(&station);
    for (uint32_t n = LAST_NUMBER + 1; n <= CHANGES; n++)
        change_refused(n, used);
    check("70000 changes", "guards of the station", guards_kept(&station));
    after_used_up();
    free(before);
    free(used);
}

/* Whether the number that a byte of the versions is part of lies inside its limits; the last number used has none. */
static bool inside_limits(const uint8_t *versions, size_t place)
{
    for (size_t i = 0; i < WRITABLE; i++) {
        size_t size = settings[i].size, len = KEPT * size * settings[i].elements;

        if (place < len) {
            int32_t number = low_number(versions + place / size * size, settings[i].size);

            return number >= settings[i].low && number <= settings[i].high;
        }
        versions += len;
        place -= len;
    }
    return true;
}

/* Every call of the farm is 2. */
static bool all_refused(void)
{
    struct bytes read = hex("5F 00 2F 0A  07 01 05 01  10 01 03 A2 00 00");
    uint8_t *at = start(&station), reply[REPLY];

    return llinkhiro_cycle(at, station.len, FARM, 0, 0x047E, 0, 0, 0).number == 2 &&
           llinkhiro_frame(at, station.len, FARM, read.at, read.len, reply, REPLY).number == 2 &&
           llinkhiro_exchange(at, station.len, FARM, read.at, read.len, reply, REPLY).number == 2 &&
           llinkhiro_go_back(at, station.len, FARM, expected_oldest()).number == 2;
}

/* A list with one byte of the versions altered: 2, or the numbers up to the last used as it now stands. */
static void altered(size_t place, uint8_t byte)
{
    uint8_t *versions = part(FARM) + VERSIONS_AT, true_byte = versions[place];
    const char *name = named("byte %zu of the versions %02X", place, (unsigned)byte);

    versions[place] = byte;
    bool inside = inside_limits(versions, place);
    int32_t last = low_number(part(FARM) + LAST_AT, 2), kept = last < KEPT ? last : KEPT;
    struct llinkhiro_listed got = llinkhiro_versions(start(&station), station.len, FARM);
    check_number(name, "number", got.number, inside ? 0 : 2);
    check(name, "list", got.oldest == (inside ? last - kept + 1 : 0) && got.kept == (inside ? kept : 0));
    if (!inside)
        check(name, "2 for every call", all_refused());
    versions[place] = true_byte;
}

/* Every byte of the versions, with every other value. */
static void bytes_altered(void)
{
    uint8_t *before = copy_of(&station);

    for (size_t place = 0; place < VERSIONS_END - VERSIONS_AT; place++) {
        uint8_t byte = part(FARM)[VERSIONS_AT + place];

        for (unsigned more = 1; more < 256; more++)
            altered(place, (uint8_t)(byte + more));
    }
    check_station("bytes altered", before, 0);
    free(before);
}

/* Number 2 by the versions: of a fresh farm, whose slots are tested too, and of one with versions at the limits. */
static void every_byte(void)
{
    fresh_farm();
    bytes_altered();
    farm_with(KEPT + 5);
    bytes_altered();
}

/* Yes, and checks 1, 2 and 7, by hand. Block k is held against address k, and an error counts nothing. */
static void checked_by_hand(void)
{
    static const char four[] =
        "07 01 01 04  10 01 75 31 00 00  10 02 75 31 00 00  10 03 75 31 00 00  10 00 75 31 00 00";

    pair("a value", request_block, response_block, 0);
    pair("an error", request_block, "07 81 01 01  44 01 00 00", 0);
    pair("a change done", change_block, done_block, 0);
    pair("a change not done", change_block, failed_block, 0);
    pair("a change half done", "07 02 01 02  10 02 75 31 00 00  10 01 75 31 00 02  42 02 00 01 00 02  42 01 0B B9",
         "07 82 01 02  40 00  44 01 00 02", 0);
    pair("1: two empty blocks", "", "", 1);
    pair("1: a response for a request", response_block, response_block, 1);
    pair("2: a request for a response", request_block, request_block, 2);
    pair("7: two values for one", request_block, "07 01 01 01  42 02 00 01 00 02", 7);
    pair("four counts", four, "07 01 01 04  41 01 05 00  42 02 00 01 00 02  41 03 01 02 03 00  42 01 00 01", 0);
    pair("7: 2 1 3 1", four, "07 01 01 04  42 02 00 01 00 02  41 01 05 00  41 03 01 02 03 00  42 01 00 01", 7);
    pair("7: 1 3 2 1", four, "07 01 01 04  41 01 05 00  41 03 01 02 03 00  42 02 00 01 00 02  42 01 00 01", 7);
    pair("7: 1 2 1 3", four, "07 01 01 04  41 01 05 00  42 02 00 01 00 02  42 01 00 01  41 03 01 02 03 00", 7);
    pair("an error for two", four, "07 81 01 04  41 01 05 00  44 01 00 03  41 03 01 02 03 00  42 01 00 01", 0);
    pair("errors for all", four, "07 81 01 04  44 01 00 00  44 01 FF FF  44 01 00 03  44 01 00 16", 0);
    pair("7: two for three after errors", four, "07 81 01 04  44 01 00 00  44 01 00 03  41 02 01 02  42 01 00 01", 7);
    pair("7: two for one before errors", four, "07 81 01 04  41 02 01 02  44 01 00 03  44 01 00 03  44 01 00 03", 7);
}

/* Checks 3 to 6 by hand, each with every identifier of a response. */
static void checked_headers(void)
{
    pair("3: in 01", request_block, "08 01 01 01  42 01 00 01", 3);
    pair("3: in 81", request_block, "08 81 01 01  44 01 00 02", 3);
    pair("3: in 02", change_block, "08 02 01 01", 3);
    pair("3: in 82", change_block, "08 82 01 01  44 01 00 02", 3);
    pair("4: in 01", request_block, "07 01 02 01  42 01 00 01", 4);
    pair("4: in 81", request_block, "07 81 02 01  44 01 00 02", 4);
    pair("4: in 02", change_block, "07 02 02 01", 4);
    pair("4: in 82", change_block, "07 82 02 01  44 01 00 02", 4);
    pair("5: in 01", request_block, "07 01 01 02  42 01 00 01  42 01 00 01", 5);
    pair("5: in 81", request_block, "07 81 01 02  42 01 00 01  44 01 00 02", 5);
    pair("5: in 02", change_block, "07 02 01 02", 5);
    pair("5: in 82", change_block, "07 82 01 02  40 00  44 01 00 02", 5);
    pair("6: 01 to a change", change_block, response_block, 6);
    pair("6: 81 to a change", change_block, "07 81 01 01  44 01 00 02", 6);
    pair("6: 02 to a request", request_block, done_block, 6);
    pair("6: 82 to a request", request_block, failed_block, 6);
}

/* What the checker does not look at: what a parameter is, how large its values are, and what a change sends. */
static void not_checked(void)
{
    pair("an address of nothing", "07 01 01 01  FF 01 FF FF FF FF", response_block, 0);
    pair("a byte for a word", request_block, "07 01 01 01  41 01 05 00", 0);
    pair("a double word for a word", request_block, "07 01 01 01  43 01 00 00 00 05", 0);
    pair("no element of an array", "07 01 01 01  10 00 75 31 00 00", response_block, 0);
    pair("three values for two elements", "07 02 01 01  10 02 75 31 00 00  06 03 00 01 00 02 00 03", done_block, 0);
    pair("no value for two elements", "07 02 01 01  10 02 75 31 00 00  42 00", done_block, 0);
    pair("two elements not done", "07 02 01 01  10 02 75 31 00 00  06 02 00 01 00 02", failed_block, 0);
}

/* Check 2 by layouts that no response has. */
static void unreadable_responses(void)
{
    static const char two[] = "07 01 01 02  10 01 03 C5 00 00  10 01 03 A2 00 00";
    struct bytes forty = hex("07 81 01 28");

    pair("2: no parameter", request_block, "07 01 01 00", 2);
    pair("2: a change of no parameter", change_block, "07 02 01 00", 2);
    add_times(&forty, 40, "44 01 00 00");
    pair_of("2: 40 parameters", hex(request_block), forty, 2);
    pair("2: an error in 01", request_block, "07 01 01 01  44 01 00 00", 2);
    pair("2: 40 00 in 01", request_block, "07 01 01 01  40 00", 2);
    pair("2: no error in 81", request_block, "07 81 01 01  42 01 00 01", 2);
    pair("2: 40 00 in 81", two, "07 81 01 02  40 00  44 01 00 00", 2);
    pair("2: a block in 02", change_block, "07 02 01 01  40 00", 2);
    pair("2: a value in 82", two, "07 82 01 02  42 01 00 01  44 01 00 00", 2);
    pair("2: no error in 82", change_block, "07 82 01 01  40 00", 2);
    pair("2: 40 01", two, "07 82 01 02  40 01  44 01 00 00", 2);
    pair("2: 44 00", request_block, "07 81 01 01  44 00", 2);
    pair("2: 44 02", request_block, "07 81 01 01  44 02 00 00 00 00", 2);
    pair("2: a block too few", two, "07 01 01 02  42 01 00 01", 2);
    pair("2: a block too many", request_block, "07 01 01 01  42 01 00 01  42 01 00 01", 2);
    pair("a fill byte between blocks", two, "07 01 01 02  41 01 05 00  42 01 00 01", 0);
    pair("2: no fill byte between blocks", two, "07 01 01 02  41 01 05  42 01 00 01", 2);
    pair("2: no fill byte", request_block, "07 01 01 01  41 01 05", 2);
    pair("2: two fill bytes", request_block, "07 01 01 01  41 01 05 00 00", 2);
    pair("2: a fill byte after two values", "07 01 01 01  10 02 03 C5 00 00", "07 01 01 01  41 02 03 29 00", 2);
}

/* A pair made to fail each check of the set and no other. A byte too many makes a block unreadable; the identifiers
 * differ where a change is answered with a value. */
static struct pair pair_failing(unsigned set)
{
    struct pair made = { hex(has(set, 6) ? change_block : request_block), has(set, 1), hex(response_block), has(set, 2),
                         smallest(set) };

    if (has(set, 3))
        made.response.at[0] = 8;
    if (has(set, 4))
        made.response.at[2] = 2;
    if (has(set, 5)) {
        made.response.at[3] = 2;
        add(&made.response, "42 01 00 01");
    }
    if (has(set, 7))
        made.request.at[5] = 2; /* elements, of which one comes */
    return made;
}

/* A pair that fails several checks is answered the first, for every set of them. */
static void checked_order(void)
{
    for (unsigned set = 1 << 1; set < 1 << 8; set += 1 << 1)
        check_pair(named("pair that fails%s", listed(set)), pair_failing(set));
}

/* Whether a byte is one of a hex text's. */
static bool among(unsigned byte, const char *text)
{
    struct bytes bytes = hex(text);

    return memchr(bytes.at, (int)byte, bytes.len) != NULL;
}

/* The number for two blocks that differ in their identifiers alone. */
static uint8_t identifiers_number(unsigned of_request, unsigned of_response)
{
    if (!among(of_request, "01 02"))
        return 1;
    if (!among(of_response, "01 02 81 82"))
        return 2;
    return among(of_response, of_request == 0x01 ? "01 81" : "02 82") ? 0 : 6;
}

/* A request of this identifier beside responses of every one, each with what suits its own: a value, none, an error. */
static void identifiers_beside(unsigned identifier)
{
    struct bytes request = hex(identifier == 0x02 ? change_block : request_block);

    request.at[1] = (uint8_t)identifier;
    for (unsigned other = 0; other < 256; other++) {
        struct bytes response = hex(other == 0x01 ? response_block : other == 0x02 ? done_block : failed_block);

        response.at[1] = (uint8_t)other;
        check_number(named("identifiers %02X and %02X", identifier, other), "number of the check",
                     llinkhiro_check(request.at, request.len, response.at, response.len),
                     identifiers_number(identifier, other));
    }
}

/* Check 6, and 1 and 2 by the identifier, for every two bytes. */
static void identifiers(void)
{
    for (unsigned identifier = 0; identifier < 256; identifier++)
        identifiers_beside(identifier);
}

/* A pair with these two bytes in one place of its headers. */
static void header_bytes(const char *what, size_t at, unsigned of_request, unsigned of_response, uint8_t number)
{
    struct bytes request = hex(request_block), response = hex(response_block);

    request.at[at] = (uint8_t)of_request;
    response.at[at] = (uint8_t)of_response;
    pair_of(named("%s %u and %u", what, of_request, of_response), request, response, number);
}

/* Checks 3 and 4, for every byte. No block has reference 0; an axis may be any byte. */
static void references_and_axes(void)
{
    for (unsigned byte = 0; byte < 256; byte++) {
        header_bytes("references", 0, byte, byte, byte == 0 ? 1 : 0);
        header_bytes("references", 0, 7, byte, byte == 0 ? 2 : byte == 7 ? 0 : 3);
        header_bytes("references", 0, byte, 255, byte == 0 ? 1 : byte == 255 ? 0 : 3);
        header_bytes("axes", 2, byte, byte, 0);
        header_bytes("axes", 2, 1, byte, byte == 1 ? 0 : 4);
        header_bytes("axes", 2, byte, 0, byte == 0 ? 0 : 4);
    }
}

/* A request of so many addresses, beside responses of up to 40 values. */
static void parameters_beside(unsigned asked)
{
    struct bytes request = hex("07 01 01 00"), response = request;

    request.at[3] = (uint8_t)asked;
    add_times(&request, asked, "10 01 03 A2 00 00");
    for (unsigned n = 0; n <= 40; n++) {
        response.at[3] = (uint8_t)n;
        pair_of(named("%u parameters asked, %u answered", asked, n), request, response,
                asked < 1 || asked > 39 ? 1 : n < 1 || n > 39 ? 2 : n != asked ? 5 : 0);
        add(&response, "42 01 00 01");
    }
}

/* Check 5, and 1 and 2 by the number of parameters. */
static void parameter_numbers(void)
{
    for (unsigned asked = 0; asked <= 40; asked++)
        parameters_beside(asked);
}

/* So many values of `size` bytes for so many elements asked: 0 elements count as 1, and 0 values, or a response of more
 * than 240 bytes, are not readable. */
static void values_for(unsigned size, unsigned values, unsigned elements)
{
    struct bytes request = hex(request_block), response = hex("07 01 01 01");
    unsigned format = size == 1 ? 0x41 : size == 2 ? 0x42 : 0x43;

    request.at[5] = (uint8_t)elements;
    response.at[response.len++] = (uint8_t)format;
    response.at[response.len++] = (uint8_t)values;
    add_times(&response, size * values + size * values % 2, "00");
    bool readable = values > 0 && response.len <= LARGEST_BLOCK;
    pair_of(named("format %02X, %u values for %u elements", format, values, elements), request, response,
            !readable ? 2 : values != (elements == 0 ? 1 : elements) ? 7 : 0);
}

/* Every count that a response has room for, and what no longer fits. */
static void counts_of(unsigned size)
{
    for (unsigned values = 0; size * values <= LARGEST_BLOCK - 4; values++) {
        values_for(size, values, values);
        values_for(size, values, values + 1);
        values_for(size, values, values == 0 ? 0 : values - 1);
        values_for(size, values, 0);
        values_for(size, values, 1);
        values_for(size, values, 255);
    }
}

/* Check 7 of one block. */
static void counts(void)
{
    counts_of(1);
    counts_of(2);
    counts_of(4);
}

/* 39 addresses of one element but one of two, in every place: one value there fails, two or an error pass. All blocks
 * of the responses are of four bytes. */
static void counts_in_place(void)
{
    struct bytes two = hex("41 02 00 01"), error = hex("44 01 00 03"), ones = hex("07 01 01 27"), request = ones;

    add_times(&ones, 39, "42 01 00 01");
    add_times(&request, 39, "10 01 75 31 00 00");
    for (size_t k = 0; k < 39; k++) {
        struct bytes asked = request, twos = ones, failure = ones;

        asked.at[4 + 6 * k + 1] = 2;
        pair_of(named("7: one value for address %zu", k), asked, ones, 7);
        memcpy(twos.at + 4 + 4 * k, two.at, two.len);
        pair_of(named("two values for address %zu", k), asked, twos, 0);
        failure.at[1] = 0x81;
        memcpy(failure.at + 4 + 4 * k, error.at, error.len);
        pair_of(named("an error for address %zu", k), asked, failure, 0);
    }
}

/* A block that begins so, and one value in this format. */
static struct bytes with_value(const char *begun, unsigned format, const char *value)
{
    struct bytes block = hex(begun);

    block.at[block.len++] = (uint8_t)format;
    add(&block, "01");
    add(&block, value);
    return block;
}

/* A value of so many bytes in a change, in 01, and in 81 and 82: readable in the formats named, and in no other. */
static void formats_of(const char *value, const char *of_change, const char *of_01, const char *of_failed)
{
    for (unsigned format = 0; format < 256; format++) {
        pair_of(named("change, format %02X, value %s", format, value),
                with_value("07 02 01 01  10 01 75 31 00 00", format, value), hex(done_block),
                among(format, of_change) ? 0 : 1);
        pair_of(named("01, format %02X, value %s", format, value), hex(request_block),
                with_value("07 01 01 01", format, value), among(format, of_01) ? 0 : 2);
        pair_of(named("81, format %02X, value %s", format, value), hex(request_block),
                with_value("07 81 01 01", format, value), among(format, of_failed) ? 0 : 2);
        pair_of(named("82, format %02X, value %s", format, value), hex(change_block),
                with_value("07 82 01 01", format, value), among(format, of_failed) ? 0 : 2);
    }
}

/* Checks 1 and 2 by the format. A byte value has its fill byte. */
static void formats(void)
{
    formats_of("00 00", "41 42 02 03 05 06", "41 42", "44");
    formats_of("00 00 00 00", "43 04 07", "43", "");
}

/* Checks 1 and 2 by the fill byte: any but 0 is not readable. */
static void fill_bytes_checked(void)
{
    for (unsigned fill = 0; fill < 256; fill++) {
        struct bytes change = hex("07 02 01 01  10 01 26 AC 00 00  05 01 05 00");
        struct bytes response = hex("07 01 01 01  41 01 05 00");

        change.at[change.len - 1] = response.at[response.len - 1] = (uint8_t)fill;
        pair_of(named("fill byte %02X in a change", fill), change, hex(done_block), fill == 0 ? 0 : 1);
        pair_of(named("fill byte %02X in a response", fill), hex(request_block), response, fill == 0 ? 0 : 2);
    }
}

static void request_cut(struct bytes request, struct bytes response)
{
    while (request.len-- > 0)
        pair_of(named("1: request cut to %zu bytes", request.len), request, response, 1);
}

static void response_cut(struct bytes request, struct bytes response)
{
    while (response.len-- > 0)
        pair_of(named("2: response cut to %zu bytes", response.len), request, response, 2);
}

/* A pair that passes, with either block cut everywhere or followed by zeros: a length of more than 8 or 16 bits does
 * not become a small one. */
static void lengths_of(struct bytes request, struct bytes response)
{
    static const size_t zeros[] = { 1, 2, 4, 6, 256, 65536 };

    pair_of(named("%zu bytes asked, %zu answered", request.len, response.len), request, response, 0);
    request_cut(request, response);
    response_cut(request, response);
    for (size_t i = 0; i < sizeof zeros / sizeof zeros[0]; i++) {
        check_pair(named("1: request and %zu zeros", zeros[i]), (struct pair){ request, zeros[i], response, 0, 1 });
        check_pair(named("2: response and %zu zeros", zeros[i]), (struct pair){ request, 0, response, zeros[i], 2 });
    }
}

/* A change by so many bytes; 228 of them make a block of 240. */
static struct bytes change_by(uint8_t values)
{
    struct bytes change = hex("07 02 01 01  10 08 26 AD 00 00  41");

    change.at[change.len++] = values;
    add_times(&change, values, "AA");
    add_times(&change, values % 2, "00");
    return change;
}

/* Checks 1 and 2 by the length: blocks of 4 to 240 bytes, and longer ones that are laid out as a block is. */
static void lengths(void)
{
    struct bytes many = hex("07 01 01 27"), longest = hex("07 01 01 01  41 EA"), too_long = hex("07 01 01 27  43 02");
    struct bytes values = many;

    lengths_of(hex(request_block), hex(response_block));
    lengths_of(hex(change_block), hex(done_block));
    lengths_of(change_by(228), hex(failed_block));
    lengths_of(change_by(227), hex(done_block));
    add_times(&longest, 234, "00");
    lengths_of(hex("07 01 01 01  10 EA 03 C5 00 00"), longest);
    add_times(&many, 39, "10 01 75 34 00 00");
    add_times(&values, 39, "43 01 00 00 00 00");
    lengths_of(many, values);
    pair_of("1: a request of 242 bytes", change_by(230), hex(done_block), 1);
    pair_of("1: a request of 268 bytes", change_by(255), hex(failed_block), 1);
    many.at[5] = 2;
    add_times(&too_long, 8, "00");
    add_times(&too_long, 38, "43 01 00 00 00 00");
    pair_of("2: a response of 242 bytes", many, too_long, 2);
}

struct span { /* a part of a memory */
    size_t at, len;
};

static void in_one_memory(const char *name, const char *text, struct span request, struct span response, uint8_t number)
{
    struct bytes bytes = hex(text);
    struct memory both = lend_bytes(&bytes, 0);
    uint8_t *from = start(&both);

    check_number(name, "number of the check",
                 llinkhiro_check(from + request.at, request.len, from + response.at, response.len), number);
    check_bytes(name, "memory unchanged", from, bytes.at, bytes.len);
    check(name, "guards of the memory", guards_kept(&both));
    give_back(&both);
}

/* Request and response in one memory. An address whose attribute is a format can be read as a block of values too. */
static void one_memory(void)
{
    static const struct span none = { 0, 0 }, ten = { 0, 10 };

    in_one_memory("1: nothing twice", "", none, none, 1);
    in_one_memory("bytes twice", "07 01 01 01  41 03 AA BB CC 00", ten, ten, 0);
    in_one_memory("words twice", "07 01 01 01  42 02 AA BB CC DD", ten, ten, 0);
    in_one_memory("a double word twice", "07 01 01 01  43 01 AA BB CC DD", ten, ten, 0);
    in_one_memory("2: an address twice", request_block, ten, ten, 2);
    in_one_memory("2: a change twice", change_block, (struct span){ 0, 14 }, (struct span){ 0, 14 }, 2);
    in_one_memory("1: a byte less", request_block, (struct span){ 0, 9 }, ten, 1);
    in_one_memory("2: a byte less", "07 01 01 01  41 03 AA BB CC 00", ten, (struct span){ 0, 9 }, 2);
    in_one_memory("request, response", "07 01 01 01  10 01 03 A2 00 00  07 01 01 01  42 01 00 01", ten,
                  (struct span){ 10, 8 }, 0);
    in_one_memory("7: response, request", "07 01 01 01  42 01 00 01  07 01 01 01  10 02 75 31 00 00",
                  (struct span){ 8, 10 }, (struct span){ 0, 8 }, 7);
    in_one_memory("response among the values of a change", "07 02 01 01  10 01 75 31 00 00  41 04 07 02 01 01",
                  (struct span){ 0, 16 }, (struct span){ 12, 4 }, 0);
    in_one_memory("request among the values of a response", "07 01 01 01  41 0A 07 01 01 01 10 0A 75 31 00 00",
                  (struct span){ 6, 10 }, (struct span){ 0, 16 }, 0);
    in_one_memory("response from the end of a change on",
                  "07 02 01 01  10 01 75 31 00 00  41 02 07 82 01 01  44 01 00 02", (struct span){ 0, 14 },
                  (struct span){ 12, 8 }, 0);
    in_one_memory("change from the end of a response on",
                  "02 02 02 02 02 02  10 01 75 31 00 00  10 01 75 31 00 01  42 01 03 E8  42 01 03 E8",
                  (struct span){ 2, 24 }, (struct span){ 0, 4 }, 0);
}

/* Memory that starts at any address: each that is lent, at each offset from an aligned one. */
static void offsets(void)
{
    for (offset = 1; offset < 8; offset++) {
        fresh_station();
        check_number(named("offset %zu", offset), "of the station", (int64_t)((uintptr_t)start(&station) % 8),
                     (int64_t)offset);
        marks();
        waiting();
        merged_calls();
        merged_waiting();
        faults();
        full_reply();
        versions_listed();
        going_back();
        checked_by_hand();
    }
    offset = 0;
}

/* Calls of every kind and number, on memory placed so that reads outside show too. */
static void placed(enum placing here)
{
    placing = here;
    sizes();
    marks();
    farms_and_axes();
    station_sizes();
    frame_headers();
    blocks();
    reply_sizes();
    waiting();
    merged_reads();
    merged_calls();
    merged_waiting();
    overwritten_parts();
    four_947();
    full_reply();
    thirty_nine();
    full_write();
    fill_bytes_written();
    fill_bytes_read();
    fill_bytes_waiting();
    addresses();
    cycles();
    faults();
    versions_listed();
    version_takers();
    going_back();
    going_back_order();
    not_kept();
    used_up();
    checked_by_hand();
    checked_headers();
    unreadable_responses();
    lengths();
    one_memory();
    placing = GUARDED;
}

static void bare(void)
{
    placed(BARE);
}

static void fenced_above(void)
{
    placed(FENCED_ABOVE);
}

static void fenced_below(void)
{
    placed(FENCED_BELOW);
}

/* Memory that nobody wrote to: fresh reads none of the station's, a frame and a merged call none of the reply's, and a
 * check none past the response. All that a list and a going back read was made by fresh. */
static void unwritten(void)
{
    size_t size = llinkhiro_size();
    uint8_t *lent = memory_or_stop(size), *reply = memory_or_stop(REPLY), *merged = memory_or_stop(REPLY);
    struct bytes request = hex(read_930), read = hex(fetch), response = hex(response_930);

    fresh_station();
    check_number("unwritten", "fresh", llinkhiro_fresh(lent, size), 0);
    check_bytes("unwritten", "a fresh station", lent, start(&station), size);
    struct llinkhiro_framed denied = llinkhiro_frame(lent, size, 2, request.at, request.len, reply, REPLY);
    struct llinkhiro_framed written = llinkhiro_frame(lent, size, 1, request.at, request.len, reply, REPLY);
    struct llinkhiro_framed fetched = llinkhiro_frame(lent, size, 1, read.at, read.len, reply, REPLY);
    struct llinkhiro_framed exchanged = llinkhiro_exchange(lent, size, 1, request.at, request.len, merged, REPLY);
    check_number("unwritten", "denied", denied.number, 11);
    check_number("unwritten", "written", written.number, 0);
    check_number("unwritten", "fetched", fetched.number, 0);
    check_number("unwritten", "length", fetched.length, 12);
    check_bytes("unwritten", "response", reply, response.at, response.len);
    check_number("unwritten", "exchanged", exchanged.number, 0);
    check_number("unwritten", "length exchanged", exchanged.length, 12);
    check_bytes("unwritten", "response exchanged", merged, response.at, response.len);
    check_number("unwritten", "list", llinkhiro_versions(lent, size, 1).number, 0);
    check_number("unwritten", "going back", llinkhiro_go_back(lent, size, 1, 1).number, 14);
    check_number("unwritten", "response checked", llinkhiro_check(request.at + 4, request.len - 4, merged + 4, 8), 0);
    check_bytes("unwritten", "station idle", lent, start(&station), size);
    free(lent);
    free(reply);
    free(merged);
}

/* ---- All of them --------------------------------------------------------------------------------------------- */

static const struct group {
    const char *name;
    void (*run)(void);
} groups[] = {
    { "layout of the answers", layout },
    { "fresh station and sizes", sizes },
    { "worked example", worked },
    { "marks", marks },
    { "number 1", farms_and_axes },
    { "sixteen farms", all_sixteen },
    { "number 12 and flags", flags },
    { "order of a cycle's numbers", cycle_order },
    { "number 2, station size", station_sizes },
    { "number 2, own part", overwritten_parts },
    { "parts moved", moved_parts },
    { "number 3 and reply sizes", reply_sizes },
    { "numbers 4 to 8", frame_headers },
    { "number 4, function bytes", functions },
    { "number 7, long frames", long_frames },
    { "numbers 10 and 11", blocks },
    { "order of a frame's numbers", frame_order },
    { "numbers 8 and 9, waiting response", waiting },
    { "merged call, number 4 for reads", merged_reads },
    { "merged calls", merged_calls },
    { "merged call, number 8", merged_waiting },
    { "neighbours", neighbours },
    { "station moved", moved_station },
    { "four reads of 947", four_947 },
    { "response of 240 bytes", full_reply },
    { "39 parameters", thirty_nine },
    { "block of 240 bytes", full_write },
    { "fill bytes written", fill_bytes_written },
    { "fill bytes read", fill_bytes_read },
    { "fill bytes waiting", fill_bytes_waiting },
    { "address rules", addresses },
    { "addresses stored whole", stored_whole },
    { "every parameter number", every_number },
    { "cycles", cycles },
    { "faults", faults },
    { "versions listed", versions_listed },
    { "what takes a version", version_takers },
    { "going back", going_back },
    { "going back, every version", every_version },
    { "going back, every state", every_state },
    { "order of a going back's numbers", going_back_order },
    { "number 14", not_kept },
    { "number 15", used_up },
    { "70000 changes", many_changes },
    { "number 2, every byte of the versions", every_byte },
    { "check, yes and numbers 1, 2 and 7", checked_by_hand },
    { "check, numbers 3 to 6", checked_headers },
    { "check, what it does not look at", not_checked },
    { "check, unreadable responses", unreadable_responses },
    { "check, order of its numbers", checked_order },
    { "check, references and axes", references_and_axes },
    { "check, numbers of parameters", parameter_numbers },
    { "check, identifiers", identifiers },
    { "check, counts", counts },
    { "check, 39 counts", counts_in_place },
    { "check, formats", formats },
    { "check, fill bytes", fill_bytes_checked },
    { "check, lengths", lengths },
    { "check, one memory for both", one_memory },
    { "unaligned memory", offsets },
    { "bare memory", bare },
    { "memory below a fence", fenced_above },
    { "memory above a fence", fenced_below },
    { "unwritten memory", unwritten },
};

int main(int argc, char **argv)
{
    loud = argc > 1 && strcmp(argv[1], "-v") == 0;
    for (size_t i = 0; i < sizeof groups / sizeof groups[0]; i++) {
        unsigned long before = checks;

        groups[i].run();
        printf("%6lu  %s\n", checks - before, groups[i].name);
    }
    give_back(&station);
    printf("%lu checks, %lu failed\n", checks, failed);
    return failed == 0 ? EXIT_SUCCESS : EXIT_FAILURE;
}
