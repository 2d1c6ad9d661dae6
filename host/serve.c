/* Makes the calls that another program asks for: they come on standard input, and what they answer and leave goes to standard
 * output. So a test that cannot link the library, being built for another processor or in another language, can still call it.
 *
 * A call: its kind, five numbers of 32 bits (bytes of the station, farm or axis, flags, bytes of the frame, bytes of the
 * reply), four of 16 (STW1, NSOLL_A, NIST_A, fault), then the station, the frame and the reply memory. All low byte first.
 * Its answer: size (64 bits), rpm (32), status, length and stored (16 each), state and number (8 each), then the station and
 * the reply memory as the call left them. Bytes around both are watched: a call that touches one ends the program.
 * A check has its request where the others have the frame, and its response where they have the reply. A list answers the oldest
 * number as length and how many are kept as stored. A going back has its version as flags, and answers the new one as length. */
#include "llinkhiro.h"

#include <stdio.h>
#include <stdlib.h>
#include <string.h>

enum { GUARD = 64, PATTERN = 0xA5, MOST = 1 << 20 };
enum { SIZE, FRESH, CYCLE, FRAME, EXCHANGE, CHECK, VERSIONS, GO_BACK };

/* A memory to lend, with a guard on both sides. */
struct lent {
    uint8_t *at;
    size_t len;
};

static void stop(const char *why)
{
    fprintf(stderr, "serve: %s\n", why);
    exit(EXIT_FAILURE);
}

static void take(void *to, size_t len)
{
    if (len > 0 && fread(to, len, 1, stdin) != 1)
        stop("a call was cut");
}

static void give(const void *from, size_t len)
{
    if (len > 0 && fwrite(from, len, 1, stdout) != 1)
        stop("the caller is gone");
}

static uint64_t number(unsigned bytes)
{
    uint8_t b[8];
    uint64_t n = 0;

    take(b, bytes);
    while (bytes-- > 0)
        n = n << 8 | b[bytes];
    return n;
}

static void put(uint64_t n, unsigned bytes)
{
    for (; bytes > 0; bytes--, n >>= 8)
        give(&(uint8_t){ (uint8_t)(n & 0xFF) }, 1);
}

/* The memory for len bytes, in the room that it has for good. */
static struct lent lend(uint8_t **room, size_t len)
{
    if (len > MOST)
        stop("too much memory");
    if (*room == NULL && (*room = malloc(MOST + 2 * GUARD)) == NULL)
        stop("no memory");
    memset(*room, PATTERN, GUARD);
    memset(*room + GUARD + len, PATTERN, GUARD);
    return (struct lent){ *room + GUARD, len };
}

static void untouched(struct lent memory)
{
    for (size_t i = 0; i < GUARD; i++)
        if (memory.at[-1 - (ptrdiff_t)i] != PATTERN || memory.at[memory.len + i] != PATTERN)
            stop("a call wrote outside the memory that it was lent");
}

static struct llinkhiro_framed listed(struct lent station, uint32_t farm)
{
    struct llinkhiro_listed l = llinkhiro_versions(station.at, station.len, farm);

    return (struct llinkhiro_framed){ l.oldest, l.kept, l.number };
}

static struct llinkhiro_framed returned(struct lent station, uint32_t farm, uint32_t version)
{
    struct llinkhiro_returned r = llinkhiro_go_back(station.at, station.len, farm, version);

    return (struct llinkhiro_framed){ r.version, r.stored, r.number };
}

static void answer(struct llinkhiro_cycled c, struct llinkhiro_framed f, struct lent station, struct lent reply)
{
    put(llinkhiro_size(), 8);
    put((uint32_t)c.rpm, 4);
    put(c.status, 2);
    put(f.length, 2);
    put(f.stored, 2);
    put(c.state, 1);
    put(c.number | f.number, 1);
    give(station.at, station.len);
    give(reply.at, reply.len);
    fflush(stdout);
}

static void serve(unsigned kind)
{
    static uint8_t *rooms[3];
    size_t station_len = number(4);
    uint32_t owner = (uint32_t)number(4), flags = (uint32_t)number(4);
    size_t frame_len = number(4), reply_len = number(4);
    uint16_t stw1 = (uint16_t)number(2), nsoll = (uint16_t)number(2), nist = (uint16_t)number(2), fault = (uint16_t)number(2);
    struct lent station = lend(&rooms[0], station_len), frame = lend(&rooms[1], frame_len), reply = lend(&rooms[2], reply_len);
    /* One of the two is answered, the other stays 0. */
    struct llinkhiro_cycled c = { 0, 0, 0, 0 };
    struct llinkhiro_framed f = { 0, 0, 0 };

    take(station.at, station.len);
    take(frame.at, frame.len);
    take(reply.at, reply.len);
    if (kind == FRESH)
        c.number = llinkhiro_fresh(station.at, station.len);
    else if (kind == CYCLE)
        c = llinkhiro_cycle(station.at, station.len, owner, flags, stw1, (int16_t)nsoll, (int16_t)nist, fault);
    else if (kind == FRAME)
        f = llinkhiro_frame(station.at, station.len, owner, frame.at, frame.len, reply.at, reply.len);
    else if (kind == EXCHANGE)
        f = llinkhiro_exchange(station.at, station.len, owner, frame.at, frame.len, reply.at, reply.len);
    else if (kind == CHECK)
        c.number = llinkhiro_check(frame.at, frame.len, reply.at, reply.len);
    else if (kind == VERSIONS)
        f = listed(station, owner);
    else if (kind == GO_BACK)
        f = returned(station, owner, flags);
    untouched(station);
    untouched(frame);
    untouched(reply);
    answer(c, f, station, reply);
}

int main(void)
{
    for (int kind; (kind = getchar()) != EOF;)
        serve((unsigned)kind);
    return EXIT_SUCCESS;
}
