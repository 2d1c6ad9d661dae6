/* Plays a journal on a fresh station and tells what came of each record: the journal comes on standard input, and what is told
 * goes to standard output, all of it before more of the journal is waited for.
 *
 * Usage: play BLOCK. The block, a request in hex, asks for all settings of the farm that is put in its third byte.
 *
 * Told are, numbers low byte first: the length (2 bytes) and the reply to BLOCK of a farm of the fresh station; then of each record
 * the record as it stands in the journal, and
 *   of a cycle               rpm (4 bytes), status (2), state, number (1 each);
 *   of a frame, merged call  length of the reply, stored (2 each), number (1), the reply; the length (2) and the reply that a fetch
 *                            would get of what now waits, after a write by itself that was done, else 0;
 *   of a going back          the new version, stored (2 each), number (1);
 *   of what stored something the oldest version and how many are kept (2 each), the length (2) and the reply to BLOCK of its farm.
 * Behind the last record is told END, or BAD where what follows is no record, or FAILED and the error (4) where it could not be
 * read. What is asked beside the journal's own calls is asked of a copy of the station. */
#include "llinkhiro.h"

#include <errno.h>
#include <signal.h>
#include <stdio.h>
#include <stdlib.h>
#include <string.h>
#include <sys/prctl.h>
#include <unistd.h>

enum { CYCLE = 1, FRAME, EXCHANGE, GO_BACK };
enum { END = 0, BAD = 0xFF, FAILED = 0xFE };
enum { HEAD = 4, ROOM = 244, FRAME_RECORD = 3 + ROOM, CYCLE_RECORD = 11, BACK_RECORD = 4, PIECE = 1 << 16, WRITE = 0x5F };

static const uint8_t fetch[4] = { 0x5E, 0, 47, 240 };
static uint8_t *station, *copy;
static size_t size;
/* A write of the block that asks for the settings. */
static uint8_t asking[ROOM];
static size_t asking_len;

static void stop(const char *why)
{
    fprintf(stderr, "play: %s\n", why);
    exit(EXIT_FAILURE);
}

static void give(const void *from, size_t len)
{
    if (len > 0 && fwrite(from, len, 1, stdout) != 1)
        stop("nobody listens");
}

static void put(uint32_t n, unsigned bytes)
{
    for (; bytes > 0; bytes--, n >>= 8)
        give(&(uint8_t){ (uint8_t)(n & 0xFF) }, 1);
}

static unsigned word(const uint8_t *at)
{
    return (unsigned)at[0] << 8 | at[1];
}

static void give_reply(const uint8_t *reply, uint16_t length)
{
    put(length, 2);
    give(reply, length);
}

/* The reply to the block. A response that waits would keep it out, and is fetched before. */
static void give_settings(uint8_t farm)
{
    uint8_t reply[ROOM];

    memcpy(copy, station, size);
    llinkhiro_frame(copy, size, farm, fetch, sizeof fetch, reply, sizeof reply);
    asking[HEAD + 2] = farm;
    give_reply(reply, llinkhiro_exchange(copy, size, farm, asking, asking_len, reply, sizeof reply).length);
}

/* How a farm is left that something was stored of. */
static void give_stored(uint8_t farm)
{
    struct llinkhiro_listed listed = llinkhiro_versions(station, size, farm);

    put(listed.oldest, 2);
    put(listed.kept, 2);
    give_settings(farm);
}

/* The response that waits after a write, left waiting. */
static void give_waiting(uint8_t farm)
{
    uint8_t reply[ROOM];

    memcpy(copy, station, size);
    give_reply(reply, llinkhiro_frame(copy, size, farm, fetch, sizeof fetch, reply, sizeof reply).length);
}

static void play_cycle(const uint8_t *record)
{
    struct llinkhiro_cycled c = llinkhiro_cycle(station, size, record[1], record[2], (uint16_t)word(record + 3),
                                                (int16_t)word(record + 5), (int16_t)word(record + 7), (uint16_t)word(record + 9));

    put((uint32_t)c.rpm, 4);
    put(c.status, 2);
    put(c.state, 1);
    put(c.number, 1);
}

static void play_frame(const uint8_t *record)
{
    uint8_t kind = record[0], farm = record[1], reply[ROOM];
    const uint8_t *frame = record + 3;
    struct llinkhiro_framed f = kind == FRAME ? llinkhiro_frame(station, size, farm, frame, record[2], reply, sizeof reply)
                                              : llinkhiro_exchange(station, size, farm, frame, record[2], reply, sizeof reply);

    put(f.length, 2);
    put(f.stored, 2);
    put(f.number, 1);
    give(reply, f.length);
    if (kind == FRAME && f.number == 0 && frame[0] == WRITE)
        give_waiting(farm);
    else
        put(0, 2);
    if (f.stored > 0)
        give_stored(farm);
}

static void play_back(const uint8_t *record)
{
    struct llinkhiro_returned r = llinkhiro_go_back(station, size, record[1], word(record + 2));

    put(r.version, 2);
    put(r.stored, 2);
    put(r.number, 1);
    if (r.stored > 0)
        give_stored(record[1]);
}

/* The bytes of a record of this kind, 0 where there is none. */
static size_t record_size(uint8_t kind)
{
    return kind == CYCLE ? CYCLE_RECORD : kind == FRAME || kind == EXCHANGE ? FRAME_RECORD : kind == GO_BACK ? BACK_RECORD : 0;
}

/* A frame is no longer than its room, and nothing stands behind it. */
static int is_whole(const uint8_t *record)
{
    if (record[0] != FRAME && record[0] != EXCHANGE)
        return 1;
    for (size_t at = record[2]; at < ROOM; at++)
        if (record[3 + at] != 0)
            return 0;
    return record[2] <= ROOM;
}

static void play(const uint8_t *record)
{
    give(record, record_size(record[0]));
    if (record[0] == CYCLE)
        play_cycle(record);
    else if (record[0] == GO_BACK)
        play_back(record);
    else
        play_frame(record);
}

/* Plays the whole records in the first bytes of a piece, and answers how many bytes they are; the rest is cut, or is bad. */
static size_t play_records(const uint8_t *piece, size_t len, int *bad)
{
    size_t at = 0, next;

    for (; at < len; at += next) {
        next = record_size(piece[at]);
        if (next > 0 && next > len - at)
            return at;
        *bad = next == 0 || !is_whole(piece + at);
        if (*bad)
            return at;
        play(piece + at);
    }
    return at;
}

/* More of the journal: so many bytes, 0 at its end, under 0 where reading fails. */
static ssize_t more(uint8_t *to, size_t room)
{
    ssize_t got;

    fflush(stdout);
    do
        got = read(STDIN_FILENO, to, room);
    while (got < 0 && errno == EINTR);
    return got < 0 ? -errno : got;
}

static void play_journal(void)
{
    static uint8_t piece[PIECE];
    size_t held = 0, played;
    ssize_t got;
    int bad = 0;

    do {
        got = more(piece + held, PIECE - held);
        held += got > 0 ? (size_t)got : 0;
        played = play_records(piece, held, &bad);
        held -= played;
        memmove(piece, piece + played, held);
    } while (got > 0 && !bad);
    put(got < 0 ? FAILED : held > 0 ? BAD : END, 1);
    if (got < 0)
        put((uint32_t)-got, 4);
}

/* The block in hex, behind the head of a write. */
static void read_block(const char *hex)
{
    static const uint8_t head[HEAD] = { WRITE, 0, 47, 0 };
    size_t len = strlen(hex) / 2;
    unsigned byte;

    if (len < HEAD || len > ROOM - HEAD)
        stop("a block has 4 to 240 bytes");
    memcpy(asking, head, HEAD);
    for (size_t at = 0; at < len; at++) {
        if (sscanf(hex + 2 * at, "%2x", &byte) != 1)
            stop("the block is no hex");
        asking[HEAD + at] = (uint8_t)byte;
    }
    asking[3] = (uint8_t)len;
    asking_len = HEAD + len;
}

int main(int argc, char **argv)
{
    /* Who is told may be ended while more of the journal is waited for. */
    prctl(PR_SET_PDEATHSIG, SIGTERM);
    if (argc != 2)
        stop("usage: play BLOCK");
    read_block(argv[1]);
    size = llinkhiro_size();
    station = malloc(size);
    copy = malloc(size);
    if (station == NULL || copy == NULL)
        stop("no memory");
    llinkhiro_fresh(station, size);
    give_settings(1);
    play_journal();
    return fflush(stdout) == 0 ? EXIT_SUCCESS : EXIT_FAILURE;
}
