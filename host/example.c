/* A host of the station, to start from: it lends the memory, runs four control cycles on axis 1, lets farm 1 write two
 * level marks, lets farm 2 try farm 1's frame, lets farm 1 mend its marks, lower them and go back to what they were. Every
 * answer carries a number, 0 for done; a host looks at it before anything else. Done is not yet stored: an 82 in the
 * response says which addresses failed.
 * Prints document 01's listing ("Journal program") as R-6 of document 02 has it, with a write and its fetch as one line,
 * and then lines for the marks after it: mended, lowered, the versions that are kept, and the going back. */
#include "llinkhiro.h"

#include <inttypes.h>
#include <stdio.h>
#include <stdlib.h>

/* Numbers that this host meets; the header lists them all. */
enum { DONE = 0, AXIS_NOT_THE_CALLERS = 11 };

/* The reply memory that every request needs: 4 bytes of header and the largest block. */
enum { REPLY = 244 };

/* The memory that the station lives in. It is ours: to keep it over a restart, write these bytes to a file. */
static uint8_t *station;
static size_t station_len;

/* Marks 0 and 1 of farm 1 are to be 1000 and 3001 mm. The second is over the limit of 3000, so neither is stored. */
static const uint8_t write_marks[] = {
    0x5F, 0x00, 0x2F, 0x10,             /* write, slot 0, index 47, 16 bytes follow */
    0x07, 0x02, 0x01, 0x01,             /* reference 7, change, axis 1, one parameter */
    0x10, 0x02, 0x75, 0x31, 0x00, 0x00, /* value, 2 elements, PNU 30001, from sub-index 0 */
    0x42, 0x02, 0x03, 0xE8, 0x0B, 0xB9, /* words, 2 values: 1000 and 3001 */
};

/* The same with reference 8 and the second mark 3000: both are stored. */
static const uint8_t mended_marks[] = {
    0x5F, 0x00, 0x2F, 0x10, 0x08, 0x02, 0x01, 0x01, 0x10, 0x02,
    0x75, 0x31, 0x00, 0x00, 0x42, 0x02, 0x03, 0xE8, 0x0B, 0xB8,
};

/* With reference 9 and both marks 500 mm, for the dry season. */
static const uint8_t lowered_marks[] = {
    0x5F, 0x00, 0x2F, 0x10, 0x09, 0x02, 0x01, 0x01, 0x10, 0x02,
    0x75, 0x31, 0x00, 0x00, 0x42, 0x02, 0x01, 0xF4, 0x01, 0xF4,
};

static void stop_unless(uint8_t wanted, uint8_t number, const char *call)
{
    if (number == wanted)
        return;
    fprintf(stderr, "%s: number %u where %u was due\n", call, (unsigned)number, (unsigned)wanted);
    exit(EXIT_FAILURE);
}

/* One control cycle with no flag, no actual speed and no fault. */
static void cycle(uint32_t axis, uint16_t stw1, int16_t nsoll)
{
    struct llinkhiro_cycled got = llinkhiro_cycle(station, station_len, axis, 0, stw1, nsoll, 0, 0);

    stop_unless(DONE, got.number, "cycle");
    printf("c %" PRIu32 " S%u %04X %" PRId32 "\n", axis, (unsigned)got.state, (unsigned)got.status, got.rpm);
}

/* A write and the fetch of its response, with the number that is due. A refused write may have a reply too: it says
 * why. A host that is sent the two as frames of their own gives each to llinkhiro_frame; the arguments are the same. */
static void exchange(uint32_t farm, const uint8_t *bytes, size_t len, uint8_t due)
{
    uint8_t reply[REPLY];
    struct llinkhiro_framed got = llinkhiro_exchange(station, station_len, farm, bytes, len, reply, sizeof reply);

    stop_unless(due, got.number, "exchange");
    printf("e %" PRIu32 " %u ", farm, (unsigned)got.stored);
    for (size_t i = 0; i < got.length; i++)
        printf("%02X", (unsigned)reply[i]);
    printf("%s\n", got.length == 0 ? "-" : "");
}

/* The numbers of the farm's old settings that are kept. */
static void list(uint32_t farm)
{
    struct llinkhiro_listed got = llinkhiro_versions(station, station_len, farm);

    stop_unless(DONE, got.number, "versions");
    printf("versions of farm %" PRIu32 ":", farm);
    for (unsigned i = 0; i < got.kept; i++)
        printf(" %u", got.oldest + i);
    printf("\n");
}

/* Settings as they were: all of them are stored again, and are the newest version too. */
static void go_back(uint32_t farm, uint32_t version)
{
    struct llinkhiro_returned got = llinkhiro_go_back(station, station_len, farm, version);

    stop_unless(DONE, got.number, "go back");
    printf("g %" PRIu32 " %u %u\n", farm, (unsigned)got.stored, (unsigned)got.version);
}

int main(void)
{
    station_len = llinkhiro_size();
    station = malloc(station_len);
    if (station == NULL) {
        fprintf(stderr, "no memory for a station of %zu bytes\n", station_len);
        return EXIT_FAILURE;
    }
    stop_unless(DONE, llinkhiro_fresh(station, station_len), "fresh");

    cycle(1, 0x047E, 0);      /* ready */
    cycle(1, 0x047F, 0);      /* switched on */
    cycle(1, 0x047F, 0x2000); /* operation at half speed */
    cycle(1, 0x047D, 0);      /* coast stop */

    exchange(1, write_marks, sizeof write_marks, DONE); /* no mark is stored: 82, value out of limits */
    exchange(2, write_marks, sizeof write_marks, AXIS_NOT_THE_CALLERS);
    exchange(1, mended_marks, sizeof mended_marks, DONE); /* both are stored: 02; this is version 1 */

    exchange(1, lowered_marks, sizeof lowered_marks, DONE); /* version 2 */
    list(1);
    go_back(1, 1); /* the mended marks again, as version 3 */

    free(station);
    return EXIT_SUCCESS;
}
