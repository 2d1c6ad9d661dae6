/*
 * Llinkhiro: the logic of a PROFIdrive 4.1 station with 16 axes. Farm k owns axis k.
 *
 * Three things are done with a station: a control cycle for one axis (llinkhiro_cycle), a DP-V1 frame from one farm
 * (llinkhiro_frame; llinkhiro_exchange is a write and the fetch of its response in one call), and the old settings of one farm
 * (llinkhiro_versions lists those that are kept, llinkhiro_go_back goes back to one). Another call makes the station
 * (llinkhiro_fresh). Apart from all stations, llinkhiro_check holds a response block against the request that it answers, of
 * whatever maker's drive. #include <llinkhiro.h>, and link with -lllinkhiro.
 *
 * MEMORY
 *
 * The library keeps nothing: no heap, no globals, no pointer after a call returns. All of a station is in one block of
 * llinkhiro_size() bytes that the caller owns, of any alignment. Lend it, with its size, to every call on it. Its bytes may be
 * saved, moved or copied between calls; what they mean is the library's, so change them by calls alone. Two stations are two
 * blocks. The library takes no lock: calls on one station are made one at a time.
 *
 * Every pointer is valid for as many bytes as the size beside it says, also where that is 0 (no null pointers). The memories
 * lent to one call (station, frame, reply) do not overlap. The library reads the frame and never writes it; it writes the
 * station and the reply only as is said below.
 *
 * NUMBERS
 *
 * Every call on a station answers a number: 0 where it was done, else why it was refused. The tests are made in the order of
 * the numbers, so that the first reason is the one given. After a refusal the whole station is as it was before the call, and
 * no element was stored. A response that waits is not lost by a refusal.
 *
 *    1  farm or axis is not 1 to 16
 *    2  the station's memory is not of llinkhiro_size() bytes, or the caller's own part of it is not well-formed
 *       (it was never made fresh, was changed by other means than these calls, or was saved by another version of the
 *       library)
 *    3  reply memory of fewer than 244 bytes
 *    4  frame of fewer than 4 bytes, or function byte neither 5E (read) nor 5F (write); for llinkhiro_exchange, a read too
 *    5  slot is not 0                                                           reply code B2
 *    6  index is not 47                                                         B0
 *    7  length byte over 240, or not the number of bytes after it
 *       (nothing follows a read)                                                B1
 *    8  a write while a response waits, or a read while none does               B5
 *    9  a read that wants fewer bytes than wait                                 B7
 *   10  block not readable                                                      B8
 *   11  the block's axis is not the caller's                                    B6
 *   12  cycle flags above 3
 *   14  the version is not kept
 *   15  the numbers of the versions are used up (the last used is 65535), and an
 *       element would be stored                                                 A1
 *
 * llinkhiro_fresh gives 0 and 2; llinkhiro_cycle 0, 1, 2 and 12; llinkhiro_frame 0 to 11 and 15; llinkhiro_exchange 0 to 8, 10,
 * 11 and 15; llinkhiro_versions 0, 1 and 2; llinkhiro_go_back 0, 1, 2, 14 and 15. 13 is no call's number: it ends a season
 * report.
 * llinkhiro_check refuses nothing and has numbers of its own, which stand beside it below.
 *
 * SETTINGS AND THEIR VERSIONS
 *
 * The settings of a farm are the elements of its axis that can be written: PNU 9900, 9901, 10111 and 30001 to 30004, 18 in all.
 * After every call that stores at least one of them (a frame, a merged call, a going back) all 18 are kept as a version, also
 * where none of them became another number. The versions of a farm are numbered 1, 2, 3 and so on to 65535 from a fresh station
 * on, each number used once, and the last 16 are kept. A fresh station has none: the fresh settings are no version.
 * When the numbers are used up, nothing can be stored any more (15): reads, and changes of which every address fails, are
 * answered as ever, and so are cycles and lists. Only llinkhiro_fresh, which makes all farms fresh, starts the numbers again.
 */
#ifndef LLINKHIRO_H
#define LLINKHIRO_H

#include <stddef.h>
#include <stdint.h>

#ifdef __cplusplus
extern "C" {
#endif

/* Bytes of a station's memory. Always the same number for one version of the library. */
size_t llinkhiro_size(void);

/*
 * Makes the station fresh: every axis in state S1, all fault situations empty, no response waiting, parameters at their fresh
 * values, no versions. What stood there before does not matter. Answers 0, or 2 where station_len is not llinkhiro_size(); then
 * nothing is written.
 */
uint8_t llinkhiro_fresh(uint8_t *station, size_t station_len);

/*
 * What a cycle answers. Where it is refused, number is the refusal and all else is 0.
 *   rpm     effective setpoint in revolutions per minute, cut toward zero
 *   status  status word ZSW1
 *   state   1, 2, 3, 4, 51 or 52 for S1, S2, S3, S4, S51, S52; 0 in a refused cycle only
 *   number  0, or the refusal
 */
struct llinkhiro_cycled {
    int32_t rpm;
    uint16_t status;
    uint8_t state;
    uint8_t number;
};

/*
 * One control cycle of an axis.
 *   axis    1 to 16
 *   flags   bit 0 standstill, bit 1 warning; above 3 is refused (12)
 *   stw1    control word STW1
 *   nsoll   NSOLL_A, the setpoint: 16384 is 100 %
 *   nist    NIST_A, the actual speed: 16384 is 100 %
 *   fault   fault code, 0 for none
 * Changes the part of that axis and no other.
 *
 * Axis and flags (and farm and version, below) are 32 bits wide on purpose: a host's 257 is refused and does not become 1 on
 * the way.
 */
struct llinkhiro_cycled llinkhiro_cycle(uint8_t *station, size_t station_len, uint32_t axis, uint32_t flags,
                                        uint16_t stw1, int16_t nsoll, int16_t nist, uint16_t fault);

/*
 * What llinkhiro_frame and llinkhiro_exchange answer beside the reply.
 *   length  bytes of the reply: the first `length` bytes of the reply memory were written, and no others
 *   stored  elements that a change stored; 0 for every other frame. An address of a change is stored whole or not at all:
 *           a response 02 stored all; in an 82, 40 00 stands for an address that was stored, an error for one of which
 *           nothing was. So a number 0 alone does not say that something was stored
 *   number  0, or the refusal
 */
struct llinkhiro_framed {
    uint16_t length;
    uint16_t stored;
    uint8_t number;
};

/*
 * A frame of a farm.
 *   farm    1 to 16: the farm that sent the frame
 *   frame   the frame as received, frame_len bytes
 *   reply   memory for the reply, at least 244 bytes, whatever the frame is
 *
 * A write, 5F 00 2F, length, block: the block is worked on the farm's axis. The reply is 5F 00 2F and the length byte of the
 * write (4 bytes), and the response then waits in the station.
 * A read, 5E 00 2F and the most bytes wanted: the reply is 5E 00 2F, the length of the waiting response, and the response
 * (8 to 244 bytes in all). The response waits no more.
 * In the blocks of both, an odd number of byte values is followed by one zero byte, which their count leaves out.
 * Refused by 1 to 4: the reply is empty (length 0), and the reply memory is not touched.
 * Refused by 5 to 11 or 15: the reply is DE (to a read) or DF (to a write), 80, the code in the table above, 00 (4 bytes).
 *
 * The bytes of the reply memory after the reply are as they were. Changes the part of that farm's axis and no other.
 */
struct llinkhiro_framed llinkhiro_frame(uint8_t *station, size_t station_len, uint32_t farm,
                                        const uint8_t *frame, size_t frame_len, uint8_t *reply, size_t reply_len);

/*
 * Send and fetch in one call: a write, and the fetch of its response. Farm, frame and reply are as for llinkhiro_frame.
 *
 * It is the same as two calls of llinkhiro_frame one after the other: the write, and 5E 00 2F F0 with the same reply memory.
 * The reply is the fetch's: 5E 00 2F, the length of the response, and the response (8 to 244 bytes in all); `stored` is the
 * write's. No response waits after it. The fetch of a write that was done is never refused.
 * Where the write is refused, it is that write and nothing more: the same number and reply. So where a response waited
 * already, the number is 8 and that response goes on waiting; fetch it with llinkhiro_frame.
 * A read, whatever follows its first byte, is 4, after 1 to 3: the reply is empty (length 0), and the reply memory is not
 * touched.
 *
 * The bytes of the reply memory after the reply are as they were. Changes the part of that farm's axis and no other.
 */
struct llinkhiro_framed llinkhiro_exchange(uint8_t *station, size_t station_len, uint32_t farm,
                                           const uint8_t *frame, size_t frame_len, uint8_t *reply, size_t reply_len);

/*
 * The versions of a farm that are kept: the numbers oldest, oldest + 1, .. oldest + kept - 1; the last of them is the last used.
 *   oldest  the oldest number kept; where none is kept, 1: the number that the first version will have
 *   kept    how many are kept, 0 to 16
 *   number  0, or the refusal: 1 or 2; then oldest and kept are 0
 * Nothing is written. After a call that stored something its version is oldest + kept - 1, which is 0 where none is kept.
 */
struct llinkhiro_listed {
    uint16_t oldest;
    uint16_t kept;
    uint8_t number;
};

struct llinkhiro_listed llinkhiro_versions(const uint8_t *station, size_t station_len, uint32_t farm);

/*
 * What a going back answers. Where it is refused, number is the refusal (1, 2, 14 or 15, in this order) and all else is 0.
 *   stored   the elements stored: all settings, 18
 *   version  the number of the new version
 *   number   0, or the refusal
 */
struct llinkhiro_returned {
    uint16_t stored;
    uint16_t version;
    uint8_t number;
};

/*
 * Goes back to a version: stores all settings of it, equal or not, and keeps them as a new version, so that a going back can
 * itself be gone back from. With 16 kept, the oldest is then kept no more, even where it is the one gone back to.
 *   version  the number of a version that is kept; any other, 0 and 65537 included, is refused (14)
 * The state, the faults, the words of the last cycle and a response that waits are left as they are; it is done in every state,
 * and whether or not a response waits.
 * Changes the part of that farm's axis and no other.
 */
struct llinkhiro_returned llinkhiro_go_back(uint8_t *station, size_t station_len, uint32_t farm, uint32_t version);

/*
 * Whether a response block answers a request block. Both are blocks, without the four bytes of a frame before them, of any
 * length and any bytes; no station is needed, and nothing is written. The two may be the same memory or overlap.
 * Answers 0 for yes; for a no the number of the first check that failed, in this order. They are no refusals.
 *
 *    1  the request block is readable (4 to 240 bytes, laid out as llinkhiro_frame takes it)
 *    2  the response block is readable (4 to 240 bytes, laid out as llinkhiro_frame gives it)
 *    3  the response has the request's reference
 *    4  .. the request's axis
 *    5  .. the request's number of parameters
 *    6  .. the matching identifier: 01 or 81 to a request (01), 02 or 82 to a change (02)
 *    7  each of its blocks of values (formats 41 to 43) has as many values as its address asked elements, where 0 elements
 *       count as 1; a block without values (40 00, or an error) passes
 *
 * It knows no catalogue: it tests neither a value's size, nor whether a parameter exists, nor whether the axis is 1 to 16.
 * Every response of our own station, by llinkhiro_frame or llinkhiro_exchange, is a yes for its request.
 */
uint8_t llinkhiro_check(const uint8_t *request, size_t request_len, const uint8_t *response, size_t response_len);

#ifdef __cplusplus
}
#endif

#endif
