/* The station link for C: functions over a capture in the caller's memory, from libstation.a (which
 * bench/run makes of the crate station_c).
 *
 * Each function asks of its caller:
 * - every pointer is aligned and not null, also where the length beside it is 0;
 * - it points to as many elements as that length says, and these have been written before, with any
 *   values;
 * - no memory that a function writes is reached by another of its pointers.
 * Nothing else is asked: any bytes may be in a capture. No function allocates, keeps a pointer, or keeps
 * anything from one call to the next, so that threads may call them at the same time. A call uses up to
 * 64 KiB of stack. */
#ifndef STATION_H
#define STATION_H

#include <stddef.h>
#include <stdint.h>

/* The most fixes that a board holds. */
#define STATION_PLACES 32

/* A fix: the key of its report (record type x 65536 + reply number x 256 + flags), its time in
 * milliseconds of the week, the 64 bits of its PDOP (an IEEE 754 double), its number of satellites. */
struct station_fix {
    uint32_t key;
    uint32_t time;
    uint64_t pdop;
    uint8_t satellites;
};

/* Pulls a new link to idle over the capture. Puts the best fixes, the best one first, into the rows, as
 * many as there are and as fit (STATION_PLACES always suffice), and answers how many it wrote; the other
 * rows are left as they were. */
size_t station_board(const uint8_t *capture, size_t len, struct station_fix *rows, size_t room);

/* The same through the read-ahead, to measure it. */
size_t station_board_ahead(const uint8_t *capture, size_t len, struct station_fix *rows, size_t room);

#endif
