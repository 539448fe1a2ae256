/* Prints the best fixes of a capture on standard input. */
#include "station.h"

#include <inttypes.h>
#include <stdio.h>
#include <string.h>

static uint8_t capture[1 << 20];

int main(void)
{
    struct station_fix rows[STATION_PLACES] = {0};
    size_t len = fread(capture, 1, sizeof capture, stdin);
    size_t used = station_board(capture, len, rows, STATION_PLACES);

    for (size_t rank = 0; rank < used; rank++) {
        double pdop;
        memcpy(&pdop, &rows[rank].pdop, sizeof pdop);
        printf("%4zu%4" PRIu32 "%11" PRIu32 "%4" PRIu8 "%10.3f\n", rank + 1, rows[rank].key / 256 % 256,
               rows[rank].time, rows[rank].satellites, pdop);
    }
    return 0;
}
