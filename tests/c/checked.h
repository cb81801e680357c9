/* P1 to P6, document 01's checked sequences, for the programs that try the library. */
#ifndef CHECKED_H
#define CHECKED_H

#include <stdint.h>

#define CHECKED_COUNT 6
#define CHECKED_LENGTH 24

static const uint8_t checked[CHECKED_COUNT][CHECKED_LENGTH] = {
    /* P1, a request */
    {123, 0, 20, 1, 23, 40, 100, 20, 0, 56, 78, 90, 101, 126, 126, 126, 126, 105, 5, 55, 12, 34, 117, 104},
    /* P2, its answer on channel 26 */
    {123, 20, 0, 56, 78, 90, 100, 0, 20, 1, 23, 40, 101, 126, 90, 0, 26, 105, 5, 55, 12, 34, 122, 89},
    /* P3, queued */
    {123, 20, 0, 56, 78, 90, 100, 0, 20, 1, 23, 40, 104, 103, 126, 126, 126, 105, 5, 55, 12, 34, 122, 115},
    /* P4, a working call */
    {123, 0, 20, 1, 23, 40, 100, 20, 0, 56, 78, 90, 101, 126, 126, 126, 126, 105, 5, 55, 12, 34, 127, 98},
    /* P5, a ship's end of call */
    {123, 0, 20, 1, 23, 40, 100, 20, 0, 56, 78, 90, 105, 126, 126, 126, 126, 105, 5, 55, 12, 34, 117, 100},
    /* P6, its answer after 6 min 50 s */
    {123, 20, 0, 56, 78, 90, 100, 0, 20, 1, 23, 40, 105, 126, 0, 6, 50, 105, 5, 55, 12, 34, 122, 33},
};

#endif
