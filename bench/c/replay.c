/* Replay for the panel's reader. Fresh, a record is right, so it is asked for no more. */
#include "plain.h"
#include <string.h>

/* Questions 41, 51, 6, 61 and 62. */
static uint32_t asked(uint8_t n, uint8_t w, const uint8_t *trace, size_t trace_length, size_t store_length, size_t *value)
{
    *value = 0;
    if (n < 1 || n > 7)
        return 41;
    if (w < 1 || w > 7 || w >= 1u << n)
        return 51;
    if (store_length < (size_t)w * CORRIDOR_CELL) {
        *value = (size_t)w * CORRIDOR_CELL;
        return 6;
    }
    if (trace_length % CORRIDOR_RECORD != 0)
        return 61;
    for (size_t at = 0; at < trace_length; at += CORRIDOR_RECORD)
        if (trace[at] < 1 || trace[at] > 3) {
            *value = at / CORRIDOR_RECORD;
            return 62;
        }
    return 0;
}

uint32_t plain_replay_panel(uint8_t n, uint8_t w, const uint8_t *trace, size_t trace_length, uint8_t *store,
                            size_t store_length, corridor_station *station, uint8_t *c, size_t *value)
{
    uint32_t number = asked(n, w, trace, trace_length, store_length, value);
    if (number != 0)
        return number;
    corridor_station end = {0};
    unsigned mask = (1u << n) - 1;
    unsigned awaited = 0;
    for (const uint8_t *record = trace; record < trace + trace_length; record += CORRIDOR_RECORD) {
        if (record[0] == 1) {
            size_t length = (size_t)record[2] << 8 | record[3];
            if (length > CORRIDOR_LONGEST_STORED || end.stored >= w)
                continue;
            memset(store + (size_t)end.cell * CORRIDOR_CELL, 0, length);
            end.lengths[end.cell] = (uint16_t)length;
            end.next = (uint8_t)((end.next + 1u) & mask);
            end.stored++;
            end.cell = (uint8_t)(end.cell + 1 == w ? 0 : end.cell + 1);
        } else if (record[0] == 2) {
            unsigned left = (end.next - 1u - record[1]) & mask;
            if (record[1] <= mask && left < end.stored)
                end.stored = (uint8_t)left;
        } else if (record[1] == awaited) {
            awaited = (awaited + 1) & mask;
        }
    }
    *station = end;
    *c = (uint8_t)awaited;
    return 0;
}
