/* The sender. */
#include "plain.h"
#include <string.h>

static int keeps_method(uint8_t byte)
{
    return byte == 0 || byte == 3 || byte == 4;
}

/* Questions 41, 51 and 6. */
uint32_t sender_asked(uint8_t n, uint8_t w, const corridor_station *station,
                      size_t store_length, size_t *value)
{
    *value = 0;
    if (n < 1 || n > 7)
        return 41;
    unsigned modulus = 1u << n;
    if (w < 1 || w > 7 || w >= modulus)
        return 51;
    if (station->stored > w || station->cell >= w || station->next >= modulus)
        return 51;
    for (int cell = 0; cell < 7; cell++)
        if (station->lengths[cell] > CORRIDOR_LONGEST_STORED)
            return 51;
    if (station->older > station->stored || !keeps_method(station->method) ||
        !keeps_method(station->former))
        return 51;
    if (store_length < (size_t)w * CORRIDOR_CELL) {
        *value = (size_t)w * CORRIDOR_CELL;
        return 6;
    }
    return 0;
}

uint32_t plain_submit(uint8_t n, uint8_t w, corridor_station *station,
                      uint8_t *store, size_t store_length,
                      const uint8_t *block, size_t block_length, size_t *value)
{
    uint32_t number = sender_asked(n, w, station, store_length, value);
    if (number != 0)
        return number;
    if (block_length > CORRIDOR_LONGEST_STORED)
        return 57;
    if (station->stored >= w)
        return 55;
    *value = station->next;
    memcpy(store + (size_t)station->cell * CORRIDOR_CELL, block, block_length);
    station->lengths[station->cell] = (uint16_t)block_length;
    station->next = (uint8_t)((station->next + 1u) & ((1u << n) - 1));
    station->stored++;
    station->cell = (uint8_t)(station->cell + 1 == w ? 0 : station->cell + 1);
    return 0;
}

uint32_t plain_acknowledge(uint8_t n, uint8_t w, corridor_station *station,
                           const uint8_t *store, size_t store_length,
                           uint8_t number, size_t *value)
{
    (void)store;
    uint32_t refusal = sender_asked(n, w, station, store_length, value);
    if (refusal != 0)
        return refusal;
    unsigned mask = (1u << n) - 1;
    unsigned left = (station->next - 1u - number) & mask;
    if (number > mask || left >= station->stored)
        return 56;
    *value = station->stored - left;
    station->older =
        (uint8_t)(station->older > *value ? station->older - *value : 0);
    station->stored = (uint8_t)left;
    return 0;
}

/* The copy alone, as a measure. */
uint32_t copy_submit(uint8_t n, uint8_t w, corridor_station *station,
                     uint8_t *store, size_t store_length,
                     const uint8_t *block, size_t block_length, size_t *value)
{
    (void)n, (void)w, (void)store_length, (void)value;
    memcpy(store + (size_t)station->cell * CORRIDOR_CELL, block, block_length);
    return 0;
}
