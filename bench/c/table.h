/* Registers that bytes enter through a table of 256 entries, one look-up a byte. */
#ifndef TABLE_H
#define TABLE_H
#include <stddef.h>
#include <stdint.h>

/* By method; methods 3 and 5 share one. Filled by plain_init. */
extern uint32_t table_3[256], table_4[256], table_6[256];

/* Of fixed blocks, by degree. */
extern uint32_t table_fixed_8[256], table_fixed_16[256], table_fixed_24[256];

static inline uint32_t enter(const uint32_t *table, uint32_t reg, uint8_t byte)
{
    return table[(reg ^ byte) & 255] ^ (reg >> 8);
}

static inline uint32_t enter_all(const uint32_t *table, uint32_t reg, const uint8_t *content, size_t length)
{
    for (size_t i = 0; i < length; i++)
        reg = enter(table, reg, content[i]);
    return reg;
}

/* The lowest `count` bits, 1 to 8, of a byte: moved up to its top, since the zeros below then only shift. */
static inline uint32_t enter_low(const uint32_t *table, uint32_t reg, unsigned bits, unsigned count)
{
    return table[((reg ^ bits) << (8 - count)) & 255] ^ (reg >> count);
}

void table_init(void);
void frame_init(void);
#endif
