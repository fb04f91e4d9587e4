/* The tables, and the checks of whole contents. */
#include "plain.h"
#include "table.h"

uint32_t table_3[256], table_4[256], table_6[256];
uint32_t table_fixed_8[256], table_fixed_16[256], table_fixed_24[256];

static uint32_t entry(uint32_t k, uint32_t polynomial)
{
    for (int i = 0; i < 8; i++)
        k = (k >> 1) ^ (k & 1 ? polynomial : 0);
    return k;
}

void table_init(void)
{
    for (uint32_t k = 0; k < 256; k++) {
        table_3[k] = entry(k, 0x8408);
        table_4[k] = entry(k, 0xa001);
        table_6[k] = entry(k, 0xedb88320);
        table_fixed_8[k] = entry(k, 0xe0);
        table_fixed_16[k] = entry(k, 0xd415);
        table_fixed_24[k] = entry(k, 0xe06802);
    }
}

void plain_init(void)
{
    table_init();
    frame_init();
}

uint16_t plain_check_3(const uint8_t *content, size_t length)
{
    return (uint16_t)(enter_all(table_3, 0xffff, content, length) ^ 0xffff);
}

uint16_t plain_check_4(const uint8_t *content, size_t length)
{
    return (uint16_t)enter_all(table_4, 0, content, length);
}

uint16_t plain_check_5(const uint8_t *content, size_t length)
{
    return plain_check_3(content, length);
}

uint32_t plain_check_6(const uint8_t *content, size_t length)
{
    return ~enter_all(table_6, 0xffffffff, content, length);
}
