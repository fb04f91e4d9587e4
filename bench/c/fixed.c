/* Fixed blocks: the check byte by byte through a table. */
#include "plain.h"
#include "table.h"
#include <string.h>

struct code {
    const uint32_t *table;
    uint32_t ones;
    size_t check, longest;
};

/* Whether the degree is in the list. */
static int code_of(uint8_t degree, struct code *code)
{
    switch (degree) {
    case 8:
        *code = (struct code){table_fixed_8, 0xff, 1, 16};
        return 1;
    case 16:
        *code = (struct code){table_fixed_16, 0xffff, 2, 16};
        return 1;
    case 24:
        *code = (struct code){table_fixed_24, 0xffffff, 3, 256};
        return 1;
    default:
        return 0;
    }
}

uint32_t plain_write_fixed(uint8_t degree,
                           const uint8_t *content, size_t content_length,
                           uint8_t *out, size_t out_length, size_t *value)
{
    struct code code;

    *value = 0;
    if (!code_of(degree, &code))
        return 1;
    if (content_length == 0)
        return 64;
    if (content_length > code.longest - code.check)
        return 65;
    *value = content_length + code.check;
    if (out_length < *value)
        return 6;
    uint32_t check = enter_all(code.table, 0, content, content_length) ^ code.ones;
    memcpy(out, content, content_length);
    for (size_t i = 0; i < code.check; i++)
        out[content_length + i] = (uint8_t)(check >> (8 * i));
    return 0;
}

uint32_t plain_read_fixed(uint8_t degree,
                          const uint8_t *block, size_t block_length,
                          uint8_t *out, size_t out_length, size_t *value)
{
    struct code code;

    *value = 0;
    if (!code_of(degree, &code))
        return 1;
    if (block_length <= code.check)
        return 64;
    if (block_length > code.longest)
        return 65;
    size_t length = block_length - code.check;
    uint32_t check = enter_all(code.table, 0, block, length) ^ code.ones;
    for (size_t i = 0; i < code.check; i++)
        if (block[length + i] != (uint8_t)(check >> (8 * i)))
            return 18;
    *value = length;
    if (out_length < length)
        return 19;
    memcpy(out, block, length);
    return 0;
}
