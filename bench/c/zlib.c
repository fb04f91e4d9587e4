/* Method 6's check, and that of two parts joined, by zlib, where its header is installed. */
#include "plain.h"

#if __has_include(<zlib.h>)
#include <zlib.h>

int zlib_found(void) { return 1; }

uint32_t zlib_check_6(const uint8_t *content, size_t length)
{
    return (uint32_t)crc32_z(0, content, length);
}

uint32_t zlib_join_6(uint32_t first, size_t first_length, uint32_t second, size_t second_length, size_t *value)
{
    *value = 0;
    if (first_length > 65536 || second_length > 65536 - first_length)
        return 63;
    *value = crc32_combine(first, second, (long)second_length);
    return 0;
}
#else
int zlib_found(void) { return 0; }

uint32_t zlib_check_6(const uint8_t *content, size_t length)
{
    return plain_check_6(content, length);
}

uint32_t zlib_join_6(uint32_t first, size_t first_length, uint32_t second, size_t second_length, size_t *value)
{
    return plain_join_6(first, first_length, second, second_length, value);
}
#endif
