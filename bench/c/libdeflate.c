/* Method 6's check by libdeflate, where its header is installed. */
#include "plain.h"

#if __has_include(<libdeflate.h>)
#include <libdeflate.h>

int libdeflate_found(void) { return 1; }

uint32_t libdeflate_check_6(const uint8_t *content, size_t length)
{
    return libdeflate_crc32(0, content, length);
}
#else
int libdeflate_found(void) { return 0; }

uint32_t libdeflate_check_6(const uint8_t *content, size_t length)
{
    return plain_check_6(content, length);
}
#endif
