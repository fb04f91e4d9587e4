/* The check of two parts joined: x to the second part's bits, by squaring. Bit 0 is the highest power of x; `one` is x^0. */
#include "plain.h"

static inline uint32_t times_x(uint32_t polynomial, uint32_t a)
{
    return (a >> 1) ^ (a & 1 ? polynomial : 0);
}

/* From the lowest power of a up: b moves up with it. */
static inline uint32_t times(uint32_t polynomial, uint32_t one, uint32_t a, uint32_t b)
{
    uint32_t sum = 0;
    for (uint32_t power = one; power != 0; power >>= 1) {
        if (a & power)
            sum ^= b;
        b = times_x(polynomial, b);
    }
    return sum;
}

static inline uint32_t x_to(uint32_t polynomial, uint32_t one, size_t n)
{
    uint32_t power = one;
    for (int bit = n == 0 ? -1 : 63 - __builtin_clzll(n); bit >= 0; bit--) {
        power = times(polynomial, one, power, power);
        if (n >> bit & 1)
            power = times_x(polynomial, power);
    }
    return power;
}

static inline uint32_t join(uint32_t polynomial, uint32_t one, size_t limit, uint32_t first, size_t first_length,
                            uint32_t second, size_t second_length, size_t *value)
{
    *value = 0;
    if (first_length > limit || second_length > limit - first_length)
        return 63;
    *value = times(polynomial, one, first, x_to(polynomial, one, 8 * second_length)) ^ second;
    return 0;
}

uint32_t plain_join_3(uint16_t first, size_t first_length, uint16_t second, size_t second_length, size_t *value)
{
    return join(0x8408, 0x8000, 4096, first, first_length, second, second_length, value);
}

uint32_t plain_join_4(uint16_t first, size_t first_length, uint16_t second, size_t second_length, size_t *value)
{
    return join(0xa001, 0x8000, 4096, first, first_length, second, second_length, value);
}

uint32_t plain_join_5(uint16_t first, size_t first_length, uint16_t second, size_t second_length, size_t *value)
{
    return plain_join_3(first, first_length, second, second_length, value);
}

uint32_t plain_join_6(uint32_t first, size_t first_length, uint32_t second, size_t second_length, size_t *value)
{
    return join(0xedb88320, 0x80000000, 65536, first, first_length, second, second_length, value);
}
