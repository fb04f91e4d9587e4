/* The number check. */
#include "plain.h"

uint32_t plain_receive(uint8_t n, uint8_t w, uint8_t c, uint8_t number, uint8_t answer[2])
{
    answer[0] = 0;
    answer[1] = c;
    if (n < 1 || n > 7)
        return 41;
    unsigned modulus = 1u << n;
    if (w < 1 || w >= modulus)
        return 51;
    if (c >= modulus)
        return 42;
    if (number >= modulus)
        return 43;
    unsigned behind = (unsigned)(c - number) & (modulus - 1);
    if (behind == 0) {
        answer[0] = 1;
        answer[1] = (uint8_t)((c + 1u) & (modulus - 1));
    } else {
        answer[0] = behind <= w ? 2 : 3;
    }
    return 0;
}
