/* The signs of a block and the parity of a byte. */
#ifndef SIGNS_H
#define SIGNS_H
#include <stddef.h>
#include <stdint.h>

enum { SOH = 0x01, STX = 0x02, ETX = 0x03, DLE = 0x10, SYN = 0x16, ETB = 0x17, US = 0x1f };

enum { LONGEST_LINE = 16384, LONGEST_COUNT = 4096 };

static inline int is_end(uint8_t c) { return c == ETX || c == ETB || c == US; }

static inline int is_reserved(uint8_t c)
{
    return c < 32 && (0x80c1000eu >> c & 1);
}

/* 1 where the ones of a byte are odd in number. */
static inline uint8_t odd_ones(uint8_t b)
{
    b ^= b >> 4;
    b ^= b >> 2;
    return (b ^ b >> 1) & 1;
}

/* A seven-bit character with the parity bit of the link. */
static inline uint8_t with_parity(uint8_t c, uint8_t parity)
{
    return (uint8_t)(c | (odd_ones(c) ^ parity) << 7);
}

/* A byte added to the register of the diagonals, whose seven rows then turn up by one. */
static inline uint8_t turn_in(uint8_t diagonals, uint8_t b)
{
    uint8_t sum = (diagonals ^ b) & 0x7f;
    return (uint8_t)((sum << 1 | sum >> 6) & 0x7f);
}

static inline int is_seven(uint8_t method) { return method <= 2 || method == 7; }

static inline int is_block_method(uint8_t method) { return (method >= 1 && method <= 4) || method == 7; }

static inline size_t check_length(uint8_t method) { return method <= 2 ? method - 1u : 2; }
#endif
