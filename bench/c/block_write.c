/* Writing a block: the parts are judged and measured, then copied with their signs and their check. */
#include "plain.h"
#include "signs.h"
#include "table.h"
#include <string.h>

struct form {
    uint8_t method, parity, shape, end_sign;
    const uint8_t *header, *text;
    size_t header_length, text_length;
};

/* Signs before the header or, without one, before the text; and between header and text. */
static const struct { uint8_t outer[2], outer_length, inner[2], inner_length; } starts[] = {
    {{0}, 0, {0}, 0},      {{SOH}, 1, {0}, 0},      {{STX}, 1, {0}, 0},
    {{SOH}, 1, {STX}, 1},  {{DLE, STX}, 2, {0}, 0}, {{SOH}, 1, {DLE, STX}, 2}};

static int is_clear(const struct form *f) { return f->shape >= 4; }

static inline uint8_t lesser(uint8_t a, uint8_t b) { return a < b ? a : b; }

/* 0 for the seven signs alone, without a branch, so that a loop takes 16 bytes at once. */
static inline uint8_t off_signs(uint8_t c)
{
    uint8_t even = c & 0xfe; /* 02 and 03, 16 and 17 are pairs */
    uint8_t low = lesser(c ^ SOH, lesser(even ^ STX, c ^ DLE));
    return lesser(low, lesser(even ^ SYN, c ^ US));
}

/* The place of the first byte that header and plain text do not carry, or the length. */
static size_t first_reserved(int seven, const uint8_t *part, size_t length)
{
    uint8_t least = 0xff, all = 0, top = seven ? 0x80 : 0;
    for (size_t i = 0; i < length; i++) {
        least = lesser(least, off_signs(part[i]));
        all |= part[i];
    }
    if (least && !(all & top))
        return length;
    size_t i = 0;
    while (!is_reserved(part[i]) && !(part[i] & top))
        i++;
    return i;
}

/* Questions 1 to 5. */
static uint32_t ask_parts(const struct form *f, size_t *place)
{
    int lacks_header = f->shape == 2 || f->shape == 4;
    if (is_seven(f->method) && is_clear(f))
        return 1;
    if ((lacks_header && f->header_length) || (f->shape == 1 && f->text_length))
        return 4;
    size_t at = first_reserved(is_seven(f->method), f->header, f->header_length);
    if (at < f->header_length) {
        *place = at;
        return 2;
    }
    at = is_clear(f) ? f->text_length : first_reserved(is_seven(f->method), f->text, f->text_length);
    if (at < f->text_length) {
        *place = at;
        return 3;
    }
    size_t signs = starts[f->shape].inner_length + 1u;
    if (f->header_length > LONGEST_COUNT || f->text_length > LONGEST_COUNT
        || f->header_length + f->text_length + signs > LONGEST_COUNT)
        return 5;
    return 0;
}

/* The length of the line: in clear text each DLE goes twice, and one stands before the end sign. */
static size_t line_length(const struct form *f)
{
    size_t length = starts[f->shape].outer_length + f->header_length + starts[f->shape].inner_length
        + f->text_length + 1 + check_length(f->method);
    if (is_clear(f)) {
        length++;
        for (size_t i = 0; i < f->text_length; i++)
            length += f->text[i] == DLE;
    }
    return length;
}

static uint8_t *put(uint8_t *out, const uint8_t *part, size_t length)
{
    memcpy(out, part, length);
    return out + length;
}

/* Clear text, run by run. */
static uint8_t *put_clear(uint8_t *out, const uint8_t *text, size_t length)
{
    const uint8_t *to = text + length, *sign;
    while ((sign = memchr(text, DLE, (size_t)(to - text)))) {
        out = put(out, text, (size_t)(sign - text) + 1);
        *out++ = DLE;
        text = sign + 1;
    }
    return put(out, text, (size_t)(to - text));
}

static uint8_t *put_check_3_4(uint8_t *out, const struct form *f)
{
    const uint32_t *table = f->method == 3 ? table_3 : table_4;
    uint32_t invert = f->method == 3 ? 0xffff : 0, reg = invert;
    reg = enter_all(table, reg, f->header, f->header_length);
    reg = enter_all(table, reg, starts[f->shape].inner, starts[f->shape].inner_length);
    reg = enter_all(table, reg, f->text, f->text_length);
    reg = enter(table, reg, f->end_sign) ^ invert;
    *out++ = (uint8_t)reg;
    *out++ = (uint8_t)(reg >> 8);
    return out;
}

/* Gives every byte its parity; methods 2 and 7 add the sum of what is counted, and 7 the diagonal character. */
static void seal_seven(const struct form *f, uint8_t *line, uint8_t *end)
{
    uint8_t sum = 0, diagonals = 0, parity = f->parity;
    for (uint8_t *p = line + 1; p < end; p++)
        sum ^= *p;
    if (f->method == 7)
        for (uint8_t *p = line + 1; p < end; p++)
            diagonals = turn_in(diagonals, *p);
    for (uint8_t *p = line; p < end; p++)
        *p = with_parity(*p, parity);
    if (f->method != 1)
        end[0] = with_parity(sum, parity);
    if (f->method == 7)
        end[1] = with_parity(turn_in(diagonals, sum), parity);
}

static void write_line(const struct form *f, uint8_t *out)
{
    uint8_t *end = put(out, starts[f->shape].outer, starts[f->shape].outer_length);
    end = put(end, f->header, f->header_length);
    end = put(end, starts[f->shape].inner, starts[f->shape].inner_length);
    if (is_clear(f)) {
        end = put_clear(end, f->text, f->text_length);
        *end++ = DLE;
    } else {
        end = put(end, f->text, f->text_length);
    }
    *end++ = f->end_sign;
    if (is_seven(f->method))
        seal_seven(f, out, end);
    else
        put_check_3_4(end, f);
}

uint32_t plain_write_block(uint8_t method, uint8_t parity, uint8_t code, uint8_t shape, uint8_t end_sign,
                           const uint8_t *header, size_t header_length, const uint8_t *text, size_t text_length,
                           uint8_t *out, size_t out_length, size_t *value)
{
    struct form f = {method, parity, shape, end_sign, header, text, header_length, text_length};
    *value = 0;
    if (!is_block_method(method) || parity > 1 || code != CORRIDOR_KOI7)
        return 1;
    if (shape < 1 || shape > 5 || !is_end(end_sign))
        return 1;
    uint32_t refusal = ask_parts(&f, value);
    if (refusal)
        return refusal;
    *value = line_length(&f);
    if (*value > out_length)
        return 6;
    write_line(&f, out);
    return 0;
}
