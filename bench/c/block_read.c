/* Reading a block: one pass that judges each byte and enters it into the check, then header and text are copied. */
#include "plain.h"
#include "signs.h"
#include "table.h"
#include <string.h>

/* A header or a text in the line, with the number of its bytes without fill and doubled DLE. */
struct part { size_t from, to, kept; };

struct walk {
    const uint8_t *line;
    size_t length, place, counted;
    const uint32_t *table; /* NULL in methods 1, 2 and 7, where the register is the sum */
    uint32_t reg;
    uint8_t method, diagonals;
    struct part header, text;
    uint8_t shape;
};

enum { FOUND = 0, NO_START = 13, OUT_OF_PLACE = 14, NO_END = 15 };

/* Counts one byte and passes over it. */
static void count(struct walk *w)
{
    uint8_t b = w->line[w->place++];
    w->reg = w->table ? enter(w->table, w->reg, b) : w->reg ^ b;
    w->diagonals = turn_in(w->diagonals, b);
    w->counted++;
}

/* Passes over characters and SYN up to the next other sign. */
static void pass_characters(struct walk *w, struct part *p)
{
    const uint32_t *table = w->table;
    const uint8_t *line = w->line;
    size_t length = w->length, i = w->place, fill = 0;
    uint32_t reg = w->reg;
    uint8_t mask = table ? 0xff : 0x7f, diagonals = w->diagonals;
    int turns = w->method == 7;
    for (; i < length; i++) {
        uint8_t b = line[i], c = b & mask;
        if (!is_reserved(c)) {
            reg = table ? enter(table, reg, b) : reg ^ b;
            if (turns)
                diagonals = turn_in(diagonals, b);
        } else if (c == SYN)
            fill++;
        else
            break;
    }
    *p = (struct part){w->place, i, i - w->place - fill};
    w->counted += p->kept;
    w->place = i;
    w->reg = reg;
    w->diagonals = diagonals;
}

static int walk_plain(struct walk *w)
{
    pass_characters(w, &w->text);
    if (w->place == w->length)
        return NO_END;
    return is_end(w->line[w->place] & (w->table ? 0xff : 0x7f)) ? FOUND : OUT_OF_PLACE;
}

/* From behind DLE STX to the end sign. */
static int walk_clear(struct walk *w)
{
    size_t i = w->place, kept = 0, from = w->place;
    uint32_t reg = w->reg;
    for (;;) {
        size_t run = i;
        for (; i < w->length && w->line[i] != DLE; i++)
            reg = enter(w->table, reg, w->line[i]);
        kept += i - run;
        w->place = i;
        if (w->length - i < 2)
            return NO_END;
        uint8_t next = w->line[i + 1];
        if (next == DLE) {
            reg = enter(w->table, reg, DLE);
            kept++;
        } else if (next != SYN) {
            break;
        }
        i += 2;
    }
    if (!is_end(w->line[i + 1]))
        return OUT_OF_PLACE;
    w->text = (struct part){from, i, kept};
    w->counted += kept;
    w->reg = reg;
    w->place = i + 1;
    return FOUND;
}

static int walk_header(struct walk *w)
{
    pass_characters(w, &w->header);
    if (w->place == w->length)
        return NO_END;
    uint8_t c = w->line[w->place] & (w->table ? 0xff : 0x7f);
    if (is_end(c))
        return FOUND;
    if (c == STX) {
        w->shape = 3;
        count(w);
        return walk_plain(w);
    }
    if (c != DLE || !w->table)
        return OUT_OF_PLACE;
    if (w->length - w->place < 2)
        return NO_END;
    if (w->line[w->place + 1] != STX)
        return OUT_OF_PLACE;
    w->shape = 5;
    count(w);
    count(w);
    return walk_clear(w);
}

/* Questions 13 to 15, behind leading SYN; a found end sign is counted. */
static int walk(struct walk *w)
{
    uint8_t mask = w->table ? 0xff : 0x7f;
    size_t start = 0;
    while (start < w->length && (w->line[start] & mask) == SYN)
        start++;
    uint8_t first = start < w->length ? w->line[start] & mask : 0;
    int end;
    w->place = start + 1;
    if (first == SOH) {
        w->shape = 1;
        end = walk_header(w);
    } else if (first == STX) {
        w->shape = 2;
        end = walk_plain(w);
    } else if (first == DLE && w->table && start + 1 < w->length && w->line[start + 1] == STX) {
        w->shape = 4;
        w->place = start + 2;
        end = walk_clear(w);
    } else {
        return NO_START;
    }
    if (end == FOUND)
        count(w);
    return end;
}

/* The first place where the parity is wrong, or the length. */
static size_t first_wrong(uint8_t parity, const uint8_t *line, size_t length)
{
    uint8_t wrong = 0;
    for (size_t i = 0; i < length; i++)
        wrong |= odd_ones(line[i]) ^ parity;
    size_t i = 0;
    while (wrong && odd_ones(line[i]) == parity)
        i++;
    return wrong ? i : length;
}

/* Questions 18 and 54. */
static uint32_t ask_check(uint8_t method, uint8_t parity, const struct walk *w)
{
    const uint8_t *check = w->line + w->place;
    if (method == 1)
        return 0;
    if (is_seven(method)) {
        if (check[0] != with_parity(w->reg & 0x7f, parity))
            return 18;
        return method == 7 && check[1] != with_parity(turn_in(w->diagonals, check[0]), parity) ? 54 : 0;
    }
    uint32_t want = method == 3 ? w->reg ^ 0xffff : w->reg;
    return (check[0] | (uint32_t)check[1] << 8) == want ? 0 : 18;
}

/* Copies a part run by run: `left_out` is the fill sign or, in clear text, the first byte of a pair. */
static uint8_t *copy_part(uint8_t *out, const uint8_t *line, struct part p, uint8_t left_out, int clear)
{
    const uint8_t *from = line + p.from, *to = line + p.to;
    for (;;) {
        const uint8_t *sign = memchr(from, left_out, (size_t)(to - from));
        size_t run = (size_t)((sign ? sign : to) - from);
        memcpy(out, from, run);
        out += run;
        if (!sign)
            return out;
        from = sign + 1;
        if (clear && *from++ == DLE)
            *out++ = DLE;
    }
}

static void hand_out(const struct walk *w, uint8_t parity, uint8_t *out)
{
    uint8_t fill = w->table ? SYN : with_parity(SYN, parity);
    uint8_t *end = copy_part(out, w->line, w->header, fill, 0);
    if (w->shape >= 4)
        end = copy_part(end, w->line, w->text, DLE, 1);
    else
        end = copy_part(end, w->line, w->text, fill, 0);
    if (!w->table)
        for (; out < end; out++)
            *out &= 0x7f;
}

/* Questions 11 to 15, 52, 53 and 17. */
static uint32_t find(uint8_t method, uint8_t parity, struct walk *w, size_t *place)
{
    if (w->length > LONGEST_LINE)
        return 11;
    if (is_seven(method)) {
        *place = first_wrong(parity, w->line, w->length);
        if (*place < w->length)
            return 12;
    }
    int end = walk(w);
    *place = end == OUT_OF_PLACE || end == FOUND ? w->place : 0;
    if (end != FOUND)
        return (uint32_t)end;
    if (w->length - w->place < check_length(method))
        return 52;
    if (w->length - w->place > check_length(method))
        return 53;
    *place = 0;
    return w->counted > LONGEST_COUNT ? 17 : 0;
}

uint32_t plain_read_block(uint8_t method, uint8_t parity, uint8_t code, const uint8_t *line, size_t line_length,
                          uint8_t *out, size_t out_length, size_t answer[5])
{
    memset(answer, 0, 5 * sizeof *answer);
    if (!is_block_method(method) || parity > 1 || code != CORRIDOR_KOI7)
        return 1;
    struct walk w = {.line = line, .length = line_length, .method = method};
    w.table = method == 3 ? table_3 : method == 4 ? table_4 : NULL;
    w.reg = method == 3 ? 0xffff : 0;
    uint32_t refusal = find(method, parity, &w, &answer[0]);
    if (refusal)
        return refusal;
    refusal = ask_check(method, parity, &w);
    if (refusal)
        return refusal;
    size_t needed = w.header.kept + w.text.kept;
    if (needed > out_length) {
        answer[0] = needed;
        return 19;
    }
    hand_out(&w, parity, out);
    answer[0] = w.shape;
    answer[1] = line[w.place - 1] & (w.table ? 0xff : 0x7f);
    answer[2] = w.header.kept;
    answer[3] = w.text.kept;
    answer[4] = w.counted;
    return 0;
}
