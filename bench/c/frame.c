/* Frames byte by byte: a table tells what a byte becomes behind a run of ones. The last bits of a content that fill no byte
 * go bit by bit. */
#include "plain.h"
#include "table.h"

enum { FLAG = 0x7e };

/* A byte as it is sent behind `run` ones: its bits with the inserted zeros, their number, and the run after it. */
static struct { uint16_t bits; uint8_t count, run; } sent[5][256];

/* A byte as it is received behind `run` ones: its bits without the inserted zeros, their number, the run after it,
 * and the place of a one where a zero has to be, from 1 on. */
static struct { uint8_t bits, count, run, wrong; } received[6][256];

static void send_byte(unsigned run, unsigned byte)
{
    unsigned bits = 0, count = 0, ones = run;
    for (int i = 0; i < 8; i++) {
        unsigned bit = byte >> i & 1;
        bits |= bit << count++;
        ones = bit ? ones + 1 : 0;
        if (ones == 5) {
            count++;
            ones = 0;
        }
    }
    sent[run][byte].bits = (uint16_t)bits;
    sent[run][byte].count = (uint8_t)count;
    sent[run][byte].run = (uint8_t)ones;
}

static void receive_byte(unsigned run, unsigned byte)
{
    unsigned bits = 0, count = 0, ones = run, wrong = 0;
    for (unsigned i = 0; i < 8; i++) {
        unsigned bit = byte >> i & 1;
        if (ones == 5) {
            if (bit && !wrong)
                wrong = i + 1;
            ones = 0;
        } else {
            bits |= bit << count++;
            ones = bit ? ones + 1 : 0;
        }
    }
    received[run][byte].bits = (uint8_t)bits;
    received[run][byte].count = (uint8_t)count;
    received[run][byte].run = (uint8_t)ones;
    received[run][byte].wrong = (uint8_t)wrong;
}

void frame_init(void)
{
    for (unsigned byte = 0; byte < 256; byte++)
        for (unsigned run = 0; run < 6; run++) {
            if (run < 5)
                send_byte(run, byte);
            receive_byte(run, byte);
        }
}

/* What the two methods differ in. The remainder is that of a sound content with its check; the longest content is in bits. */
struct rule { const uint32_t *table; uint32_t ones, remainder; size_t check_bytes, longest; };

static const struct rule rules[] = {{table_3, 0xffff, 0xf0b8, 2, 32768}, {table_6, 0xffffffff, 0xdebb20e3, 4, 524288}};

/* Bits that wait to fill bytes. */
struct bits { uint64_t held; unsigned count, run; };

static int is_flag(const uint8_t *lent, size_t at)
{
    unsigned two = lent[at / 8];
    if (at % 8)
        two |= (unsigned)lent[at / 8 + 1] << 8;
    return (two >> at % 8 & 255) == FLAG;
}

/* The last bits before the closing flag at `end`: question 33. */
static uint32_t judge_last(const uint8_t *lent, size_t end, struct bits *b, size_t *value)
{
    for (size_t at = end / 8 * 8; at < end; at++) {
        unsigned bit = lent[at / 8] >> at % 8 & 1;
        if (b->run == 5 && bit) {
            *value = at;
            return 33;
        }
        if (b->run < 5)
            b->held |= (uint64_t)bit << b->count++;
        b->run = bit && b->run < 5 ? b->run + 1 : 0;
    }
    if (b->run == 5) {
        *value = end;
        return 33;
    }
    return 0;
}

/* Questions 33 to 37; then *value is the number of content bits. */
static uint32_t judge(const struct rule *rule, const uint8_t *lent, size_t end, size_t *value)
{
    struct bits b = {0, 0, 0};
    uint32_t reg = rule->ones;
    size_t bytes = 0;
    for (size_t i = 1; i < end / 8; i++) {
        if (received[b.run][lent[i]].wrong) {
            *value = 8 * i + received[b.run][lent[i]].wrong - 1;
            return 33;
        }
        b.held |= (uint64_t)received[b.run][lent[i]].bits << b.count;
        b.count += received[b.run][lent[i]].count;
        b.run = received[b.run][lent[i]].run;
        if (b.count >= 8) {
            reg = enter(rule->table, reg, (uint8_t)b.held);
            b.held >>= 8;
            b.count -= 8;
            bytes++;
        }
    }
    uint32_t refusal = judge_last(lent, end, &b, value);
    if (refusal)
        return refusal;
    size_t left = 8 * bytes + b.count;
    if (b.count >= 8) {
        reg = enter(rule->table, reg, (uint8_t)b.held);
        b.held >>= 8;
    }
    if (b.count % 8)
        reg = enter_low(rule->table, reg, (unsigned)b.held, b.count % 8);
    if (left <= 8 * rule->check_bytes)
        return 35;
    if (left - 8 * rule->check_bytes > rule->longest)
        return 36;
    *value = left - 8 * rule->check_bytes;
    return reg == rule->remainder ? 0 : 37;
}

/* The content of a sound frame; its check, at least two bytes, still stands behind it, so that the last byte comes whole. */
static void hand_out(const uint8_t *lent, uint8_t *out, size_t claimed)
{
    struct bits b = {0, 0, 0};
    size_t length = (claimed + 7) / 8;
    for (size_t i = 1, n = 0; n < length; i++) {
        b.held |= (uint64_t)received[b.run][lent[i]].bits << b.count;
        b.count += received[b.run][lent[i]].count;
        b.run = received[b.run][lent[i]].run;
        if (b.count >= 8) {
            out[n++] = (uint8_t)b.held;
            b.held >>= 8;
            b.count -= 8;
        }
    }
    if (claimed % 8)
        out[length - 1] &= (uint8_t)((1u << claimed % 8) - 1);
}

uint32_t plain_read_frame(uint8_t method, size_t bits, const uint8_t *lent, size_t lent_length,
                          uint8_t *out, size_t out_length, size_t *value)
{
    *value = 0;
    if (method != 5 && method != 6)
        return 1;
    if (bits / 8 + (bits % 8 != 0) > lent_length)
        return 31;
    if (bits < 16 || lent[0] != FLAG || !is_flag(lent, bits - 8))
        return 32;
    uint32_t refusal = judge(&rules[method - 5], lent, bits - 8, value);
    if (refusal) {
        if (refusal != 33)
            *value = 0;
        return refusal;
    }
    size_t claimed = *value;
    if ((claimed + 7) / 8 > out_length) {
        *value = (claimed + 7) / 8;
        return 38;
    }
    hand_out(lent, out, claimed);
    return 0;
}

static size_t count_bits(const uint8_t *content, size_t length, unsigned *run)
{
    size_t count = 0;
    for (size_t i = 0; i < length; i++) {
        count += sent[*run][content[i]].count;
        *run = sent[*run][content[i]].run;
    }
    return count;
}

/* Appends bits and stores the full bytes, four at a time. */
static inline uint8_t *put(struct bits *b, uint8_t *out, unsigned bits, unsigned count)
{
    b->held |= (uint64_t)bits << b->count;
    b->count += count;
    if (b->count < 32)
        return out;
    for (int i = 0; i < 4; i++)
        out[i] = (uint8_t)(b->held >> 8 * i);
    b->held >>= 32;
    b->count -= 32;
    return out + 4;
}

static inline uint8_t *put_bytes(struct bits *b, uint8_t *out, const uint8_t *content, size_t length)
{
    for (size_t i = 0; i < length; i++) {
        out = put(b, out, sent[b->run][content[i]].bits, sent[b->run][content[i]].count);
        b->run = sent[b->run][content[i]].run;
    }
    return out;
}

/* The last bits of a content, fewer than 8. */
struct tail { unsigned bits, count; };

static struct tail tail_of(const uint8_t *content, size_t claimed)
{
    struct tail tail = {0, claimed % 8};
    if (tail.count)
        tail.bits = content[claimed / 8] & ((1u << tail.count) - 1);
    return tail;
}

/* A tail as it is sent behind a run of ones. */
static struct tail send_tail(struct tail tail, unsigned *run)
{
    struct tail line = {0, 0};
    for (unsigned i = 0; i < tail.count; i++) {
        unsigned bit = tail.bits >> i & 1;
        line.bits |= bit << line.count++;
        *run = bit ? *run + 1 : 0;
        if (*run == 5) {
            line.count++;
            *run = 0;
        }
    }
    return line;
}

uint32_t plain_write_frame(uint8_t method, size_t claimed, const uint8_t *content, size_t content_length,
                           uint8_t *out, size_t out_length, size_t *value)
{
    *value = 0;
    if (method != 5 && method != 6)
        return 1;
    const struct rule *rule = &rules[method - 5];
    if (claimed / 8 + (claimed % 8 != 0) > content_length)
        return 66;
    if (claimed == 0)
        return 21;
    if (claimed > rule->longest)
        return 22;
    size_t whole = claimed / 8;
    struct tail tail = tail_of(content, claimed);
    uint32_t reg = enter_all(rule->table, rule->ones, content, whole);
    if (tail.count)
        reg = enter_low(rule->table, reg, tail.bits, tail.count);
    reg ^= rule->ones;
    uint8_t check[4] = {(uint8_t)reg, (uint8_t)(reg >> 8), (uint8_t)(reg >> 16), (uint8_t)(reg >> 24)};
    unsigned run = 0;
    size_t bits = 16 + count_bits(content, whole, &run);
    bits += send_tail(tail, &run).count;
    bits += count_bits(check, rule->check_bytes, &run);
    *value = (bits + 7) / 8;
    if (*value > out_length)
        return 23;
    struct bits b = {FLAG, 8, 0};
    uint8_t *end = put_bytes(&b, out, content, whole);
    struct tail line = send_tail(tail, &b.run);
    end = put(&b, end, line.bits, line.count);
    end = put_bytes(&b, end, check, rule->check_bytes);
    end = put(&b, end, FLAG, 8);
    for (unsigned stored = 0; stored < b.count; stored += 8)
        *end++ = (uint8_t)(b.held >> stored);
    *value = bits;
    return 0;
}
