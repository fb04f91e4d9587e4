/*
 * Writes a block, reads it back, does the same under DKOI, writes and reads
 * frames, judges a number, keeps blocks until they are acknowledged, spreads a
 * text over a line, replays a recorded line, joins the checks of two parts and
 * writes a fixed block. Every step is checked; the program ends with 1 where
 * one fails.
 */
#include "corridor.h"

#include <inttypes.h>
#include <stdio.h>
#include <string.h>

static int failures;

static void expect(int holds, const char *what)
{
    if (!holds) {
        fprintf(stderr, "failed: %s\n", what);
        failures++;
    }
}

static void print_bytes(const char *name, const uint8_t *bytes, size_t length)
{
    printf("%s:", name);
    for (size_t place = 0; place < length; place++)
        printf(" %02X", bytes[place]);
    printf("\n");
}

/* A header and a text under the matrix with even parity, there and back. */
static void block(void)
{
    const uint8_t header[] = {'7', 'B'};
    const uint8_t text[] = {'R', 'O', 'O', 'M', ' ', '1', '2'};
    uint8_t line[CORRIDOR_LONGEST_PLAIN(sizeof header, sizeof text)];
    uint8_t out[sizeof line];
    size_t length;
    size_t answer[5];

    uint32_t number = corridor_write_block(
        CORRIDOR_MATRIX, CORRIDOR_EVEN, CORRIDOR_KOI7, CORRIDOR_HEADER_TEXT,
        CORRIDOR_ETX, header, sizeof header, text, sizeof text, line,
        sizeof line, &length);
    expect(number == 0, "the block is written");
    if (number != 0)
        return;
    print_bytes("block", line, length);

    number = corridor_read_block(CORRIDOR_MATRIX, CORRIDOR_EVEN, CORRIDOR_KOI7,
                                 line, length, out, sizeof out, answer);
    expect(number == 0, "the block is taken");
    expect(answer[0] == CORRIDOR_HEADER_TEXT, "its shape");
    expect(answer[1] == CORRIDOR_ETX, "its end sign");
    expect(answer[2] == sizeof header && answer[3] == sizeof text, "lengths");
    expect(memcmp(out, header, sizeof header) == 0, "its header");
    expect(memcmp(out + sizeof header, text, sizeof text) == 0, "its text");
    printf("taken: header %zu, text %zu, counted %zu\n",
           answer[2], answer[3], answer[4]);

    line[3] ^= 1; /* one bit of the inner start, behind the header */
    memset(out, 0xEE, sizeof out);
    number = corridor_read_block(CORRIDOR_MATRIX, CORRIDOR_EVEN, CORRIDOR_KOI7,
                                 line, length, out, sizeof out, answer);
    expect(number == 12 && answer[0] == 3, "a wrong parity is refused");
    expect(out[0] == 0xEE, "the output keeps its bytes");
    printf("damaged: refused %" PRIu32 " at %zu\n", number, answer[0]);
}

/* Under DKOI the byte of ETB is 26, and 16 and 17 are data. */
static void other_code(void)
{
    const uint8_t text[] = {0x16, 0x17};
    const uint8_t sent[] = {0x02, 0x16, 0x17, 0x26};
    uint8_t line[CORRIDOR_LONGEST_PLAIN(0, sizeof text)];
    uint8_t out[sizeof text];
    size_t length;
    size_t answer[5];

    uint32_t number = corridor_write_block(
        CORRIDOR_CYCLIC, CORRIDOR_EVEN, CORRIDOR_DKOI, CORRIDOR_TEXT,
        CORRIDOR_ETB, text, 0, text, sizeof text, line, sizeof line, &length);
    expect(number == 0, "the block is written under DKOI");
    if (number != 0)
        return;
    expect(memcmp(line, sent, sizeof sent) == 0, "its signs");
    print_bytes("under DKOI", line, length);

    number = corridor_read_block(CORRIDOR_CYCLIC, CORRIDOR_EVEN, CORRIDOR_DKOI,
                                 line, length, out, sizeof out, answer);
    expect(number == 0 && answer[1] == CORRIDOR_ETB, "it is taken");
    expect(memcmp(out, text, sizeof text) == 0, "its text");

    number = corridor_read_block(CORRIDOR_MATRIX, CORRIDOR_EVEN, CORRIDOR_DKOI,
                                 line, length, out, sizeof out, answer);
    expect(number == 58, "the matrix carries KOI-7 alone");
}

/* Two bytes FF, which are 16 bits, take 54 bits under the 16-bit check. */
static void frame(void)
{
    const uint8_t content[] = {0xFF, 0xFF};
    uint8_t lent[CORRIDOR_FRAME_BYTES(CORRIDOR_LONGEST_FRAME_16(8 * sizeof content))];
    uint8_t out[sizeof content];
    size_t bits;
    size_t claimed;

    uint32_t number = corridor_write_frame(CORRIDOR_FRAME_16,
                                           8 * sizeof content, content,
                                           sizeof content, lent, sizeof lent,
                                           &bits);
    expect(number == 0, "the frame is written");
    expect(bits == CORRIDOR_LONGEST_FRAME_16(8 * sizeof content),
           "the longest");
    if (number != 0)
        return;
    print_bytes("frame", lent, CORRIDOR_FRAME_BYTES(bits));

    number = corridor_read_frame(CORRIDOR_FRAME_16, bits, lent, sizeof lent,
                                 out, sizeof out, &claimed);
    expect(number == 0 && claimed == 8 * sizeof content, "the frame is taken");
    expect(memcmp(out, content, sizeof content) == 0, "its content");

    number = corridor_read_frame(CORRIDOR_FRAME_16, bits, lent, sizeof lent,
                                 out, 1, &claimed);
    expect(number == 38 && claimed == 2, "a short output names what it needs");
}

/* A content of 9 bits: the seven high bits of its second byte are ignored, and
 * zero where it is read. */
static void frame_inside_a_byte(void)
{
    const uint8_t content[] = {0x41, 0xFF};
    uint8_t lent[CORRIDOR_FRAME_BYTES(CORRIDOR_LONGEST_FRAME_32(9))];
    uint8_t out[CORRIDOR_FRAME_BYTES(9)];
    size_t bits;
    size_t claimed;

    uint32_t number = corridor_write_frame(CORRIDOR_FRAME_32, 9, content,
                                           sizeof content, lent, sizeof lent,
                                           &bits);
    expect(number == 0, "the frame is written");
    if (number != 0)
        return;
    print_bytes("frame of 9 bits", lent, CORRIDOR_FRAME_BYTES(bits));

    number = corridor_read_frame(CORRIDOR_FRAME_32, bits, lent, sizeof lent,
                                 out, sizeof out, &claimed);
    expect(number == 0 && claimed == 9, "the frame is taken");
    expect(out[0] == 0x41 && out[1] == 0x01, "its content, no spare bit set");

    number = corridor_write_frame(CORRIDOR_FRAME_32, 17, content,
                                  sizeof content, lent, sizeof lent, &bits);
    expect(number == 66, "two bytes hold 16 bits");
}

/* Modulus 8, window 2: the awaited number is new, each of the two before it a
 * repeat, and any other shows that blocks were lost. */
static void numbers(void)
{
    uint8_t answer[2];

    expect(corridor_receive(3, 2, 2, 2, answer) == 0, "the number is judged");
    expect(answer[0] == CORRIDOR_NEW && answer[1] == 3, "it is new");
    expect(corridor_receive(3, 2, 2, 0, answer) == 0, "the number is judged");
    expect(answer[0] == CORRIDOR_REPEAT && answer[1] == 2, "it is a repeat");
    expect(corridor_receive(3, 2, 2, 7, answer) == 0, "the number is judged");
    expect(answer[0] == CORRIDOR_LOST && answer[1] == 2, "blocks were lost");
    expect(corridor_receive(3, 8, 2, 2, answer) == 51, "w is out of range");
    printf("numbers: new, repeat, lost, refused 51\n");
}

/* Modulus 8, window 2: two blocks are kept, a third has to wait until one of
 * them is acknowledged. */
static void sender(void)
{
    static uint8_t store[2 * CORRIDOR_CELL];
    const uint8_t list[] = {'7', 'B', ' ', '1', '2'};
    corridor_station station = {0};
    size_t value;

    for (size_t number = 0; number < 2; number++) {
        expect(corridor_submit(3, 2, &station, store, sizeof store, list,
                               sizeof list, &value) == 0, "it is stored");
        expect(value == number, "its number");
    }
    expect(memcmp(store + CORRIDOR_CELL, list, sizeof list) == 0, "its bytes");
    expect(corridor_submit(3, 2, &station, store, sizeof store, list,
                           sizeof list, &value) == 55, "two are kept");
    expect(corridor_acknowledge(3, 2, &station, store, sizeof store, 0,
                                &value) == 0 && value == 1, "one is freed");
    expect(corridor_submit(3, 2, &station, store, sizeof store, list,
                           sizeof list, &value) == 0, "there is room");
    expect(value == 2, "the next number");
    printf("sender: 0, 1, refused 55, 1 freed, 2\n");
}

/* Rows of 3: AB1, CD2 and EF; two damaged bytes of the line do not stand side
 * by side in the text. */
static void interleaving(void)
{
    const uint8_t list[] = {'A', 'B', '1', 'C', 'D', '2', 'E', 'F'};
    uint8_t line[sizeof list];
    uint8_t text[sizeof list];

    expect(corridor_interleave(3, list, sizeof list, line, sizeof line) == 0,
           "it is interleaved");
    expect(memcmp(line, "ACEBDF12", sizeof line) == 0, "column by column");
    line[2] = line[3] = '?';
    expect(corridor_deinterleave(3, line, sizeof line, text, sizeof text) == 0,
           "and back");
    expect(memcmp(text, "A?1CD2?F", sizeof text) == 0, "one of two is spared");
    expect(corridor_interleave(0, list, sizeof list, line, 0) == 59, "no row");
    expect(corridor_interleave(3, list, sizeof list, line, 7) == 60, "short");
    printf("interleaved: %.8s, refused 59, 60\n", (const char *)text);
}

/* Modulus 8, window 2: two submissions of 5 and of 4,096 bytes, of which the
 * second is refused, number 0 acknowledged, number 0 received. */
static void replay(void)
{
    static uint8_t store[2 * CORRIDOR_CELL];
    uint8_t trace[4 * CORRIDOR_RECORD] = {
        [0 * CORRIDOR_RECORD] = 1, [0 * CORRIDOR_RECORD + 3] = 5,
        [1 * CORRIDOR_RECORD] = 1, [1 * CORRIDOR_RECORD + 2] = 0x10,
        [2 * CORRIDOR_RECORD] = 2,
        [3 * CORRIDOR_RECORD] = 3, [3 * CORRIDOR_RECORD + 15] = 0x5A,
    };
    corridor_station station = {0};
    uint8_t c = 0;
    uint8_t notes[CORRIDOR_NOTES];
    size_t value;

    expect(corridor_replay_service(3, 2, trace, sizeof trace, store,
                                   sizeof store, &station, &c, notes,
                                   &value) == 0, "it is replayed");
    expect(station.next == 1 && station.stored == 0, "its record");
    expect(station.cell == 1 && station.lengths[0] == 5, "its ring");
    expect(c == 1 && notes[0] == 0 && notes[11] == 0x5A, "c and the notes");
    trace[2 * CORRIDOR_RECORD] = 4;
    expect(corridor_replay_panel(3, 2, trace, sizeof trace, store,
                                 sizeof store, &station, &c, &value) == 62,
           "an unknown event");
    expect(value == 2 && c == 1, "its index, and c is as it was");
    printf("replay: 1 submitted, 1 freed, 1 awaited, refused 62 at 2\n");
}

/* The check of a fixed heading and a daily list, from those of both. */
static void joined(void)
{
    const uint8_t whole[] = {'L', 'I', 'S', 'T', ' ', '7', 'B', ' ', '1', '2'};
    const size_t heading = 5;
    const size_t list = sizeof whole - heading;
    size_t value;

    expect(corridor_join_3(corridor_check_3(whole, heading), heading,
                           corridor_check_3(whole + heading, list), list,
                           &value) == 0, "both are joined");
    expect(value == corridor_check_3(whole, sizeof whole), "check 3, joined");
    expect(corridor_join_6(corridor_check_6(whole, heading), heading,
                           corridor_check_6(whole + heading, list), list,
                           &value) == 0, "both are joined");
    expect(value == corridor_check_6(whole, sizeof whole), "check 6, joined");
    expect(corridor_join_3(0, SIZE_MAX, 0, 1, &value) == 63, "too long");
    printf("joined: %08zX, refused 63\n", (size_t)corridor_check_6(whole, sizeof whole));
}

/* A fixed block of degree 16, there and back; a changed bit is found. */
static void fixed_block(void)
{
    const uint8_t content[] = {'1'};
    uint8_t block[3];
    uint8_t out[1];
    size_t length;

    uint32_t number = corridor_write_fixed(CORRIDOR_DEGREE_16, content,
                                           sizeof content, block, sizeof block,
                                           &length);
    expect(number == 0 && length == sizeof block, "the block is written");
    expect(block[1] == 0xB7 && block[2] == 0x1A, "its check");
    number = corridor_read_fixed(CORRIDOR_DEGREE_16, block, sizeof block, out,
                                 sizeof out, &length);
    expect(number == 0 && length == 1 && out[0] == '1', "the block is taken");
    print_bytes("fixed block", block, sizeof block);
    block[2] ^= 0x80;
    expect(corridor_read_fixed(CORRIDOR_DEGREE_16, block, sizeof block, out,
                               sizeof out, &length) == 18, "it is refused");
}

int main(void)
{
    const uint8_t digits[] = {'1', '2', '3', '4', '5', '6', '7', '8', '9'};

    block();
    other_code();
    frame();
    frame_inside_a_byte();
    numbers();
    sender();
    interleaving();
    replay();
    joined();
    fixed_block();
    expect(corridor_check_3(digits, sizeof digits) == 0x906E, "check 3");
    expect(corridor_check_6(digits, sizeof digits) == 0xCBF43926, "check 6");
    return failures == 0 ? 0 : 1;
}
