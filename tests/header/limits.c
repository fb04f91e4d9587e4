/*
 * The limits of corridor.h: each is a constant, and the library keeps to it.
 * What has just that length is taken, and what has one more is refused by its
 * number. C99 and C++17.
 */
#include <corridor.h>

#include <inttypes.h>
#include <stdio.h>
#include <string.h>

/* Constants, or this does not compile. */
enum {
    PLAIN = CORRIDOR_LONGEST_PLAIN(2, 7),
    CLEAR = CORRIDOR_LONGEST_CLEAR(3),
    HEADER_CLEAR = CORRIDOR_LONGEST_HEADER_CLEAR(2, 3),
    FRAME_16 = CORRIDOR_LONGEST_FRAME_16(16),
    FRAME_32 = CORRIDOR_LONGEST_FRAME_32(16),
    STORED = CORRIDOR_LONGEST_CLEAR(CORRIDOR_LONGEST_STORED),
    LONG = CORRIDOR_LONGEST_CONTENT_32 + 1,
    ROOM = CORRIDOR_FRAME_BYTES(CORRIDOR_LONGEST_FRAME_32(LONG))
};

static uint8_t input[CORRIDOR_FRAME_BYTES(LONG)];
static uint8_t out[ROOM];
static uint8_t store[2 * CORRIDOR_CELL];
static size_t tried;
static size_t failures;

static void expect(const char *what, uint32_t number, uint32_t due)
{
    tried++;
    if (number != due) {
        fprintf(stderr, "limits: %s: %" PRIu32 ", not %" PRIu32 "\n", what,
                number, due);
        failures++;
    }
}

static void expect_length(const char *what, size_t length, size_t due)
{
    expect(what, (uint32_t)length, (uint32_t)due);
}

static uint32_t write_text(uint8_t shape, const uint8_t *text, size_t length,
                           size_t room, size_t *value)
{
    return corridor_write_block(CORRIDOR_CYCLIC, CORRIDOR_EVEN, CORRIDOR_KOI7,
                                shape, CORRIDOR_ETX, text, 0, text, length,
                                out, room, value);
}

static void blocks(void)
{
    const uint8_t dle[] = {0x10, 0x10, 0x10};
    size_t answer[5];
    size_t value;

    memset(input, 'A', sizeof input);
    expect("a line", corridor_read_block(CORRIDOR_CYCLIC, CORRIDOR_EVEN,
           CORRIDOR_KOI7, input, CORRIDOR_LONGEST_LINE, out, sizeof out,
           answer), 13);
    expect("a line, longer", corridor_read_block(CORRIDOR_CYCLIC,
           CORRIDOR_EVEN, CORRIDOR_KOI7, input, CORRIDOR_LONGEST_LINE + 1, out,
           sizeof out, answer), 11);
    expect("a count", write_text(CORRIDOR_TEXT, input,
           CORRIDOR_LONGEST_COUNT - 1, sizeof out, &value), 0);
    expect("a count, longer", write_text(CORRIDOR_TEXT, input,
           CORRIDOR_LONGEST_COUNT, sizeof out, &value), 5);
    expect("plain text", write_text(CORRIDOR_TEXT, input, 7,
           CORRIDOR_LONGEST_PLAIN(0, 7), &value), 0);
    expect("clear text", write_text(CORRIDOR_CLEAR_TEXT, dle, sizeof dle,
           CLEAR, &value), 0);
    expect_length("clear text", value, CLEAR);
    expect("header and clear text", corridor_write_block(CORRIDOR_CYCLIC,
           CORRIDOR_EVEN, CORRIDOR_KOI7, CORRIDOR_HEADER_CLEAR_TEXT,
           CORRIDOR_ETX, input, 2, dle, sizeof dle, out, HEADER_CLEAR,
           &value), 0);
    expect_length("header and clear text", value, HEADER_CLEAR);
    expect("header and text", corridor_write_block(CORRIDOR_CYCLIC,
           CORRIDOR_EVEN, CORRIDOR_KOI7, CORRIDOR_HEADER_TEXT, CORRIDOR_ETX,
           input, 2, input, 7, out, PLAIN, &value), 0);
    expect_length("header and text", value, PLAIN);
}

/* Writes a content of so many bits, and reads it back. */
static void content(uint8_t method, size_t longest)
{
    static uint8_t back[sizeof input];
    size_t bits;
    size_t value;

    expect("a content", corridor_write_frame(method, longest, input,
           sizeof input, out, sizeof out, &bits), 0);
    expect("its frame", corridor_read_frame(method, bits, out, sizeof out,
           back, CORRIDOR_FRAME_BYTES(longest), &value), 0);
    expect_length("its bits", value, longest);
    expect("the same, longer", corridor_write_frame(method, longest + 1, input,
           sizeof input, out, sizeof out, &bits), 22);
}

static void frames(void)
{
    const uint8_t ones[] = {0xFF, 0xFF};
    size_t value;

    content(CORRIDOR_FRAME_16, CORRIDOR_LONGEST_CONTENT_16);
    content(CORRIDOR_FRAME_32, CORRIDOR_LONGEST_CONTENT_32);
    expect("a frame of method 5", corridor_write_frame(CORRIDOR_FRAME_16, 16,
           ones, sizeof ones, out, CORRIDOR_FRAME_BYTES(FRAME_16), &value), 0);
    expect_length("its bits", value, FRAME_16);
    expect("a frame of method 6", corridor_write_frame(CORRIDOR_FRAME_32, 16,
           ones, sizeof ones, out, CORRIDOR_FRAME_BYTES(FRAME_32), &value), 0);
}

static void fixed_block(uint8_t degree, size_t longest)
{
    const size_t content = longest - degree / 8;
    size_t value;

    expect("a fixed block", corridor_write_fixed(degree, input, content, out,
           longest, &value), 0);
    expect_length("its bytes", value, longest);
    expect("the same, longer", corridor_write_fixed(degree, input, content + 1,
           out, sizeof out, &value), 65);
}

static void stations(void)
{
    corridor_station station;
    size_t value;

    memset(&station, 0, sizeof station);
    expect("a store", corridor_submit(3, 2, &station, store, sizeof store - 1,
           input, 1, &value), 6);
    expect_length("its bytes", value, 2 * CORRIDOR_CELL);
    expect("a block", corridor_submit(3, 2, &station, store, sizeof store,
           input, CORRIDOR_LONGEST_STORED, &value), 0);
    expect("a block, longer", corridor_submit(3, 2, &station, store,
           sizeof store, input, CORRIDOR_LONGEST_STORED + 1, &value), 57);
}

/* The longest block that is stored, of DLE alone, is sent and received. */
static void both_stations(void)
{
    const corridor_receiver fresh = {3, 2, 0, 0, 0, 0};
    static uint8_t dle[CORRIDOR_LONGEST_STORED];
    static uint8_t back[CORRIDOR_LONGEST_STORED];
    corridor_receiver receiver = fresh;
    corridor_station station;
    size_t answer[6];
    size_t value;

    memset(dle, 0x10, sizeof dle);
    memset(&station, 0, sizeof station);
    expect("an order", corridor_order(3, 2, &station, CORRIDOR_CYCLIC,
           &value), 0);
    expect("told", corridor_tell_order(&receiver, (uint8_t)value,
           CORRIDOR_CYCLIC), 0);
    expect("a block of DLE", corridor_submit(3, 2, &station, store,
           sizeof store, dle, sizeof dle, &value), 0);
    expect("its line", corridor_send(3, 2, &station, store, sizeof store, 0,
           out, STORED, &value), 0);
    expect_length("its bytes", value, STORED);
    expect("in less room", corridor_send(3, 2, &station, store, sizeof store,
           0, out, STORED - 1, &value), 6);
    expect("received", corridor_tell_block(&receiver, 0, out, STORED, back,
           sizeof back, answer), 0);
    expect_length("as new", answer[0], CORRIDOR_NEW);
    expect_length("its text", answer[4], CORRIDOR_LONGEST_STORED);
    expect("as it was", memcmp(dle, back, sizeof dle) != 0, 0);
}

static void traces(void)
{
    corridor_station station;
    uint8_t trace[CORRIDOR_RECORD] = {3};
    uint8_t notes[CORRIDOR_NOTES];
    uint8_t c;
    size_t value;

    trace[CORRIDOR_RECORD - 1] = 0x5A;
    expect("a record", corridor_replay_service(3, 2, trace, sizeof trace,
           store, sizeof store, &station, &c, notes, &value), 0);
    expect("its notes", notes[CORRIDOR_NOTES - 1], 0x5A);
    expect("a part of a record", corridor_replay_service(3, 2, trace,
           sizeof trace - 1, store, sizeof store, &station, &c, notes,
           &value), 61);
}

int main(void)
{
    blocks();
    frames();
    fixed_block(CORRIDOR_DEGREE_8, CORRIDOR_LONGEST_FIXED_8);
    fixed_block(CORRIDOR_DEGREE_16, CORRIDOR_LONGEST_FIXED_16);
    fixed_block(CORRIDOR_DEGREE_24, CORRIDOR_LONGEST_FIXED_24);
    stations();
    both_stations();
    traces();
    printf("limits: %zu answers, all as they should be: %s\n", tried,
           failures == 0 ? "yes" : "no");
    return failures == 0 ? 0 : 1;
}
