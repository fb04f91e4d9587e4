/* Orders of another method, and the blocks sent and told under them. */
#include "plain.h"
#include <string.h>

static uint8_t in_force(uint8_t kept)
{
    return kept == 0 ? 4 : kept;
}

uint32_t plain_order(uint8_t n, uint8_t w, corridor_station *station,
                     uint8_t method, size_t *value)
{
    *value = 0;
    if (method != 3 && method != 4)
        return 1;
    uint32_t refusal = sender_asked(n, w, station, SIZE_MAX, value);
    if (refusal != 0)
        return refusal;
    if (station->older != 0)
        return 67;
    *value = station->next;
    station->former = station->method;
    station->method = method;
    station->older = station->stored;
    return 0;
}

uint32_t plain_send(uint8_t n, uint8_t w, const corridor_station *station,
                    const uint8_t *store, size_t store_length, uint8_t number,
                    uint8_t *out, size_t out_length, size_t *value)
{
    uint32_t refusal = sender_asked(n, w, station, store_length, value);
    if (refusal != 0)
        return refusal;
    unsigned mask = (1u << n) - 1;
    unsigned after = (station->next - 1u - number) & mask;
    if (number > mask || after >= station->stored)
        return 56;
    unsigned back = after + 1;
    unsigned cell = station->cell + (station->cell < back ? w : 0u) - back;
    uint8_t kept = after >= (unsigned)(station->stored - station->older)
                       ? station->former
                       : station->method;
    return plain_write_block(in_force(kept), CORRIDOR_EVEN, CORRIDOR_KOI7,
                             CORRIDOR_CLEAR_TEXT, CORRIDOR_ETX, store, 0,
                             store + (size_t)cell * CORRIDOR_CELL,
                             station->lengths[cell], out, out_length, value);
}

/* Questions 41, 51, 42 and 43 of a receiver, and the verdict. */
static uint32_t judged(const corridor_receiver *receiver, uint8_t number,
                       uint8_t answer[2])
{
    uint8_t n = receiver->n;
    if (n < 1 || n > 7)
        return 41;
    unsigned method = receiver->method, waiting = receiver->waiting;
    if ((method != 0 && method != 3 && method != 4) ||
        (waiting != 0 && waiting != 3 && waiting != 4))
        return 51;
    if (waiting != 0 &&
        (receiver->number >> n != 0 || receiver->number == receiver->c))
        return 51;
    return plain_receive(n, receiver->w, receiver->c, number, answer);
}

/* The method changes once c is the order's number. */
static void change(corridor_receiver *receiver)
{
    if (receiver->waiting != 0 && receiver->number == receiver->c) {
        receiver->method = receiver->waiting;
        receiver->waiting = 0;
        receiver->number = 0;
    }
}

uint32_t plain_tell_order(corridor_receiver *receiver, uint8_t number,
                          uint8_t method)
{
    uint8_t answer[2];
    if (method != 3 && method != 4)
        return 1;
    uint32_t refusal = judged(receiver, number, answer);
    if (refusal != 0)
        return refusal;
    if (receiver->waiting != 0)
        return 67;
    receiver->waiting = method;
    receiver->number = number;
    change(receiver);
    return 0;
}

uint32_t plain_tell_block(corridor_receiver *receiver, uint8_t number,
                          const uint8_t *line, size_t line_length,
                          uint8_t *out, size_t out_length, size_t answer[6])
{
    uint8_t verdict[2];
    memset(answer, 0, 6 * sizeof *answer);
    uint32_t refusal = judged(receiver, number, verdict);
    if (refusal != 0)
        return refusal;
    if (verdict[0] != 1) {
        answer[0] = verdict[0];
        return 0;
    }
    refusal = plain_read_block(in_force(receiver->method), CORRIDOR_EVEN,
                               CORRIDOR_KOI7, line, line_length, out,
                               out_length, answer + 1);
    if (refusal != 0)
        return refusal;
    answer[0] = 1;
    receiver->c = verdict[1];
    change(receiver);
    return 0;
}
