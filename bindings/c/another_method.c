/*
 * A school moves from method 4 to method 3 while lists are on the way. One
 * program plays both stations and the line between them: a line is delivered
 * at once, lost, or late. It prints what happens, line by line; every answer is
 * checked, and so is that each list arrives as it was submitted. The program
 * ends with 1 where something fails.
 */
#include "corridor.h"

#include <inttypes.h>
#include <stdio.h>
#include <string.h>

/* Numbers run modulo 8, and at most four lists are kept. */
#define N 3
#define W 4

/* The longest list that is sent here. */
#define LONGEST 16

static int failures;

static void expect(int holds, const char *what)
{
    if (!holds) {
        fprintf(stderr, "failed: %s\n", what);
        failures++;
    }
}

/* The sending station, and its lists by number. */
static corridor_station station;
static uint8_t store[W * CORRIDOR_CELL];
static const char *lists[1 << N];

/* The receiving station: fresh, it awaits 0 under method 4. */
static corridor_receiver receiver = {.n = N, .w = W};

static size_t submit(const char *list)
{
    size_t number;
    uint32_t refused = corridor_submit(N, W, &station, store, sizeof store,
                                       (const uint8_t *)list, strlen(list),
                                       &number);
    if (refused != 0) {
        printf("submit   %-10s refused %" PRIu32 "\n", list, refused);
        return refused;
    }
    lists[number] = list;
    printf("submit   %-10s number %zu\n", list, number);
    return number;
}

/* The order is told at once, with the number that it answers. */
static uint32_t order(uint8_t method)
{
    size_t number;
    uint32_t refused = corridor_order(N, W, &station, method, &number);
    if (refused != 0) {
        printf("order    method %d   refused %" PRIu32 "\n", method, refused);
        return refused;
    }
    printf("order    method %d   from number %zu on, %d kept from before it\n",
           method, number, station.older);
    expect(corridor_tell_order(&receiver, (uint8_t)number, method) == 0,
           "the receiver notes what the sender took");
    return 0;
}

/* The method of a line, by the check that it ends with. */
static int method_of(const uint8_t *line, size_t length)
{
    /* Counted are the bytes behind the start, without the first DLE of two
     * and of the end. */
    uint8_t counted[LONGEST + 1];
    size_t count = 0;
    for (size_t place = 2; place < length - 2; place++) {
        if (line[place] == 0x10)
            place++;
        counted[count++] = line[place];
    }
    unsigned check = line[length - 2] | (unsigned)line[length - 1] << 8;
    if (check == corridor_check_3(counted, count))
        return 3;
    return check == corridor_check_4(counted, count) ? 4 : 0;
}

/* Sends a list that is kept; the line arrives or is lost. Tells 1 new, 2
 * repeat, 3 lost, 0 where it did not arrive. */
static size_t send(uint8_t number, int arrives)
{
    uint8_t line[CORRIDOR_LONGEST_CLEAR(LONGEST)];
    uint8_t out[LONGEST];
    size_t length;
    size_t answer[6] = {0};
    expect(corridor_send(N, W, &station, store, sizeof store, number, line,
                         sizeof line, &length) == 0,
           "a list that is kept is sent");
    printf("send     number %d   method %d, %zu bytes", number,
           method_of(line, length), length);
    if (!arrives) {
        printf(": no answer\n");
        return 0;
    }
    expect(corridor_tell_block(&receiver, number, line, length, out,
                               sizeof out, answer) == 0,
           "the line is sound");
    if (answer[0] == 1) {
        expect(answer[4] == strlen(lists[number]) &&
                   memcmp(out, lists[number], answer[4]) == 0,
               "the list arrives as it was submitted");
        printf(": taken \"%.*s\", next is %d\n", (int)answer[4],
               (const char *)out, receiver.c);
    } else {
        printf(": %s, still awaits %d\n", answer[0] == 2 ? "repeat" : "lost",
               receiver.c);
    }
    return answer[0];
}

static size_t acknowledge(uint8_t number)
{
    size_t freed;
    uint32_t refused = corridor_acknowledge(N, W, &station, store,
                                            sizeof store, number, &freed);
    expect(refused == 0, "the acknowledged list was kept");
    printf("received number %d   %zu freed, %d from before the order left\n",
           number, freed, station.older);
    return freed;
}

/* The methods in force on both sides, 0 and 4 being one. */
static int in_force(uint8_t method)
{
    return method == 0 ? 4 : method;
}

int main(void)
{
    printf("a school moves from method 4 to method 3\n");
    expect(submit("7B room 12") == 0, "numbers start at 0");
    expect(submit("8A room 3") == 1, "and run on");
    expect(send(0, 1) == 1, "the first list is taken");
    expect(send(1, 0) == 0, "the second is lost on the way");

    /* List 1 is not received yet, and 0 not acknowledged: both stay under 4. */
    expect(order(3) == 0, "the sender takes the order");
    expect(in_force(receiver.method) == 4 && receiver.waiting == 3,
           "the receiver waits with it");
    expect(submit("9C gym") == 2, "the next list has the order's number");
    expect(order(4) == 67, "a second order has to wait");

    /* Behind a lost list nothing is read. Sent again, it comes under 4, and
     * the next under 3. */
    expect(send(2, 1) == 3, "list 2 shows that 1 was lost");
    expect(send(1, 1) == 1, "list 1 is taken under its old method");
    expect(receiver.method == 3 && receiver.waiting == 0,
           "the receiver changes once it awaits the order's number");
    expect(send(1, 1) == 2, "a repeat of an old list is told by its number");
    expect(send(2, 1) == 1, "list 2 is taken under the new method");

    expect(acknowledge(1) == 2, "two lists are freed");
    expect(station.older == 0, "none of before the order is left");
    expect(order(4) == 0, "now another order is taken");
    expect(submit("hall shut") == 3, "numbers run on unbroken");
    expect(send(3, 1) == 1, "and its list is taken under method 4");
    expect(in_force(receiver.method) == 4, "both are back at method 4");
    expect(acknowledge(3) == 2, "all lists are freed");
    expect(station.stored == 0 && receiver.c == station.next,
           "nothing is on the way");
    printf(failures == 0 ? "every list arrived as it was submitted\n"
                         : "something failed\n");
    return failures != 0;
}
