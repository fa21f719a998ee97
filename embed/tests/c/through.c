/* Goes through lots and pending messages, and holds what it meets against single readings. Prints a line for each record with what was met; a
 * line that begins with `wrong` names a test that failed, and then the status is 1. */
#include "lots.h"
#include <stdio.h>
#include <string.h>

enum { MOST = 200 };

static uint8_t record[LOTS_RECORD_SIZE];
static int wrong;

#define TEST(holds) test(holds, #holds, __LINE__)

static void test(int holds, const char *what, int line)
{
    if (holds)
        return;
    printf("wrong, line %d: %s\n", line, what);
    wrong = 1;
}

static int lot_is(struct lots_lot lot, uint8_t seat, uint8_t state, uint64_t number, uint8_t vector)
{
    return lot.seat == seat && lot.state == state && lot.number == number && lot.vector == vector;
}

/* Below, at or above 0 as the first of two messages is smaller, the same or larger. */
static int compare(struct lots_message one, struct lots_message other)
{
    const int differences[] = {one.kind - other.kind, one.to - other.to, one.about - other.about, one.level - other.level, one.side - other.side};
    size_t i;

    for (i = 0; i < sizeof differences / sizeof differences[0]; i++)
        if (differences[i] != 0)
            return differences[i];
    return 0;
}

static int is_none(struct lots_message m)
{
    const struct lots_message none = {0, 0, 0, 0, 0};

    return compare(m, none) == 0;
}

/* Bytes that are no record: every step is refused, and what it gives is 0. */
static void no_record(uint8_t *bytes, size_t length, uint8_t refusal)
{
    const struct lots_lot any_lot = {9, 9, 9, 9};
    const struct lots_message any = {9, 9, 9, 9, 9}, largest = {255, 255, 255, 255, 255};
    struct lots_lot lot;
    struct lots_message m = any;
    int seat;

    for (seat = 0; seat <= UINT8_MAX; seat++) {
        lot = any_lot;
        TEST(lots_next_lot(bytes, length, (uint8_t)seat, &lot) == refusal && lot_is(lot, 0, 0, 0, 0));
        lot = any_lot;
        TEST(lots_next_taken(bytes, length, (uint8_t)seat, &lot) == refusal && lot_is(lot, 0, 0, 0, 0));
    }
    TEST(lots_first_message(bytes, length, &m) == refusal && is_none(m));
    m = any;
    TEST(lots_following_message(bytes, length, &m) == refusal && is_none(m));
    m = largest;
    TEST(lots_following_message(bytes, length, &m) == refusal && is_none(m));
    TEST(lots_deliver_message(bytes, length, any) == refusal);
    printf("refused with %d, %s\n", refusal, lots_refusal_text(refusal));
}

/* The first seat, not below the given one, whose lot a single reading shows, of those that are wanted. */
static struct lots_lot read_singly(int seat, int reserved_too)
{
    struct lots_lot lot = {LOTS_NO_SEAT, LOTS_STATE_FREE, 0, 0};

    for (; seat < LOTS_SEATS; seat++)
        if (lots_read_lot(record, sizeof record, (uint8_t)seat, &lot.state, &lot.number, &lot.vector) == 0
            && (reserved_too || lot.state != LOTS_STATE_RESERVED)) {
            lot.seat = (uint8_t)seat;
            return lot;
        }
    lot.state = LOTS_STATE_FREE;
    lot.number = lot.vector = 0;
    return lot;
}

/* From every number on; then the loop over the seated lots: how many there are. */
static int lots(void)
{
    struct lots_lot lot, single;
    uint8_t refusal;
    int from, seated = 0;

    for (from = 0; from <= UINT8_MAX; from++) {
        single = read_singly(from, 1);
        TEST(lots_next_taken(record, sizeof record, (uint8_t)from, &lot) == 0);
        TEST(lot_is(lot, single.seat, single.state, single.number, single.vector));
        single = read_singly(from, 0);
        TEST(lots_next_lot(record, sizeof record, (uint8_t)from, &lot) == 0);
        TEST(lot_is(lot, single.seat, single.state, single.number, single.vector));
    }
    for (refusal = lots_next_lot(record, sizeof record, 0, &lot); lot.state != LOTS_STATE_FREE;
         refusal = lots_next_lot(record, sizeof record, lot.seat + 1, &lot))
        seated++;
    TEST(refusal == 0);
    return seated;
}

/* The loop over the pending messages: ascending, each pending, and none is left out. */
static int messages(struct lots_message list[MOST])
{
    struct lots_message m;
    uint8_t refusal, is_pending, seated, phase;
    uint32_t pending;
    int count = 0;

    for (refusal = lots_first_message(record, sizeof record, &m); m.kind != 0 && count < MOST;
         refusal = lots_following_message(record, sizeof record, &m)) {
        TEST(lots_read_message(record, sizeof record, m.kind, m.to, m.about, m.level, m.side, &is_pending) == 0 && is_pending == 1);
        TEST(count == 0 || compare(list[count - 1], m) < 0);
        list[count++] = m;
    }
    TEST(refusal == 0 && is_none(m));
    TEST(lots_read_counts(record, sizeof record, &seated, &phase, &pending) == 0 && pending == (uint32_t)count);
    return count;
}

/* From any five numbers on, the first larger one of the list. */
static void following(const struct lots_message list[MOST], int count)
{
    static const uint8_t values[] = {0, 1, 2, 5, 63, 64, 254, 255};
    enum { VALUES = sizeof values / sizeof values[0] };
    int i, j;

    for (i = 0; i < VALUES * VALUES * VALUES * VALUES * VALUES; i++) {
        const struct lots_message from = {values[i % VALUES], values[i / VALUES % VALUES], values[i / VALUES / VALUES % VALUES],
                                          values[i / VALUES / VALUES / VALUES % VALUES], values[i / VALUES / VALUES / VALUES / VALUES]};
        struct lots_message m = from;

        for (j = 0; j < count && compare(list[j], from) <= 0;)
            j++;
        TEST(lots_following_message(record, sizeof record, &m) == 0);
        TEST(j < count ? compare(m, list[j]) == 0 : is_none(m));
    }
}

/* A delivery of a message is that of its numbers; what is not pending is refused, and changes nothing. */
static void deliveries(const struct lots_message list[MOST], int count)
{
    static uint8_t before[LOTS_RECORD_SIZE], singly[LOTS_RECORD_SIZE];
    const struct lots_message no_message = {8, 0, 1, 0, 0};
    int i;

    memcpy(before, record, sizeof record);
    TEST(lots_deliver_message(record, sizeof record, no_message) == LOTS_NO_SUCH_MESSAGE);
    TEST(memcmp(before, record, sizeof record) == 0);
    for (i = 0; i < count; i++) {
        const struct lots_message m = list[i];

        memcpy(singly, before, sizeof singly);
        TEST(lots_deliver(singly, sizeof singly, m.kind, m.to, m.about, m.level, m.side) == 0);
        TEST(lots_deliver_message(record, sizeof record, m) == 0);
        TEST(memcmp(singly, record, sizeof record) == 0 && memcmp(before, record, sizeof record) != 0);
        memcpy(record, before, sizeof record);
    }
}

/* All of it on the record as it is, which the readings leave as it was. */
static void through(const char *what)
{
    static uint8_t before[LOTS_RECORD_SIZE];
    static struct lots_message list[MOST];
    int seated, count;

    memcpy(before, record, sizeof record);
    seated = lots();
    count = messages(list);
    following(list, count);
    TEST(memcmp(before, record, sizeof record) == 0);
    deliveries(list, count);
    printf("%s: %d seated, %d pending\n", what, seated, count);
}

/* Delivers the first message until none is pending. */
static void deliver_all(void)
{
    struct lots_message m;
    uint8_t refusal = lots_first_message(record, sizeof record, &m);

    while (refusal == 0 && m.kind != 0) {
        refusal = lots_deliver_message(record, sizeof record, m);
        refusal |= lots_first_message(record, sizeof record, &m);
    }
    TEST(refusal == 0);
}

int main(void)
{
    memset(record, 0, sizeof record);
    no_record(record, sizeof record, LOTS_UNSOUND);
    TEST(lots_open(record, sizeof record) == 0);
    no_record(record, sizeof record - 1, LOTS_WRONG_SIZE);
    through("opened");
    TEST(lots_reserve(record, sizeof record, 0, 50, 0) == 0);
    TEST(lots_reserve(record, sizeof record, 63, 60, 0) == 0);
    through("reserved on the first and the last seat");
    TEST(lots_give_back(record, sizeof record, 0) == 0);
    TEST(lots_give_back(record, sizeof record, 63) == 0);
    TEST(lots_join(record, sizeof record, 0, 100, 0x00, LOTS_NO_SEAT) == 0);
    TEST(lots_join(record, sizeof record, 5, 200, 0x40, 0) == 0);
    TEST(lots_join(record, sizeof record, 63, UINT64_MAX, 0x60, 0) == 0);
    TEST(lots_reserve(record, sizeof record, 1, 300, 0xFF) == 0);
    TEST(lots_reserve(record, sizeof record, 62, 0, 0) == 0);
    through("joined");
    TEST(lots_deliver(record, sizeof record, LOTS_KIND_MEET, 0, 5, 0, 0) == 0);
    TEST(lots_deliver(record, sizeof record, LOTS_KIND_MEET, 0, 63, 0, 0) == 0);
    through("two messages later");
    deliver_all();
    through("delivered");
    /* Messages that differ in the side alone: lot 200 hears of a leaver on each. */
    TEST(lots_leave(record, sizeof record, 0) == 0);
    TEST(lots_leave(record, sizeof record, 63) == 0);
    TEST(lots_turn(record, sizeof record) == 0);
    through("clearing");
    deliver_all();
    TEST(lots_turn(record, sizeof record) == 0);
    through("cleared");
    return wrong;
}
