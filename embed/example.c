/* Lot 100 opens on a scale. Seats are held for lots 200 and 300 while the vet looks at the animals: 200 is confirmed through 100, 300 is given
 * back. One of their messages is delivered by itself, the others are listed and delivered by the bundle, the smallest first. 250 is scanned too
 * early, while messages are pending, again when none is left, and once more when lot 200 is leaving and may not be printed. Then 300 joins after
 * all, through 200, whose scale dies: 100 and 300 do not know each other, and a scan of 350 sees one of them alone until they are merged. */
#include "lots.h"
#include <inttypes.h>
#include <stdio.h>

static uint8_t record[LOTS_RECORD_SIZE];

/* Prints the number and the term of a refusal. */
static void print_refusal(const char *what, uint8_t refusal)
{
    printf("%s: refused with %d, %s\n", what, refusal, lots_refusal_text(refusal));
}

static void print_lot(struct lots_lot lot)
{
    printf("seat %d: lot %" PRIu64 ", %s\n", lot.seat, lot.number, lots_state_text(lot.state));
}

/* Prints the seated lots. */
static uint8_t print_seated(void)
{
    struct lots_lot lot;
    uint8_t refusals = lots_next_lot(record, sizeof record, 0, &lot);

    for (; lot.state != LOTS_STATE_FREE; refusals |= lots_next_lot(record, sizeof record, lot.seat + 1, &lot))
        print_lot(lot);
    return refusals;
}

/* Prints the reserved lots too. */
static uint8_t print_taken(void)
{
    struct lots_lot lot;
    uint8_t refusals = lots_next_taken(record, sizeof record, 0, &lot);

    for (; lot.state != LOTS_STATE_FREE; refusals |= lots_next_taken(record, sizeof record, lot.seat + 1, &lot))
        print_lot(lot);
    return refusals;
}

/* Prints what is pending, ascending. */
static uint8_t print_pending(void)
{
    struct lots_message m;
    uint8_t refusals = lots_first_message(record, sizeof record, &m);

    for (; m.kind != 0; refusals |= lots_following_message(record, sizeof record, &m))
        printf("pending %s to %d about %d level %d side %d\n", lots_kind_text(m.kind), m.to, m.about, m.level, m.side);
    return refusals;
}

/* Reserves two lots, confirms the first and gives the second back. */
static uint8_t reserve(void)
{
    uint8_t lots, phase;
    uint32_t pending;
    uint8_t refusals = lots_reserve(record, sizeof record, 1, 200, 0x80);

    refusals |= lots_reserve(record, sizeof record, 2, 300, 0x40);
    refusals |= print_taken();
    refusals |= lots_read_counts(record, sizeof record, &lots, &phase, &pending);
    printf("seated %d, phase %s, pending %" PRIu32 "\n", lots, lots_phase_text(phase), pending);
    refusals |= lots_confirm(record, sizeof record, 1, 0);
    refusals |= lots_give_back(record, sizeof record, 2);
    print_refusal("given back twice", lots_give_back(record, sizeof record, 2));
    return refusals;
}

/* Delivers the smallest pending message. */
static uint8_t deliver_first(void)
{
    struct lots_message m;
    uint8_t refusals = lots_first_message(record, sizeof record, &m);

    return refusals | lots_deliver_message(record, sizeof record, m);
}

/* Delivers all messages, a few each time the scale wakes: fewer than it may deliver are the last. */
static uint8_t deliver_all(void)
{
    enum { FEW = 3 };
    uint8_t refusals = 0;
    uint16_t delivered;

    do {
        refusals |= lots_bundle(record, sizeof record, FEW, &delivered);
        printf("delivered %d\n", delivered);
    } while (delivered == FEW);
    return refusals;
}

int main(void)
{
    uint8_t yes, holder;
    uint64_t hops;
    uint8_t refusals = lots_open(record, sizeof record);

    refusals |= lots_join(record, sizeof record, 0, 100, 0x00, LOTS_NO_SEAT);
    refusals |= reserve();
    refusals |= deliver_first();
    refusals |= print_pending();
    print_refusal("scan", lots_find(record, sizeof record, 0, 250, &holder, &hops));
    refusals |= deliver_all();
    refusals |= lots_check(record, sizeof record, &yes);
    refusals |= lots_find(record, sizeof record, 0, 250, &holder, &hops);
    printf("refused %d, skip graph %d, 250 belongs to the lot on seat %d, hops %" PRIu64 "\n", refusals, yes, holder, hops);
    refusals |= lots_leave(record, sizeof record, 1);
    refusals |= print_seated();
    refusals |= lots_find(record, sizeof record, 0, 250, &holder, &hops);
    printf("refused %d, lot 200 is leaving, 250 belongs to the lot on seat %d, hops %" PRIu64 "\n", refusals, holder, hops);
    refusals |= lots_join(record, sizeof record, 2, 300, 0xC0, 1);
    refusals |= deliver_all();
    refusals |= lots_crash(record, sizeof record, UINT64_C(1) << 1);
    refusals |= lots_find(record, sizeof record, 0, 350, &holder, &hops);
    printf("refused %d, lot 200 is gone, 350 belongs to the lot on seat %d, hops %" PRIu64 "\n", refusals, holder, hops);
    print_refusal("merged with itself", lots_merge(record, sizeof record, 0, 0));
    refusals |= lots_merge(record, sizeof record, 0, 2);
    refusals |= deliver_all();
    refusals |= lots_find(record, sizeof record, 0, 350, &holder, &hops);
    printf("refused %d, 100 and 300 are merged, 350 belongs to the lot on seat %d, hops %" PRIu64 "\n", refusals, holder, hops);
    return refusals;
}
