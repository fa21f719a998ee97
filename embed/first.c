/* Three lots join, all messages are delivered, and the number 250 is scanned. */
#include "lots.h"
#include <stdio.h>

static uint8_t record[LOTS_RECORD_SIZE];

/* Says why a call was refused, if it was. */
static int refused(const char *call, uint8_t refusal)
{
    if (refusal != 0)
        fprintf(stderr, "%s: refused with %d, %s\n", call, refusal, lots_refusal_text(refusal));
    return refusal != 0;
}

int main(void)
{
    struct lots_message message;
    uint8_t holder;
    uint64_t hops;

    /* Seat, number, vector, and the seat of a lot that is there already. */
    if (refused("open", lots_open(record, sizeof record))
        || refused("join", lots_join(record, sizeof record, 0, 100, 0x00, LOTS_NO_SEAT))
        || refused("join", lots_join(record, sizeof record, 1, 200, 0x80, 0))
        || refused("join", lots_join(record, sizeof record, 2, 300, 0x40, 0)))
        return 1;

    /* A delivery may send more, so the first one again and again until none is pending. */
    while (lots_first_message(record, sizeof record, &message) == 0 && message.kind != 0)
        if (refused("deliver", lots_deliver_message(record, sizeof record, message)))
            return 1;

    if (refused("find", lots_find(record, sizeof record, 0, 250, &holder, &hops)))
        return 1;
    if (holder == LOTS_NO_SEAT)
        puts("250 belongs to no lot");
    else
        printf("250 belongs to the lot on seat %d\n", holder);
    return 0;
}
