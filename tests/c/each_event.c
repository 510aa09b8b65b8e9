/* Judges events one by one through the C interface: records of 41 bytes in, answers of 16 bytes out, in the format of
 * tests/each_event. The event ends at a page that can't be touched, and the answers are written over bytes that they must
 * change. */

#include "rooms.h"
#include "korehyumo.h"

/* The most bytes of an event in a record. */
#define EVENT_ROOM 40

int main(void)
{
    struct room event_room = make_room(EVENT_ROOM), sets_room = make_room(7), duties_room = make_room(7);
    uint8_t record[1 + EVENT_ROOM];
    for (unsigned long turn = 0; fread(record, 1, sizeof record, stdin) == sizeof record && record[0] <= EVENT_ROOM; turn++) {
        struct buffer event = place(&event_room, record[0], 1);
        struct buffer sets = place(&sets_room, 7, turn % 2 == 0), duties = place(&duties_room, 7, turn % 2 == 0);
        memcpy(event.bytes, record + 1, event.len);
        memset(sets.bytes, KEPT, 7);
        memset(duties.bytes, KEPT, 7);
        uint64_t result = korehyumo_event(lent(&event, turn % 4 < 2), event.len, sets.bytes, duties.bytes);
        look_beside(&event);
        look_beside(&sets);
        look_beside(&duties);
        if (memcmp(event.bytes, record + 1, event.len) != 0)
            return 3;
        uint8_t outcome[2] = {(uint8_t)korehyumo_number(result), (uint8_t)korehyumo_place(result)};
        if (fwrite(outcome, 1, 2, stdout) != 2 || fwrite(sets.bytes, 1, 7, stdout) != 7 || fwrite(duties.bytes, 1, 7, stdout) != 7)
            return 2;
    }
    return fflush(stdout) == 0 ? 0 : 2;
}
