/* Asks questions one by one through the C interface: records of 648 bytes in, answers of 648 bytes out, in the format of
 * tests/each_question. The room lies between pages that can't be touched, at their end and at their start by turns, and every
 * other time an empty room is a null pointer. */

#include "rooms.h"
#include "korehyumo.h"

/* How many bytes of a record stand before those of the room: the question and the length of the room. */
#define FRONT 8

/* The most bytes of a room in a record. */
#define MOST_ROOM 640

/* The length of the room that a record lends. */
static size_t room_len(const uint8_t *record)
{
    size_t len = record[6] | (size_t)record[7] << 8;
    return len < MOST_ROOM ? len : MOST_ROOM;
}

/* Asks the question of a record with this room. */
static uint64_t ask(const uint8_t *record, const struct buffer *room, int null_for_none)
{
    return korehyumo_answers(record[0], record[1], record[2], record[3], record[4], record[5], lent(room, null_for_none), room->len);
}

/* Puts the result over the front of a record, low byte first, and the room after the call over the room. */
static void make_answer(uint8_t *record, uint64_t result, const struct buffer *room)
{
    for (int n = 0; n < FRONT; n++)
        record[n] = (uint8_t)(result >> 8 * n);
    memcpy(record + FRONT, room->bytes, room->len);
}

int main(void)
{
    struct room pages = make_room(MOST_ROOM);
    uint8_t record[FRONT + MOST_ROOM];
    for (unsigned long turn = 0; fread(record, 1, sizeof record, stdin) == sizeof record; turn++) {
        struct buffer room = place(&pages, room_len(record), turn % 2 == 0);
        memcpy(room.bytes, record + FRONT, room.len);
        uint64_t result = ask(record, &room, turn % 4 < 2);
        look_beside(&room);
        make_answer(record, result, &room);
        if (fwrite(record, 1, sizeof record, stdout) != sizeof record)
            return 2;
    }
    return fflush(stdout) == 0 ? 0 : 2;
}
