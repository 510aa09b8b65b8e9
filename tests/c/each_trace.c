/* Judges whole traces one after another through the C interface, in the format of tests/each_trace. The buffers lie between
 * pages that can't be touched, the events and pair numbers can't be written during the call, and half of the cases lend a null
 * pointer for an empty buffer. */

#include "rooms.h"
#include "korehyumo.h"

/* The six buffers of a case. */
enum { EVENTS, PAIRS, TABLE, VERDICTS, DUTIES, AFTERS, PARTS };

/* The most bytes of events in a case: more than a call may have. */
#define EVENTS_ROOM 65536

/* The most elements of the buffers with one for each event, and of the table: twice what a call may have. */
#define EACH_ROOM (2 * KOREHYUMO_MOST_EVENTS)
#define TABLE_ROOM (2 * KOREHYUMO_MOST_PAIRS)

/* The most bytes of each buffer. */
static const size_t most[PARTS] = {EVENTS_ROOM, EACH_ROOM * sizeof(uint16_t), TABLE_ROOM, EACH_ROOM, EACH_ROOM, EACH_ROOM};

/* The 32-bit number at an address, low byte first. */
static size_t number_at(const uint8_t *at)
{
    return at[0] | (size_t)at[1] << 8 | (size_t)at[2] << 16 | (size_t)at[3] << 24;
}

/* Reads exactly so many bytes, and says whether they came. */
static int came(uint8_t *bytes, size_t len)
{
    return fread(bytes, 1, len, stdin) == len;
}

/* Writes so many bytes, or ends the program. */
static void put(const uint8_t *bytes, size_t len)
{
    if (fwrite(bytes, 1, len, stdout) == len)
        return;
    perror("each_trace");
    exit(2);
}

/* Reads a case into the rooms, and says whether a whole one came. */
static int read_case(struct room *rooms, struct buffer *buffers, int at_end)
{
    uint8_t lengths[4 * PARTS];
    if (!came(lengths, sizeof lengths))
        return 0;
    for (int part = 0; part < PARTS; part++) {
        size_t bytes = number_at(lengths + 4 * part) * (part == PAIRS ? 2 : 1);
        if (bytes > most[part])
            return 0;
        buffers[part] = place(&rooms[part], bytes, at_end);
        if (!came(buffers[part].bytes, bytes))
            return 0;
    }
    return 1;
}

/* Turns the bytes of the pair numbers into 16-bit numbers in place. */
static void number_pairs(const struct buffer *pairs)
{
    uint16_t *numbers = (uint16_t *)(void *)pairs->bytes;
    for (size_t k = 0; k < pairs->len / 2; k++)
        numbers[k] = (uint16_t)(pairs->bytes[2 * k] | pairs->bytes[2 * k + 1] << 8);
}

/* Judges a case while the events and pair numbers can't be written. */
static uint64_t judge(struct room *rooms, const struct buffer *buffers, int null_for_none)
{
    const struct buffer *b = buffers;
    int null = null_for_none;
    let_write(&rooms[EVENTS], 0);
    let_write(&rooms[PAIRS], 0);
    const uint16_t *pairs = (const uint16_t *)(void *)lent(&b[PAIRS], null);
    uint64_t result = korehyumo_trace(lent(&b[EVENTS], null), b[EVENTS].len, pairs, b[PAIRS].len / 2,
                                      lent(&b[TABLE], null), b[TABLE].len, lent(&b[VERDICTS], null), b[VERDICTS].len,
                                      lent(&b[DUTIES], null), b[DUTIES].len, lent(&b[AFTERS], null), b[AFTERS].len);
    let_write(&rooms[EVENTS], 1);
    let_write(&rooms[PAIRS], 1);
    return result;
}

/* Writes the answer to a case: the number, the place, and the four buffers after the call. */
static void write_answer(uint64_t result, const struct buffer *buffers)
{
    size_t at = korehyumo_place(result);
    uint8_t outcome[5] = {(uint8_t)korehyumo_number(result), (uint8_t)at, (uint8_t)(at >> 8), (uint8_t)(at >> 16), (uint8_t)(at >> 24)};
    put(outcome, sizeof outcome);
    for (int part = TABLE; part < PARTS; part++) {
        look_beside(&buffers[part]);
        put(buffers[part].bytes, buffers[part].len);
    }
}

int main(void)
{
    struct room rooms[PARTS];
    struct buffer buffers[PARTS];
    for (int part = 0; part < PARTS; part++)
        rooms[part] = make_room(most[part]);
    for (unsigned long turn = 0; read_case(rooms, buffers, turn % 2 == 0); turn++) {
        number_pairs(&buffers[PAIRS]);
        write_answer(judge(rooms, buffers, turn / 2 % 2 == 0), buffers);
    }
    return fflush(stdout) == 0 ? 0 : 2;
}
