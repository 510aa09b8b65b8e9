/* Buffers for tests: an access outside a buffer ends the program or shows in the bytes kept beside it. */
#ifndef ROOMS_H
#define ROOMS_H

#define _DEFAULT_SOURCE
#include <stddef.h>
#include <stdint.h>
#include <stdio.h>
#include <stdlib.h>
#include <string.h>
#include <sys/mman.h>

/* The size of a page of memory on x86-64. */
#define PAGE 4096u

/* How many bytes beside a buffer are checked after a call. */
#define BESIDE 64u

/* The value of those bytes. */
#define KEPT 0xA5

/* Pages between two that can't be touched. */
struct room {
    uint8_t *pages;
    size_t size;
};

/* A buffer at the start or at the end of a room. */
struct buffer {
    struct room *room;
    uint8_t *bytes;
    size_t len;
};

/* Makes a room for so many bytes. */
static inline struct room make_room(size_t bytes)
{
    size_t size = (bytes + BESIDE + PAGE - 1) / PAGE * PAGE;
    uint8_t *all = mmap(0, size + 2 * PAGE, PROT_NONE, MAP_PRIVATE | MAP_ANONYMOUS, -1, 0);
    if (all == MAP_FAILED || mprotect(all + PAGE, size, PROT_READ | PROT_WRITE) != 0) {
        perror("mmap");
        exit(2);
    }
    return (struct room){all + PAGE, size};
}

/* Places a buffer in a room that is large enough, and sets the bytes beside it. */
static inline struct buffer place(struct room *room, size_t len, int at_end)
{
    struct buffer buffer = {room, at_end ? room->pages + room->size - len : room->pages, len};
    memset(at_end ? buffer.bytes - BESIDE : buffer.bytes + len, KEPT, BESIDE);
    return buffer;
}

/* The pointer to lend for a buffer: null for an empty one, if asked. */
static inline uint8_t *lent(const struct buffer *buffer, int null_for_none)
{
    return buffer->len == 0 && null_for_none ? 0 : buffer->bytes;
}

/* Allows or forbids writing to a room. */
static inline void let_write(struct room *room, int write)
{
    if (mprotect(room->pages, room->size, write ? PROT_READ | PROT_WRITE : PROT_READ) != 0) {
        perror("mprotect");
        exit(2);
    }
}

/* Ends the program if a byte beside a buffer has changed. */
static inline void look_beside(const struct buffer *buffer)
{
    const uint8_t *beside = buffer->bytes == buffer->room->pages ? buffer->bytes + buffer->len : buffer->bytes - BESIDE;
    for (size_t n = 0; n < BESIDE; n++)
        if (beside[n] != KEPT) {
            fprintf(stderr, "a byte beside a buffer of %zu was written\n", buffer->len);
            exit(3);
        }
}

#endif
