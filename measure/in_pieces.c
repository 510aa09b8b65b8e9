/* Writes its input to a pipe in pieces, of which each read gets one: in_pieces BYTES <FILE | PROGRAM */

#define _GNU_SOURCE
#include <errno.h>
#include <fcntl.h>
#include <limits.h>
#include <stdio.h>
#include <stdlib.h>
#include <unistd.h>

/* The most bytes that a pipe is asked to hold, so that the two seldom wait for each other; each piece takes a page of them. */
#define PIPE_BYTES (1 << 20)

/* Writes a piece, and tells whether that could be done. */
static int write_piece(const unsigned char *piece, size_t length)
{
    ssize_t went;
    do
        went = write(1, piece, length);
    while (went < 0 && errno == EINTR);
    return went == (ssize_t)length;
}

/* Makes each write a packet of its own; a read with less room than a packet has would lose the rest of it. */
int main(int count, char **words)
{
    static unsigned char piece[PIPE_BUF];
    unsigned long bytes = count == 2 ? strtoul(words[1], 0, 10) : 0;
    if (bytes < 1 || bytes > sizeof piece) {
        fprintf(stderr, "usage: in_pieces BYTES <FILE | PROGRAM (BYTES are 1 to %zu)\n", sizeof piece);
        return 2;
    }
    if (fcntl(1, F_SETFL, O_DIRECT) < 0) {
        perror("in_pieces: the output is no pipe that takes packets");
        return 1;
    }
    (void)fcntl(1, F_SETPIPE_SZ, PIPE_BYTES);
    size_t length;
    while ((length = fread(piece, 1, bytes, stdin)) > 0)
        if (!write_piece(piece, length)) {
            perror("in_pieces");
            return 1;
        }
    return ferror(stdin) ? 1 : 0;
}
