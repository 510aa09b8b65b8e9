/* A line of a bench sheet read for speed: each name is found by a perfect hash and compared eight bytes at a time. */

#ifndef READ_LINE_H
#define READ_LINE_H

#include <stdio.h>
#include <string.h>
#include "load.h"
#include "lookup.h"
#include "sheet.h"

/* The most digits of a pair: four, which are read together, and one more. */
#define PAIR_DIGITS 5

/* The most bytes of an answer's name. */
#define LONGEST_RESPONSE 26

/* The prefix of every answer's name, which the table of answers leaves out. */
#define RESPONSE_PREFIX "SnpResp"

/* How many bytes that prefix has. */
#define PREFIX_BYTES (sizeof RESPONSE_PREFIX - 1)

/* The lowest bit of each field in a key, above RetToSrc and DoNotGoToSD, and how many bits a key has. */
enum { KIND_BIT = 2, TAG_BIT = 5, TAG_OP_BIT = 7, RESP_ERR_BIT = 9, RESPONSE_BIT = 11, KEY_BITS = 16 };

/* What the first eight bytes of an ending are multiplied by for the highest bits to tell it; found by trial. */
#define ENDING_FACTOR 0x394e2be46f000000u

/* How many of the highest bits that takes. */
#define ENDING_BITS 6

/* A name of up to eight bytes, and what it adds to a key. */
struct short_name {
    _Alignas(32) uint64_t bytes;
    uint64_t mask;
    uint16_t key;
    uint8_t length;
};

/* A name of up to 24 bytes with the comma after it, what it adds to a key, and what else is known of it. */
struct long_name {
    _Alignas(64) uint64_t bytes[3];
    uint64_t mask[3];
    uint16_t key;
    uint8_t length;
    uint8_t flags_used;
    uint8_t forward;
};

/* A state after and the error field of the forwarded data, with the comma and the CRLF after them, and what they say. */
struct ending {
    _Alignas(64) uint64_t bytes[2];
    uint64_t mask[2];
    uint8_t length;
    uint8_t allowed;
    uint8_t fwd_err;
    uint8_t forwarded;
};

/* What a good line says; its key says all but the pair, the forward with its error field, and the state after. */
struct line {
    unsigned pair;
    unsigned key;
    unsigned forward;
    unsigned forward_of_response;
    unsigned fwd_err;
    unsigned allowed;
};

/* The requests by their fourth and ninth bytes, and whether Fwd follows a longer name. */
static struct long_name requests[64];

/* The answers by their length and the byte that tells those of a length apart. */
static struct long_name responses[32 * 8];

/* The offset of the byte that tells the answers of a length apart. */
static const uint8_t told_apart_at[32] = {
    [14] = 13, [18] = 16, [19] = 9, [21] = 16, [22] = 9, [23] = 13, [25] = 14, [26] = 15,
};

/* The data forwarded by the two letters of its state. */
static struct long_name forwards[4];

/* The tag states by their first letter. */
static struct short_name tags[8];

/* The tag operations by their second letter. */
static struct short_name tag_ops[8];

/* The error fields to Home by their first letter. */
static struct short_name resp_errs[8];

/* The endings by the highest bits of a product. */
static struct ending endings[1 << ENDING_BITS];

/* The hash of a request: its fourth and ninth bytes, and the F of Fwd after longer names, where no good line has another F. */
static inline unsigned request_hash(const unsigned char *at)
{
    return 2u * ((unsigned)(at[3] - at[8]) & 31) + ((at[15] == 'F') | (at[17] == 'F'));
}

/* The hash of an answer: its length and the byte that tells it apart. */
static inline unsigned response_hash(const unsigned char *at, size_t length)
{
    return (unsigned)length * 8 + (at[told_apart_at[length]] >> 2 & 7);
}

/* The hash of a tag state or an error field: its first letter. */
static inline unsigned first_letter_hash(const unsigned char *at)
{
    return at[0] & 7;
}

/* The hash of a tag operation: its second letter. */
static inline unsigned tag_op_hash(const unsigned char *at)
{
    return at[1] & 7;
}

/* The hash of data forwarded: the two letters of its state. */
static inline unsigned forward_hash(const unsigned char *at)
{
    return (at[9] & 2) | (at[10] & 1);
}

/* The hash of an ending: its first five bytes, which tell it; the others don't matter, since the factor ends in 24 zeros. */
static inline unsigned ending_hash(const unsigned char *at)
{
    return (unsigned)(load(at) * ENDING_FACTOR >> (64 - ENDING_BITS));
}

/* Whether a name of up to so many words stands here, with the comma after it. */
static inline int stands(const struct long_name *name, const unsigned char *at, int words)
{
    for (int n = 0; n < words; n++)
        if ((load(at + 8 * n) & name->mask[n]) != name->bytes[n])
            return 0;
    return 1;
}

/* Whether a name of up to eight bytes stands here. */
static inline int stands_short(const struct short_name *name, const unsigned char *at)
{
    return (load(at) & name->mask) == name->bytes;
}

/* Puts the number of four digits, the first as the lowest byte, and tells whether they are digits. */
static inline int four_digits(unsigned digits, unsigned *number)
{
    digits ^= 0x30303030;
    if ((digits | (digits + 0x76767676)) & 0x80808080)
        return 0;
    digits = 10 * digits + (digits >> 8);
    *number = 100 * (digits & 255) + (digits >> 16 & 255);
    return 1;
}

/* Reads a pair of up to five digits and the comma after it; like every reader here it gives what follows, or null. */
static inline const unsigned char *read_pair(const unsigned char *at, struct line *line)
{
    unsigned digits = (unsigned)load(at), length;
    if (at[PAIR_DIGITS] == ',') {
        unsigned last = at[PAIR_DIGITS - 1] ^ '0';
        if (at[0] == '0' || last > 9 || !four_digits(digits, &line->pair))
            return 0;
        line->pair = 10 * line->pair + last;
        return at + PAIR_DIGITS + 1;
    }
    if (at[4] == ',') {
        length = 4;
    } else if (at[3] == ',') {
        length = 3;
        digits = digits << 8 | '0';
    } else if (at[2] == ',') {
        length = 2;
        digits = digits << 16 | '0' << 8 | '0';
    } else {
        if (at[1] != ',')
            return 0;
        length = 1;
        digits = digits << 24 | '0' << 16 | '0' << 8 | '0';
    }
    if ((at[0] == '0' && length != 1) || !four_digits(digits, &line->pair))
        return 0;
    return at + length + 1;
}

/* Reads the request and its three flags. */
static inline const unsigned char *read_request(const unsigned char *at, struct line *line)
{
    const struct long_name *request = &requests[request_hash(at)];
    if (!stands(request, at, 3))
        return 0;
    at += request->length;

    /* The three flags are bits 0, 16 and 32 of what follows, and the product brings them side by side. */
    uint64_t flags = load(at);
    if ((flags & 0xfffefffefffeu) != 0x2c302c302c30u)
        return 0;
    flags = (flags & 0x100010001u) * (1ull << 32 | 1u << 17 | 1u << 2) >> 32 & 7;
    line->key = ((unsigned)flags & request->flags_used) + request->key;
    return at + 6;
}

/* Reads the tag state. */
static inline const unsigned char *read_tag(const unsigned char *at, struct line *line)
{
    const struct short_name *tag = &tags[first_letter_hash(at)];
    if (!stands_short(tag, at))
        return 0;
    line->key += tag->key;
    return at + tag->length;
}

/* Reads the answer to Home. */
static inline const unsigned char *read_response(const unsigned char *at, struct line *line)
{
    const unsigned char *comma = memchr(at, ',', LONGEST_RESPONSE + 1);
    if (!comma)
        return 0;
    const struct long_name *response = &responses[response_hash(at, (size_t)(comma - at))];
    if ((load(at) & ~0ull >> 8) != load((const unsigned char *)RESPONSE_PREFIX))
        return 0;
    if (!stands(response, at + PREFIX_BYTES, 3))
        return 0;
    line->key += response->key;
    line->forward_of_response = response->forward;
    return comma + 1;
}

/* Reads the tag operation: mostly Invalid, which adds nothing to a key; Transfer leaves no room for its comma in eight bytes. */
static inline const unsigned char *read_tag_op(const unsigned char *at, struct line *line)
{
    if (load(at) == load((const unsigned char *)"Invalid,"))
        return at + 8;
    const struct short_name *tag_op = &tag_ops[tag_op_hash(at)];
    if (!stands_short(tag_op, at) || at[tag_op->length] != ',')
        return 0;
    line->key += tag_op->key;
    return at + tag_op->length + 1;
}

/* Reads the error field to Home: mostly OK, which adds nothing to a key. */
static inline const unsigned char *read_resp_err(const unsigned char *at, struct line *line)
{
    if (at[0] == 'O' && at[1] == 'K' && at[2] == ',')
        return at + 3;
    const struct short_name *resp_err = &resp_errs[first_letter_hash(at)];
    if (!stands_short(resp_err, at))
        return 0;
    line->key += resp_err->key;
    return at + resp_err->length;
}

/* Reads the data forwarded. */
static inline const unsigned char *read_forward(const unsigned char *at, struct line *line)
{
    line->forward = NO_FORWARD;
    if (at[0] == '-' && at[1] == ',')
        return at + 2;
    const struct long_name *forward = &forwards[forward_hash(at)];
    if (!stands(forward, at, 2))
        return 0;
    line->forward = forward->forward;
    return at + forward->length;
}

/* Reads the state after, the error field of the forwarded data, which is none exactly where nothing is forwarded, and the CRLF. */
static inline const unsigned char *read_ending(const unsigned char *at, struct line *line)
{
    const struct ending *ending = &endings[ending_hash(at)];
    if ((load(at) & ending->mask[0]) != ending->bytes[0] || (load(at + 8) & ending->mask[1]) != ending->bytes[1])
        return 0;
    if (ending->forwarded != (line->forward != NO_FORWARD))
        return 0;
    line->fwd_err = ending->fwd_err;
    line->allowed = ending->allowed;
    return at + ending->length;
}

/* Reads the line that starts here and gives the start of the next, or null where it is malformed. */
static inline const unsigned char *read_line(const unsigned char *at, struct line *line)
{
    return (at = read_pair(at, line)) && (at = read_request(at, line)) && (at = read_tag(at, line))
        && (at = read_response(at, line)) && (at = read_tag_op(at, line)) && (at = read_resp_err(at, line))
        && (at = read_forward(at, line)) ? read_ending(at, line) : 0;
}

/* The event of a key, a forward and its error field. */
static inline struct event event_of(unsigned key, unsigned forward, unsigned fwd_err)
{
    return (struct event){
        .kind = key >> KIND_BIT & 7,
        .ret_to_src = key & 1,
        .do_not_go_to_sd = key >> 1 & 1,
        .tag = key >> TAG_BIT & 3,
        .response = key >> RESPONSE_BIT & 31,
        .tag_op = key >> TAG_OP_BIT & 3,
        .resp_err = key >> RESP_ERR_BIT & 3,
        .forward = (unsigned char)forward,
        .fwd_err = (unsigned char)fwd_err,
    };
}

/* Fills in a name that has up to eight bytes together with what is taken as its end. */
static inline void put_short(struct short_name *names, unsigned (*hash)(const unsigned char *), const char *text, const char *end,
                             unsigned key)
{
    unsigned char bytes[8] = {0}, mask[8] = {0};
    size_t length = strlen(text) + strlen(end);
    memcpy(bytes, text, strlen(text));
    memcpy(bytes + strlen(text), end, strlen(end));
    memset(mask, 255, length);
    names[hash(bytes)] = (struct short_name){load(bytes), load(mask), (uint16_t)key, (uint8_t)length};
}

/* Fills in a name of up to 23 bytes and the comma after it. */
static inline void put_long(struct long_name *name, const char *text, unsigned key)
{
    unsigned char bytes[24] = {0}, mask[24] = {0};
    size_t length = strlen(text) + 1;
    memcpy(bytes, text, length - 1);
    bytes[length - 1] = ',';
    memset(mask, 255, length);
    for (int n = 0; n < 3; n++) {
        name->bytes[n] = load(bytes + 8 * n);
        name->mask[n] = load(mask + 8 * n);
    }
    name->length = (uint8_t)length;
    name->key = (uint16_t)key;
}

/* Fills in the requests, the answers and the data forwarded. */
static inline void put_long_names(void)
{
    for (unsigned n = 0; n < REQUESTS; n++) {
        unsigned char text[32] = {0};
        memcpy(text, request_names[n], strlen(request_names[n]));
        text[strlen(request_names[n])] = ',';
        struct long_name *name = &requests[request_hash(text)];
        put_long(name, request_names[n], kind_of(n, 0) << KIND_BIT);
        name->flags_used = kind_of(n, 0) != kind_of(n, 1) ? 7 : 3;
    }
    for (unsigned n = 0; n < RESPONSES; n++) {
        const unsigned char *text = (const unsigned char *)response_names[n];
        struct long_name *name = &responses[response_hash(text, strlen(response_names[n]))];
        put_long(name, response_names[n] + PREFIX_BYTES, n << RESPONSE_BIT);
        for (const struct row *row = rows; row < rows + ROWS; row++)
            if (row->response == n)
                name->forward = row->forward;
    }
    for (unsigned n = NO_FORWARD + 1; n < FORWARDS; n++) {
        struct long_name *name = &forwards[forward_hash((const unsigned char *)forward_names[n])];
        put_long(name, forward_names[n], 0);
        name->forward = (uint8_t)n;
    }
}

/* Fills in the tag states, the tag operations and the error fields to Home. */
static inline void put_short_names(void)
{
    for (unsigned n = 0; n < TAGS; n++)
        put_short(tags, first_letter_hash, tag_names[n], ",", n << TAG_BIT);
    for (unsigned n = 0; n < TAG_OPS; n++)
        put_short(tag_ops, tag_op_hash, tag_op_names[n], "", n << TAG_OP_BIT);
    for (unsigned n = 0; n < ERRORS; n++)
        put_short(resp_errs, first_letter_hash, error_names[n], ",", n << RESP_ERR_BIT);
}

/* Fills in the ending of a state after and an error field, or of one and no forwarded data where that number is past all errors. */
static inline void put_ending(unsigned state_after, unsigned fwd_err)
{
    int forwarded = fwd_err < ERRORS;
    char text[16] = {0};
    unsigned char mask[16] = {0};
    int length = snprintf(text, sizeof text, "%s,%s\r\n", state_names[state_after], forwarded ? error_names[fwd_err] : NOTHING);
    memset(mask, 255, (size_t)length);
    const unsigned char *bytes = (const unsigned char *)text;
    struct ending *ending = &endings[ending_hash(bytes)];
    must(ending->length == 0, "two endings have one index");
    *ending = (struct ending){
        .bytes = {load(bytes), load(bytes + 8)}, .mask = {load(mask), load(mask + 8)}, .length = (uint8_t)length,
        .allowed = (uint8_t)allowed_by(state_after), .fwd_err = (uint8_t)(forwarded ? fwd_err : OK), .forwarded = (uint8_t)forwarded,
    };
}

/* Fills in all the endings. */
static inline void put_endings(void)
{
    for (unsigned n = 0; n < (STATES + 1) * (ERRORS + 1); n++)
        put_ending(n / (ERRORS + 1), n % (ERRORS + 1));
}

/* Fills in all the names, with bytes that no mask lets through where there is none. */
static inline void put_names(void)
{
    for (int n = 0; n < 64; n++)
        requests[n].bytes[0] = 1;
    for (int n = 0; n < 32 * 8; n++)
        responses[n].bytes[0] = 1;
    for (int n = 0; n < 8; n++)
        tags[n].bytes = tag_ops[n].bytes = resp_errs[n].bytes = 1;
    for (int n = 0; n < 1 << ENDING_BITS; n++)
        endings[n].bytes[0] = 1;
    put_long_names();
    put_short_names();
    put_endings();
}

#endif
