/* Reads the lines that swap_party_next answers, so that no caller scans text. It takes no memory and
   keeps no pointer but into the text that it was given. docs/FORMATS.md tells each line.

       swap_party_line line;
       size_t at = 0;
       while (swap_party_line_next(text, length, &at, &line)) { .. }

   A line of another form has the kind SWAP_PARTY_LINE_UNKNOWN: this header is older than the
   library. Warnings stand beside calls, so go on behind them. */
#ifndef SWAP_PARTY_LINE_H
#define SWAP_PARTY_LINE_H

#include <stddef.h>
#include <stdint.h>
#include <string.h>

#ifdef __cplusplus
extern "C" {
#endif

typedef enum {
    SWAP_PARTY_LINE_UNKNOWN = 0,
    SWAP_PARTY_LINE_STALE,   /* arc, height */
    SWAP_PARTY_LINE_STOPPED, /* lock: the notes have no one hashkey for it */
    SWAP_PARTY_LINE_UNKEPT,  /* arc, entry, lock */
    SWAP_PARTY_LINE_BAD,     /* arc, entry */
    SWAP_PARTY_LINE_KEEP,    /* lock, by, until; the whole line goes into the notes */
    SWAP_PARTY_LINE_PUBLISH, /* arc, party, by, until, call */
    SWAP_PARTY_LINE_UNLOCK,  /* arc, party, by, until, lock, call */
    SWAP_PARTY_LINE_CLAIM,   /* arc, party, by, call */
    SWAP_PARTY_LINE_REFUND,  /* arc, party, by, call */
    SWAP_PARTY_LINE_LANDING, /* arc, by, until */
    SWAP_PARTY_LINE_WAIT,    /* until, where has_until is 1 */
    SWAP_PARTY_LINE_DONE
} swap_party_line_kind;

/* A line of an answer. What its kind doesn't name is 0. */
typedef struct {
    swap_party_line_kind kind;
    uint32_t arc, party, lock;
    uint64_t entry, height, by, until;
    int has_until;
    const uint8_t *text; /* the whole line, without its line feed */
    size_t length;
    const uint8_t *call; /* the words of the call, as a ledger's line has them */
    size_t call_length;
} swap_party_line;

/* What is left of a line. */
typedef struct {
    const uint8_t *at;
    size_t left;
} swap_party_rest;

/* Takes a word, if it stands next, with the space behind it. */
static inline int swap_party_take(swap_party_rest *rest, const char *word)
{
    size_t length = strlen(word);
    if (rest->left < length || memcmp(rest->at, word, length) != 0)
        return 0;
    if (rest->left > length && rest->at[length] != ' ')
        return 0;
    length += rest->left > length;
    rest->at += length;
    rest->left -= length;
    return 1;
}

/* Takes a number, with the space behind it. */
static inline int swap_party_number(swap_party_rest *rest, uint64_t *number)
{
    size_t digits = 0;
    *number = 0;
    while (digits < rest->left && rest->at[digits] >= '0' && rest->at[digits] <= '9') {
        uint64_t digit = (uint64_t)(rest->at[digits] - '0');
        if (*number > (UINT64_MAX - digit) / 10)
            return 0;
        *number = *number * 10 + digit;
        digits++;
    }
    if (digits == 0 || (digits < rest->left && rest->at[digits] != ' '))
        return 0;
    digits += digits < rest->left;
    rest->at += digits;
    rest->left -= digits;
    return 1;
}

/* Takes a number of an arc, a party or a lock. */
static inline int swap_party_small(swap_party_rest *rest, uint32_t *number)
{
    uint64_t wide;
    if (!swap_party_number(rest, &wide) || wide > 255)
        return 0;
    *number = (uint32_t)wide;
    return 1;
}

static inline int swap_party_until(swap_party_rest *rest, swap_party_line *line)
{
    line->has_until = swap_party_take(rest, "until");
    return line->has_until && swap_party_number(rest, &line->until);
}

static inline int swap_party_by(swap_party_rest *rest, swap_party_line *line)
{
    return swap_party_take(rest, "by") && swap_party_number(rest, &line->by);
}

static inline swap_party_line_kind swap_party_call(swap_party_rest *rest, swap_party_line *line)
{
    int is_whole = swap_party_small(rest, &line->arc) && swap_party_small(rest, &line->party) && swap_party_by(rest, line);
    int is_limited = is_whole && rest->left > 6 && memcmp(rest->at, "until ", 6) == 0;
    if (!is_whole || (is_limited && !swap_party_until(rest, line)))
        return SWAP_PARTY_LINE_UNKNOWN;
    line->call = rest->at;
    line->call_length = rest->left;
    if (!is_limited && swap_party_take(rest, "claim"))
        return rest->left ? SWAP_PARTY_LINE_UNKNOWN : SWAP_PARTY_LINE_CLAIM;
    if (!is_limited && swap_party_take(rest, "refund"))
        return rest->left ? SWAP_PARTY_LINE_UNKNOWN : SWAP_PARTY_LINE_REFUND;
    if (is_limited && swap_party_take(rest, "publish"))
        return SWAP_PARTY_LINE_PUBLISH;
    if (is_limited && swap_party_take(rest, "unlock") && swap_party_small(rest, &line->lock))
        return SWAP_PARTY_LINE_UNLOCK;
    return SWAP_PARTY_LINE_UNKNOWN;
}

static inline swap_party_line_kind swap_party_unkept(swap_party_rest *rest, swap_party_line *line)
{
    if (!swap_party_small(rest, &line->arc))
        return SWAP_PARTY_LINE_UNKNOWN;
    if (rest->left == 0) {
        line->lock = line->arc;
        line->arc = 0;
        return SWAP_PARTY_LINE_STOPPED;
    }
    if (swap_party_number(rest, &line->entry) && swap_party_small(rest, &line->lock) && rest->left == 0)
        return SWAP_PARTY_LINE_UNKEPT;
    return SWAP_PARTY_LINE_UNKNOWN;
}

static inline swap_party_line_kind swap_party_kind(swap_party_rest *rest, swap_party_line *line)
{
    if (swap_party_take(rest, "call"))
        return swap_party_call(rest, line);
    if (swap_party_take(rest, "keep")) {
        int is_whole = swap_party_small(rest, &line->lock) && swap_party_by(rest, line) && swap_party_until(rest, line);
        return is_whole && rest->left ? SWAP_PARTY_LINE_KEEP : SWAP_PARTY_LINE_UNKNOWN;
    }
    if (swap_party_take(rest, "unkept"))
        return swap_party_unkept(rest, line);
    if (swap_party_take(rest, "stale")) {
        int is_whole = swap_party_small(rest, &line->arc) && swap_party_number(rest, &line->height) && !rest->left;
        return is_whole ? SWAP_PARTY_LINE_STALE : SWAP_PARTY_LINE_UNKNOWN;
    }
    if (swap_party_take(rest, "bad"))
        return swap_party_small(rest, &line->arc) && swap_party_number(rest, &line->entry) ? SWAP_PARTY_LINE_BAD : SWAP_PARTY_LINE_UNKNOWN;
    if (swap_party_take(rest, "landing")) {
        int is_whole = swap_party_small(rest, &line->arc) && swap_party_by(rest, line) && swap_party_until(rest, line) && !rest->left;
        return is_whole ? SWAP_PARTY_LINE_LANDING : SWAP_PARTY_LINE_UNKNOWN;
    }
    if (swap_party_take(rest, "wait")) {
        line->has_until = rest->left > 0;
        return !rest->left || (swap_party_number(rest, &line->until) && !rest->left) ? SWAP_PARTY_LINE_WAIT : SWAP_PARTY_LINE_UNKNOWN;
    }
    return swap_party_take(rest, "done") && !rest->left ? SWAP_PARTY_LINE_DONE : SWAP_PARTY_LINE_UNKNOWN;
}

/* Reads the line that begins at *at, moves *at behind its line feed, and answers 1; at the end it
   answers 0. */
static inline int swap_party_line_next(const uint8_t *text, size_t length, size_t *at, swap_party_line *line)
{
    const uint8_t *end;
    swap_party_rest rest;
    if (*at >= length)
        return 0;
    memset(line, 0, sizeof *line);
    line->text = text + *at;
    end = (const uint8_t *)memchr(line->text, '\n', length - *at);
    line->length = end ? (size_t)(end - line->text) : length - *at;
    *at += line->length + (end != NULL);
    rest.at = line->text;
    rest.left = line->length;
    line->kind = swap_party_kind(&rest, line);
    return 1;
}

/* Whether it is a warning, which stands beside calls and never in their place. */
static inline int swap_party_line_is_warning(const swap_party_line *line)
{
    return line->kind >= SWAP_PARTY_LINE_STALE && line->kind <= SWAP_PARTY_LINE_BAD;
}

#ifdef __cplusplus
}
#endif

#endif
