/* Settles a swap whose parties all keep to the protocol, by the library alone: one process plays
   them in turn, and its ledgers are texts in its memory.

   usage: settle [KILLS] < LINES > TRANSCRIPT     LINES: the header as a transcript has it, and then
   each party's name and seed, a line each

   With KILLS every so many lines a wallet is killed behind what it wrote down, and starts again.

   What is due to a party that keeps to the protocol is accepted, so each call is written down as
   accepted; if one weren't, the next answer would be a refusal, as the library replays every
   ledger. A wallet of one's own differs in this: it knows one seed, reads real chains, and syncs
   what it keeps (docs/using/wallet.md). */
#include <stdio.h>
#include <stdlib.h>
#include <string.h>

#include "swap_party.h"
#include "swap_party_line.h"

enum { ARCS = 128, PARTIES = 32, WORD = 17, DIGITS = 64 };

typedef struct {
    char *bytes;
    size_t length, room;
} text;

typedef struct {
    char name[WORD], agreed[DIGITS + 1];
    uint8_t seed[32];
    text notes;
} party;

typedef struct {
    char from[WORD], to[WORD];
    text entries;
    unsigned long count;
} ledger;

static char header[1 << 20];
static party parties[PARTIES];
static ledger ledgers[ARCS];
static int party_count, arc_count, kills, obeyed;

static void stop(const char *why) {
    fprintf(stderr, "settle: %s\n", why);
    exit(1);
}

static void make_room(text *to, size_t room) {
    if (room <= to->room)
        return;
    to->room = 2 * room;
    to->bytes = realloc(to->bytes, to->room);
    if (!to->bytes)
        stop("no memory");
}

static void add(text *to, const char *bytes, size_t length) {
    make_room(to, to->length + length);
    if (length)
        memcpy(to->bytes + to->length, bytes, length);
    to->length += length;
}

static void say(text *to, const char *words) { add(to, words, strlen(words)); }

/* The header, and what stands on every ledger, or on those that touch one party. */
static void tell(text *to, const party *one) {
    say(to, header);
    for (int arc = 0; arc < arc_count; arc++) {
        const ledger *it = &ledgers[arc];
        char line[64];
        if (one && strcmp(it->from, one->name) && strcmp(it->to, one->name))
            continue;
        snprintf(line, sizeof line, "ledger %d %lu\n", arc, it->count);
        say(to, line);
        add(to, it->entries.bytes, it->entries.length);
    }
    say(to, "end\n");
}

static void enter(int arc, const char *entry) {
    say(&ledgers[arc].entries, entry);
    ledgers[arc].count++;
}

static int is_killed(void) { return kills && ++obeyed % kills == 0; }

/* Keeps what is to be kept and writes down a publish, before anything goes out, and presents a
   call: whether the wallet lives. */
static int obey(party *me, const swap_party_line *line) {
    size_t noted = me->notes.length;
    char words[32];
    text entry = {0};
    if (line->kind == SWAP_PARTY_LINE_KEEP) {
        add(&me->notes, (const char *)line->text, line->length);
        say(&me->notes, "\n");
        return !is_killed();
    }
    if (!line->call)
        return 1;
    snprintf(words, sizeof words, "sent %u\n", (unsigned)line->arc);
    if (line->kind == SWAP_PARTY_LINE_PUBLISH)
        say(&me->notes, words);
    if (is_killed()) {
        /* (this ledger takes a call at once or never: it never went out) */
        me->notes.length = noted;
        return 0;
    }
    snprintf(words, sizeof words, "c %u ", (unsigned)line->party);
    say(&entry, words);
    add(&entry, (const char *)line->call, line->call_length);
    add(&entry, " = accepted\n", 13);
    enter((int)line->arc, entry.bytes);
    free(entry.bytes);
    return 1;
}

/* What the library answers a party, as a string: what is due, or what the party agrees to. */
static char *answered(const party *me, int is_next, const char *asked, size_t length) {
    static text answer;
    const uint8_t *told = (const uint8_t *)asked, *name = (const uint8_t *)me->name;
    make_room(&answer, 1);
    for (;;) {
        uint8_t *out = (uint8_t *)answer.bytes;
        swap_party_said said = is_next ? swap_party_next(told, length, name, strlen(me->name), me->seed, out, answer.room)
                                       : swap_party_terms(told, length, name, strlen(me->name), out, answer.room);
        answer.length = said.length;
        if (said.status == SWAP_PARTY_DONE || said.status == SWAP_PARTY_WARNED)
            break;
        if (said.status != SWAP_PARTY_SHORT) {
            fwrite(answer.bytes, 1, said.status == SWAP_PARTY_REFUSED ? said.length : 0, stderr);
            stop(me->name);
        }
        make_room(&answer, said.length);
    }
    add(&answer, "", 1);
    return answer.bytes;
}

/* Keeps the digest of the terms, to which here every owner agrees as they are. */
static void agree(party *me) {
    const char *line = strstr(answered(me, 0, header, strlen(header)), "\nagree ");
    if (!line || sscanf(line, "\nagree %64[0-9a-f]", me->agreed) != 1)
        stop("the terms have no digest");
}

/* Asks the library what is due, and obeys it line by line as long as the wallet lives: whether
   anything was due. */
static int turn(party *me) {
    static text asked;
    const char *answer;
    size_t at = 0;
    int acted = 0, lives = 1;
    swap_party_line line;
    asked.length = 0;
    say(&asked, "agreed ");
    say(&asked, me->agreed);
    say(&asked, "\n");
    add(&asked, me->notes.bytes, me->notes.length);
    tell(&asked, me);
    answer = answered(me, 1, asked.bytes, asked.length);
    while (lives && swap_party_line_next((const uint8_t *)answer, strlen(answer), &at, &line)) {
        if (swap_party_line_is_warning(&line))
            fprintf(stderr, "%s: %.*s\n", me->name, (int)line.length, (const char *)line.text);
        else if (line.kind == SWAP_PARTY_LINE_KEEP || line.call) {
            acted = 1;
            lives = obey(me, &line);
        }
    }
    return acted;
}

/* The text or the number behind a field's name, in compact JSON. */
static const char *field(const char *json, const char *name) {
    const char *at = strstr(json, name);
    if (!at)
        stop("a field is missing");
    return at + strlen(name);
}

static void read_lines(void) {
    char line[128];
    if (!fgets(header, sizeof header, stdin))
        stop("no header");
    for (const char *at = header; arc_count < ARCS && (at = strstr(at, "\"from\":\"")); arc_count++) {
        at = field(at, "\"from\":\"");
        sscanf(at, "%16[^\"]", ledgers[arc_count].from);
        sscanf(field(at, "\"to\":\""), "%16[^\"]", ledgers[arc_count].to);
    }
    for (; party_count < PARTIES && fgets(line, sizeof line, stdin); party_count++) {
        party *it = &parties[party_count];
        int at = 0;
        if (sscanf(line, "%16s %n", it->name, &at) != 1 || strlen(line + at) < 64)
            stop("a line isn't a name and a seed");
        for (int i = 0; i < 32; i++)
            sscanf(line + at + 2 * i, "%2hhx", &it->seed[i]);
    }
}

int main(int count, char **words) {
    uint8_t id[32];
    text told = {0};
    kills = count > 1 ? atoi(words[1]) : 0;
    read_lines();
    if (swap_party_check((uint8_t *)header, strlen(header), id, sizeof id).status != SWAP_PARTY_DONE)
        stop("the header's deal isn't accepted");
    for (int i = 0; i < party_count; i++)
        agree(&parties[i]);
    long horizon = atol(field(header, "\"start\":")) + (2 * atol(field(header, "\"bound\":")) + 2) * atol(field(header, "\"delta\":"));
    for (long height = 0; height <= horizon; height++) {
        for (int acted = 1; acted;) {
            acted = 0;
            for (int i = 0; i < party_count; i++)
                acted |= turn(&parties[i]);
        }
        for (int arc = 0; arc < arc_count; arc++)
            enter(arc, "t 1\n");
    }
    say(&told, "swap transcript 1\n");
    tell(&told, NULL);
    fwrite(told.bytes, 1, told.length, stdout);
    return fflush(stdout) ? 1 : 0;
}
