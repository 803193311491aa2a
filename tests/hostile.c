/* Calls the library of a party's wallet with inputs that nobody should send. tests/library compiles
   it, and gives it what it reads.

   usage: hostile WORD [COUNT [SEED]] < ASKED

   edits     so many edited inputs: each status is one of the header's, and a text is put whole or
             not at all
   large     inputs of 65,536 bytes, of the most bytes and of one more
   threads   eight threads at once, each of which is answered what one alone is, so many times
   stack     a thread with no more stack than the header asks for, where neither seed nor secret is
             left behind
   memory    each allocation fails in turn; each block is overwritten before it is given back, and
             none is left

   ASKED: per input a line `NAME SEED SECRET LENGTH`, seed and secret in hexadecimal, and then so
   many bytes. malloc and free are wrapped (-Wl,--wrap=malloc,--wrap=free), so that each allocation
   can fail and each block be looked at. */
#include <malloc.h>
#include <pthread.h>
#include <stdio.h>
#include <stdlib.h>
#include <string.h>
#include <sys/mman.h>

#include "swap_party.h"

enum { INPUTS = 512, THREADS = 8, ROOM = 1 << 20 };

typedef struct {
    char name[64];
    uint8_t seed[SWAP_PARTY_SEED_SIZE], secret[32];
    uint8_t *text;
    size_t length;
} input;

typedef struct {
    uint32_t status;
    uint8_t *bytes;
    size_t length;
} answer;

static input inputs[INPUTS];
static int count;

static void must(int holds, const char *why) {
    if (holds)
        return;
    fprintf(stderr, "hostile: %s\n", why);
    abort();
}

/* ---- memory */

void *__real_malloc(size_t size);
void __real_free(void *block);

static __thread long allowed = -1, made, live;
static __thread int is_watched;

/* What a block has beyond its size is zero, so that all of it is zero once it is overwritten. */
void *__wrap_malloc(size_t size) {
    if (is_watched && allowed >= 0 && made >= allowed)
        return NULL;
    uint8_t *block = __real_malloc(size);
    if (is_watched && block) {
        for (size_t at = size, end = malloc_usable_size(block); at < end; at++)
            block[at] = 0;
        made++;
        live++;
    }
    return block;
}

void __wrap_free(void *block) {
    if (is_watched && block) {
        const uint8_t *bytes = block;
        for (size_t at = 0, size = malloc_usable_size(block); at < size; at++)
            must(bytes[at] == 0, "a block that is given back isn't overwritten");
        live--;
    }
    __real_free(block);
}

/* ---- calls */

/* A copy of just these bytes, so that a byte read beyond them is seen; a null pointer where there
   are none. */
static uint8_t *copy(const void *bytes, size_t length) {
    uint8_t *made_copy = length ? malloc(length) : NULL;
    must(!length || made_copy, "no memory for the test");
    if (length)
        memcpy(made_copy, bytes, length);
    return made_copy;
}

static swap_party_said call(int is_next, const input *it, uint8_t *out, size_t capacity) {
    if (!is_next)
        return swap_party_check(it->text, it->length, out, capacity);
    return swap_party_next(it->text, it->length, (const uint8_t *)it->name, strlen(it->name), it->seed, out, capacity);
}

static answer answered(int is_next, const input *it) {
    answer found = {SWAP_PARTY_SHORT, NULL, 0};
    for (size_t capacity = 0; found.status == SWAP_PARTY_SHORT; capacity = found.length) {
        free(found.bytes);
        found.bytes = capacity ? malloc(capacity) : NULL;
        swap_party_said said = call(is_next, it, found.bytes, capacity);
        must(said.status != SWAP_PARTY_SHORT || said.length > capacity, "a text is said to be too long that isn't");
        found.status = said.status;
        found.length = said.length;
    }
    return found;
}

static int is_status(uint32_t status) {
    return status == SWAP_PARTY_DONE || status == SWAP_PARTY_WARNED || status == SWAP_PARTY_REFUSED || status == SWAP_PARTY_TOO_LONG;
}

/* One call with room for so much: the text is put whole, or the buffer stays as it was. */
static void keeps_to(int is_next, const input *it, const answer *whole, size_t capacity) {
    uint8_t *out = copy("", 0);
    if (capacity)
        must((out = malloc(capacity)) != NULL, "no memory for the test");
    for (size_t at = 0; at < capacity; at++)
        out[at] = 0xA5;
    swap_party_said said = call(is_next, it, out, capacity);
    int fits = whole->length <= capacity;
    must(said.length == whole->length && said.status == (fits ? whole->status : SWAP_PARTY_SHORT), "another status or length");
    for (size_t at = 0; at < capacity; at++)
        must(out[at] == (fits && at < whole->length ? whole->bytes[at] : 0xA5), "the buffer holds something else");
    free(out);
}

static void ask(int is_next, const input *it) {
    answer whole = answered(is_next, it);
    must(is_status(whole.status), "no such status");
    must(whole.status != SWAP_PARTY_REFUSED || (whole.length > 15 && !memcmp(whole.bytes, "swap: refused: ", 15)), "a refusal begins otherwise");
    keeps_to(is_next, it, &whole, whole.length / 2);
    keeps_to(is_next, it, &whole, whole.length + 3);
    free(whole.bytes);
}

/* ---- edits */

static uint64_t state;

static size_t drawn(size_t below) {
    state = state * 6364136223846793005u + 1442695040888963407u;
    return (size_t)(state >> 33) % (below ? below : 1);
}

static const char *const WORDS[] = {"keep ",   "sent ",    "999999999999999999999", "-1",    "\n",  "\r\n", "agreed ",             "ledger 0 20064\n",
                                    "t 1\n",   "c 0 refund = accepted\n",  "\"",  "{",   "[[[[[[[[",  "\\ud800", "\xff\xfe",  " = ",   "end\n",  "4294967296"};

/* Puts some bytes in the place of some others. */
static void replace(input *it, size_t at, size_t gone, const void *bytes, size_t length) {
    uint8_t *text = malloc(it->length - gone + length + 1);
    must(text != NULL, "no memory for the test");
    memcpy(text, it->text ? it->text : text, at);
    memcpy(text + at, bytes, length);
    memcpy(text + at + length, (it->text ? it->text : text) + at + gone, it->length - at - gone);
    free(it->text);
    it->length += length - gone;
    it->text = copy(text, it->length);
    free(text);
}

static void edit(input *it) {
    static uint8_t noise[64];
    size_t at = drawn(it->length), rest = it->length - at, some = drawn(rest < 200 ? rest : 200);
    const char *word = WORDS[drawn(sizeof WORDS / sizeof *WORDS)];
    const input *other = &inputs[drawn(count)];
    switch (drawn(7)) {
    case 0: /* cut */
        replace(it, at, rest, "", 0);
        break;
    case 1: /* left out */
        replace(it, at, some, "", 0);
        break;
    case 2: /* a word */
        replace(it, at, drawn(2) ? some : 0, word, strlen(word));
        break;
    case 3: /* binary */
        for (size_t byte = 0; byte < sizeof noise; byte++)
            noise[byte] = (uint8_t)drawn(256);
        replace(it, at, some, noise, drawn(sizeof noise));
        break;
    case 4: /* another input's end */
        replace(it, at, rest, other->text + other->length / 2, other->length - other->length / 2);
        break;
    case 5: /* a digit */
        replace(it, at, rest ? 1 : 0, &"0123456789abcdef,- \n"[drawn(20)], 1);
        break;
    default: /* told twice */
        replace(it, at, 0, other->text, other->length < 300 ? other->length : 300);
    }
}

static void ask_edited(const input *from) {
    input it = *from;
    it.text = copy(from->text, from->length);
    for (size_t edits = drawn(3); edits; edits--)
        edit(&it);
    ask(1, &it);
    if (drawn(4) == 0)
        edit(&it);
    /* the header line, or what is left of it */
    const char *brace = it.length ? memchr(it.text, '{', it.length) : NULL;
    if (brace)
        replace(&it, 0, (size_t)((const uint8_t *)brace - it.text), "", 0);
    const char *end = it.length ? memchr(it.text, '\n', it.length) : NULL;
    if (end)
        replace(&it, (size_t)((const uint8_t *)end - it.text), it.length - (size_t)((const uint8_t *)end - it.text), "", 0);
    ask(0, &it);
    free(it.text);
}

static void edits(long rounds) {
    for (; rounds > 0; rounds--)
        ask_edited(&inputs[drawn(count)]);
}

/* ---- large */

/* A line that may stand first, of a digest that nobody agreed on. */
#define AGREED "agreed 0000000000000000000000000000000000000000000000000000000000000000\n"

static void ask_filled(input *it, const char *first, const char *word, size_t length) {
    size_t at = strlen(first), size = strlen(word);
    it->text = malloc(length);
    must(it->text != NULL, "no memory for the test");
    memcpy(it->text, first, at);
    for (; at + size <= length; at += size)
        memcpy(it->text + at, word, size);
    memset(it->text + at, '\n', length - at);
    it->length = length;
    for (int is_next = 0; is_next < 2; is_next++) {
        answer found = answered(is_next, it);
        size_t limit = is_next ? SWAP_PARTY_TEXT_LIMIT : SWAP_PARTY_SHORT_LIMIT;
        must(found.status == (length > limit ? SWAP_PARTY_TOO_LONG : SWAP_PARTY_REFUSED), "a large input has another status");
        free(found.bytes);
    }
    free(it->text);
}

/* The first fills, of which most lines are read, have the most bytes that a text may have. */
static void large(size_t most_fills) {
    input it = inputs[0];
    static const char *const FILLS[] = {"sent 1\n", "{\"a\":1,", "[", "\xff", "keep 0 ", "\n", "0", "about 0 x\n"};
    for (size_t fill = 0; fill < sizeof FILLS / sizeof *FILLS; fill++)
        ask_filled(&it, fill % 2 ? "" : AGREED, FILLS[fill], fill < most_fills ? SWAP_PARTY_TEXT_LIMIT : 1 << 16);
    ask_filled(&it, "", "sent 1\n", (size_t)SWAP_PARTY_TEXT_LIMIT + 1);
    /* a name of any length */
    memset(it.name, 'x', sizeof it.name - 1);
    it.text = copy(inputs[0].text, it.length = inputs[0].length);
    ask(1, &it);
    free(it.text);
}

/* ---- threads */

static answer alone[INPUTS];
static long rounds_of_each;

static void *one_thread(void *from) {
    for (long round = 0; round < rounds_of_each; round++)
        for (int at = 0; at < count; at++) {
            const input *it = &inputs[(at + *(int *)from) % count];
            answer found = answered(1, it);
            const answer *wanted = &alone[it - inputs];
            must(found.status == wanted->status && found.length == wanted->length && !memcmp(found.bytes, wanted->bytes, found.length),
                 "a thread is answered otherwise");
            free(found.bytes);
        }
    return NULL;
}

static void threads(void) {
    pthread_t all[THREADS];
    int from[THREADS];
    for (int at = 0; at < count; at++)
        alone[at] = answered(1, &inputs[at]);
    for (int at = 0; at < THREADS; at++) {
        from[at] = at * count / THREADS;
        must(!pthread_create(&all[at], NULL, one_thread, &from[at]), "no thread");
    }
    for (int at = 0; at < THREADS; at++)
        pthread_join(all[at], NULL);
    for (int at = 0; at < count; at++)
        free(alone[at].bytes);
}

/* ---- stack */

static void *ask_all(void *_) {
    for (int at = 0; at < count; at++) {
        answer found = answered(1, &inputs[at]);
        free(found.bytes);
        found = answered(0, &inputs[at]);
        free(found.bytes);
    }
    return _;
}

static void *ask_deep(void *_) {
    large(0);
    return _;
}

static int holds(const uint8_t *stack, const uint8_t *wanted) {
    return memmem(stack, SWAP_PARTY_STACK_SIZE, wanted, 32) != NULL;
}

/* On a painted stack of just that size, below which nothing may be touched: neither seed nor secret
   is left there, and how deep it was used. */
static void on_stack(void *(*asked)(void *), const char *what) {
    uint8_t *room = mmap(NULL, SWAP_PARTY_STACK_SIZE + 4096, PROT_READ | PROT_WRITE, MAP_PRIVATE | MAP_ANONYMOUS, -1, 0), *stack = room + 4096;
    pthread_attr_t how;
    pthread_t thread;
    must(room != MAP_FAILED && !mprotect(room, 4096, PROT_NONE), "no memory for the test");
    memset(stack, 0xA5, SWAP_PARTY_STACK_SIZE);
    must(!pthread_attr_init(&how) && !pthread_attr_setstack(&how, stack, SWAP_PARTY_STACK_SIZE), "no such stack");
    must(!pthread_create(&thread, &how, asked, NULL) && !pthread_join(thread, NULL), "no thread");
    size_t free_below = 0;
    while (stack[free_below] == 0xA5)
        free_below++;
    for (int at = 0; at < count; at++)
        must(!holds(stack, inputs[at].seed) && !holds(stack, inputs[at].secret), "a seed or a secret is left on the stack");
    printf("%s: %zu bytes of stack\n", what, (size_t)SWAP_PARTY_STACK_SIZE - free_below);
    munmap(room, SWAP_PARTY_STACK_SIZE + 4096);
}

/* ---- want of memory */

static void without_memory(const input *it) {
    static uint8_t out[ROOM];
    is_watched = 1;
    allowed = -1;
    made = live = 0;
    swap_party_said whole = call(1, it, out, sizeof out);
    long needed = made;
    must(live == 0, "a block isn't given back");
    must(whole.status == SWAP_PARTY_DONE, "the answer isn't one");
    for (allowed = 0; allowed < needed; allowed += 1 + allowed / 16) {
        made = 0;
        memset(out, 0xA5, sizeof out);
        swap_party_said said = call(1, it, out, sizeof out);
        must(live == 0, "a block isn't given back where memory runs out");
        must(said.status == SWAP_PARTY_NO_MEMORY && said.length == 0, "want of memory isn't said");
        for (size_t at = 0; at < sizeof out; at++)
            must(out[at] == 0xA5, "the buffer doesn't stay as it was");
    }
    is_watched = 0;
}

/* ---- what is read */

static void read_hexadecimal(const char *digits, uint8_t *bytes) {
    for (int at = 0; at < 32; at++)
        must(sscanf(digits + 2 * at, "%2hhx", &bytes[at]) == 1, "no seed");
}

static void read_inputs(void) {
    char seed[65], secret[65];
    for (; count < INPUTS && scanf("%63s %64s %64s %zu", inputs[count].name, seed, secret, &inputs[count].length) == 4; count++) {
        input *it = &inputs[count];
        read_hexadecimal(seed, it->seed);
        read_hexadecimal(secret, it->secret);
        must((it->text = malloc(it->length + 1)) && getchar() == '\n', "no input");
        must(fread(it->text, 1, it->length, stdin) == it->length, "an input is cut short");
    }
    must(count > 0, "there is no input");
}

int main(int words, char **word) {
    must(words > 1, "no word");
    read_inputs();
    state = words > 3 ? strtoull(word[3], NULL, 10) : 1;
    rounds_of_each = words > 2 ? atol(word[2]) : 1;
    if (!strcmp(word[1], "edits"))
        edits(rounds_of_each);
    else if (!strcmp(word[1], "large"))
        large(2);
    else if (!strcmp(word[1], "threads"))
        threads();
    else if (!strcmp(word[1], "stack")) {
        on_stack(ask_all, "answers");
        on_stack(ask_deep, "large inputs");
    } else if (!strcmp(word[1], "memory"))
        for (int at = 0; at < count; at += 1 + count / 4)
            without_memory(&inputs[at]);
    for (int at = 0; at < count; at++)
        free(inputs[at].text);
    return 0;
}
