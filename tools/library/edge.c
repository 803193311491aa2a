/* The library's edge towards C. The proved functions decide what is answered; this file gives them
   their memory, gives them an address where a caller has none to give, and overwrites what they
   leave behind. .ci/library joins both, and `edge_` becomes `swap_party_` there. */
#define swap_party_keys edge_keys
#define swap_party_deal edge_deal
#define swap_party_terms edge_terms
#define swap_party_next edge_next
#define swap_party_judge edge_judge
#define swap_party_check edge_check
#define swap_party_answer edge_answer
#define swap_party_version edge_version
#define swap_party_limit edge_limit
#define swap_party_status_text edge_status_text
#include "swap_party.h"
#undef swap_party_keys
#undef swap_party_deal
#undef swap_party_terms
#undef swap_party_next
#undef swap_party_judge
#undef swap_party_check
#undef swap_party_answer

/* The proved functions. */
swap_party_said swap_party_keys(const uint8_t *text, size_t text_length,
                                const uint8_t *name, size_t name_length,
                                const uint8_t *seed, uint8_t *out, size_t capacity);
swap_party_said swap_party_deal(const uint8_t *text, size_t text_length,
                                uint8_t *out, size_t capacity);
swap_party_said swap_party_terms(const uint8_t *text, size_t text_length,
                                 const uint8_t *name, size_t name_length,
                                 uint8_t *out, size_t capacity);
swap_party_said swap_party_next(const uint8_t *text, size_t text_length,
                                const uint8_t *name, size_t name_length,
                                const uint8_t *seed, uint8_t *out, size_t capacity);
swap_party_said swap_party_judge(const uint8_t *text, size_t text_length,
                                 uint8_t *out, size_t capacity);
swap_party_said swap_party_check(const uint8_t *header, size_t header_length,
                                 uint8_t *out, size_t capacity);
swap_party_said swap_party_answer(const uint8_t *words, size_t words_length,
                                  const uint8_t *input, size_t input_length,
                                  uint8_t *out, size_t capacity);

/* Of the C library. The kit has no headers. */
void *malloc(size_t size);
void free(void *block);
void *memcpy(void *to, const void *from, size_t size);
void *memset(void *to, int byte, size_t size);

/* ---- memory: what the proved functions call, in the place of the kit's own three functions */

/* Before each block stands how long it is, in as many bytes as a block is aligned to. */
enum { HEAD = 16 };

typedef struct {
    size_t is_there;
    void *at;
} tried;

static char no_memory[HEAD] __attribute__((aligned(HEAD)));

tried rattle_alloc(size_t size, size_t align) {
    tried answer = {0, no_memory};
    size_t length = size ? size : align;
    char *block = length > (size_t)-1 - HEAD ? NULL : malloc(length + HEAD);
    if (block) {
        memcpy(block, &length, sizeof length);
        answer.is_there = 1;
        answer.at = block + HEAD;
    }
    return answer;
}

static size_t length_of(const void *block) {
    size_t length;
    memcpy(&length, (const char *)block - HEAD, sizeof length);
    return length;
}

/* Overwrites a block. The empty assembly reads it, so the compiler leaves the writes in. */
void rattle_dealloc(void *block) {
    if (!block)
        return;
    char *whole = (char *)block - HEAD;
    memset(whole, 0, HEAD + length_of(block));
    __asm__ volatile("" : : "r"(whole) : "memory");
    free(whole);
}

/* Moves a block, so that what it was is overwritten too. */
tried rattle_realloc(void *block, size_t kept, size_t size, size_t align) {
    tried answer = rattle_alloc(size, align);
    if (answer.is_there && block) {
        size_t was = length_of(block), is = length_of(answer.at);
        memcpy(answer.at, block, was < is ? was : is);
        rattle_dealloc(block);
    }
    (void)kept;
    return answer;
}

/* ---- stack */

/* Overwrites the stack below the caller, as far as the proved functions reach. A loop of its own:
   memset could be one that watches the stack of the program. */
static __attribute__((noinline)) void overwrite_stack(void) {
    volatile size_t room[SWAP_PARTY_STACK_WIPED / sizeof(size_t)];
    for (size_t at = 0; at < sizeof room / sizeof *room; at++)
        room[at] = 0;
}

/* ---- the calls */

/* Registers that a caller may not rely on are cleared at the end of such a function. A target
   without registers defines it as nothing. */
#ifndef CLEARS
#define CLEARS __attribute__((zero_call_used_regs("all")))
#endif

static uint8_t nothing[1];

static const uint8_t *there(const uint8_t *at) { return at ? at : nothing; }

CLEARS swap_party_said edge_keys(const uint8_t *text, size_t text_length,
                                 const uint8_t *name, size_t name_length,
                                 const uint8_t *seed, uint8_t *out, size_t capacity) {
    swap_party_said said = swap_party_keys(there(text), text_length, there(name), name_length,
                                           seed, out ? out : nothing, capacity);
    overwrite_stack();
    return said;
}

CLEARS swap_party_said edge_deal(const uint8_t *text, size_t text_length,
                                 uint8_t *out, size_t capacity) {
    swap_party_said said = swap_party_deal(there(text), text_length,
                                           out ? out : nothing, capacity);
    overwrite_stack();
    return said;
}

CLEARS swap_party_said edge_terms(const uint8_t *text, size_t text_length,
                                  const uint8_t *name, size_t name_length,
                                  uint8_t *out, size_t capacity) {
    swap_party_said said = swap_party_terms(there(text), text_length, there(name), name_length,
                                            out ? out : nothing, capacity);
    overwrite_stack();
    return said;
}

CLEARS swap_party_said edge_next(const uint8_t *text, size_t text_length,
                                 const uint8_t *name, size_t name_length,
                                 const uint8_t *seed, uint8_t *out, size_t capacity) {
    swap_party_said said = swap_party_next(there(text), text_length, there(name), name_length,
                                           seed, out ? out : nothing, capacity);
    overwrite_stack();
    return said;
}

CLEARS swap_party_said edge_judge(const uint8_t *text, size_t text_length,
                                  uint8_t *out, size_t capacity) {
    swap_party_said said = swap_party_judge(there(text), text_length,
                                            out ? out : nothing, capacity);
    overwrite_stack();
    return said;
}

CLEARS swap_party_said edge_check(const uint8_t *header, size_t header_length,
                                  uint8_t *out, size_t capacity) {
    swap_party_said said = swap_party_check(there(header), header_length,
                                            out ? out : nothing, capacity);
    overwrite_stack();
    return said;
}

CLEARS swap_party_said edge_answer(const uint8_t *words, size_t words_length,
                                   const uint8_t *input, size_t input_length,
                                   uint8_t *out, size_t capacity) {
    swap_party_said said = swap_party_answer(there(words), words_length, there(input), input_length,
                                             out ? out : nothing, capacity);
    overwrite_stack();
    return said;
}

const char *edge_version(void) { return SWAP_PARTY_VERSION " " SWAP_PARTY_BUILD; }

size_t edge_limit(uint32_t which) {
    switch (which) {
    case SWAP_PARTY_LIMIT_TEXT:
        return SWAP_PARTY_TEXT_LIMIT;
    case SWAP_PARTY_LIMIT_NAME:
        return SWAP_PARTY_NAME_LIMIT;
    case SWAP_PARTY_LIMIT_SEED:
        return SWAP_PARTY_SEED_SIZE;
    case SWAP_PARTY_LIMIT_ID:
        return SWAP_PARTY_ID_SIZE;
    case SWAP_PARTY_LIMIT_STACK:
        return SWAP_PARTY_STACK_SIZE;
    case SWAP_PARTY_LIMIT_WIPED:
        return SWAP_PARTY_STACK_WIPED;
    case SWAP_PARTY_LIMIT_SHORT:
        return SWAP_PARTY_SHORT_LIMIT;
    case SWAP_PARTY_LIMIT_CASE:
        return SWAP_PARTY_CASE_LIMIT;
    default:
        return 0;
    }
}

const char *edge_status_text(uint32_t status) {
    switch (status) {
    case SWAP_PARTY_DONE:
        return "done";
    case SWAP_PARTY_SHORT:
        return "the buffer is too short for the text";
    case SWAP_PARTY_WARNED:
        return "done: a line of the text warns";
    case SWAP_PARTY_REFUSED:
        return "refused: the text is the line of the reason";
    case SWAP_PARTY_NO_MEMORY:
        return "no memory";
    case SWAP_PARTY_TOO_LONG:
        return "too long";
    case SWAP_PARTY_WRONG_WORDS:
        return "the words ask for nothing that is answered here";
    default:
        return "unknown status";
    }
}
