/* The wallet of one party of a swap, as pure functions over bytes: the party's row for a deal, the
   deal of all rows, what the party agrees to, what is due for it, and whether a header's deal is
   accepted; and beside it what the program `swap` answers. docs/FORMATS.md tells the texts line by
   line, and docs/using/wallet.md what a wallet does with them.

   Nothing is kept between calls, there is no handle, and nothing is to be freed. Each call reads
   what it is given, puts a text into `out`, and answers its status with the text's length.

   Pointers. A pointer may be null where its length is 0. `seed` is never null. `out` may overlap no
   other argument: what a call answers with an overlap is undefined. The other arguments may overlap
   each other. The library keeps no pointer.

   Threads. Any number of threads may call at once, each with a buffer of its own. A call waits for
   nobody, starts no thread, opens no file and changes no errno but through malloc. It may not be
   made in a signal handler, nor in the child of a process with threads after fork.

   Memory. A call takes its memory from malloc and gives all of it back. It needs
   SWAP_PARTY_STACK_SIZE bytes of the caller's stack.

   Secrets. Before a call returns it overwrites each block that it took from malloc, the first
   SWAP_PARTY_STACK_WIPED bytes of stack below the caller, and the registers that a caller may not
   rely on. What it doesn't overwrite: the caller's own `text`, `seed` and `out`, which hold secrets
   too; the registers that a call restores for its caller; and copies that the kernel makes, as in
   swap space, in a core dump or when it saves registers at a switch. A caller overwrites its own
   buffers, locks them into memory and turns core dumps off. A call that ends the process, because
   a build without proofs met a mistake, overwrites nothing. */
#ifndef SWAP_PARTY_H
#define SWAP_PARTY_H

#include <stddef.h>
#include <stdint.h>

#ifdef __cplusplus
extern "C" {
#endif

/* The version of this header, which isn't the release's: VERSION has that. The first number grows
   where a program has to be compiled again, the second where something is added. */
#define SWAP_PARTY_VERSION_MAJOR 1
#define SWAP_PARTY_VERSION_MINOR 3
#define SWAP_PARTY_VERSION "1.3"

#define SWAP_PARTY_TEXT_LIMIT 566231040 /* the most bytes of a text for next */
#define SWAP_PARTY_CASE_LIMIT 150994944 /* the most bytes of a text for judge */
#define SWAP_PARTY_SHORT_LIMIT 1048576  /* the most bytes of a text for keys, deal, terms, check */
#define SWAP_PARTY_NAME_LIMIT 16       /* the most bytes of a party's name in a header */
#define SWAP_PARTY_SEED_SIZE 32        /* the bytes of a seed */
#define SWAP_PARTY_ID_SIZE 32          /* the bytes of a deal's id */
#define SWAP_PARTY_STACK_SIZE 524288   /* the bytes of stack that suffice for a thread that calls */
#define SWAP_PARTY_STACK_WIPED 393216  /* of them, those that a call overwrites before it returns */

enum {
    SWAP_PARTY_DONE = 0,      /* `out` begins with the answer */
    SWAP_PARTY_SHORT = 1,     /* `out` is too short and stays as it was: it needs `length` bytes */
    SWAP_PARTY_WARNED = 2,    /* `out` begins with the answer, which warns or finds something: `stale`,
                                 `unkept`, `bad` or `finding` */
    SWAP_PARTY_REFUSED = 3,   /* `out` begins with the line of the reason: swap: refused: .. */
    SWAP_PARTY_NO_MEMORY = 6, /* malloc answered null; `out` stays as it was */
    SWAP_PARTY_TOO_LONG = 7,  /* the text is longer than its limit; `out` stays as it was */
    SWAP_PARTY_WRONG_WORDS = 8 /* the words ask for nothing that is answered; `out` stays as it was */
};

/* What swap_party_limit is asked for. */
enum {
    SWAP_PARTY_LIMIT_TEXT = 0,
    SWAP_PARTY_LIMIT_NAME = 1,
    SWAP_PARTY_LIMIT_SEED = 2,
    SWAP_PARTY_LIMIT_ID = 3,
    SWAP_PARTY_LIMIT_STACK = 4,
    SWAP_PARTY_LIMIT_WIPED = 5,
    SWAP_PARTY_LIMIT_SHORT = 6,
    SWAP_PARTY_LIMIT_CASE = 7
};

typedef struct {
    uint32_t status;
    size_t length; /* of the text, in bytes: no zero byte follows it */
} swap_party_said;

/* The row of the party of that name: its public keys, and its hashlock where it leads a lock. It is
   what `party keys` writes. `text` is the line of a plain offer without seeds, with its line feed.
   Nothing in a row is secret. A seed is for one swap: a party that signs in two swaps with one seed
   lets others sign in its name. */
swap_party_said swap_party_keys(const uint8_t *text, size_t text_length,
                                const uint8_t *name, size_t name_length,
                                const uint8_t seed[SWAP_PARTY_SEED_SIZE],
                                uint8_t *out, size_t capacity);

/* The header line of a deal, with its line feed: what `party deal` writes. `text` is the line of a
   plain offer and then the row of each party, in any order, each with its line feed. */
swap_party_said swap_party_deal(const uint8_t *text, size_t text_length,
                                uint8_t *out, size_t capacity);

/* What the party of that name agrees to: what `party terms` writes. `text` is a deal's header line
   and then lines of context, each with its line feed. */
swap_party_said swap_party_terms(const uint8_t *text, size_t text_length,
                                 const uint8_t *name, size_t name_length,
                                 uint8_t *out, size_t capacity);

/* All that is due for the party of that name, a line each, or how long nothing is: what `party next`
   writes. `text` is the program's input without its first line, as `seed` stands apart: the
   digest that was agreed on, what the wallet wrote down, the header with its context, and what each
   ledger did. Lines in a reason are counted from the program's first, as those of keys are. */
swap_party_said swap_party_next(const uint8_t *text, size_t text_length,
                                const uint8_t *name, size_t name_length,
                                const uint8_t seed[SWAP_PARTY_SEED_SIZE],
                                uint8_t *out, size_t capacity);

/* What is found of all ledgers: what `party judge` writes. `text` is a deal's header line, lines of
   context, a line `agreed NAME DIGEST` for each party that told its digest, and all ledgers as a
   transcript has them, up to its line `end`. The status is WARNED where anything is found. */
swap_party_said swap_party_judge(const uint8_t *text, size_t text_length,
                                 uint8_t *out, size_t capacity);

/* The id of the deal that a header line states, where it is an accepted deal. The header is as a
   transcript has it, without anybody's seed. */
swap_party_said swap_party_check(const uint8_t *header, size_t header_length,
                                 uint8_t *out, size_t capacity);

/* What the program `swap` answers to words, which stand after its name, and to its standard input.
   `words` has a line feed behind each word: "run\n--transcript\n". The status is DONE where the
   program ends with 0, WARNED with 1 (the text was written whole, and something was found), REFUSED
   with 3, NO_MEMORY with 6, TOO_LONG with 7. WRONG_WORDS comes where it ends with 2, and where the
   words ask for a race, since no thread is started. The same words and input have the same answer.
   A job for `swap` holds everybody's seeds, so never put real ones into it. */
swap_party_said swap_party_answer(const uint8_t *words, size_t words_length,
                                  const uint8_t *input, size_t input_length,
                                  uint8_t *out, size_t capacity);

/* The version of the library that was linked, a space, and `proved` or `unproved`: "1.3 proved".
   An unproved build is compiled from the same sources, without their proofs. */
const char *swap_party_version(void);

/* The number of the macro for that limit in the library that was linked; of any other word 0. */
size_t swap_party_limit(uint32_t which);

/* What a status says, as one line of English without a line feed; of any other number
   "unknown status". The text is never to be freed. */
const char *swap_party_status_text(uint32_t status);

#ifdef __cplusplus
}
#endif

#endif
