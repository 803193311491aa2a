/* The library as a module of WebAssembly: a heap over the module's own memory, and an interface of
   32-bit numbers, which a host calls without knowing C. tools/wasm compiles it beside edge.c.

   A host copies arguments to addresses that swap_allocate gave, calls swap_call, reads swap_length
   bytes at the address of the answer, and gives every address back by swap_free. A call that trapped
   leaves half-written memory: the host drops the instance, and a further call of it traps at once. */
/* edge.c has them by these names. */
#define swap_party_keys edge_keys
#define swap_party_deal edge_deal
#define swap_party_terms edge_terms
#define swap_party_next edge_next
#define swap_party_judge edge_judge
#define swap_party_check edge_check
#define swap_party_answer edge_answer
#define swap_party_version edge_version
#define swap_party_limit edge_limit
#define swap_party_status_text edge_status_text
#include "swap_party.h"

/* ---- the heap: blocks of four sizes to each power of two, each size with a list of free blocks */

extern char __heap_base;

enum { PAGE = 16, MOST_PAGES = 65536, LEAST_GROWTH = 16, LEAST_BLOCK = 64, SIZES = 160 };

/* Before each block. A block is aligned to 16 bytes, as this is long. */
typedef struct head {
    size_t size;
    struct head *next;
} head;

static head *free_blocks[SIZES];
static size_t begin_unused, end_memory, taken_now, taken_most;

/* The number of the least size that holds so many bytes, and that size. */
static size_t size_number(size_t bytes, size_t *size) {
    size_t wanted = bytes < LEAST_BLOCK ? LEAST_BLOCK : bytes;
    size_t power = 63 - (size_t)__builtin_clzll(wanted - 1), quarter = (size_t)1 << (power - 2);
    size_t place = (wanted - 1 - ((size_t)1 << power)) / quarter;
    *size = ((size_t)1 << power) + (place + 1) * quarter;
    return 4 * power + place;
}

/* Whether the memory reaches to there, once it has grown. */
static int reaches(size_t end) {
    if (end <= end_memory)
        return 1;
    size_t pages = ((end - end_memory) + (1 << PAGE) - 1) >> PAGE;
    if (pages < LEAST_GROWTH)
        pages = LEAST_GROWTH;
    if ((end_memory >> PAGE) + pages > MOST_PAGES)
        return 0;
    if ((uint32_t)__builtin_wasm_memory_grow(0, pages) == (uint32_t)-1)
        return 0;
    end_memory += pages << PAGE;
    return 1;
}

/* A block of that size behind all others, or null. */
static head *fresh_block(size_t size) {
    if (!begin_unused) {
        begin_unused = ((size_t)&__heap_base + 15) & ~(size_t)15;
        end_memory = (size_t)__builtin_wasm_memory_size(0) << PAGE;
    }
    if (!reaches(begin_unused + size))
        return NULL;
    head *block = (head *)begin_unused;
    begin_unused += size;
    block->size = size;
    return block;
}

void *malloc(size_t bytes) {
    size_t size;
    if (bytes > (size_t)1 << 31)
        return NULL;
    size_t number = size_number(bytes + sizeof(head), &size);
    head *block = free_blocks[number];
    if (block)
        free_blocks[number] = block->next;
    else
        block = fresh_block(size);
    if (!block)
        return NULL;
    taken_now += size;
    if (taken_now > taken_most)
        taken_most = taken_now;
    return block + 1;
}

void free(void *at) {
    if (!at)
        return;
    head *block = (head *)at - 1;
    size_t size, number = size_number(block->size, &size);
    taken_now -= size;
    block->next = free_blocks[number];
    free_blocks[number] = block;
}

/* ---- what compiled code calls by name */

void *memcpy(void *to, const void *from, size_t size) { return __builtin_memcpy(to, from, size); }
void *memmove(void *to, const void *from, size_t size) { return __builtin_memmove(to, from, size); }
void *memset(void *to, int byte, size_t size) { return __builtin_memset(to, byte, size); }
void abort(void) { __builtin_trap(); }

typedef unsigned __int128 wide;
typedef union {
    wide whole;
    struct {
        uint64_t low, high;
    } part;
} halves;

/* The low 128 bits of a product, without a multiplication of 128 bits, which would call this. */
wide __multi3(wide x, wide y) {
    halves a = {x}, b = {y}, product;
    uint64_t low = 0xffffffff, a0 = a.part.low & low, a1 = a.part.low >> 32;
    uint64_t b0 = b.part.low & low, b1 = b.part.low >> 32;
    uint64_t first = a0 * b0, second = a1 * b0 + (first >> 32), third = a0 * b1 + (second & low);
    product.part.low = third << 32 | (first & low);
    product.part.high = a1 * b1 + (second >> 32) + (third >> 32);
    product.part.high += a.part.low * b.part.high + a.part.high * b.part.low;
    return product.whole;
}

/* Shifts by 0 to 127. A shift by 1 and then by 63 less the rest is defined where the rest is 0. */

wide __ashlti3(wide x, int by) {
    halves a = {x}, made;
    int rest = by & 63;
    uint64_t over = a.part.low >> 1 >> (63 - rest);
    made.part.low = by & 64 ? 0 : a.part.low << rest;
    made.part.high = by & 64 ? a.part.low << rest : a.part.high << rest | over;
    return made.whole;
}

wide __lshrti3(wide x, int by) {
    halves a = {x}, made;
    int rest = by & 63;
    uint64_t over = a.part.high << 1 << (63 - rest);
    made.part.high = by & 64 ? 0 : a.part.high >> rest;
    made.part.low = by & 64 ? a.part.high >> rest : a.part.low >> rest | over;
    return made.whole;
}

/* ---- the interface */

static uint32_t length, is_in_call;

static uint8_t *address(uint32_t at) { return (uint8_t *)(size_t)at; }

/* The address of so many fresh bytes, or 0 where no memory is left. */
uint32_t swap_allocate(uint32_t size) { return (uint32_t)(size_t)malloc(size); }

void swap_free(uint32_t at) { free(address(at)); }

static swap_party_said called(uint32_t which, const uint8_t *first, uint32_t first_length,
                              const uint8_t *second, uint32_t second_length,
                              const uint8_t *seed, uint8_t *out, uint32_t capacity) {
    switch (which) {
    case 0:
        return swap_party_keys(first, first_length, second, second_length, seed, out, capacity);
    case 1:
        return swap_party_deal(first, first_length, out, capacity);
    case 2:
        return swap_party_terms(first, first_length, second, second_length, out, capacity);
    case 3:
        return swap_party_next(first, first_length, second, second_length, seed, out, capacity);
#ifdef HAS_JUDGE
    case 4:
        return swap_party_judge(first, first_length, out, capacity);
#endif
    case 5:
        return swap_party_check(first, first_length, out, capacity);
    case 6:
        return swap_party_answer(first, first_length, second, second_length, out, capacity);
    default:
        return (swap_party_said){SWAP_PARTY_WRONG_WORDS, 0};
    }
}

/* Calls a function of swap_party.h by its number: 0 keys, 1 deal, 2 terms, 3 next, 4 judge, 5 check,
   6 answer. A number of none, as judge's where the library has no such function, is wrong words.
   What the function doesn't take is passed over. Answers the status; swap_length has the answer's
   length. */
uint32_t swap_call(uint32_t which, uint32_t first, uint32_t first_length, uint32_t second,
                   uint32_t second_length, uint32_t seed, uint32_t out, uint32_t capacity) {
    if (is_in_call)
        __builtin_trap();
    is_in_call = 1;
    swap_party_said said = called(which, address(first), first_length, address(second),
                                  second_length, address(seed), address(out), capacity);
    is_in_call = 0;
    length = (uint32_t)said.length;
    return said.status;
}

uint32_t swap_length(void) { return length; }

/* Addresses of texts that a zero byte ends. */
uint32_t swap_version(void) { return (uint32_t)(size_t)swap_party_version(); }
uint32_t swap_status_text(uint32_t status) { return (uint32_t)(size_t)swap_party_status_text(status); }

uint32_t swap_limit(uint32_t which) { return (uint32_t)swap_party_limit(which); }

/* How many bytes of the heap are taken, and the most that ever were. */
uint32_t swap_heap_now(void) { return (uint32_t)taken_now; }
uint32_t swap_heap_most(void) { return (uint32_t)taken_most; }
