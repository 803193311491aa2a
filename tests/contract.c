/* The contract of one arc in C, written from docs/using/contract.md alone. It answers the lines of
   examples/vectors/run:

       cc -std=c11 -O2 -o contract tests/contract.c && examples/vectors/run ./contract */
#define _POSIX_C_SOURCE 200809L

#include <inttypes.h>
#include <stdbool.h>
#include <stdio.h>
#include <stdlib.h>
#include <string.h>
#include <sys/types.h>

enum { DIGEST = 32, CHAINS = 67, SIGNATURE = CHAINS * DIGEST, LOCKS = 8, PARTIES = 32, ARCS = 128 };
enum { MOST_NUMBER = 1000000, DEAL = 4 + 14 * ARCS + 1 + LOCKS + 12 + DIGEST * LOCKS * (1 + PARTIES) };
static const uint64_t MOST_UNITS = 1000000000000;

/* ---- SHA-256, FIPS 180-4 */

typedef struct {
    uint32_t state[8];
    uint8_t block[64];
    uint64_t length;
} hash;

static const uint32_t ROUND[64] = {
    0x428a2f98, 0x71374491, 0xb5c0fbcf, 0xe9b5dba5, 0x3956c25b, 0x59f111f1, 0x923f82a4, 0xab1c5ed5, 0xd807aa98, 0x12835b01, 0x243185be,
    0x550c7dc3, 0x72be5d74, 0x80deb1fe, 0x9bdc06a7, 0xc19bf174, 0xe49b69c1, 0xefbe4786, 0x0fc19dc6, 0x240ca1cc, 0x2de92c6f, 0x4a7484aa,
    0x5cb0a9dc, 0x76f988da, 0x983e5152, 0xa831c66d, 0xb00327c8, 0xbf597fc7, 0xc6e00bf3, 0xd5a79147, 0x06ca6351, 0x14292967, 0x27b70a85,
    0x2e1b2138, 0x4d2c6dfc, 0x53380d13, 0x650a7354, 0x766a0abb, 0x81c2c92e, 0x92722c85, 0xa2bfe8a1, 0xa81a664b, 0xc24b8b70, 0xc76c51a3,
    0xd192e819, 0xd6990624, 0xf40e3585, 0x106aa070, 0x19a4c116, 0x1e376c08, 0x2748774c, 0x34b0bcb5, 0x391c0cb3, 0x4ed8aa4a, 0x5b9cca4f,
    0x682e6ff3, 0x748f82ee, 0x78a5636f, 0x84c87814, 0x8cc70208, 0x90befffa, 0xa4506ceb, 0xbef9a3f7, 0xc67178f2};

static uint32_t turned(uint32_t word, int by) {
    return word >> by | word << (32 - by);
}

static void hash_block(hash *it) {
    uint32_t w[64], v[8];
    for (int i = 0; i < 16; i++)
        w[i] = (uint32_t)it->block[4 * i] << 24 | (uint32_t)it->block[4 * i + 1] << 16 | (uint32_t)it->block[4 * i + 2] << 8 | it->block[4 * i + 3];
    for (int i = 16; i < 64; i++) {
        uint32_t low = turned(w[i - 15], 7) ^ turned(w[i - 15], 18) ^ w[i - 15] >> 3;
        uint32_t high = turned(w[i - 2], 17) ^ turned(w[i - 2], 19) ^ w[i - 2] >> 10;
        w[i] = w[i - 16] + low + w[i - 7] + high;
    }
    memcpy(v, it->state, sizeof v);
    for (int i = 0; i < 64; i++) {
        uint32_t one = turned(v[4], 6) ^ turned(v[4], 11) ^ turned(v[4], 25), chosen = (v[4] & v[5]) ^ (~v[4] & v[6]);
        uint32_t zero = turned(v[0], 2) ^ turned(v[0], 13) ^ turned(v[0], 22), most = (v[0] & v[1]) ^ (v[0] & v[2]) ^ (v[1] & v[2]);
        uint32_t first = v[7] + one + chosen + ROUND[i] + w[i];
        memmove(v + 1, v, 7 * sizeof *v);
        v[4] += first;
        v[0] = first + zero + most;
    }
    for (int i = 0; i < 8; i++)
        it->state[i] += v[i];
}

static hash begun(uint8_t tag) {
    hash it = {{0x6a09e667, 0xbb67ae85, 0x3c6ef372, 0xa54ff53a, 0x510e527f, 0x9b05688c, 0x1f83d9ab, 0x5be0cd19}, {tag}, 1};
    return it;
}

static void add(hash *it, const uint8_t *bytes, size_t length) {
    for (size_t i = 0; i < length; i++) {
        it->block[it->length++ % 64] = bytes[i];
        if (it->length % 64 == 0)
            hash_block(it);
    }
}

static void end(hash *it, uint8_t *digest) {
    uint64_t bits = 8 * it->length;
    uint8_t length[8];
    for (int i = 0; i < 8; i++)
        length[i] = (uint8_t)(bits >> (56 - 8 * i));
    add(it, (const uint8_t[]){0x80}, 1);
    while (it->length % 64 != 56)
        add(it, (const uint8_t[]){0}, 1);
    add(it, length, 8);
    for (int i = 0; i < DIGEST; i++)
        digest[i] = (uint8_t)(it->state[i / 4] >> (24 - 8 * (i % 4)));
}

/* ---- the deal */

typedef struct {
    uint8_t bytes[DEAL], id[DIGEST];
    int version, parties, arcs, locks;
    bool is_keyed;
    const uint8_t *leaders, *keys;
} deal;

typedef struct {
    uint64_t start, delta, bound, timelock, amount;
    uint8_t hashlocks[LOCKS][DIGEST];
} terms;

typedef struct {
    int lock, parties, signatures;
    uint8_t secret[DIGEST], path[PARTIES];
    uint8_t sigs[PARTIES][SIGNATURE];
} hashkey;

/* The contract and the accounts of its two parties. */
typedef struct {
    deal of;
    int party, counterparty;
    uint64_t amount, account[2], held, height;
    bool is_published, is_settled, is_opened[LOCKS];
    terms published;
} contract;

static int digit_of(char c) {
    if (c >= '0' && c <= '9')
        return c - '0';
    return c >= 'a' && c <= 'f' ? c - 'a' + 10 : -1;
}

/* Reads a word of just as many bytes in hexadecimal. */
static bool read_bytes(const char *word, uint8_t *bytes, size_t length) {
    if (strlen(word) != 2 * length)
        return false;
    for (size_t i = 0; i < length; i++) {
        int high = digit_of(word[2 * i]), low = digit_of(word[2 * i + 1]);
        if (high < 0 || low < 0)
            return false;
        bytes[i] = (uint8_t)(high << 4 | low);
    }
    return true;
}

static bool read_number(const char *word, uint64_t most, uint64_t *number) {
    char *rest;
    if (!word || *word < '0' || *word > '9')
        return false;
    *number = strtoull(word, &rest, 10);
    return !*rest && *number <= most;
}

static bool read_deal(deal *it, const char *word) {
    size_t length = strlen(word) / 2;
    if (length < 5 || length > DEAL || !read_bytes(word, it->bytes, length))
        return false;
    const uint8_t *told = it->bytes;
    it->version = told[0];
    it->is_keyed = told[1] == 1;
    it->parties = told[2];
    it->arcs = told[3];
    if (it->parties > PARTIES || it->arcs > ARCS || length < (size_t)(5 + 14 * it->arcs))
        return false;
    it->leaders = told + 5 + 14 * it->arcs;
    it->locks = it->leaders[-1];
    it->keys = it->leaders + it->locks + 12 + DIGEST * it->locks;
    int keys = it->is_keyed ? it->parties * it->locks : 0;
    hash whole = begun(6);
    add(&whole, told, length);
    end(&whole, it->id);
    return it->locks <= LOCKS && it->keys + DIGEST * keys == told + length;
}

static bool has_arc(const deal *it, int from, int to) {
    for (const uint8_t *arc = it->bytes + 4; arc < it->leaders - 1; arc += 14)
        if (arc[0] == from && arc[1] == to)
            return true;
    return false;
}

/* ---- calls: the next word of a line, and those that fit the deal */

static char *next_word(char **line) {
    char *word = *line;
    if (!word)
        return NULL;
    char *end_of = strchr(word, ' ');
    *line = end_of ? end_of + 1 : NULL;
    if (end_of)
        *end_of = 0;
    return word;
}

static char *next_member(char **list) {
    char *member = *list;
    if (!member)
        return NULL;
    char *comma = strchr(member, ',');
    *list = comma ? comma + 1 : NULL;
    if (comma)
        *comma = 0;
    return member;
}

static bool read_terms(const deal *of, char *line, terms *it) {
    uint64_t *numbers[] = {&it->start, &it->delta, &it->bound, &it->timelock, &it->amount};
    for (int i = 0; i < 5; i++)
        if (!read_number(next_word(&line), i < 4 ? MOST_NUMBER : MOST_UNITS, numbers[i]))
            return false;
    for (int i = 0; i < of->locks; i++) {
        const char *word = next_word(&line);
        if (!word || !read_bytes(word, it->hashlocks[i], DIGEST))
            return false;
    }
    return !line;
}

static bool read_hashkey(const deal *of, char *line, hashkey *it) {
    const char *lock = next_word(&line), *secret = next_word(&line);
    char *path = next_word(&line), *sigs = next_word(&line), *member;
    int most = of->version == 1 ? 24 : PARTIES;
    uint64_t number;
    it->parties = it->signatures = 0;
    if (!sigs || line || !read_number(lock, (uint64_t)of->locks - 1, &number) || !read_bytes(secret, it->secret, DIGEST))
        return false;
    it->lock = (int)number;
    path = strcmp(path, "-") ? path : NULL;
    sigs = strcmp(sigs, "-") ? sigs : NULL;
    while ((member = next_member(&path))) {
        if (it->parties == most || !read_number(member, (uint64_t)of->parties - 1, &number))
            return false;
        it->path[it->parties++] = (uint8_t)number;
    }
    while ((member = next_member(&sigs)))
        if (it->signatures == most || !read_bytes(member, it->sigs[it->signatures++], SIGNATURE))
            return false;
    return true;
}

/* ---- hashkeys */

static bool is_signed(const uint8_t *key, const uint8_t *message, const uint8_t *signature) {
    int digits[CHAINS], sum = 0;
    for (int i = 0; i < 64; i++) {
        digits[i] = i % 2 ? message[i / 2] & 15 : message[i / 2] >> 4;
        sum += 15 - digits[i];
    }
    for (int i = 0; i < 3; i++)
        digits[64 + i] = sum >> (8 - 4 * i) & 15;
    hash ends = begun(3);
    for (int i = 0; i < CHAINS; i++) {
        uint8_t value[DIGEST];
        memcpy(value, signature + DIGEST * i, DIGEST);
        for (int step = digits[i]; step < 15; step++) {
            hash next = begun(2);
            add(&next, value, DIGEST);
            end(&next, value);
        }
        add(&ends, value, DIGEST);
    }
    uint8_t found[DIGEST];
    end(&ends, found);
    return !memcmp(found, key, DIGEST);
}

static bool is_wrong_path(const contract *it, const hashkey *key) {
    const deal *of = &it->of;
    if (!of->is_keyed)
        return key->parties || key->signatures;
    if (!key->parties || key->parties != key->signatures)
        return true;
    if (key->path[0] != it->counterparty || key->path[key->parties - 1] != of->leaders[key->lock])
        return true;
    for (int i = 1; i < key->parties; i++)
        if (memchr(key->path, key->path[i], (size_t)i) || !has_arc(of, key->path[i - 1], key->path[i]))
            return true;
    return false;
}

static bool is_wrong_signature(const deal *of, const hashkey *key) {
    for (int i = 0; i < key->signatures; i++) {
        uint8_t message[DIGEST], told[2] = {(uint8_t)key->lock, (uint8_t)(key->parties - i)};
        hash it = begun(4);
        add(&it, of->id, DIGEST);
        add(&it, told, 2);
        add(&it, key->path + i, told[1]);
        add(&it, key->secret, DIGEST);
        if (i + 1 < key->signatures)
            add(&it, key->sigs[i + 1], SIGNATURE);
        end(&it, message);
        if (!is_signed(of->keys + DIGEST * (key->path[i] * of->locks + key->lock), message, key->sigs[i]))
            return true;
    }
    return false;
}

static bool is_secret(const uint8_t *secret, const uint8_t *hashlock) {
    uint8_t found[DIGEST];
    hash it = begun(secret[0]); /* (a hashlock has no leading byte) */
    add(&it, secret + 1, DIGEST - 1);
    end(&it, found);
    return !memcmp(found, hashlock, DIGEST);
}

/* ---- the table of replies */

static uint64_t last_height(const contract *it, const hashkey *key) {
    const terms *says = &it->published;
    return it->of.is_keyed ? says->start + (says->bound + (uint64_t)key->parties) * says->delta : says->timelock;
}

static uint64_t expiry(const contract *it, int lock) {
    const terms *says = &it->published;
    bool is_own = it->of.version == 2 && it->of.leaders[lock] == it->counterparty;
    return it->of.is_keyed ? says->start + ((is_own ? 1 : 2) * says->bound + 1) * says->delta : says->timelock;
}

/* The least lock that is closed, from that one on; the number of locks where none is. */
static int closed_from(const contract *it, int lock) {
    while (lock < it->of.locks && it->is_opened[lock])
        lock++;
    return lock;
}

static void publish(contract *it, int sender, const terms *says) {
    uint64_t have = it->account[0] < it->amount ? it->account[0] : it->amount;
    if (sender != it->party)
        puts("NotParty");
    else if (it->is_published)
        puts("AlreadyPublished");
    else if (says->amount > have)
        printf("NoFunds %" PRIu64 "\n", have);
    else {
        it->published = *says;
        it->is_published = true;
        it->account[0] -= says->amount;
        it->held = says->amount;
        puts("accepted");
    }
}

static void unlock(contract *it, int sender, const hashkey *key) {
    if (!it->is_published)
        puts("NoContract");
    else if (it->is_settled)
        puts("Settled");
    else if (sender != it->counterparty)
        puts("NotCounterparty");
    else if (it->is_opened[key->lock])
        puts("AlreadyUnlocked");
    else if (!is_secret(key->secret, it->published.hashlocks[key->lock]))
        puts("WrongSecret");
    else if (is_wrong_path(it, key))
        puts("WrongPath");
    else if (is_wrong_signature(&it->of, key))
        puts("WrongSignature");
    else if (it->height > last_height(it, key))
        printf("TooLate %" PRIu64 "\n", last_height(it, key));
    else {
        it->is_opened[key->lock] = true;
        puts("accepted");
    }
}

static void settle(contract *it, int account) {
    it->is_settled = true;
    it->account[account] += it->held;
    it->held = 0;
    puts("accepted");
}

static void claim(contract *it, int sender) {
    if (!it->is_published)
        puts("NoContract");
    else if (it->is_settled)
        puts("Settled");
    else if (sender != it->counterparty)
        puts("NotCounterparty");
    else if (closed_from(it, 0) < it->of.locks)
        printf("StillLocked %d\n", closed_from(it, 0));
    else
        settle(it, 1);
}

static void refund(contract *it, int sender) {
    uint64_t least = UINT64_MAX;
    for (int lock = closed_from(it, 0); lock < it->of.locks; lock = closed_from(it, lock + 1))
        least = expiry(it, lock) < least ? expiry(it, lock) : least;
    if (!it->is_published)
        puts("NoContract");
    else if (it->is_settled)
        puts("Settled");
    else if (sender != it->party)
        puts("NotParty");
    else if (least == UINT64_MAX)
        puts("NothingLocked");
    else if (it->height <= least)
        printf("NotExpired %" PRIu64 "\n", least + 1);
    else
        settle(it, 0);
}

/* ---- lines */

static bool start(contract *it, char *line) {
    const char *arc = next_word(&line), *has = next_word(&line), *gets = next_word(&line), *told = next_word(&line);
    uint64_t number;
    memset(it, 0, sizeof *it);
    if (!told || !read_deal(&it->of, told) || !read_number(arc, (uint64_t)it->of.arcs - 1, &number))
        return false;
    const uint8_t *row = it->of.bytes + 4 + 14 * number;
    it->party = row[0];
    it->counterparty = row[1];
    for (int i = 2; i < 10; i++)
        it->amount = it->amount << 8 | row[i];
    if (!read_number(has, UINT64_MAX, &it->account[0]) || !read_number(gets, UINT64_MAX, &it->account[1]))
        return false;
    for (int i = 0; i < DIGEST; i++)
        printf("%02x", it->of.id[i]);
    puts("");
    return true;
}

static void answer_call(contract *it, char *line) {
    static hashkey key;
    terms says;
    uint64_t sender;
    bool fits = read_number(next_word(&line), 255, &sender);
    const char *kind = next_word(&line);
    if (fits && kind && !strcmp(kind, "publish") && read_terms(&it->of, line, &says))
        publish(it, (int)sender, &says);
    else if (fits && kind && !strcmp(kind, "unlock") && read_hashkey(&it->of, line, &key))
        unlock(it, (int)sender, &key);
    else if (fits && kind && !strcmp(kind, "claim") && !line)
        claim(it, (int)sender);
    else if (fits && kind && !strcmp(kind, "refund") && !line)
        refund(it, (int)sender);
    else
        puts("BadCall");
}

static bool answer(contract *it, char *line) {
    const char *word = next_word(&line);
    if (!strcmp(word, "deal"))
        return start(it, line);
    if (!strcmp(word, "height"))
        return read_number(next_word(&line), MOST_NUMBER, &it->height) && puts("ok") >= 0;
    if (!strcmp(word, "call"))
        answer_call(it, line);
    else
        printf("%" PRIu64 " %" PRIu64 " %" PRIu64 "\n", it->account[0], it->account[1], it->held);
    return true;
}

int main(void) {
    static contract it;
    char *line = NULL;
    size_t room = 0;
    ssize_t length;
    bool is_read = true;
    while (is_read && (length = getline(&line, &room, stdin)) > 0) {
        line[length - 1] = 0;
        is_read = answer(&it, line);
        fflush(stdout);
    }
    free(line);
    return is_read ? 0 : 1;
}
