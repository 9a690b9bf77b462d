/* Calls the library for C where a caller may be wrong: with every length and size, with NULL where a length is 0, with rooms and
 * bytes that end or begin at pages that may not be read, and with requests of any kind beside the single call.
 *
 *     library_uses < LINES
 *
 * Each line is ID SIZE CHALLENGE PROOF of an accepted proof. It writes how many calls it compared, or what differs. */
#include "../include/hillcrepe.h"

#include <inttypes.h>
#include <stdio.h>
#include <stdlib.h>
#include <string.h>
#include <sys/mman.h>

#define MOST_CASES 2000
#define MOST_BYTES 400
#define PAGE 4096

typedef struct {
    uint8_t id[32], challenge[32], proof[MOST_BYTES];
    uint32_t size;
} proof_case;

static proof_case cases[MOST_CASES];
static size_t case_count, compared;

/* Ends with what differs, unless it holds. */
static void must(int holds, const char *what, uint64_t number) {
    compared++;
    if (!holds) {
        printf("%s: %" PRIu64 "\n", what, number);
        exit(1);
    }
}

static void read_bytes(const char *word, uint8_t *out, size_t count) {
    for (size_t i = 0; i < count; i++) {
        unsigned byte = 0;
        must(sscanf(word + 2 * i, "%2x", &byte) == 1, "a digit", i);
        out[i] = (uint8_t)byte;
    }
}

static void read_cases(void) {
    static char id[65], challenge[65], proof[2 * MOST_BYTES + 1];
    unsigned size;
    while (case_count < MOST_CASES && scanf("%64s %u %64s %800s", id, &size, challenge, proof) == 4) {
        proof_case *one = &cases[case_count++];
        one->size = size;
        read_bytes(id, one->id, 32);
        read_bytes(challenge, one->challenge, 32);
        must(strlen(proof) == 16 * (size_t)size, "a proof's digits", case_count);
        read_bytes(proof, one->proof, 8 * (size_t)size);
    }
}

/* Whether all bytes are one byte. */
static int is_all(const void *bytes, uint8_t byte, size_t count) {
    for (size_t i = 0; i < count; i++) {
        if (((const uint8_t *)bytes)[i] != byte) return 0;
    }
    return 1;
}

/* Calls with a room of 32 bytes within 96, of which no other byte may change, nor any where the answer is not 0. */
static uint32_t judged(const uint8_t *id, size_t id_length, uint32_t size, const uint8_t *challenge, size_t challenge_length,
                       const uint8_t *proof, size_t proof_length, uint8_t *quality) {
    uint8_t room[96];
    memset(room, 0xee, sizeof room);
    uint32_t answer = pos_verify_proof(id, id_length, size, challenge, challenge_length, proof, proof_length, room + 32, 32);
    must(is_all(room, 0xee, 32) && is_all(room + 64, 0xee, 32), "bytes beside the room", answer);
    if (answer != POS_ACCEPTED) must(is_all(room, 0xee, sizeof room), "the room of a refusal", answer);
    if (quality != NULL) memcpy(quality, room + 32, 32);
    pos_answer told;
    memset(&told, 0xdd, sizeof told);
    must(pos_explain_proof(id, id_length, size, challenge, challenge_length, proof, proof_length, &told) == answer, "the same answer", answer);
    must(told.verdict == answer, "the verdict of an answer", answer);
    must(answer == POS_ACCEPTED ? memcmp(told.quality, room + 32, 32) == 0 : is_all(told.quality, 0xdd, 32), "the quality of an answer", answer);
    must((told.level != 0) == (answer == POS_NO_MATCH) && (told.pair == 0 || answer == POS_NO_MATCH), "the pair of an answer", answer);
    must((told.want != told.found) == (answer == POS_WRONG_LENGTH || answer == POS_WRONG_CHALLENGE), "the numbers of an answer", answer);
    if (answer == POS_WRONG_LENGTH) must(told.want == 8 * (uint64_t)size && told.found == proof_length, "the lengths", told.found);
    return answer;
}

/* Every length of each argument, in the place of a right one. */
static void try_lengths(const proof_case *one) {
    static uint8_t bytes[1000], room[1000];
    for (size_t length = 0; length <= 1000; length++) {
        const uint8_t *start = length == 0 ? NULL : bytes;
        memcpy(bytes, one->id, 32);
        must(judged(start, length, one->size, one->challenge, 32, one->proof, 8 * one->size, NULL) == (length == 32 ? 0 : 4), "an id's length", length);
        memcpy(bytes, one->challenge, 32);
        must(judged(one->id, 32, one->size, start, length, one->proof, 8 * one->size, NULL) == (length == 32 ? 0 : 4), "a challenge's length", length);
        memcpy(bytes, one->proof, 8 * one->size);
        must(judged(one->id, 32, one->size, one->challenge, 32, start, length, NULL) == (length == 8 * one->size ? 0 : 1), "a proof's length", length);
        memset(room, 0xee, sizeof room);
        uint32_t answer = pos_verify_proof(one->id, 32, one->size, one->challenge, 32, one->proof, 8 * one->size, length == 0 ? NULL : room, length);
        must(answer == (length == 32 ? 0 : 4), "a room's length", length);
        must(is_all(room + 32, 0xee, sizeof room - 32) && is_all(room, 0xee, 32) == (length != 32), "a room that is written", length);
    }
    must(pos_verify_proof(NULL, 0, 0, NULL, 0, NULL, 0, NULL, 0) == 4, "nothing at all", 0);
    must(pos_verify_proofs(NULL, 0, NULL, 0, NULL, 0) == 0, "no requests", 0);
}

static void try_size(const proof_case *one, uint32_t size) {
    uint32_t wanted = size < 10 || size > 50 ? 4 : size == one->size ? 0 : 1;
    must(judged(one->id, 32, size, one->challenge, 32, one->proof, 8 * one->size, NULL) == wanted, "a size", size);
}

/* Each small size, and each power of two with its neighbours. */
static void try_sizes(const proof_case *one) {
    for (uint32_t size = 0; size < 600; size++) try_size(one, size);
    for (int i = 0; i < 32; i++) {
        for (uint32_t by = 0; by < 3; by++) try_size(one, ((uint32_t)1 << i) - 1 + by);
    }
    try_size(one, UINT32_MAX - 1);
    for (uint32_t size = 10; size <= 50; size++) {
        uint8_t proof[MOST_BYTES] = {0};
        uint32_t answer = judged(one->id, 32, size, one->challenge, 32, proof, 8 * size, NULL);
        must(answer == POS_NO_MATCH, "a proof of zeros", size);
    }
}

/* A proof of more than 2^32 bytes, which no page is kept for. */
static void try_long_proof(const proof_case *one) {
    size_t length = ((size_t)1 << 32) + 8 * one->size;
    void *bytes = mmap(NULL, length, PROT_READ, MAP_PRIVATE | MAP_ANONYMOUS | MAP_NORESERVE, -1, 0);
    if (bytes == MAP_FAILED) return;
    must(judged(one->id, 32, one->size, one->challenge, 32, (const uint8_t *)bytes, length, NULL) == 1, "a long proof", length);
    munmap(bytes, length);
}

/* So many bytes of the mapping that end where nothing may be read any more, or begin where nothing may be read before. */
static uint8_t *at_edge(uint8_t *pages, int begins, const uint8_t *bytes, size_t count) {
    uint8_t *place = begins ? pages + PAGE : pages + 2 * PAGE - count;
    if (bytes != NULL) memcpy(place, bytes, count);
    return place;
}

static uint8_t *guarded(void) {
    void *pages = mmap(NULL, 3 * PAGE, PROT_NONE, MAP_PRIVATE | MAP_ANONYMOUS, -1, 0);
    must(pages != MAP_FAILED && mprotect((uint8_t *)pages + PAGE, PAGE, PROT_READ | PROT_WRITE) == 0, "a mapping", 0);
    return (uint8_t *)pages;
}

static void try_edges(void) {
    uint8_t *pages[4] = {guarded(), guarded(), guarded(), guarded()};
    for (size_t i = 0; i < case_count; i++) {
        const proof_case *one = &cases[i];
        uint8_t quality[32];
        must(judged(one->id, 32, one->size, one->challenge, 32, one->proof, 8 * one->size, quality) == 0, "an accepted proof", i);
        for (size_t cut = 0; cut < 3; cut++) {
            size_t count = 8 * one->size - cut;
            uint8_t *id = at_edge(pages[0], i % 2, one->id, 32), *challenge = at_edge(pages[1], i / 2 % 2, one->challenge, 32);
            uint8_t *proof = at_edge(pages[2], i / 4 % 2, one->proof, count), *room = at_edge(pages[3], i / 8 % 2, NULL, 32);
            uint32_t answer = pos_verify_proof(id, 32, one->size, challenge, 32, proof, count, room, 32);
            must(answer == (cut == 0 ? 0u : 1u) && memcmp(room, quality, 32) == 0, "a proof at the edge of its pages", i);
        }
    }
}

/* One call for proofs of every kind beside the single call for each. */
static void try_requests(void) {
    size_t each = 6, count = each * case_count, bytes = case_count * MOST_BYTES;
    pos_request *requests = (pos_request *)calloc(count, sizeof *requests);
    pos_answer *answers = (pos_answer *)malloc(count * sizeof *answers), *kept = (pos_answer *)malloc(count * sizeof *answers);
    uint8_t *proofs = (uint8_t *)malloc(bytes);
    must(requests != NULL && answers != NULL && kept != NULL && proofs != NULL, "memory", count);
    for (size_t i = 0; i < case_count; i++) memcpy(proofs + i * MOST_BYTES, cases[i].proof, MOST_BYTES);
    for (size_t i = 0; i < count; i++) {
        size_t n = i / each;
        pos_request *asked = &requests[i];
        memcpy(asked->id, cases[n].id, 32);
        memcpy(asked->challenge, cases[n].challenge, 32);
        asked->start = n * MOST_BYTES;
        asked->length = 8 * (uint64_t)cases[n].size;
        asked->size = cases[n].size;
        switch (i % each) {
        case 1: memcpy(asked->challenge, cases[(n + 1) % case_count].challenge, 32); break;
        case 2: asked->start += n % 7 + 1; break;
        case 3: asked->length -= n % 3; break;
        case 4: asked->size = (uint32_t)(n % 80); break;
        case 5:
            asked->start = n % 4 == 0 ? UINT64_MAX : n % 4 == 1 ? bytes : bytes - asked->length + n % 3;
            asked->length = n % 8 == 0 ? UINT64_MAX : n % 8 == 1 ? 0 : asked->length;
            break;
        default: break;
        }
    }
    memset(answers, 0xcc, count * sizeof *answers);
    memset(kept, 0xcc, count * sizeof *answers);
    for (size_t other = 0; other < 2; other++) {
        must(pos_verify_proofs(requests, count - other, proofs, bytes, answers, count - 1 + other) == 4, "other counts", other);
        must(memcmp(answers, kept, count * sizeof *answers) == 0, "answers that are not asked for", other);
    }
    must(pos_verify_proofs(requests, count, proofs, bytes, answers, count) == 0, "the answer to a call for many", count);
    size_t seen[5] = {0};
    for (size_t i = 0; i < count; i++) {
        const pos_request *asked = &requests[i];
        int inside = asked->start <= bytes && asked->length <= bytes - asked->start;
        pos_answer alone = kept[i];
        if (inside) {
            pos_explain_proof(asked->id, 32, asked->size, asked->challenge, 32, proofs + asked->start, asked->length, &alone);
        } else {
            alone.want = alone.found = alone.level = alone.pair = 0;
            alone.verdict = POS_WRONG_ARGUMENTS;
        }
        const pos_answer *told = &answers[i];
        must(told->want == alone.want && told->found == alone.found && told->verdict == alone.verdict && told->level == alone.level
                 && told->pair == alone.pair && memcmp(told->quality, alone.quality, 32) == 0, "an answer to a request", i);
        seen[told->verdict]++;
    }
    for (size_t verdict = 0; verdict < 5; verdict++) must(seen[verdict] > 0, "each answer is there", verdict);
    free(requests);
    free(answers);
    free(kept);
    free(proofs);
}

int main(void) {
    must(pos_version() == POS_VERSION, "the version", pos_version());
    read_cases();
    must(case_count > 1, "proofs", case_count);
    try_lengths(&cases[0]);
    try_sizes(&cases[0]);
    try_long_proof(&cases[0]);
    try_edges();
    try_requests();
    printf("%zu proofs, %zu facts\n", case_count, compared);
    return 0;
}
