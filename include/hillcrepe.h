/*
 * Hillcrepe: a verifier of Chia's proofs of space, proved to the last line.
 *
 * The archive libpos_c.a has these calls. None of them takes memory, keeps anything between two calls, reads or writes
 * anything but what is named here, or calls anything but memcpy, memmove and memset. Any of them may run in several threads
 * at once, and in a signal handler. docs/NODES.md says how the archive is built and what is proved of each call.
 *
 * What the caller owes, of every call:
 *   - a pointer that is followed by a length points at so many elements, which stay as they are while the call runs; where
 *     the length is 0 it may be NULL;
 *   - a pointer to one struct is not NULL;
 *   - what a call writes (`quality`, `answer`, `answers`) overlaps nothing else that is passed to it.
 * Everything else is answered: each length, each size, each byte.
 */
#ifndef HILLCREPE_H
#define HILLCREPE_H

#include <stddef.h>
#include <stdint.h>

#ifdef __cplusplus
extern "C" {
#endif

/* The version of these calls. A later version that a caller of this one cannot use has another number. */
#define POS_VERSION 1

/* The bytes of an id, of a challenge and of a quality. */
#define POS_HASH_BYTES 32

/* The sizes k that a plot may have. A proof of size k has 8 * k bytes. */
#define POS_LEAST_SIZE 10
#define POS_GREATEST_SIZE 50

/* What a proof is judged to be. The first reason decides, in this order: the arguments, the length, the pairs, the challenge. */
#define POS_ACCEPTED 0        /* a proof for the challenge */
#define POS_WRONG_LENGTH 1    /* the proof has other than 8 * size bytes */
#define POS_NO_MATCH 2        /* a pair of the proof's values does not match */
#define POS_WRONG_CHALLENGE 3 /* every pair matches, and the proof answers other challenges */
#define POS_WRONG_ARGUMENTS 4 /* no plot has these arguments: nothing was judged */

/* An answer with its reason. What does not belong to the verdict is 0; `quality` is written where the verdict is
 * POS_ACCEPTED, and keeps what stood there otherwise. */
typedef struct pos_answer {
    uint64_t want;    /* POS_WRONG_LENGTH: 8 * size; POS_WRONG_CHALLENGE: the number that the first `size` bits of the challenge write */
    uint64_t found;   /* POS_WRONG_LENGTH: the proof's length in bytes; POS_WRONG_CHALLENGE: the number of the challenges that it answers */
    uint32_t verdict; /* one of the five above */
    uint32_t level;   /* POS_NO_MATCH: the level of the first pair that does not match, from 1 (two values) to 6 (all 64) */
    uint32_t pair;    /* POS_NO_MATCH: its place in the level, from 0 on the left */
    uint8_t quality[POS_HASH_BYTES]; /* POS_ACCEPTED: the proof's quality */
} pos_answer;

/* A proof to judge, of many. It has no pointer: a request of any bytes is answered. */
typedef struct pos_request {
    uint8_t id[POS_HASH_BYTES];        /* the plot's id */
    uint8_t challenge[POS_HASH_BYTES]; /* the challenge that the proof is to answer */
    uint64_t start;                    /* where its proof begins in `proofs`, in bytes */
    uint64_t length;                   /* how many bytes its proof has */
    uint32_t size;                     /* the plot's size k */
} pos_request;

/* The version of the archive: compare it with POS_VERSION. */
uint32_t pos_version(void);

/*
 * Judges one proof.
 *
 * Answers: POS_ACCEPTED        the bytes are a proof for the challenge, and its quality was written
 *          POS_WRONG_LENGTH    proof_length is not 8 * size
 *          POS_NO_MATCH        a pair of the proof's values does not match
 *          POS_WRONG_CHALLENGE the proof answers other challenges
 *          POS_WRONG_ARGUMENTS id_length, challenge_length or quality_length is not 32, or size is not from 10 to 50
 * In:      id, id_length               the plot's id, of 32 bytes
 *          size                        the plot's size k
 *          challenge, challenge_length the challenge, of 32 bytes
 *          proof, proof_length         the proof, of any length
 * Out:     quality, quality_length     room for the quality, of 32 bytes: written where the answer is POS_ACCEPTED, and
 *                                      unchanged otherwise
 */
uint32_t pos_verify_proof(const uint8_t *id, size_t id_length, uint32_t size, const uint8_t *challenge, size_t challenge_length,
                          const uint8_t *proof, size_t proof_length, uint8_t *quality, size_t quality_length);

/*
 * Judges one proof and tells the reason of a refusal.
 *
 * Answers: as pos_verify_proof, with no room to be wrong; it is also in answer->verdict.
 * In:      as pos_verify_proof
 * Out:     answer                      written in any case, but for its quality: see pos_answer
 */
uint32_t pos_explain_proof(const uint8_t *id, size_t id_length, uint32_t size, const uint8_t *challenge, size_t challenge_length,
                           const uint8_t *proof, size_t proof_length, pos_answer *answer);

/*
 * Judges many proofs: the answer to a request is what pos_explain_proof writes for it alone.
 *
 * Answers: 0                           every request was answered
 *          POS_WRONG_ARGUMENTS         answer_count is not request_count: nothing was judged or written
 * In:      requests, request_count     the requests
 *          proofs, proofs_length       the bytes of all proofs, in any order; requests may share them. A request whose bytes
 *                                      from start to start + length do not lie inside is answered POS_WRONG_ARGUMENTS
 * Out:     answers, answer_count       one for each request, in the order of the requests
 */
uint32_t pos_verify_proofs(const pos_request *requests, size_t request_count, const uint8_t *proofs, size_t proofs_length,
                           pos_answer *answers, size_t answer_count);

#ifdef __cplusplus
}
#endif

#endif
