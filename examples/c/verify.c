/* Judges proofs, a line each: ID SIZE CHALLENGE PROOF, the size in decimal digits and all else in hexadecimal ones. A line
 * without PROOF has one of no bytes. On each line it says what the program's command `verify` says, and "wrong arguments" where
 * the words are none of that command. */
#include "hillcrepe.h"

#include <inttypes.h>
#include <stdio.h>
#include <stdlib.h>
#include <string.h>

/* Turns hexadecimal digits into bytes, in their place, and sets their number. 0 where the word is no even number of digits. */
static int read_bytes(char *word, size_t *count) {
    size_t length = word == NULL ? 0 : strlen(word);
    if (length % 2 != 0 || (length != 0 && strspn(word, "0123456789abcdefABCDEF") != length)) return 0;
    *count = length / 2;
    for (size_t i = 0; i < *count; i++) {
        char digits[3] = {word[2 * i], word[2 * i + 1], 0};
        word[i] = (char)strtoul(digits, NULL, 16);
    }
    return 1;
}

/* A size in decimal digits without a leading zero; 0, which no plot has, for any other word and for one of more than 32 bits. */
static uint32_t size_of(const char *word) {
    if (word == NULL || word[0] == '0' || strspn(word, "0123456789") != strlen(word)) return 0;
    unsigned long long size = strtoull(word, NULL, 10);
    return size > UINT32_MAX ? 0 : (uint32_t)size;
}

int main(void) {
    char *line = NULL;
    size_t room = 0;
    while (pos_version() == POS_VERSION && getline(&line, &room, stdin) > 0) {
        char *id = strtok(line, " \n"), *size = strtok(NULL, " \n"), *challenge = strtok(NULL, " \n"), *proof = strtok(NULL, " \n");
        size_t id_length, challenge_length, proof_length;
        if (!read_bytes(id, &id_length) || !read_bytes(challenge, &challenge_length) || !read_bytes(proof, &proof_length)) {
            puts("wrong arguments");
            continue;
        }
        pos_answer answer;
        switch (pos_explain_proof((uint8_t *)id, id_length, size_of(size), (uint8_t *)challenge, challenge_length,
                                  (uint8_t *)proof, proof_length, &answer)) {
        case POS_ACCEPTED:
            fputs("accepted ", stdout);
            for (int i = 0; i < POS_HASH_BYTES; i++) printf("%02x", answer.quality[i]);
            putchar('\n');
            break;
        case POS_WRONG_LENGTH: printf("refused length %" PRIu64 " %" PRIu64 "\n", answer.want, answer.found); break;
        case POS_NO_MATCH: printf("refused match %" PRIu32 " %" PRIu32 "\n", answer.level, answer.pair); break;
        case POS_WRONG_CHALLENGE: printf("refused challenge %" PRIu64 " %" PRIu64 "\n", answer.want, answer.found); break;
        default: puts("wrong arguments");
        }
    }
    free(line);
    return 0;
}
