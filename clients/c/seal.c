#include "seal.h"

#include <errno.h>
#include <stdio.h>
#include <string.h>

/* SHA-256, as FIPS 180-4 has it. */

struct hash {
    uint32_t state[8];
    uint64_t length;
    unsigned char block[SEAL_BLOCK_BYTES];
};

static const uint32_t ROUNDS[64] = {
    0x428a2f98, 0x71374491, 0xb5c0fbcf, 0xe9b5dba5, 0x3956c25b, 0x59f111f1, 0x923f82a4, 0xab1c5ed5, 0xd807aa98, 0x12835b01, 0x243185be,
    0x550c7dc3, 0x72be5d74, 0x80deb1fe, 0x9bdc06a7, 0xc19bf174, 0xe49b69c1, 0xefbe4786, 0x0fc19dc6, 0x240ca1cc, 0x2de92c6f, 0x4a7484aa,
    0x5cb0a9dc, 0x76f988da, 0x983e5152, 0xa831c66d, 0xb00327c8, 0xbf597fc7, 0xc6e00bf3, 0xd5a79147, 0x06ca6351, 0x14292967, 0x27b70a85,
    0x2e1b2138, 0x4d2c6dfc, 0x53380d13, 0x650a7354, 0x766a0abb, 0x81c2c92e, 0x92722c85, 0xa2bfe8a1, 0xa81a664b, 0xc24b8b70, 0xc76c51a3,
    0xd192e819, 0xd6990624, 0xf40e3585, 0x106aa070, 0x19a4c116, 0x1e376c08, 0x2748774c, 0x34b0bcb5, 0x391c0cb3, 0x4ed8aa4a, 0x5b9cca4f,
    0x682e6ff3, 0x748f82ee, 0x78a5636f, 0x84c87814, 0x8cc70208, 0x90befffa, 0xa4506ceb, 0xbef9a3f7, 0xc67178f2};

static uint32_t turned(uint32_t word, int count) {
    return word >> count | word << (32 - count);
}

static void compress(struct hash *hash) {
    uint32_t words[64], at[8];
    for (int t = 0; t < 16; t++) {
        const unsigned char *bytes = hash->block + 4 * t;
        words[t] = (uint32_t)bytes[0] << 24 | (uint32_t)bytes[1] << 16 | (uint32_t)bytes[2] << 8 | bytes[3];
    }
    for (int t = 16; t < 64; t++) {
        uint32_t far = words[t - 15], near = words[t - 2];
        words[t] = (turned(near, 17) ^ turned(near, 19) ^ near >> 10) + words[t - 7] + (turned(far, 7) ^ turned(far, 18) ^ far >> 3) + words[t - 16];
    }
    memcpy(at, hash->state, sizeof at);
    for (int t = 0; t < 64; t++) {
        uint32_t one = at[7] + (turned(at[4], 6) ^ turned(at[4], 11) ^ turned(at[4], 25)) + ((at[4] & at[5]) ^ (~at[4] & at[6])) + ROUNDS[t] + words[t];
        uint32_t two = (turned(at[0], 2) ^ turned(at[0], 13) ^ turned(at[0], 22)) + ((at[0] & at[1]) ^ (at[0] & at[2]) ^ (at[1] & at[2]));
        memmove(at + 1, at, 7 * sizeof *at);
        at[4] += one;
        at[0] = one + two;
    }
    for (int place = 0; place < 8; place++) hash->state[place] += at[place];
}

static void begin(struct hash *hash) {
    static const uint32_t first[8] = {0x6a09e667, 0xbb67ae85, 0x3c6ef372, 0xa54ff53a, 0x510e527f, 0x9b05688c, 0x1f83d9ab, 0x5be0cd19};
    memcpy(hash->state, first, sizeof first);
    hash->length = 0;
}

static void take(struct hash *hash, const void *bytes, size_t count) {
    for (size_t place = 0; place < count; place++) {
        hash->block[hash->length++ % SEAL_BLOCK_BYTES] = ((const unsigned char *)bytes)[place];
        if (hash->length % SEAL_BLOCK_BYTES == 0) compress(hash);
    }
}

static void end(struct hash *hash, unsigned char digest[32]) {
    unsigned char length[8];
    for (int place = 0; place < 8; place++) length[place] = (unsigned char)(hash->length * 8 >> (56 - 8 * place));
    take(hash, "\x80", 1);
    while (hash->length % SEAL_BLOCK_BYTES != SEAL_BLOCK_BYTES - 8) take(hash, "", 1);
    take(hash, length, sizeof length);
    for (int place = 0; place < 32; place++) digest[place] = (unsigned char)(hash->state[place / 4] >> (24 - place % 4 * 8));
}

/* HMAC, as RFC 2104 has it: one of its two rounds, with the key's bytes and this one. */
static void round_of(const struct seal *seal, unsigned char pad, const void *text, size_t length, unsigned char digest[32]) {
    unsigned char block[SEAL_BLOCK_BYTES];
    struct hash hash;
    for (int place = 0; place < SEAL_BLOCK_BYTES; place++) block[place] = (unsigned char)(seal->key[place] ^ pad);
    begin(&hash);
    take(&hash, block, sizeof block);
    take(&hash, text, length);
    end(&hash, digest);
}

static int refused(void) {
    errno = EINVAL;
    return -1;
}

/* A key is its file's bytes, less a line feed at their end. One that is longer than a block is hashed. */
static int read_key(struct seal *seal, const char *name) {
    unsigned char bytes[4096];
    struct hash hash;
    size_t length = 0, count;
    bool feed = false;
    FILE *file = fopen(name, "re");
    if (file == NULL) return -1;
    begin(&hash);
    while ((count = fread(bytes, 1, sizeof bytes, file)) > 0) {
        for (size_t place = 0; place < count; place++) {
            if (feed) {
                if (length < SEAL_BLOCK_BYTES) seal->key[length] = '\n';
                take(&hash, "\n", 1);
                length++;
            }
            feed = bytes[place] == '\n';
            if (feed) continue;
            if (length < SEAL_BLOCK_BYTES) seal->key[length] = bytes[place];
            take(&hash, bytes + place, 1);
            length++;
        }
    }
    bool failed = ferror(file) != 0;
    fclose(file);
    if (failed) {
        errno = EIO;
        return -1;
    }
    if (length == 0) return refused();
    if (length > SEAL_BLOCK_BYTES) {
        memset(seal->key, 0, sizeof seal->key);
        end(&hash, seal->key);
    }
    seal->keyed = true;
    return 0;
}

int seal_make(struct seal *seal, const char *cluster, const char *key_file) {
    memset(seal, 0, sizeof *seal);
    if (cluster == NULL) return key_file == NULL ? 0 : refused();
    size_t length = strlen(cluster);
    if (length < 1 || length > SEAL_NAME_BYTES) return refused();
    for (size_t place = 0; place < length; place++) {
        if (cluster[place] <= ' ' || cluster[place] > '~') return refused();
    }
    snprintf(seal->name, sizeof seal->name, " @%s", cluster);
    return key_file == NULL ? 0 : read_key(seal, key_file);
}

size_t seal_length(const struct seal *seal) {
    return strlen(seal->name) + (seal->keyed ? SEAL_DIGEST_BYTES : 0);
}

/* A blank, and the text's digest in hexadecimal. */
static void write_digest(const struct seal *seal, const char *text, size_t length, char *digest) {
    unsigned char inner[32], outer[32];
    round_of(seal, 0x36, text, length, inner);
    round_of(seal, 0x5c, inner, sizeof inner, outer);
    *digest++ = ' ';
    for (int place = 0; place < 32; place++) {
        *digest++ = "0123456789abcdef"[outer[place] >> 4];
        *digest++ = "0123456789abcdef"[outer[place] & 15];
    }
}

size_t seal_append(const struct seal *seal, char *line, size_t length) {
    size_t name = strlen(seal->name);
    memcpy(line + length, seal->name, name);
    if (seal->keyed) write_digest(seal, line, length + name, line + length + name);
    return seal_length(seal);
}

bool seal_is_behind(const struct seal *seal, const char *line, size_t length) {
    char digest[SEAL_DIGEST_BYTES];
    size_t name = strlen(seal->name);
    if (length < seal_length(seal)) return false;
    size_t front = length - seal_length(seal);
    if (memcmp(line + front, seal->name, name) != 0) return false;
    if (!seal->keyed) return true;
    write_digest(seal, line, front + name, digest);
    return memcmp(line + front + name, digest, sizeof digest) == 0;
}
