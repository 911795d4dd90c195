/* What stands behind a line of a cluster: its name and, under a key, a digest (docs/lines.md, "Seals"). */
#ifndef LEDDWYFAN_SEAL_H
#define LEDDWYFAN_SEAL_H

#include <stdbool.h>
#include <stddef.h>
#include <stdint.h>

enum {
    SEAL_NAME_BYTES = 32,   /* of a cluster's name, at most */
    SEAL_DIGEST_BYTES = 65, /* a blank, and two digits for each of 32 bytes */
    SEAL_BYTES = 2 + SEAL_NAME_BYTES + SEAL_DIGEST_BYTES,
    SEAL_BLOCK_BYTES = 64,
};

struct seal {
    char name[2 + SEAL_NAME_BYTES + 1]; /* ` @NAME`, or nothing */
    bool keyed;
    unsigned char key[SEAL_BLOCK_BYTES];
};

/* The seal of a cluster of this name, or of none, with the key that lies in this file, or without. -1, and errno: EINVAL where the name or the
   key can't be one, else the key's file can't be read. */
int seal_make(struct seal *seal, const char *cluster, const char *key_file);

/* Writes behind a line of this length its seal, and answers how many bytes that has. There has to be room for SEAL_BYTES. */
size_t seal_append(const struct seal *seal, char *line, size_t length);

/* How many bytes a seal has. */
size_t seal_length(const struct seal *seal);

/* Whether a line of this length ends with its seal. */
bool seal_is_behind(const struct seal *seal, const char *line, size_t length);

#endif
