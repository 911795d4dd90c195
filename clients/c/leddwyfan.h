/* System V shared memory over sites that share no memory: a site's process, and its calls.

   leddwyfan_start starts the process `shmdbg site` and stands between it and the stream that all sites share (docs/lines.md): what the stream
   says to this site goes to the process, and what the process says to others goes to the stream. The calls are those of shmget(2), shmop(2)
   and shmctl(2), with their flags and their errno. clients/README.md says what is promised.

   Needs C11, POSIX and its threads: cc -std=c11 -pthread program.c leddwyfan.c */
#ifndef LEDDWYFAN_H
#define LEDDWYFAN_H

#ifndef _XOPEN_SOURCE
#define _XOPEN_SOURCE 700
#endif

#include <stdbool.h>
#include <stddef.h>
#include <stdint.h>
#include <sys/ipc.h>
#include <sys/shm.h>
#include <sys/types.h>

/* How many bytes a page has. */
enum { LEDDWYFAN_PAGE_BYTES = 4096 };

/* A site and its process. Threads may share one. */
struct leddwyfan;

struct leddwyfan_options {
    char *const *program; /* the words of the command, ended by NULL, as {"shmdbg", NULL} */
    unsigned sites;       /* how many sites there are, 1 to 16 */
    unsigned me;          /* which of them this is: below `sites` */
    unsigned pages;       /* how many pages segment 0 has, which is attached as attachment 0 */
    int reader;           /* what others say comes from here: set not to block, and never closed */
    int writer;           /* what goes out goes here: the same */
    const char *journal;  /* the journal's file, or NULL */
    bool begin;           /* begins the journal, which must not have been begun; else the site goes on from its journal */
    const char *cluster;  /* the cluster's name, or NULL */
    const char *key;      /* the file of its key, or NULL */
    unsigned timeout;     /* how many seconds a call waits at most, for each page anew, before it fails with ETIMEDOUT; 0: for good */
};

/* What IPC_STAT tells of a segment, and of which IPC_SET takes uid, gid and mode. A marked one is destroyed once nobody is attached. */
struct leddwyfan_status {
    uint32_t key, uid, gid, cuid, cgid;
    unsigned mode;
    size_t size;
    uint64_t attachments;
    bool marked;
};

/* NULL, and errno: EINVAL where there is no such site, a journal without a file is to be begun, or the cluster's name or key can't be one; else
   there is no process, no memory, or no file of the key. */
struct leddwyfan *leddwyfan_start(const struct leddwyfan_options *options);

/* Ends the site's process. What the site holds is gone, but for its journal. No call may run meanwhile. In a process that was forked since
   the start it does nothing. */
void leddwyfan_stop(struct leddwyfan *site);

/* Serves the other sites until none of them has said anything to this one for so many seconds, and stops as above. */
void leddwyfan_leave(struct leddwyfan *site, unsigned seconds);

/* These answer -1, and errno, where they fail: ECHILD in a process that was forked since the start. */
int shm_get(struct leddwyfan *site, uint32_t key, size_t size, int flags);
int shm_at(struct leddwyfan *site, int shmid, int flags);
int shm_dt(struct leddwyfan *site, int at);
int shm_ctl(struct leddwyfan *site, int shmid, int command, struct leddwyfan_status *status);

/* So many loads or stores of single bytes, in no promised order. Of one that fails some may have been made. What a read loads of one page
   is asked for as one block, and a single byte as a load. */
int shm_read(struct leddwyfan *site, int at, size_t offset, void *bytes, size_t length);
int shm_write(struct leddwyfan *site, int at, size_t offset, const void *bytes, size_t length);

/* A lock whose flags begin at this offset of an attached segment: 4,096 bytes for each site, of which the first is site K's flag. At most one
   site has it, and of a site one thread (all of one site go by the same attachment). shm_lock waits, and fails with ETIMEDOUT behind the
   options' timeout; sites with lower numbers go first. shm_trylock fails with EBUSY where the lock is taken, or wanted by another. What a
   program had that ended goes to the next at its site that locks or unlocks. */
int shm_lock(struct leddwyfan *site, int at, size_t offset);
int shm_trylock(struct leddwyfan *site, int at, size_t offset);
int shm_unlock(struct leddwyfan *site, int at, size_t offset);

#endif
