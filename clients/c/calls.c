/* Tries each call of the library at two sites of one process, over a pair of pipes: calls PROGRAM. Ends with status 1 at the first that
   isn't as expected, and tells its line. */
#include "leddwyfan.h"

#include <errno.h>
#include <stdio.h>
#include <stdlib.h>
#include <string.h>
#include <sys/wait.h>
#include <unistd.h>

#define EXPECT(condition) expect(condition, #condition, __LINE__)

/* The call answers -1, with this errno. */
#define EXPECT_ERROR(number, call) EXPECT((errno = 0, (call) == -1 && errno == (number)))

enum { PAGES = 2, PAGE = LEDDWYFAN_PAGE_BYTES, BYTES = 8000 };

static void expect(bool holds, const char *what, int line) {
    if (holds) return;
    fprintf(stderr, "calls.c:%d: not so: %s (%s)\n", line, what, strerror(errno));
    exit(1);
}

static void try_bytes(struct leddwyfan *one, struct leddwyfan *other) {
    unsigned char written[BYTES], read[BYTES];
    for (int place = 0; place < BYTES; place++) written[place] = (unsigned char)(7 * place);
    EXPECT(shm_write(one, 0, 100, written, BYTES) == 0);
    EXPECT(shm_read(other, 0, 100, read, BYTES) == 0 && memcmp(read, written, BYTES) == 0);
    EXPECT_ERROR(EFAULT, shm_write(one, 0, SIZE_MAX, written, 1));
}

/* What is read is what try_bytes wrote, of whatever length, and up to two pages; and nothing behind it. */
static void try_blocks(struct leddwyfan *site) {
    unsigned char read[PAGES * PAGE], guard = 0xa5;
    static const int ranges[][2] = {{PAGE - 1, 1}, {PAGE, 1}, {PAGE - 1, 2}, {PAGE - 2, 3}, {PAGE - 3, 4}, {PAGE - 6, 11},
                                    {200, 1},  {201, 2},  {202, 3},  {203, 4},  {PAGE, PAGE - 96}};
    for (size_t range = 0; range < sizeof ranges / sizeof *ranges; range++) {
        int offset = ranges[range][0], length = ranges[range][1];
        memset(read, guard, sizeof read);
        EXPECT(shm_read(site, 0, (size_t)offset, read, (size_t)length) == 0 && read[length] == guard);
        for (int place = 0; place < length; place++) EXPECT(read[place] == (unsigned char)(7 * (offset + place - 100)));
    }
    EXPECT(shm_read(site, 0, 0, read, PAGES * PAGE) == 0 && read[99] == 0 && read[107] == 49 && read[PAGES * PAGE - 1] == 0);
    EXPECT(shm_read(site, 0, 0, read, 0) == 0 && shm_read(site, 63, 0, read, 0) == 0);
    EXPECT_ERROR(EFAULT, shm_read(site, 0, PAGES * PAGE, read, 1));
    EXPECT_ERROR(EFAULT, shm_read(site, 0, PAGES * PAGE - 1, read, 2));
    EXPECT_ERROR(EFAULT, shm_read(site, 0, SIZE_MAX, read, 1));
    EXPECT_ERROR(EINVAL, shm_read(site, 63, 0, read, 1));
    EXPECT_ERROR(EINVAL, shm_read(site, 63, 4090, read, 20));
    EXPECT_ERROR(EINVAL, shm_read(site, -1, 0, read, 1));
}

/* At the greatest offset a site is asked, and refuses. What goes further no line can ask for, and the library refuses it. */
static void try_ends(struct leddwyfan *site) {
    unsigned char bytes[2] = {0};
    EXPECT(shm_read(site, 63, UINT32_MAX, bytes, 0) == 0 && shm_write(site, 63, UINT32_MAX, bytes, 0) == 0);
    EXPECT_ERROR(EFAULT, shm_read(site, 0, UINT32_MAX, bytes, 1));
    EXPECT_ERROR(EINVAL, shm_read(site, 63, UINT32_MAX, bytes, 1));
    EXPECT_ERROR(EINVAL, shm_read(site, 63, UINT32_MAX - 1, bytes, 2));
    EXPECT_ERROR(EFAULT, shm_read(site, 63, UINT32_MAX, bytes, 2));
    EXPECT_ERROR(EFAULT, shm_write(site, 0, UINT32_MAX, bytes, 1));
    EXPECT_ERROR(EINVAL, shm_write(site, 63, UINT32_MAX, bytes, 1));
    EXPECT_ERROR(EFAULT, shm_write(site, 63, UINT32_MAX, bytes, 2));
#if SIZE_MAX > UINT32_MAX
    EXPECT_ERROR(EFAULT, shm_read(site, 0, (size_t)UINT32_MAX + 1, bytes, 0));
    EXPECT_ERROR(EFAULT, shm_read(site, 63, 0, bytes, (size_t)UINT32_MAX + 2));
#endif
}

static void try_null(struct leddwyfan *site) {
    EXPECT(shm_read(site, 0, 0, NULL, 0) == 0 && shm_write(site, 0, 0, NULL, 0) == 0);
    EXPECT_ERROR(EFAULT, shm_read(site, 0, 0, NULL, 1));
    EXPECT_ERROR(EFAULT, shm_write(site, 0, 0, NULL, 1));
    EXPECT_ERROR(EINVAL, shm_write(site, -1, 0, NULL, 1));
}

static int try_get(struct leddwyfan *one, struct leddwyfan *other) {
    int shmid = shm_get(one, 5, 5000, IPC_CREAT | 0640);
    EXPECT(shmid >= 0 && shm_get(other, 5, 100, 0) == shmid);
    EXPECT_ERROR(EEXIST, shm_get(other, 5, 100, IPC_CREAT | IPC_EXCL));
    EXPECT_ERROR(EINVAL, shm_get(other, 5, 5001, 0));
    EXPECT_ERROR(ENOENT, shm_get(one, 6, 100, 0));
    EXPECT_ERROR(EINVAL, shm_get(one, IPC_PRIVATE, 0, IPC_CREAT));
    return shmid;
}

static void try_attached(struct leddwyfan *one, struct leddwyfan *other, int shmid) {
    struct leddwyfan_status status;
    char byte = 0;
    int at = shm_at(one, shmid, 0), read_only = shm_at(other, shmid, SHM_RDONLY);
    EXPECT(at == 1 && read_only == 1);
    EXPECT(shm_write(one, at, 2 * PAGE - 1, "z", 1) == 0 && shm_read(other, read_only, 2 * PAGE - 1, &byte, 1) == 0 && byte == 'z');
    EXPECT_ERROR(EACCES, shm_write(other, read_only, 0, "x", 1));
    EXPECT(shm_ctl(one, shmid, IPC_STAT, &status) == 0 && status.size == 5000 && status.attachments == 2 && !status.marked);
    EXPECT(status.key == 5 && status.mode == 0640 && status.uid == getuid() && status.cgid == getgid());
    status.mode = 0600;
    EXPECT(shm_ctl(other, shmid, IPC_SET, &status) == 0 && shm_ctl(one, shmid, IPC_STAT, &status) == 0 && status.mode == 0600);
    EXPECT(shm_ctl(one, shmid, IPC_RMID, NULL) == 0 && shm_ctl(one, shmid, IPC_STAT, &status) == 0 && status.marked);
    EXPECT(shm_dt(one, at) == 0 && shm_dt(other, read_only) == 0);
    EXPECT_ERROR(EINVAL, shm_dt(one, at));
    EXPECT_ERROR(EINVAL, shm_read(one, at, 0, &byte, 1));
    EXPECT_ERROR(EIDRM, shm_at(one, shmid, 0));
    EXPECT_ERROR(EINVAL, shm_at(one, 100000, 0));
}

/* A lock is one site's at a time, and is given back. */
static void try_lock(struct leddwyfan *one, struct leddwyfan *other) {
    EXPECT(shm_unlock(one, 0, 0) == 0 && shm_unlock(other, 0, 0) == 0);
    EXPECT(shm_lock(one, 0, 0) == 0);
    EXPECT_ERROR(EBUSY, shm_trylock(other, 0, 0));
    EXPECT_ERROR(EBUSY, shm_trylock(one, 0, 0));
    EXPECT(shm_unlock(one, 0, 0) == 0);
    EXPECT(shm_trylock(other, 0, 0) == 0);
    EXPECT_ERROR(EBUSY, shm_trylock(one, 0, 0));
    EXPECT(shm_unlock(other, 0, 0) == 0 && shm_lock(one, 0, 0) == 0 && shm_unlock(one, 0, 0) == 0);
    EXPECT_ERROR(EFAULT, shm_lock(one, 0, PAGES * PAGE));
    EXPECT_ERROR(EINVAL, shm_trylock(one, 63, 0));
}

/* In a process that was forked since the start each call fails at once, and a stop does nothing. */
static void try_forked(struct leddwyfan *site) {
    char byte;
    int status;
    pid_t child = fork();
    if (child == 0) {
        EXPECT_ERROR(ECHILD, shm_read(site, 0, 0, &byte, 1));
        EXPECT_ERROR(ECHILD, shm_get(site, 5, 100, 0));
        EXPECT_ERROR(ECHILD, shm_lock(site, 0, 0));
        leddwyfan_leave(site, 0);
        leddwyfan_stop(site);
        _exit(0);
    }
    EXPECT(child > 0 && waitpid(child, &status, 0) == child && status == 0);
    EXPECT(shm_read(site, 0, 0, &byte, 1) == 0);
}

/* There is no site 2 of two, and no seventeen sites. */
static void try_numbers(struct leddwyfan_options options) {
    options.me = options.sites;
    errno = 0;
    EXPECT(leddwyfan_start(&options) == NULL && errno == EINVAL);
    options.me = 0;
    options.sites = 17;
    errno = 0;
    EXPECT(leddwyfan_start(&options) == NULL && errno == EINVAL);
}

/* That there is no such program is told at the start, or where the system tells it by the process's end alone, at the first call. */
static void try_nothing(const struct leddwyfan_options *options) {
    char byte;
    errno = 0;
    struct leddwyfan *site = leddwyfan_start(options);
    if (site == NULL) {
        EXPECT(errno == ENOENT);
        return;
    }
    EXPECT_ERROR(EIO, shm_read(site, 0, 0, &byte, 1));
    leddwyfan_stop(site);
}

int main(int argc, char **argv) {
    int forth[2], back[2];
    char *program[] = {argc > 1 ? argv[1] : "shmdbg", NULL}, *nothing[] = {"/nowhere/shmdbg", NULL};
    if (pipe(forth) < 0 || pipe(back) < 0) return 1;
    struct leddwyfan_options options = {.program = program, .sites = 2, .pages = PAGES, .reader = back[0], .writer = forth[1], .timeout = 60};
    struct leddwyfan *one = leddwyfan_start(&options);
    options.me = 1;
    options.reader = forth[0];
    options.writer = back[1];
    struct leddwyfan *other = leddwyfan_start(&options);
    EXPECT(one != NULL && other != NULL);
    try_bytes(one, other);
    try_blocks(one);
    try_blocks(other);
    try_ends(one);
    try_null(one);
    try_attached(one, other, try_get(one, other));
    try_lock(one, other);
    try_forked(one);
    try_numbers(options);
    leddwyfan_leave(one, 0);
    leddwyfan_stop(other);
    options.program = nothing;
    try_nothing(&options);
    puts("calls in C: as expected");
    return 0;
}
