/* calls: each call as shmop(2), shmget(2) and shmctl(2) say, and what fork, exec, exit and kill do to attachments. Ends with status 1 where
   something isn't as expected. */
#include <errno.h>
#include <signal.h>
#include <stdbool.h>
#include <stdio.h>
#include <stdlib.h>
#include <string.h>
#include <sys/mman.h>
#include <sys/shm.h>
#include <sys/wait.h>
#include <unistd.h>

#define EXPECT(condition) expect(condition, #condition, __LINE__)
#define EXPECT_ERROR(number, call) EXPECT((errno = 0, (call) == -1 && errno == (number)))
#define NOT_ATTACHED(number, call) EXPECT((errno = 0, (call) == (void *)-1 && errno == (number)))

static void expect(bool holds, const char *what, int line) {
    if (holds) return;
    fprintf(stderr, "calls.c:%d: not so: %s (%s)\n", line, what, strerror(errno));
    exit(1);
}

/* Turns of 10 ms that make a second, on a machine that may be so many times as slow as one at rest. */
static int turns(void) {
    const char *slow = getenv("SLOW");
    return slow == NULL ? 100 : (int)(100 * atof(slow));
}

/* How often it is attached; what ended may still be counted for a moment. */
static bool attached(int id, unsigned long count) {
    struct shmid_ds status;
    for (int turn = 0; turn < turns(); turn++, usleep(10000)) {
        if (shmctl(id, IPC_STAT, &status) == 0 && status.shm_nattch == count) return true;
    }
    fprintf(stderr, "attached %lu times\n", (unsigned long)status.shm_nattch);
    return false;
}

static void end_with_7(int signal) {
    (void)signal;
    _exit(7);
}

static int status_of(pid_t child) {
    int status;
    waitpid(child, &status, 0);
    return WIFEXITED(status) ? WEXITSTATUS(status) : -WTERMSIG(status);
}

static void try_addresses(int id, const char *there) {
    char *free_space = mmap(NULL, 1 << 20, PROT_NONE, MAP_PRIVATE | MAP_ANONYMOUS, -1, 0);
    munmap(free_space, 1 << 20);
    EXPECT(shmat(id, free_space, 0) == free_space && strcmp(free_space, there) == 0);
    NOT_ATTACHED(EINVAL, shmat(id, free_space, 0));
    NOT_ATTACHED(EINVAL, shmat(id, free_space + 1, 0));
    NOT_ATTACHED(EINVAL, shmat(id, NULL, SHM_REMAP));
    EXPECT(shmat(id, free_space + 0x10001, SHM_RND) == free_space + 0x10000);
    EXPECT(shmat(id, free_space, SHM_REMAP) == free_space && strcmp(free_space, there) == 0);
    EXPECT(shmdt(free_space + 0x10000) == 0 && shmdt(free_space) == 0);
    EXPECT_ERROR(EINVAL, shmdt(free_space));
}

static void try_read_only(int id, char *memory) {
    char *read_only = shmat(id, NULL, SHM_RDONLY);
    EXPECT(read_only != (void *)-1 && strcmp(read_only, memory) == 0 && attached(id, 2));
    pid_t child = fork();
    if (child == 0) {
        signal(SIGSEGV, end_with_7);
        read_only[0] = 'x';
        _exit(0);
    }
    EXPECT(status_of(child) == 7 && attached(id, 2) && shmdt(read_only) == 0 && attached(id, 1));
}

/* The child has attached what its parent has, stores and sees stores, and so do its children. */
static void try_fork(int id, char *memory) {
    memory[4096] = 0;
    pid_t child = fork();
    if (child == 0) {
        pid_t grandchild = fork();
        if (grandchild == 0) {
            memory[4097] = 'g';
            _exit(attached(id, 3) ? 3 : 0);
        }
        memory[4096] = 'c';
        int inner = status_of(grandchild);
        _exit(memory[4097] == 'g' ? inner : 0);
    }
    EXPECT(status_of(child) == 3 && memory[4096] == 'c' && memory[4097] == 'g' && attached(id, 1));
}

static void try_ends(int id, char **argv) {
    char text[12];
    pid_t child = fork();
    if (child == 0) {
        for (;;) pause();
    }
    EXPECT(attached(id, 2) && kill(child, SIGKILL) == 0 && status_of(child) == -SIGKILL && attached(id, 1));
    snprintf(text, sizeof text, "%d", id);
    child = fork();
    if (child == 0) {
        execl(argv[0], argv[0], text, NULL);
        _exit(1);
    }
    EXPECT(status_of(child) == 0 && attached(id, 1));
    child = vfork();
    if (child == 0) _exit(0);
    EXPECT(status_of(child) == 0 && attached(id, 1));
}

/* Half of what is attached is unmapped, and the rest goes on; memory is read by a system call, and written by one. */
static void try_memory(int id, char *memory) {
    int ends[2];
    char *other = shmat(id, NULL, 0);
    EXPECT(munmap(other, 4096) == 0 && other[4096] == memory[4096] && attached(id, 2) && munmap(other + 4096, 8192) == 0 && attached(id, 1));
    EXPECT(pipe(ends) == 0 && write(ends[1], memory, 5) == 5 && read(ends[0], memory + 8192, 5) == 5 && memcmp(memory, memory + 8192, 5) == 0);
    close(ends[0]);
    close(ends[1]);
}

static void try_removal(int id, char *memory) {
    struct shmid_ds status;
    EXPECT(shmctl(id, IPC_RMID, NULL) == 0 && shmctl(id, IPC_STAT, &status) == 0);
    EXPECT(status.shm_perm.mode & SHM_DEST && memory[0] == 'h' && shmdt(memory) == 0);
    for (int turn = 0; turn < turns() && shmctl(id, IPC_STAT, &status) == 0; turn++) usleep(10000);
    EXPECT_ERROR(EIDRM, shmctl(id, IPC_STAT, &status));
    NOT_ATTACHED(EIDRM, shmat(id, NULL, 0));
}

int main(int argc, char **argv) {
    struct shmid_ds status;
    if (argc > 1) return attached(atoi(argv[1]), 1) ? 0 : 1; /* after exec */
    int id = shmget(IPC_PRIVATE, 10000, 0600);
    EXPECT(id >= 0 && shmctl(id, IPC_STAT, &status) == 0 && status.shm_segsz == 10000 && status.shm_cpid == getpid());
    EXPECT(status.shm_perm.mode == 0600 && status.shm_perm.uid == geteuid() && status.shm_perm.cgid == getegid() && status.shm_nattch == 0);
    EXPECT(ftok("/usr", 7) != -1 && ftok("/usr", 7) == ftok("/usr/../usr", 7) && ftok("/usr", 7) != ftok("/usr", 8) && ftok("/usr", 7) != ftok("/etc", 7));
    EXPECT_ERROR(ENOENT, ftok("/nowhere", 7));
    EXPECT_ERROR(EINVAL, shmget(IPC_PRIVATE, (1 << 20) + 1, 0600));
    EXPECT_ERROR(EINVAL, shmget(IPC_PRIVATE, 0, 0600));
    EXPECT_ERROR(EFAULT, shmctl(id, IPC_STAT, NULL));
    EXPECT_ERROR(EINVAL, shmctl(-1, IPC_RMID, NULL));
    status.shm_perm.mode = 0640;
    EXPECT(shmctl(id, IPC_SET, &status) == 0 && shmctl(id, IPC_STAT, &status) == 0 && status.shm_perm.mode == 0640);
    char *memory = shmat(id, NULL, 0);
    EXPECT(memory != (void *)-1 && memory[12287] == 0);
    memcpy(memory, "hello", 6);
    try_addresses(id, memory);
    try_read_only(id, memory);
    try_fork(id, memory);
    try_ends(id, argv);
    try_memory(id, memory);
    try_removal(id, memory);
    return 0;
}
