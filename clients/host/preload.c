/* The library that leddwyfan-run preloads: ftok, shmget, shmat, shmdt and shmctl over this machine's leddwyfan-host.

   A program keeps its userfaultfd and the daemon's lock open: when the daemon dies, a new fault waits, and nobody sees zeros. */
#include "wire.h"

#include <dlfcn.h>
#include <linux/userfaultfd.h>
#include <pthread.h>
#include <sys/ioctl.h>
#include <sys/mman.h>
#include <sys/stat.h>
#include <sys/syscall.h>

enum { MOST_ATTACHED = 128, MOST_LISTED = 1024, HIGH = 400, STAT_ANY = 15 };

static pthread_mutex_t mutex = PTHREAD_MUTEX_INITIALIZER;
static int host = -1, faults = -1, lock = -1; /* the connection, the userfaultfd, and what keeps another daemon from beginning */
static ino_t host_file;
static volatile uint64_t *names;
static struct answer answer; /* the last one, and the descriptor that came with it, or -1 */
static int handed;
static struct attached { char *address; size_t length; } attached[MOST_ATTACHED];
static int attached_count, listed_count;
static struct answer listed[MOST_LISTED];

/* Asks, with a descriptor or with -1. Gives the identifier that is answered. */
static int talk(struct ask ask, int given) {
    ssize_t length = send_message(host, &ask, sizeof ask, given);
    answer.sites = 0;
    while (length >= 0 && (length = receive_message(host, &answer, sizeof answer, &handed)) < 0 && errno == EINTR) length = 0;
    if (length != sizeof answer) return failed(EIDRM);
    return answer.error != 0 ? failed(answer.error) : answer.id;
}

/* Descriptors stand high, where programs seldom close what they don't know. */
static int raised(int descriptor) {
    int high = fcntl(descriptor, F_DUPFD_CLOEXEC, HIGH);
    if (high < 0) return descriptor;
    close(descriptor);
    return high;
}

/* Whether the connection is still the one that was made: a program may have closed it, and have opened another file in its place. */
static bool connected(void) {
    struct stat file;
    return host >= 0 && fstat(host, &file) == 0 && file.st_ino == host_file;
}

/* After a fork the daemon is told which program this is, by what it reads in its page of names, and gives the userfaultfd that is its own. */
static bool connect_host(void) {
    struct stat file;
    if (connected()) return true;
    int made = connect_to(socket_path());
    if (made < 0 || fstat(made, &file) < 0) return failed(ENOSYS) == 0;
    host_file = file.st_ino;
    host = raised(made);
    if (names == NULL) return true;
    struct ask ask = {.kind = ASK_NAMED, .size = *names};
    madvise((void *)(uintptr_t)names, PAGE, MADV_DONTNEED);
    if (talk(ask, -1) == 0 && handed >= 0) faults = raised(handed);
    return true;
}

/* A userfaultfd, which the daemon gets, and the lock, which it gives. */
static bool make_faults(void) {
    if (names != NULL) return true;
    if (talk((struct ask){.kind = ASK_DEVICE}, -1) < 0) return false;
    int made = ioctl(handed, USERFAULTFD_IOC_NEW, O_CLOEXEC | O_NONBLOCK);
    close(handed);
    if (made < 0) made = (int)syscall(SYS_userfaultfd, O_CLOEXEC | O_NONBLOCK);
    void *page = mmap(NULL, PAGE, PROT_READ, MAP_PRIVATE | MAP_ANONYMOUS, -1, 0);
    if (made < 0 || page == MAP_FAILED) return false;
    faults = raised(made);
    if (talk((struct ask){.kind = ASK_FAULTS, .address = (uintptr_t)page}, faults) < 0) return false;
    lock = raised(handed);
    names = page;
    return true;
}

static void before_fork(void) {
    pthread_mutex_lock(&mutex);
}

static void in_parent(void) {
    pthread_mutex_unlock(&mutex);
}

/* The child has attached what its parent has, and is heard of by a userfaultfd of its own. */
static void in_child(void) {
    if (connected()) close(host);
    close(faults);
    host = faults = -1;
    if (names != NULL) connect_host();
    pthread_mutex_init(&mutex, NULL);
}

__attribute__((constructor)) static void begin(void) {
    pthread_atfork(before_fork, in_parent, in_child);
}

EXPORTED int shmget(key_t key, size_t size, int flags) {
    if (size > UINT32_MAX) return failed(EINVAL);
    pthread_mutex_lock(&mutex);
    int id = connect_host() ? talk((struct ask){.kind = ASK_GET, .key = key, .size = size, .flags = flags}, -1) : -1;
    pthread_mutex_unlock(&mutex);
    return id;
}

/* Maps the segment's memory, and has the daemon serve its faults before anybody knows the address. MAP_FAILED is what shmat fails with. */
static void *map(uintptr_t wanted, int flags, size_t length, int memory) {
    int protection = PROT_READ | (flags & SHM_RDONLY ? 0 : PROT_WRITE) | (flags & SHM_EXEC ? PROT_EXEC : 0);
    int fixed = wanted == 0 ? 0 : flags & SHM_REMAP ? MAP_FIXED : MAP_FIXED_NOREPLACE;
    void *address = mmap((void *)wanted, length, protection, MAP_SHARED | fixed, memory, 0);
    int error = address != MAP_FAILED ? 0 : errno == EEXIST ? EINVAL : errno;
    close(memory);
    if (talk((struct ask){.kind = ASK_MAPPED, .address = error == 0 ? (uintptr_t)address : 0}, -1) < 0 && error == 0) {
        error = errno;
        munmap(address, length);
    }
    return error == 0 ? address : (failed(error), MAP_FAILED);
}

static void *attach(int id, uintptr_t wanted, int flags) {
    int kept = 0;
    if (!connect_host() || !make_faults()) return MAP_FAILED;
    if (attached_count == MOST_ATTACHED) return failed(EMFILE), MAP_FAILED;
    if (talk((struct ask){.kind = ASK_ATTACH, .id = id, .flags = flags}, -1) < 0) return MAP_FAILED;
    size_t length = answer.status.shm_segsz;
    char *address = map(wanted, flags, length, handed);
    if (address == MAP_FAILED) return address;
    for (int index = 0; index < attached_count; index++) {
        const struct attached *one = &attached[index];
        if (one->address + one->length <= address || one->address >= address + length) attached[kept++] = *one;
    }
    attached[kept++] = (struct attached){address, length};
    attached_count = kept;
    return address;
}

EXPORTED void *shmat(int id, const void *address, int flags) {
    uintptr_t wanted = (uintptr_t)address;
    if (flags & SHM_RND) wanted &= ~(uintptr_t)(PAGE - 1);
    if (wanted % PAGE != 0 || id < 0 || (flags & SHM_REMAP && wanted == 0)) return failed(EINVAL), MAP_FAILED;
    pthread_mutex_lock(&mutex);
    void *at = attach(id, wanted, flags);
    pthread_mutex_unlock(&mutex);
    return at;
}

/* The daemon hears of it by what is unmapped. */
EXPORTED int shmdt(const void *address) {
    int result = failed(EINVAL);
    pthread_mutex_lock(&mutex);
    for (int index = 0; result < 0 && index < attached_count; index++) {
        if (attached[index].address != address) continue;
        result = munmap(attached[index].address, attached[index].length);
        attached[index] = attached[--attached_count];
    }
    pthread_mutex_unlock(&mutex);
    return result;
}

/* Each identifier of each machine, until one was never given. */
static bool list(void) {
    listed_count = 0;
    answer.sites = 1;
    for (int home = 0; home < answer.sites; home++) {
        for (int id = home, error = 0; error != EINVAL; id += answer.sites) {
            error = talk((struct ask){.kind = ASK_STATUS, .id = id}, -1) < 0 ? errno : 0;
            if (answer.sites == 0) return false;
            if ((error != 0 && error != EACCES) || listed_count == MOST_LISTED) continue;
            answer.id = id;
            listed[listed_count++] = answer;
        }
    }
    return true;
}

/* SHM_STAT goes over what IPC_INFO or SHM_INFO listed. */
static int show_all(int index, int command, void *buffer) {
    bool shows = command == SHM_STAT || command == STAT_ANY;
    if ((!shows || listed_count == 0) && !list()) return -1;
    if (shows && (index < 0 || index >= listed_count)) return failed(EINVAL);
    if (shows) *(struct shmid_ds *)buffer = listed[index].status;
    if (shows) return listed[index].id;
    if (command == IPC_INFO) *(struct shminfo *)buffer = (struct shminfo){.shmmax = 1 << 20, .shmmin = 1, .shmmni = 64, .shmseg = 64, .shmall = 1 << 14};
    if (command == SHM_INFO) *(struct shm_info *)buffer = (struct shm_info){.used_ids = listed_count};
    return listed_count > 0 ? listed_count - 1 : 0;
}

static int control(int id, int command, struct shmid_ds *buffer) {
    struct ask ask = {.kind = command == IPC_RMID ? ASK_REMOVE : command == IPC_SET ? ASK_SET : ASK_STATUS, .id = id};
    if (command == SHM_LOCK || command == SHM_UNLOCK) return 0;
    if (command == IPC_INFO || command == SHM_INFO || command == SHM_STAT || command == STAT_ANY) return show_all(id, command, buffer);
    if (id < 0 || (command != IPC_STAT && command != IPC_SET && command != IPC_RMID)) return failed(EINVAL);
    if (command != IPC_RMID && buffer == NULL) return failed(EFAULT);
    if (command == IPC_SET) ask.owner = buffer->shm_perm;
    int result = talk(ask, -1);
    if (result == 0 && command == IPC_STAT) *buffer = answer.status;
    return result;
}

EXPORTED int shmctl(int id, int command, struct shmid_ds *buffer) {
    pthread_mutex_lock(&mutex);
    int result = connect_host() ? control(id, command & ~OF_64_BITS, buffer) : -1;
    pthread_mutex_unlock(&mutex);
    return result;
}

/* The C library makes a key of a file's inode, which no two machines have in common. Here it is of the file's whole name. */
EXPORTED key_t ftok(const char *path, int project) {
    char *name = realpath(path, NULL);
    uint32_t hash = 2166136261;
    if (name == NULL) return -1;
    for (const char *letter = name; *letter != '\0'; letter++) hash = (hash ^ (uint8_t)*letter) * 16777619;
    free(name);
    return (key_t)((uint32_t)project << 24 | ((hash ^ hash >> 24) & 0xffffff));
}

/* ipcs reads this machine's own segments here, and asks shmctl where the file isn't there. */
EXPORTED FILE *fopen(const char *name, const char *mode) {
    FILE *(*real)(const char *, const char *);
    void *symbol = dlsym(RTLD_NEXT, "fopen");
    memcpy(&real, &symbol, sizeof real);
    return strcmp(name, "/proc/sysvipc/shm") == 0 ? (failed(ENOENT), NULL) : real(name, mode);
}
