/* semget, semop, semtimedop and semctl, over a segment of their own for each set: so they work over machines as the memory does. Sleepers wait
   in a futex of the set's page, a count of changes: the daemon wakes them where another machine changed it.

   SEM_UNDO is made where a program ends by exit, and not where it is killed; GETNCNT and GETZCNT tell 0. */
#include "wire.h"

#include <linux/futex.h>
#include <pthread.h>
#include <sched.h>
#include <stdarg.h>
#include <sys/sem.h>
#include <sys/syscall.h>

enum { KEYS = 0x5e3a0000, MADE = 0x53454d31, MOST_SETS = 64, MOST = 200, GREATEST = 32767, SPINS = 50, PAUSE = 200000, NAP = 20000000, NAPS = 100 };

static const int64_t LONGEST_SLEEP = 60 * SECOND; /* one without an end goes on after a signal, where a handler has SA_RESTART; semop(2) doesn't */

struct set {
    uint32_t made, count, lock, changes, removed;
    int64_t operated, changed;
    int values[MOST], last[MOST]; /* who operated last */
};

static struct known { int id; struct set *set; short undo[MOST]; } known[MOST_SETS], *known_end = known;
static pthread_mutex_t mutex = PTHREAD_MUTEX_INITIALIZER;

static void lock_set(struct set *set) {
    for (int turn = 0; __atomic_exchange_n(&set->lock, 1, __ATOMIC_ACQUIRE) != 0; turn++) {
        if (turn < SPINS) sched_yield();
        else nanosleep(&(struct timespec){0, PAUSE}, NULL);
    }
}

static void unlock_set(struct set *set, bool changed) {
    if (changed) set->changes++;
    __atomic_store_n(&set->lock, 0, __ATOMIC_RELEASE);
    if (changed) syscall(SYS_futex, &set->changes, FUTEX_WAKE, INT32_MAX, NULL, NULL, 0);
}

static void undo_all(void) {
    for (struct known *one = known; one < known_end; one++) {
        if (one->set->removed) continue;
        lock_set(one->set);
        for (uint32_t index = 0; index < one->set->count; index++) {
            int value = one->set->values[index] + one->undo[index];
            one->set->values[index] = value < 0 ? 0 : value;
        }
        unlock_set(one->set, true);
    }
}

static void in_child(void) {
    for (struct known *one = known; one < known_end; one++) memset(one->undo, 0, sizeof one->undo);
}

__attribute__((constructor)) static void begin(void) {
    pthread_atfork(NULL, NULL, in_child);
    atexit(undo_all);
}

/* Attaches a set, which its maker may not have made ready yet. */
static struct known *attach(int id) {
    struct set *set = known_end == known + MOST_SETS ? (errno = ENOSPC, (void *)-1) : shmat(id, NULL, 0);
    if (set == (void *)-1) return NULL;
    for (int nap = 0; nap < NAPS && __atomic_load_n(&set->made, __ATOMIC_ACQUIRE) != MADE; nap++) nanosleep(&(struct timespec){0, NAP}, NULL);
    *known_end = (struct known){.id = id, .set = set};
    if (set->made == MADE && !set->removed) return known_end++;
    errno = set->made == MADE ? EIDRM : EINVAL;
    shmdt(set);
    return NULL;
}

static struct known *find(int id) {
    struct known *found = known;
    pthread_mutex_lock(&mutex);
    while (found < known_end && (found->id != id || found->set->removed)) found++;
    if (found == known_end) found = attach(id);
    pthread_mutex_unlock(&mutex);
    return found;
}

static int make(key_t key, int count, int flags) {
    int id = shmget(key, sizeof(struct set), IPC_CREAT | IPC_EXCL | (flags & 0777));
    struct set *set = id < 0 ? (void *)-1 : shmat(id, NULL, 0);
    if (set == (void *)-1) return -1;
    set->count = (uint32_t)count;
    set->changed = time(NULL);
    __atomic_store_n(&set->made, MADE, __ATOMIC_RELEASE);
    shmdt(set);
    return id;
}

EXPORTED int semget(key_t key, int count, int flags) {
    key_t own = key == IPC_PRIVATE ? IPC_PRIVATE : key == KEYS ? 1 : key ^ KEYS;
    if (count < 0 || count > MOST) return failed(EINVAL);
    int id = key == IPC_PRIVATE ? failed(ENOENT) : shmget(own, 0, flags & 0777);
    if (id >= 0 && flags & IPC_CREAT && flags & IPC_EXCL) return failed(EEXIST);
    if (id >= 0) {
        const struct known *one = find(id);
        return one == NULL ? -1 : count > (int)one->set->count ? failed(EINVAL) : id;
    }
    if (key != IPC_PRIVATE && (errno != ENOENT || !(flags & IPC_CREAT))) return -1;
    id = count == 0 ? failed(EINVAL) : make(own, count, flags);
    return id < 0 && errno == EEXIST && !(flags & IPC_EXCL) ? semget(key, count, flags) : id;
}

/* Makes the operations, all or none. 1: they have to wait. */
static int operate(struct known *one, const struct sembuf *operations, size_t count) {
    struct set *set = one->set;
    int values[MOST];
    memcpy(values, set->values, sizeof values);
    if (set->removed) return failed(EIDRM);
    for (const struct sembuf *operation = operations; operation < operations + count; operation++) {
        int *value = &values[operation->sem_num], by = operation->sem_op;
        if (by == 0 ? *value != 0 : *value + by < 0) return operation->sem_flg & IPC_NOWAIT ? failed(EAGAIN) : 1;
        if ((*value += by) > GREATEST) return failed(ERANGE);
    }
    for (const struct sembuf *operation = operations; operation < operations + count; operation++) {
        set->last[operation->sem_num] = getpid();
        if (operation->sem_flg & SEM_UNDO) one->undo[operation->sem_num] = (short)(one->undo[operation->sem_num] - operation->sem_op);
    }
    memcpy(set->values, values, sizeof values);
    set->operated = time(NULL);
    return 0;
}

EXPORTED int semtimedop(int id, struct sembuf *operations, size_t count, const struct timespec *limit) {
    int64_t until = limit == NULL ? INT64_MAX : now() + limit->tv_sec * SECOND + limit->tv_nsec;
    struct known *one = find(id);
    if (one == NULL || count == 0 || count > MOST) return one == NULL ? -1 : failed(count == 0 ? EINVAL : E2BIG);
    for (size_t index = 0; index < count; index++) {
        if (operations[index].sem_num >= one->set->count) return failed(EFBIG);
    }
    for (;;) {
        lock_set(one->set);
        uint32_t seen = one->set->changes;
        int result = operate(one, operations, count);
        unlock_set(one->set, result == 0);
        if (result != 1) return result;
        int64_t left = until - now(), sleep = left < LONGEST_SLEEP ? left : LONGEST_SLEEP;
        if (left <= 0) return failed(EAGAIN);
        const struct timespec most = {sleep / SECOND, sleep % SECOND};
        if (syscall(SYS_futex, &one->set->changes, FUTEX_WAIT, seen, &most, NULL, 0) < 0 && errno == EINTR) return -1;
    }
}

EXPORTED int semop(int id, struct sembuf *operations, size_t count) {
    return semtimedop(id, operations, count, NULL);
}

/* What the segment's record says. */
static int control_record(const struct known *one, int command, struct semid_ds *status) {
    struct shmid_ds record;
    if (shmctl(one->id, IPC_STAT, &record) < 0) return -1;
    if (command == IPC_SET) record.shm_perm = status->sem_perm;
    if (command == IPC_SET) return shmctl(one->id, IPC_SET, &record);
    *status = (struct semid_ds){.sem_perm = record.shm_perm, .sem_otime = one->set->operated, .sem_ctime = one->set->changed, .sem_nsems = one->set->count};
    return 0;
}

union argument { int value; struct semid_ds *status; unsigned short *array; };

static int control_values(struct set *set, int number, int command, union argument argument) {
    switch (command) {
    case GETVAL: return set->values[number];
    case GETPID: return set->last[number];
    case GETNCNT: case GETZCNT: return 0;
    case IPC_RMID: set->removed = 1; return 0;
    case GETALL:
        for (uint32_t index = 0; index < set->count; index++) argument.array[index] = (unsigned short)set->values[index];
        return 0;
    case SETALL:
        for (uint32_t index = 0; index < set->count; index++) set->values[index] = argument.array[index];
        break;
    case SETVAL:
        if (argument.value < 0 || argument.value > GREATEST) return failed(ERANGE);
        set->values[number] = argument.value;
        set->last[number] = getpid();
        break;
    default: return failed(EINVAL);
    }
    set->changed = time(NULL);
    return 0;
}

EXPORTED int semctl(int id, int number, int command, ...) {
    va_list arguments;
    va_start(arguments, command);
    union argument argument = {.array = va_arg(arguments, unsigned short *)};
    va_end(arguments);
    command &= ~OF_64_BITS;
    struct known *one = find(id);
    if (one == NULL) return -1;
    if (command == IPC_STAT || command == IPC_SET) return control_record(one, command, argument.status);
    bool all = command == IPC_RMID || command == GETALL || command == SETALL;
    if (!all && (number < 0 || number >= (int)one->set->count)) return failed(EINVAL);
    if (command == IPC_RMID && shmctl(one->id, IPC_RMID, NULL) < 0) return -1;
    lock_set(one->set);
    int result = control_values(one->set, number, command, argument);
    unlock_set(one->set, true);
    return result;
}
