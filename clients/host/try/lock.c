/* lock KEY KIND WHO OF TIMES: OF programs count under a lock by plain loads and stores; WHO is this one, from 0. The kinds: spin (by atomic
   exchange), near (the same, the counter beside the lock), peterson (of two, plain loads and stores, and a fence), mutex (process-shared), turns
   (the same with a condition variable: each in its turn). */
#include <pthread.h>
#include <sched.h>
#include <stdbool.h>
#include <stdio.h>
#include <stdlib.h>
#include <string.h>
#include <sys/shm.h>
#include <time.h>
#include <unistd.h>

/* Each on a page of its own. */
struct page {
    union {
        volatile int word;
        volatile long counter;
        struct {
            pthread_mutex_t mutex;
            pthread_cond_t turned;
            int turn;
            volatile long counted;
        } posix;
        char bytes[4096];
    };
};

static struct page *pages; /* a lock or two flags, a turn, a counter, a meeting place */
static int who, of;

static double seconds(void) {
    struct timespec time;
    clock_gettime(CLOCK_MONOTONIC, &time);
    return (double)time.tv_sec + (double)time.tv_nsec / 1e9;
}

static void meet(void) {
    __atomic_add_fetch(&pages[4].word, 1, __ATOMIC_SEQ_CST);
    while (__atomic_load_n(&pages[4].word, __ATOMIC_SEQ_CST) < of) usleep(100);
}

static void spin(volatile int *lock, volatile long *counter) {
    while (__atomic_exchange_n(lock, 1, __ATOMIC_ACQUIRE)) {
        while (*lock) sched_yield();
    }
    (*counter)++;
    __atomic_store_n(lock, 0, __ATOMIC_RELEASE);
}

static void peterson(void) {
    pages[who].word = 1;
    pages[2].word = 1 - who;
    __sync_synchronize();
    while (pages[1 - who].word && pages[2].word == 1 - who) sched_yield();
    pages[3].counter++;
    __asm__ volatile("" ::: "memory");
    pages[who].word = 0;
}

static void make_mutex(void) {
    pthread_mutexattr_t mutex;
    pthread_condattr_t condition;
    pthread_mutexattr_init(&mutex);
    pthread_mutexattr_setpshared(&mutex, PTHREAD_PROCESS_SHARED);
    pthread_mutex_init(&pages[0].posix.mutex, &mutex);
    pthread_condattr_init(&condition);
    pthread_condattr_setpshared(&condition, PTHREAD_PROCESS_SHARED);
    pthread_cond_init(&pages[0].posix.turned, &condition);
}

static void mutex(bool turns) {
    pthread_mutex_lock(&pages[0].posix.mutex);
    while (turns && pages[0].posix.turn != who) pthread_cond_wait(&pages[0].posix.turned, &pages[0].posix.mutex);
    long before = pages[0].posix.counted;
    for (volatile int pause = 0; pause < 100;) pause = pause + 1;
    pages[0].posix.counted = before + 1;
    pages[0].posix.turn = (who + 1) % of;
    if (turns) pthread_cond_broadcast(&pages[0].posix.turned);
    pthread_mutex_unlock(&pages[0].posix.mutex);
}

int main(int argc, char **argv) {
    if (argc < 6) return 2;
    const char *kind = argv[2];
    int times = atoi(argv[5]);
    who = atoi(argv[3]), of = atoi(argv[4]);
    pages = shmat(shmget((key_t)atoi(argv[1]), 5 * sizeof *pages, IPC_CREAT | 0666), NULL, 0);
    if (pages == (void *)-1) return perror("shmat"), 1;
    if (who == 0) make_mutex();
    meet();
    double begun = seconds();
    for (int turn = 0; turn < times; turn++) {
        if (strcmp(kind, "spin") == 0) spin(&pages[0].word, &pages[3].counter);
        else if (strcmp(kind, "near") == 0) spin(&pages[0].word, (long *)(pages[0].bytes + 2048));
        else if (strcmp(kind, "peterson") == 0) peterson();
        else mutex(strcmp(kind, "turns") == 0);
    }
    double rate = times / (seconds() - begun);
    long counted = strcmp(kind, "near") == 0 ? *(long *)(pages[0].bytes + 2048) : pages[3].counter;
    if (strcmp(kind, "mutex") == 0 || strcmp(kind, "turns") == 0) counted = pages[0].posix.counted;
    printf("%ld %.0f\n", counted, rate);
    return 0;
}
