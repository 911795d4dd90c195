/* Threads that sleep in futexes of one page, on several hosts of one machine, and who wakes them.

       sleepers KEY KIND wake|store       makes the page ready and tells `ready`; then each line of its input wakes all sleepers once. With
                                          `store` it stores to another word of the page all the while, and at its end tells how often a second
       sleepers KEY KIND THREADS WAKES    so many threads sleep, until each was woken so often; tells how long it took from a wake until a
                                          thread knew of it, in milliseconds: the median and the longest

   KIND is futex (a bare one) or condition (with its mutex); or, for one wake, mutex (which the waker holds until then) or semaphore (which it
   then makes zero). */
#include <linux/futex.h>
#include <poll.h>
#include <pthread.h>
#include <stdbool.h>
#include <stdint.h>
#include <stdio.h>
#include <stdlib.h>
#include <string.h>
#include <sys/sem.h>
#include <sys/shm.h>
#include <sys/syscall.h>
#include <time.h>
#include <unistd.h>

enum { MOST = 64, MOST_WAKES = 1000 };

static struct {
    pthread_mutex_t mutex;
    pthread_cond_t woken;
    int wakes;
    volatile int64_t when; /* nanoseconds: the last one */
    volatile long stored;
} *page;
static const char *kind;
static int wanted, semaphore;
static int64_t took[MOST * MOST_WAKES];

static int64_t now(void) {
    struct timespec time;
    clock_gettime(CLOCK_MONOTONIC, &time);
    return time.tv_sec * INT64_C(1000000000) + time.tv_nsec;
}

static bool is(const char *name) {
    return strcmp(kind, name) == 0;
}

static void make_page(void) {
    pthread_mutexattr_t mutex;
    pthread_condattr_t condition;
    pthread_mutexattr_init(&mutex);
    pthread_mutexattr_setpshared(&mutex, PTHREAD_PROCESS_SHARED);
    pthread_mutex_init(&page->mutex, &mutex);
    pthread_condattr_init(&condition);
    pthread_condattr_setpshared(&condition, PTHREAD_PROCESS_SHARED);
    pthread_cond_init(&page->woken, &condition);
    if (is("mutex")) pthread_mutex_lock(&page->mutex);
    if (is("semaphore")) semctl(semaphore, 0, SETVAL, 1);
}

static void wake(void) {
    if (is("condition")) pthread_mutex_lock(&page->mutex);
    page->when = now();
    __atomic_add_fetch(&page->wakes, 1, __ATOMIC_SEQ_CST);
    if (is("futex")) syscall(SYS_futex, &page->wakes, FUTEX_WAKE, INT32_MAX, NULL, NULL, 0);
    if (is("condition")) pthread_cond_broadcast(&page->woken);
    if (is("condition") || is("mutex")) pthread_mutex_unlock(&page->mutex);
    if (is("semaphore")) semctl(semaphore, 0, SETVAL, 0);
}

static void wake_all(bool stores) {
    char line[8];
    int64_t begun = now();
    printf("ready\n");
    fflush(stdout);
    for (;;) {
        while (stores && poll(&(struct pollfd){.fd = 0, .events = POLLIN}, 1, 0) == 0) {
            for (int turn = 0; turn < 1000; turn++) page->stored++;
        }
        if (read(0, line, 1) != 1) break;
        wake();
    }
    printf("%.0f\n", (double)page->stored * 1e9 / (double)(now() - begun));
}

static void *sleep_through(void *times) {
    for (int seen = 0; seen < wanted; seen++) {
        if (is("semaphore")) semop(semaphore, &(struct sembuf){0, 0, 0}, 1);
        if (is("condition") || is("mutex")) pthread_mutex_lock(&page->mutex);
        while (__atomic_load_n(&page->wakes, __ATOMIC_SEQ_CST) == seen) {
            if (is("futex")) syscall(SYS_futex, &page->wakes, FUTEX_WAIT, seen, NULL, NULL, 0);
            else pthread_cond_wait(&page->woken, &page->mutex);
        }
        ((int64_t *)times)[seen] = now() - page->when;
        if (is("condition") || is("mutex")) pthread_mutex_unlock(&page->mutex);
    }
    return NULL;
}

static int compare(const void *one, const void *other) {
    int64_t first = *(const int64_t *)one, second = *(const int64_t *)other;
    return (first > second) - (first < second);
}

static void sleep_all(int count) {
    pthread_t threads[MOST];
    for (int index = 0; index < count; index++) pthread_create(&threads[index], NULL, sleep_through, took + index * wanted);
    for (int index = 0; index < count; index++) pthread_join(threads[index], NULL);
    qsort(took, (size_t)(count * wanted), sizeof *took, compare);
    printf("%.1f %.1f\n", (double)took[count * wanted / 2] / 1e6, (double)took[count * wanted - 1] / 1e6);
}

int main(int argc, char **argv) {
    int threads = argc > 4 ? atoi(argv[3]) : 0;
    wanted = argc > 4 ? atoi(argv[4]) : 0;
    if (argc < 4 || threads > MOST || wanted > MOST_WAKES) return 2;
    kind = argv[2];
    page = shmat(shmget((key_t)atoi(argv[1]), sizeof *page, IPC_CREAT | 0666), NULL, 0);
    if (page == (void *)-1) return perror("shmat"), 1;
    if (is("semaphore")) semaphore = semget((key_t)atoi(argv[1]), 1, IPC_CREAT | 0666);
    if (argc == 4) make_page();
    if (argc == 4) wake_all(strcmp(argv[3], "store") == 0);
    else sleep_all(threads);
    return 0;
}
