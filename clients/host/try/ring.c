/* ring KEY put|get TIMES: a ring of 100 records, one program puts and one gets; or `ring KEY ping|pong TIMES`: a word that goes to and fro. */
#include <inttypes.h>
#include <sched.h>
#include <stdbool.h>
#include <stdio.h>
#include <stdlib.h>
#include <string.h>
#include <sys/shm.h>
#include <time.h>

enum { RECORDS = 100 };

struct ring {
    volatile uint64_t head;
    char to_the_next_page[4088];
    volatile uint64_t tail;
    char and_again[4088];
    struct record {
        uint64_t number;
        char text[32];
    } records[RECORDS];
};

static double seconds(void) {
    struct timespec time;
    clock_gettime(CLOCK_MONOTONIC, &time);
    return (double)time.tv_sec + (double)time.tv_nsec / 1e9;
}

static void put(struct ring *ring, uint64_t number) {
    struct record *record = &ring->records[number % RECORDS];
    while (number - __atomic_load_n(&ring->tail, __ATOMIC_ACQUIRE) >= RECORDS) sched_yield();
    record->number = number;
    snprintf(record->text, sizeof record->text, "record %" PRIu64, number);
    __atomic_store_n(&ring->head, number + 1, __ATOMIC_RELEASE);
}

static bool get(struct ring *ring, uint64_t number) {
    struct record *record = &ring->records[number % RECORDS];
    char text[32];
    while (__atomic_load_n(&ring->head, __ATOMIC_ACQUIRE) <= number) sched_yield();
    snprintf(text, sizeof text, "record %" PRIu64, number);
    bool right = record->number == number && strcmp(record->text, text) == 0;
    __atomic_store_n(&ring->tail, number + 1, __ATOMIC_RELEASE);
    return right;
}

static void pass(volatile uint64_t *word, uint64_t turn, uint64_t odd) {
    while (__atomic_load_n(word, __ATOMIC_ACQUIRE) != 2 * turn + odd) sched_yield();
    __atomic_store_n(word, 2 * turn + odd + 1, __ATOMIC_RELEASE);
}

int main(int argc, char **argv) {
    if (argc < 4) return 2;
    uint64_t times = strtoull(argv[3], NULL, 10), wrong = 0;
    struct ring *ring = shmat(shmget((key_t)atoi(argv[1]), sizeof *ring, IPC_CREAT | 0666), NULL, 0);
    if (ring == (void *)-1) return perror("shmat"), 1;
    bool puts = strcmp(argv[2], "put") == 0, gets = strcmp(argv[2], "get") == 0;
    double begun = seconds();
    for (uint64_t turn = 0; turn < times; turn++) {
        if (puts) put(ring, turn);
        else if (gets) wrong += !get(ring, turn);
        else pass(&ring->head, turn, strcmp(argv[2], "pong") == 0);
        if (turn == 0) begun = seconds();
    }
    printf("%" PRIu64 " %.0f\n", wrong, (double)(times - 1) / (seconds() - begun));
    return wrong != 0;
}
