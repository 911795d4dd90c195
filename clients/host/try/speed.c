/* speed KEY loads: how many million loads, stores and atomic adds a second there are of pages that are here.
   speed KEY read|write PAGES [SECONDS]: the median of the first touches of so many pages, in microseconds, from the last page on, so that none is
   read ahead; then it stays so long.
   speed KEY fill PAGES: stores to all bytes of so many pages, and tells how many milliseconds it took.
   speed KEY scan PAGES: how many milliseconds the first reads of so many pages take together. */
#include <stdio.h>
#include <stdlib.h>
#include <string.h>
#include <sys/shm.h>
#include <time.h>
#include <unistd.h>

enum { WORDS = 8192, TURNS = 20000000, MOST = 256 };

static double microseconds(void) {
    struct timespec time;
    clock_gettime(CLOCK_MONOTONIC, &time);
    return (double)time.tv_sec * 1e6 + (double)time.tv_nsec / 1e3;
}

static void time_loads(volatile long *words) {
    long sum = 0;
    for (int index = 0; index < WORDS; index += 512) words[index] = 1;
    double begun = microseconds();
    for (int turn = 0; turn < TURNS; turn++) sum += words[turn % WORDS];
    double loaded = microseconds();
    for (int turn = 0; turn < TURNS; turn++) words[turn % WORDS] = sum;
    double stored = microseconds();
    for (int turn = 0; turn < TURNS / 4; turn++) __atomic_add_fetch(&words[turn % WORDS], 1, __ATOMIC_SEQ_CST);
    double added = microseconds();
    printf("%.0f %.0f %.0f\n", TURNS / (loaded - begun), TURNS / (stored - loaded), TURNS / 4 / (added - stored));
}

static int compare(const void *one, const void *other) {
    double difference = *(const double *)one - *(const double *)other;
    return (difference > 0) - (difference < 0);
}

static void time_touches(volatile char *bytes, int stores, int pages) {
    static double times[MOST];
    for (int page = pages - 1; page >= 0; page--) {
        double begun = microseconds();
        if (stores) bytes[4096 * page] = 1;
        else (void)bytes[4096 * page];
        times[page] = microseconds() - begun;
    }
    qsort(times, (size_t)pages, sizeof *times, compare);
    printf("%.1f\n", times[pages / 2]);
}

static void time_all(volatile char *bytes, int stores, int pages) {
    double begun = microseconds();
    for (int at = 0; at < 4096 * pages; at += stores ? 1 : 4096) {
        if (stores) bytes[at] = (char)(at % 251 + 1);
        else (void)bytes[at];
    }
    printf("%.1f\n", (microseconds() - begun) / 1e3);
}

int main(int argc, char **argv) {
    if (argc < 3) return 2;
    int pages = argc > 3 ? atoi(argv[3]) : 16;
    void *memory = shmat(shmget((key_t)atoi(argv[1]), (size_t)pages * 4096, IPC_CREAT | 0666), NULL, 0);
    if (memory == (void *)-1) return perror("shmat"), 1;
    if (strcmp(argv[2], "loads") == 0) time_loads(memory);
    else if (strcmp(argv[2], "fill") == 0 || strcmp(argv[2], "scan") == 0) time_all(memory, strcmp(argv[2], "fill") == 0, pages);
    else time_touches(memory, strcmp(argv[2], "write") == 0, pages);
    fflush(stdout);
    if (argc > 4) sleep((unsigned)atoi(argv[4]));
    return 0;
}
