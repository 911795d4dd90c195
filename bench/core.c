/* Times the proved world beside plain C: a load, a store, and a fault with its messages until the access ends; and a single site's load and
 * store. In nanoseconds. */
#include "../clients/core/leddwyfan_core.h"

#include <stdio.h>
#include <stdlib.h>
#include <string.h>
#include <time.h>

enum { SITES = 2, PAGES = 4, PAGE_BYTES = 4096, TIMES = 2000000, FAULTS = 100000 };

/* The same by hand, with no messages: who holds a page, and its bytes; a fault copies a page from its owner. */
struct plain { int right[SITES][PAGES]; unsigned char *bytes[SITES][PAGES]; uint32_t owner[PAGES]; };

__attribute__((noinline)) static int plain_load(const struct plain *plain, uint32_t site, uint32_t offset)
{
    if (site >= SITES || offset >= PAGES * PAGE_BYTES || plain->right[site][offset / PAGE_BYTES] == 0)
        return -1;
    return plain->bytes[site][offset / PAGE_BYTES][offset % PAGE_BYTES];
}

__attribute__((noinline)) static int plain_store(struct plain *plain, uint32_t site, uint32_t offset, unsigned char byte)
{
    if (site >= SITES || offset >= PAGES * PAGE_BYTES || plain->right[site][offset / PAGE_BYTES] < 2)
        return -1;
    plain->bytes[site][offset / PAGE_BYTES][offset % PAGE_BYTES] = byte;
    return 0;
}

__attribute__((noinline)) static int plain_fetch(struct plain *plain, uint32_t site, uint32_t page)
{
    uint32_t owner = plain->owner[page];
    unsigned char *bytes = malloc(PAGE_BYTES);
    if (bytes == NULL)
        return -1;
    memcpy(bytes, plain->bytes[owner][page], PAGE_BYTES);
    free(plain->bytes[owner][page]);
    plain->bytes[owner][page] = NULL;
    plain->right[owner][page] = 0;
    plain->bytes[site][page] = bytes;
    plain->right[site][page] = 2;
    plain->owner[page] = site;
    return 0;
}

static double nanoseconds(void)
{
    struct timespec time;
    clock_gettime(CLOCK_MONOTONIC, &time);
    return (double)time.tv_sec * 1e9 + (double)time.tv_nsec;
}

static void need(int held, const char *what)
{
    if (!held) {
        fprintf(stderr, "%s\n", what);
        exit(1);
    }
}

/* A store that has no right, its messages, and the store again. */
static unsigned long fault(struct leddwyfan_world *world, uint32_t site, uint32_t offset)
{
    struct leddwyfan_reply reply;
    uint64_t next = leddwyfan_world_sent(world);
    need(leddwyfan_world_store(world, site, 0, offset, 1).kind == LEDDWYFAN_FAULT, "a store without a right");
    unsigned long messages = 0;
    for (; next < leddwyfan_world_sent(world); next++, messages++)
        need(leddwyfan_world_deliver(world, next, &reply).kind == LEDDWYFAN_TOOK, "a delivery");
    need(leddwyfan_world_store(world, site, 0, offset, 1).kind == LEDDWYFAN_STORED, "a store with the right");
    return messages;
}

/* The same loads and stores at a single site. */
static unsigned long time_site(void)
{
    struct leddwyfan_site site = LEDDWYFAN_SITE_EMPTY;
    unsigned long sum = 0;
    need(leddwyfan_site_make(&site, SITES, 0, PAGES, 0) == LEDDWYFAN_OK, "a site");
    leddwyfan_site_store(&site, 0, 0, 1);
    double began = nanoseconds();
    for (uint32_t k = 0; k < TIMES; k++)
        sum += leddwyfan_site_load(&site, 0, k % PAGE_BYTES).value;
    double load = (nanoseconds() - began) / TIMES;
    began = nanoseconds();
    for (uint32_t k = 0; k < TIMES; k++)
        sum += leddwyfan_site_store(&site, 0, k % PAGE_BYTES, (uint8_t)k).kind;
    printf("single site: load %.1f, store %.1f ns; ", load, (nanoseconds() - began) / TIMES);
    leddwyfan_site_free(&site);
    return sum;
}

int main(void)
{
    struct leddwyfan_world world = LEDDWYFAN_WORLD_EMPTY;
    static struct plain plain;
    unsigned long sum = 0, messages = 0;
    need(leddwyfan_world_make(&world, SITES, PAGES, 0) == LEDDWYFAN_OK, "a world");
    for (uint32_t page = 0; page < PAGES; page++) {
        plain.bytes[0][page] = calloc(1, PAGE_BYTES);
        plain.right[0][page] = 2;
    }
    double began = nanoseconds();
    for (uint32_t k = 0; k < TIMES; k++)
        sum += leddwyfan_world_load(&world, 0, 0, k % PAGE_BYTES).value;
    double load = (nanoseconds() - began) / TIMES;
    leddwyfan_world_store(&world, 0, 0, 0, 1);
    began = nanoseconds();
    for (uint32_t k = 0; k < TIMES; k++)
        sum += leddwyfan_world_store(&world, 0, 0, k % PAGE_BYTES, (uint8_t)k).kind;
    double store = (nanoseconds() - began) / TIMES;
    began = nanoseconds();
    for (uint32_t k = 0; k < FAULTS; k++)
        messages += fault(&world, (k + 1) % 2, 1);
    double fetch = (nanoseconds() - began) / FAULTS;
    began = nanoseconds();
    for (uint32_t k = 0; k < TIMES; k++)
        sum += (unsigned long)plain_load(&plain, 0, k % PAGE_BYTES);
    double plain_loads = (nanoseconds() - began) / TIMES;
    began = nanoseconds();
    for (uint32_t k = 0; k < TIMES; k++)
        sum += (unsigned long)plain_store(&plain, 0, k % PAGE_BYTES, (unsigned char)k);
    double plain_stores = (nanoseconds() - began) / TIMES;
    began = nanoseconds();
    for (uint32_t k = 0; k < FAULTS; k++)
        need(plain_fetch(&plain, (k + 1) % 2, 0) == 0 && plain_store(&plain, (k + 1) % 2, 1, 1) == 0, "a fetch");
    double plain_fetches = (nanoseconds() - began) / FAULTS;
    printf("load %.1f (plain C %.1f), store %.1f (plain C %.1f), fault with %.2f messages %.0f (plain C, no message, %.0f) ns; %lu\n", load,
           plain_loads, store, plain_stores, (double)messages / FAULTS, fetch, plain_fetches, sum % 10);
    printf("%lu\n", time_site() % 10);
    leddwyfan_world_free(&world);
    for (uint32_t page = 0; page < PAGES; page++)
        free(plain.bytes[plain.owner[page]][page]);
    return 0;
}
