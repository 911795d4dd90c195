/* A discrete-event simulator over single proved sites and a network of its own: each message takes its time, some are lost, some arrive
 * twice, and ticks send again what wasn't answered. Now and then a site starts again.
 *
 * sites SITES ACCESSES SEED writes a trace to standard output. It fails where a load gives another byte than its place was last given. */
#include "../../clients/core/leddwyfan_core.h"

#include <inttypes.h>
#include <stdio.h>
#include <stdlib.h>
#include <string.h>

enum { MAX_SITES = 16, PAGES = 2, PAGE_BYTES = 4096, THINK = 20, TRY_AGAIN = 7, TICK = 60, MOST = 1 << 16 };

/* What happens at a time: a site tries its access, its clock ticks, or a message arrives. */
enum kind { ACCESS, TICKS, ARRIVES };
struct happening { uint64_t time, order; enum kind kind; uint32_t site; char *line; size_t length; };
struct access { bool store; uint32_t offset; uint8_t byte; uint32_t left; };

static struct happening queue[MOST];
static size_t waiting;
static uint64_t order, seed, now;
static uint32_t count, left;
static struct leddwyfan_site sites[MAX_SITES];
static struct access accesses[MAX_SITES];
static uint8_t stored_last[PAGES * PAGE_BYTES];

static void fail(const char *why)
{
    fprintf(stderr, "%" PRIu64 " us: %s\n", now, why);
    exit(1);
}

static uint32_t chance(uint32_t below)
{
    seed = seed * 6364136223846793005u + 1442695040888963407u;
    return (uint32_t)(seed >> 33) % below;
}

static void plan(uint64_t time, enum kind kind, uint32_t site, const char *line, size_t length)
{
    char *copy = malloc(length + 1);
    if (waiting == MOST || copy == NULL)
        fail("too much happens at once");
    memcpy(copy, line, length);
    queue[waiting++] = (struct happening){ time, order++, kind, site, copy, length };
}

static struct happening first(void)
{
    size_t best = 0;
    for (size_t k = 1; k < waiting; k++)
        if (queue[k].time < queue[best].time || (queue[k].time == queue[best].time && queue[k].order < queue[best].order))
            best = k;
    struct happening happening = queue[best];
    queue[best] = queue[--waiting];
    return happening;
}

/* Sends what the site's last step left on its way: some microseconds, and more for a page. One in ten is lost, and one in ten comes twice. */
static void send_messages(uint32_t from)
{
    char line[LEDDWYFAN_LINE_BYTES + 1];
    for (size_t place = 0; place < leddwyfan_site_sent(&sites[from]); place++) {
        size_t length = leddwyfan_site_message(&sites[from], place, line, sizeof line - 1);
        uint32_t to;
        if (length == 0 || length >= sizeof line)
            fail("a message has no line");
        line[length] = 0;
        if (sscanf(line, "env %*u %" SCNu32, &to) != 1 || to >= count)
            fail("a message has no receiver");
        uint32_t fate = from == to ? 9 : chance(10);
        if (fate == 0)
            printf("%" PRIu64 " us: lost %.40s\n", now, line);
        for (uint32_t copies = fate == 0 ? 0 : fate == 1 ? 2 : 1; copies > 0; copies--)
            plan(now + (from == to ? 0 : 5 + chance(5) + length / 400), ARRIVES, to, line, length);
    }
}

/* The site tries its access; one that ends is traced, and the next one is planned. */
static void try_access(uint32_t site)
{
    struct access *access = &accesses[site];
    struct leddwyfan_answer answer = access->store ? leddwyfan_site_store(&sites[site], 0, access->offset, access->byte)
                                                   : leddwyfan_site_load(&sites[site], 0, access->offset);
    if (answer.kind == LEDDWYFAN_FAULT || answer.kind == LEDDWYFAN_WAITING) {
        plan(now + TRY_AGAIN, ACCESS, site, "", 0);
        return;
    }
    if (answer.kind != (access->store ? LEDDWYFAN_STORED : LEDDWYFAN_BYTE))
        fail("an access is neither made nor waits");
    if (access->store)
        stored_last[access->offset] = access->byte;
    else if (answer.value != stored_last[access->offset])
        fail("a load gives another byte than the one that was stored last");
    printf("%" PRIu64 " us: site %" PRIu32 " %s %u at %" PRIu32 "\n", now, site, access->store ? "stored" : "loaded",
           stored_last[access->offset], access->offset);
    left--;
    if (--access->left == 0)
        return;
    access->store = chance(3) == 0;
    access->offset = chance(PAGES * 4) * (PAGE_BYTES / 4);
    access->byte = (uint8_t)chance(256);
    plan(now + 1 + chance(THINK), ACCESS, site, "", 0);
}

static void happen(struct happening happening)
{
    uint32_t site = happening.site;
    struct leddwyfan_answer answer = { LEDDWYFAN_TOOK, 0, 0 };
    struct leddwyfan_reply reply;
    now = happening.time;
    if (happening.kind == ACCESS) {
        try_access(site);
    } else if (happening.kind == TICKS) {
        answer = chance(40) == 0 ? leddwyfan_site_restart(&sites[site]) : leddwyfan_site_tick(&sites[site]);
        plan(now + TICK, TICKS, site, "", 0);
    } else {
        answer = leddwyfan_site_deliver(&sites[site], happening.line, happening.length, &reply);
    }
    free(happening.line);
    if (answer.kind != LEDDWYFAN_TOOK && answer.kind != LEDDWYFAN_DROPPED)
        fail("a step wasn't made");
    send_messages(site);
}

int main(int argc, char **argv)
{
    if (argc != 4)
        return fputs("sites SITES ACCESSES SEED\n", stderr), 2;
    count = (uint32_t)strtoul(argv[1], NULL, 10);
    uint32_t each = (uint32_t)strtoul(argv[2], NULL, 10);
    seed = strtoull(argv[3], NULL, 10);
    for (uint32_t site = 0; site < count; site++) {
        if (site == MAX_SITES || each == 0 || leddwyfan_site_make(&sites[site], count, site, PAGES, 0) != LEDDWYFAN_OK)
            fail("no such sites");
        accesses[site] = (struct access){ true, site, (uint8_t)site, each };
        plan(chance(THINK), ACCESS, site, "", 0);
        plan(TICK + chance(TICK), TICKS, site, "", 0);
    }
    for (left = count * each; left > 0;)
        happen(first());
    while (waiting > 0)
        free(queue[--waiting].line);
    for (uint32_t site = 0; site < count; site++)
        leddwyfan_site_free(&sites[site]);
    return fflush(stdout) != 0;
}
