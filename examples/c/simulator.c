/* A discrete-event simulator over the proved world: sites load and store at random, and each message takes its time on its way.
 *
 * simulator SITES ACCESSES SEED SCRIPT OUT writes a trace of the accesses that ended to standard output, the script of all events to SCRIPT,
 * and to OUT what `shmdbg replay SCRIPT` has to print. */
#include "../../clients/core/leddwyfan_core.h"

#include <inttypes.h>
#include <stdio.h>
#include <stdlib.h>

enum { PAGES = 2, PAGE_BYTES = 4096, THINK = 20, TRY_AGAIN = 7, MOST = 1 << 16 };

/* What happens at a time: a site's next access (message is NO_MESSAGE), or a message arrives. */
#define NO_MESSAGE UINT64_MAX
struct happening { uint64_t time, order, message; uint32_t site; };
struct access { bool store; uint32_t offset; uint8_t byte; uint32_t left; };

static struct happening queue[MOST];
static size_t waiting;
static uint64_t order, seed, now, lines;
static struct leddwyfan_world world = LEDDWYFAN_WORLD_EMPTY;
static FILE *script, *out;

static uint32_t chance(uint32_t below)
{
    seed = seed * 6364136223846793005u + 1442695040888963407u;
    return (uint32_t)(seed >> 33) % below;
}

static void plan(uint64_t time, uint32_t site, uint64_t message)
{
    if (waiting == MOST) {
        fputs("too much happens at once\n", stderr);
        exit(1);
    }
    queue[waiting++] = (struct happening){ time, order++, message, site };
}

static struct happening first(void)
{
    size_t best = 0;
    for (size_t k = 1; k < waiting; k++)
        if (queue[k].time < queue[best].time || (queue[k].time == queue[best].time && queue[k].order < queue[best].order))
            best = k;
    struct happening happening = queue[best];
    queue[best] = queue[--waiting];
    return happening;
}

/* Writes the answer as a replay does, and sends what the event sent on its way: some microseconds, and more for a page. */
static void tell(struct leddwyfan_answer answer, uint64_t sent_before)
{
    static const char *const kinds[] = { "", "Ask", "Cleared", "Confirm", "Clear", "Hand", "Page", "Call", "Reply", "Purge", "Purged" };
    fprintf(out, "%" PRIu64, ++lines);
    switch (answer.kind) {
    case LEDDWYFAN_BYTE: fprintf(out, " byte %" PRIu32, answer.value); break;
    case LEDDWYFAN_STORED: fputs(" stored", out); break;
    case LEDDWYFAN_FAULT: fputs(" fault", out); break;
    case LEDDWYFAN_WAITING: fputs(" waiting", out); break;
    case LEDDWYFAN_TOOK: fputs(" took", out); break;
    case LEDDWYFAN_DROPPED: fputs(" dropped", out); break;
    case LEDDWYFAN_REFUSED: fprintf(out, " refused %" PRIu32, answer.value); break;
    default: fprintf(stderr, "answer %" PRIu32 "\n", answer.kind); exit(1);
    }
    for (uint64_t number = sent_before; number < leddwyfan_world_sent(&world); number++) {
        struct leddwyfan_envelope envelope;
        leddwyfan_world_envelope(&world, number, &envelope);
        fprintf(out, " m%" PRIu64 ">%" PRIu32 ":%s", number, envelope.to, kinds[envelope.kind]);
        plan(now + (envelope.from == envelope.to ? 0 : 5 + chance(5) + (envelope.kind == LEDDWYFAN_PAGE ? 10 : 0)), envelope.to, number);
    }
    fputc('\n', out);
}

/* The site tries its access; one that ends is written to the trace, and the next one is planned. */
static void try_access(uint32_t site, struct access *access)
{
    uint64_t sent = leddwyfan_world_sent(&world);
    struct leddwyfan_answer answer;
    if (access->store) {
        fprintf(script, "store %" PRIu32 " 0 %" PRIu32 " %u\n", site, access->offset, access->byte);
        answer = leddwyfan_world_store(&world, site, 0, access->offset, access->byte);
    } else {
        fprintf(script, "load %" PRIu32 " 0 %" PRIu32 "\n", site, access->offset);
        answer = leddwyfan_world_load(&world, site, 0, access->offset);
    }
    tell(answer, sent);
    if (answer.kind == LEDDWYFAN_FAULT || answer.kind == LEDDWYFAN_WAITING) {
        plan(now + TRY_AGAIN, site, NO_MESSAGE);
        return;
    }
    printf("%" PRIu64 " us: site %" PRIu32 " %s %" PRIu32 " at %" PRIu32 "\n", now, site, access->store ? "stored" : "loaded",
           access->store ? access->byte : answer.value, access->offset);
    if (--access->left == 0)
        return;
    access->store = chance(3) == 0;
    access->offset = chance(PAGES) * PAGE_BYTES;
    access->offset += chance(4);
    access->byte = (uint8_t)chance(256);
    plan(now + 1 + chance(THINK), site, NO_MESSAGE);
}

int main(int argc, char **argv)
{
    struct access accesses[16];
    if (argc != 6)
        return fputs("simulator SITES ACCESSES SEED SCRIPT OUT\n", stderr), 2;
    uint32_t sites = (uint32_t)strtoul(argv[1], NULL, 10), each = (uint32_t)strtoul(argv[2], NULL, 10);
    seed = strtoull(argv[3], NULL, 10);
    script = fopen(argv[4], "w");
    out = fopen(argv[5], "w");
    if (script == NULL || out == NULL)
        return perror("simulator"), 1;
    if (leddwyfan_world_make(&world, sites, PAGES, 0) != LEDDWYFAN_OK)
        return fputs("no world\n", stderr), 1;
    fprintf(script, "sites %" PRIu32 " preset %d\n", sites, PAGES);
    fprintf(out, "%" PRIu64 " ready\n", ++lines);
    for (uint32_t site = 0; site < sites && each > 0; site++) {
        accesses[site] = (struct access){ true, site, (uint8_t)site, each };
        plan(chance(THINK), site, NO_MESSAGE);
    }
    while (waiting > 0) {
        struct happening happening = first();
        now = happening.time;
        if (happening.message == NO_MESSAGE) {
            try_access(happening.site, &accesses[happening.site]);
            continue;
        }
        struct leddwyfan_reply reply;
        uint64_t sent = leddwyfan_world_sent(&world);
        fprintf(script, "deliver %" PRIu64 "\n", happening.message);
        tell(leddwyfan_world_deliver(&world, happening.message, &reply), sent);
    }
    leddwyfan_world_free(&world);
    return fclose(script) != 0 || fclose(out) != 0;
}
