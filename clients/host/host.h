/* The parts of leddwyfan-host, and what they ask of one another. */
#ifndef HOST_H
#define HOST_H

#include "../c/seal.h"
#include "wire.h"

#include <err.h>

enum right { NONE, READ, WRITE };

enum { MOST_SEGMENTS = 64 };

/* Where so many bytes wait for the carrier, or for the site, further envelopes are lost: a tick sends them again. */
enum { MOST_UNWRITTEN = 1 << 22 };

/* What a test leaves out of what the daemon does with pages (`--break`). */
enum { LEAVES_READ = 1, LEAVES_WRITTEN, LENDS_OPEN, BRINGS_NOTHING, OPENS_TO_WRITE, PROTECTS_NOT };

/* `stay` are nanoseconds for which a page stays at least once it is here. The journal is begun; the site began with this daemon, and had no
   journal before; and there is no journal, or a page may leave before it has what was stored to others. */
extern struct options {
    int sites, me, broken;
    const char *journal, *socket, *program, *cluster, *key;
    struct seal seal;
    int64_t stay;
    bool begins, fresh, relaxed;
} options;

/* A descriptor that is awaited. Programs and connections begin with theirs. */
struct source { void (*ready)(struct source *); };

/* Lines to a descriptor, or from one. */
struct channel { int descriptor; char *bytes; size_t length, capacity; };

/* A load or store that waits. A program's place may have another program meanwhile: its generation tells. */
struct fault {
    struct fault *next;
    struct program *program;
    uint64_t generation, address;
    enum right needed;
    pid_t thread;
};

struct page {
    struct segment *segment;
    size_t offset;
    /* In some program here; by a fault that waits; of the site, which hasn't answered; and what the site lets stay at most. */
    enum right mapped, wanted, asked, keeps;
    /* The site is asked at a tick again; some program may have stored since the bytes were last brought; and who reads on soon needs the page. */
    bool later, opened, ahead;
    /* The attachment that it is mapped through, and the number of its last unmap or sync. */
    int at;
    uint64_t unmap;
    /* Its bytes as the site has them, while it is mapped. */
    uint8_t *twin;
    /* When it came, for which thread (-1: one that was woken, and hasn't faulted yet), and how often that had run before. */
    int64_t since;
    pid_t thread;
    uint64_t runs;
    /* Since it left: how many of its bytes weren't searched for sleepers of futexes, from which place on, and when to begin; the number of its last
       search; and whether somebody sleeps in it. And how long that waits when it leaves. */
    size_t unsearched, place;
    int64_t search_at, wait;
    uint64_t searched;
    bool missed;
    struct fault *faults;
};

/* A segment that programs here have attached so many times. The site's attachments of it are -1 where it has none. It is busy where there is work
   for one of its pages. */
struct segment {
    bool used, removed, busy;
    int id, memory, reading, writing, attached;
    size_t length;
    uint8_t *bytes, *twins;
    struct page *pages;
    /* The page behind the one that was read last, when that was, and how many before it were read one after another. */
    size_t next_read, reads;
    int64_t read_at, changed;
    time_t attach_time, detach_time;
    pid_t last;
};

/* A segment call, which a site has one of at a time. `done` gets an errno or 0, and the reply, and ends the call or makes it go on; without it the call ends. Where it makes
   a segment that nobody finds again, it isn't made twice; else it is said again to a site that was killed. */
struct call {
    struct call *next;
    uint64_t number;
    bool said, again, makes;
    char text[160];
    void (*done)(struct call *, int error, const char *reply);
    struct connection *connection;
    struct ask ask;
    struct answer answer;
};

/* host.c: lines, the carrier, the loop. No memory ends the daemon. */
void *room(void *old, size_t size);
void watch(int descriptor, struct source *source);
void close_watched(int descriptor);
void push_bytes(struct channel *channel, const char *bytes, size_t length);
void push_line(struct channel *channel, const char *line, bool seals);
void take_off(struct channel *channel, size_t count);
void write_lines(struct channel *channel);
bool read_lines(struct channel *channel, void (*take)(char *)); /* false at the end */
pid_t start_process(char *const *words, struct channel *input, struct channel *output);
void carry(const char *line);

/* site.c: the site's process, what it is asked and what it tells. */
void site_start(void);
void site_end(void);
bool site_flush(void); /* whether all is written */
void site_tick(void);
bool site_waits(void); /* a call is outstanding */
bool may_read_ahead(void); /* few maps have no answer */
bool is_to_call(const char *text); /* such a call has no answer yet */
bool pass_line(const char *line);
void ask_map(struct page *page);
void add_run(struct page *page, size_t start, size_t end);
void say_unmap(struct page *page, enum right keeps);
bool is_unmapping(const struct page *page); /* an unmap or sync of it has no answer */
bool decode(const char *text, uint8_t bytes[PAGE]);
__attribute__((format(printf, 3, 4))) void make_call(struct call *call, void (*done)(struct call *, int, const char *), const char *format, ...);

/* pages.c: the way of a page at this machine. */
void page_fault(struct page *page, const struct fault *fault);
void page_told(struct page *page, const char *text);
void page_revoked(struct page *page, enum right keeps);
void page_leaves(struct page *page);
int64_t pages_turn(void); /* when to turn again */
bool pages_search(void);  /* some of the page that the turn found to be searched; false where there is none */

/* programs.c: the programs' memory. `device` is /dev/userfaultfd, or -1. */
extern int device;
void check_kernel(void);
int program_new(int faults, uint64_t names, struct program **program); /* an errno, or 0 */
int program_named(uint64_t name, struct program **program); /* its userfaultfd, or -1 */
bool program_maps(struct program *program, uint64_t address, struct segment *segment);
void programs_reap(void);
void open_page(const struct fault *fault, enum right right);
void protect_page(const struct page *page);

/* segments.c: the programs' calls. */
extern struct segment segments[MOST_SEGMENTS];
#define EACH_SEGMENT(one) for (struct segment *one = segments; one < segments + MOST_SEGMENTS; one++) if (one->used)
#define EACH_PAGE(one) EACH_SEGMENT(its) for (struct page *one = its->pages; one < its->pages + its->length / PAGE; one++)
void listen_to_programs(void);
void leave_programs(void);
struct page *page_of(int id, int attachment, int page); /* of a segment with this identifier or this attachment, or NULL */
void segment_attached(struct segment *segment, int by);
bool segments_turn(void); /* whether there is one */
void detach_leftovers(void);

#endif
