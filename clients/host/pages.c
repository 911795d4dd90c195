/* The way of a page at this machine.

   A fault wants a right. Where the page is mapped so already, it is opened for the program that faults. Else the site is asked to map it; with
   its answer come the bytes, which are put into the segment's memory, and the page is opened.

   While it is mapped, processors load and store it without a step of the site, which keeps back what would take its right away, and tells the
   daemon what may stay. Then the daemon takes the right back, in this order: the page is protected in every program, so that each store is
   either seen here or waits; it is compared with the bytes that the site has; it is punched out of the segment's memory, which unmaps it
   everywhere; and the site is told what changed, and that the page is given up.

   Who sleeps in a futex of a page that has left is woken by nobody, as who stores next is on another machine. So a page that has left, and in
   which somebody sleeps, is fetched again, and those are woken whose word comes back other than it left. This is done at once, and to write, as
   who is woken will. Where it woke nobody, it is done 1 ms after the page leaves next, then after twice as long each time, 64 ms at most, and
   only to read: until it wakes somebody, or the page stays for 64 ms. So where nobody stores, each machine soon has the page to read, and nothing
   moves. Who isn't woken, as his word changed and changed back, might as well have fallen asleep after that. */
#include "host.h"

#include <linux/futex.h>
#include <sys/syscall.h>

/* `ALIKE` bytes of a page are compared at once, as most of them didn't change. */
enum { FUTEXES_AT_ONCE = 8, WOKEN = -1, ALIKE = 64, THREADS = 16, MOST_AHEAD = 16 };

/* Nanoseconds for which a page stays at most, and until it is looked at again; and until one that left is fetched for those who sleep in it. */
static const int64_t LONGEST_STAY = 20000000, LOOK_AGAIN = 50000, FIRST_WAIT = 1000000, LONGEST_WAIT = 64000000;

static struct page *search_next; /* of the pages that are to be searched for sleepers, the one that was longest ago */
static uint64_t searches;

static uint8_t *bytes_of(const struct page *page) {
    return page->segment->bytes + page->offset;
}

/* Taking away. */

/* Gathers what programs stored to a page since the site had all of it, byte by byte: what is between may be another's. Who stores to it now
   faults again. */
static bool gather(struct page *page, enum right keeps) {
    const uint8_t *bytes = bytes_of(page);
    if (!page->opened || options.broken == BRINGS_NOTHING) return false;
    if (options.broken != (keeps == NONE ? PROTECTS_NOT : LENDS_OPEN)) protect_page(page);
    page->opened = false;
    if (memcmp(bytes, page->twin, PAGE) == 0) return false;
    for (size_t start = 0, end; start < PAGE; start = end + 1) {
        for (end = start; end < PAGE && bytes[end] != page->twin[end]; end++) {}
        if (start < end) add_run(page, start, end);
        else if (start % ALIKE == 0 && memcmp(bytes + start, page->twin + start, ALIKE) == 0) end = start + ALIKE - 1;
    }
    memcpy(page->twin, bytes, PAGE);
    return true;
}

static void punch(struct page *page) {
    int mode = FALLOC_FL_PUNCH_HOLE | FALLOC_FL_KEEP_SIZE;
    if (fallocate(page->segment->memory, mode, (off_t)page->offset, PAGE) < 0) errx(1, "a page can't be taken out of memory");
    if (now() > page->since + LONGEST_WAIT) page->wait = 0;
    page->unsearched = page->segment->attached > 0 ? PAGE : 0; /* else nobody here sleeps in it */
    page->missed = false;
    page->search_at = now() + page->wait;
    page->segment->busy = true;
}

/* Where there is a journal, it first gets what was stored to all other pages: so a machine that dies loses an end of what it did, and never a
   middle. */
static void unmap_to(struct page *page, enum right keeps) {
    bool written = page->mapped == WRITE;
    page->keeps = WRITE;
    if (written && !options.relaxed) {
        EACH_PAGE(other) {
            if (other != page && gather(other, WRITE)) say_unmap(other, WRITE);
        }
    }
    gather(page, keeps);
    if (options.broken == PROTECTS_NOT) usleep(50); /* some program stores meanwhile, or the test would see nothing */
    if (page->mapped > keeps) page->mapped = keeps;
    if (keeps == NONE && options.broken != (written ? LEAVES_WRITTEN : LEAVES_READ)) punch(page);
    say_unmap(page, keeps);
}

void page_leaves(struct page *page) {
    if (page->mapped != NONE) unmap_to(page, NONE);
}

/* What the site says again says nothing new, nor does it where no more is mapped here. */
void page_revoked(struct page *page, enum right keeps) {
    if (page->mapped <= keeps || page->keeps <= keeps) return;
    page->keeps = keeps;
    page->segment->busy = true;
}

/* Sleepers. */

/* How many sleepers of a word FUTEX_WAKE wakes, or FUTEX_REQUEUE, from the word to itself, finds and lets sleep. */
static long call_futex(const struct page *page, size_t place, int operation, int wakes) {
    uint8_t *word = bytes_of(page) + place;
    return syscall(SYS_futex, word, operation, wakes, (long)INT32_MAX, word, 0);
}

/* Whether a page is to be fetched, as it has left and somebody sleeps in it. Where that isn't known yet the page is searched, from `due` on. */
static bool is_missed(struct page *page, int64_t time, int64_t *due) {
    if (page->unsearched == 0 || page->missed) return page->missed;
    if (time < page->search_at) *due = page->search_at < *due ? page->search_at : *due;
    else if (search_next == NULL || page->searched < search_next->searched) search_next = page;
    return false;
}

/* Searches some words of one page: each word is a system call, and lines and faults are not to wait for many, however many pages have left. A word
   that has a sleeper is the first one next time. */
bool pages_search(void) {
    struct page *page = search_next;
    if (page == NULL) return false;
    page->searched = ++searches;
    for (int count = 0; count < FUTEXES_AT_ONCE && page->unsearched > 0; count++) {
        page->missed = call_futex(page, page->place, FUTEX_REQUEUE, 0) != 0;
        if (page->missed) break;
        page->place = (page->place + sizeof(int)) % PAGE;
        page->unsearched -= sizeof(int);
    }
    if (page->unsearched == 0) page->wait = FIRST_WAIT;
    if (page->unsearched == 0 || page->missed) search_next = NULL;
    return true;
}

/* A page has come back that had left with these bytes, for a fault or for who sleeps in it. Whether somebody is woken. */
static bool wake_sleepers(struct page *page, const uint8_t *left, bool for_fault) {
    long woken = 0;
    for (size_t place = 0; place < PAGE; place += sizeof(int)) {
        if (memcmp(left + place, page->twin + place, sizeof(int)) != 0) woken += call_futex(page, place, FUTEX_WAKE, INT32_MAX) > 0;
    }
    if (woken > 0) page->wait = 0;
    else if (!for_fault && page->wait < LONGEST_WAIT) page->wait = page->wait == 0 ? FIRST_WAIT : 2 * page->wait;
    page->unsearched = 0;
    page->missed = false;
    return woken > 0;
}

/* Opening. */

/* Where the kernel tells how often a thread has run. It stays open, as pages come for the same threads again and again. */
static struct statistics { pid_t thread; int file; } statistics[THREADS];

static bool open_statistics(struct statistics *of, pid_t thread) {
    char name[32];
    if (of->thread != 0) close(of->file);
    snprintf(name, sizeof name, "/proc/%d/schedstat", thread);
    of->file = open(name, O_RDONLY | O_CLOEXEC);
    of->thread = of->file < 0 ? 0 : thread;
    return of->file >= 0;
}

/* How often a thread has run on a processor; 0 where that can't be known. What can't be read was an earlier thread's, which had this number. */
static uint64_t runs_of(pid_t thread) {
    struct statistics *of = &statistics[(unsigned)thread % THREADS];
    char text[80];
    uint64_t runs = 0;
    ssize_t length = of->thread == thread ? pread(of->file, text, sizeof text - 1, 0) : 0;
    if (length <= 0 && open_statistics(of, thread)) length = pread(of->file, text, sizeof text - 1, 0);
    text[length > 0 ? length : 0] = '\0';
    return sscanf(text, "%*u %*u %lu", &runs) == 1 ? runs : 0;
}

static void stays_for(struct page *page, pid_t thread) {
    page->thread = thread;
    page->runs = thread > 0 ? runs_of(thread) : 0;
}

/* Until when a page stays: for a while, and longer where the thread that it came for hasn't run yet, or on busy machines two hosts would take it
   from one another before either's instruction is repeated. */
static int64_t stays_until(struct page *page) {
    if (page->thread == 0 || now() < page->since + options.stay) return page->since + options.stay;
    bool came_lately = now() < page->since + LONGEST_STAY;
    if (came_lately && (page->thread == WOKEN || (page->runs > 0 && runs_of(page->thread) == page->runs))) return now() + LOOK_AGAIN;
    page->thread = 0;
    return 0;
}

/* Opens the page for those who need no more than what is mapped. */
static void open_for_all(struct page *page) {
    page->wanted = NONE;
    for (struct fault *fault, **place = &page->faults; (fault = *place) != NULL;) {
        if (fault->needed > page->mapped) {
            page->wanted = fault->needed > page->wanted ? fault->needed : page->wanted;
            place = &fault->next;
            continue;
        }
        *place = fault->next;
        page->opened |= page->mapped == WRITE;
        if (page->thread == WOKEN) stays_for(page, fault->thread);
        open_page(fault, options.broken == OPENS_TO_WRITE ? WRITE : page->mapped);
        free(fault);
    }
}

/* The site answers what it was asked. What it can't do now it is asked again at a tick. An answer from before the page was given up says
   nothing: that took back what it told of. Who faulted goes on before sleepers are woken, as each word that changed is a system call. */
void page_told(struct page *page, const char *text) {
    enum right right = page->asked;
    bool brings = strncmp(text, "mapped ", 7) == 0, for_fault = page->faults != NULL;
    uint8_t bytes[PAGE], left[PAGE];
    page->asked = NONE;
    page->segment->busy = true;
    if (is_unmapping(page)) return;
    if (brings ? !decode(text + 7, bytes) : page->mapped == NONE || strcmp(text, "mapped") != 0) {
        page->later = true;
        return;
    }
    memcpy(left, page->twin, PAGE);
    if (brings) memcpy(page->twin, bytes, PAGE), memcpy(bytes_of(page), bytes, PAGE);
    page->mapped = right;
    page->since = now();
    stays_for(page, for_fault ? page->faults->thread : 0);
    open_for_all(page);
    if (page->unsearched > 0 && wake_sleepers(page, left, for_fault) && !for_fault) stays_for(page, WOKEN);
}

/* Who has read three pages one after another soon needs the next ones. They are asked for at once, so that their ways overlap: two pages, and with
   each further page that is read twice as many, once half of them have been read. Each is asked for once; where that fails, a fault asks for it. */
static void read_ahead(struct page *page) {
    struct segment *segment = page->segment;
    size_t index = page->offset / PAGE, last = segment->length / PAGE - 1;
    bool goes_on = index == segment->next_read && now() < segment->read_at + SECOND;
    segment->reads = goes_on ? segment->reads + 1 : 0;
    segment->next_read = index + 1;
    segment->read_at = now();
    size_t count = segment->reads < 2 ? 0 : segment->reads < 5 ? (size_t)1 << (segment->reads - 1) : MOST_AHEAD;
    if (count > last - index) count = last - index;
    const struct page *midway = page + (count + 1) / 2;
    if (midway->mapped != NONE || midway->asked != NONE) return;
    for (size_t number = 1; number <= count; number++) page[number].ahead = true;
}

void page_fault(struct page *page, const struct fault *fault) {
    struct fault *kept = room(NULL, sizeof *kept);
    if (fault->needed == READ) read_ahead(page);
    *kept = *fault;
    kept->next = page->faults;
    page->faults = kept;
    page->segment->busy = true;
}

/* The loop. */

/* Whether there is more to do for the page, and when. */
static bool turn(struct page *page, int64_t time, int64_t *due) {
    open_for_all(page);
    if (page->wanted == NONE && is_missed(page, time, due)) page->wanted = page->wait == 0 && page->segment->writing >= 0 ? WRITE : READ;
    if (page->keeps < WRITE) {
        int64_t until = stays_until(page);
        if (until <= now()) unmap_to(page, page->keeps);
        else if (until < *due) *due = until;
    }
    if (page->ahead && page->wanted == NONE && may_read_ahead()) page->wanted = READ;
    page->ahead = false;
    if (page->wanted > page->mapped && page->asked == NONE && !page->later) ask_map(page);
    return page->keeps < WRITE || page->unsearched > 0 || page->wanted > page->mapped;
}

int64_t pages_turn(void) {
    int64_t time = now(), due = INT64_MAX;
    search_next = NULL;
    EACH_SEGMENT(segment) {
        if (!segment->busy) continue;
        segment->busy = false;
        for (size_t index = 0; index < segment->length / PAGE; index++) segment->busy |= turn(&segment->pages[index], time, &due);
    }
    return due;
}
