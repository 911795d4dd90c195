/* The programs' memory: each program that has attached something gave its userfaultfd to the daemon, which hears of its faults by it, and of
   what it forks, unmaps and moves. A child's comes with the event of the fork.

   Which program a new connection belongs to is told by a page of names: a page of the program's own which is never there, so that whoever
   reads it faults, and reads the name that the daemon puts there. */
#include "host.h"

#include <linux/userfaultfd.h>
#include <sys/ioctl.h>
#include <sys/syscall.h>

#ifndef UFFDIO_CONTINUE_MODE_WP /* headers of before Linux 6.4 */
#define UFFDIO_CONTINUE_MODE_WP ((__u64)1 << 1)
#endif

enum { MOST_RANGES = 128, FROM_LINUX_6_4 = 1 << 13 };

static const uint64_t FEATURES = UFFD_FEATURE_EVENT_FORK | UFFD_FEATURE_EVENT_UNMAP | UFFD_FEATURE_EVENT_REMAP | UFFD_FEATURE_MISSING_SHMEM |
                                 UFFD_FEATURE_MINOR_SHMEM | UFFD_FEATURE_PAGEFAULT_FLAG_WP | UFFD_FEATURE_WP_HUGETLBFS_SHMEM | UFFD_FEATURE_THREAD_ID;

/* Part of a program's address space: `length` bytes of a segment, from `offset` on. */
struct range { uint64_t address, length, offset; struct segment *segment; };

/* There are as many as there ever were at a time: each keeps its place until it has ended, and then another may have it. */
struct program {
    struct source source;
    struct program *next;
    bool used;
    int faults, count;
    uint64_t generation, names; /* its name, and the page where it reads it */
    struct range ranges[MOST_RANGES];
};

int device;

static struct program *programs;
static uint64_t generations, changes; /* programs ever made; events that changed ranges */

#define EACH_PROGRAM(one) for (struct program *one = programs; one != NULL; one = one->next) if (one->used)

static void program_ready(struct source *source);

static int begin_faults(int faults, uint64_t features) {
    return ioctl(faults, UFFDIO_API, &(struct uffdio_api){.api = UFFD_API, .features = features}) == 0 ? 0 : errno;
}

/* Says what to set where something is lacking. */
void check_kernel(void) {
    device = open("/dev/userfaultfd", O_RDWR | O_CLOEXEC);
    int faults = (int)(device >= 0 ? ioctl(device, USERFAULTFD_IOC_NEW, O_CLOEXEC) : syscall(SYS_userfaultfd, O_CLOEXEC));
    if (faults < 0) errx(1, "page faults can't be served: run the daemon as root, or let it read and write /dev/userfaultfd (CONFIG_USERFAULTFD)");
    if (device < 0) warnx("/dev/userfaultfd can't be opened: programs that aren't root's need `sysctl vm.unprivileged_userfaultfd=1`");
    int error = begin_faults(faults, FEATURES | FROM_LINUX_6_4);
    if (error == EPERM) errx(1, "forks can't be followed: run the daemon as root, or `setcap cap_sys_ptrace+ep` it");
    if (error != 0) errx(1, "Linux 6.4 or later is needed");
    close(faults);
}

static struct program *new_program(int faults, uint64_t names) {
    struct program *program = programs;
    while (program != NULL && program->used) program = program->next;
    if (program == NULL) {
        program = room(NULL, sizeof *program);
        program->next = programs;
        programs = program;
    }
    *program = (struct program){{program_ready}, program->next, true, faults, 0, ++generations, names, {{0}}};
    fcntl(faults, F_SETFL, O_NONBLOCK);
    fcntl(faults, F_SETFD, FD_CLOEXEC);
    watch(faults, &program->source);
    return program;
}

static bool serves(const struct program *program, uint64_t address, uint64_t length, uint64_t mode) {
    return ioctl(program->faults, UFFDIO_REGISTER, &(struct uffdio_register){.range = {address, length}, .mode = mode}) == 0;
}

int program_new(int faults, uint64_t names, struct program **program) {
    int error = begin_faults(faults, FEATURES);
    if (error != 0) close(faults);
    if (error != 0) return error;
    *program = new_program(faults, names);
    return serves(*program, names, PAGE, UFFDIO_REGISTER_MODE_MISSING) ? 0 : EINVAL;
}

int program_named(uint64_t name, struct program **program) {
    EACH_PROGRAM(one) {
        if (one->generation == name) return (*program = one)->faults;
    }
    return -1;
}

static bool add_range(struct program *program, struct range range) {
    if (program->count == MOST_RANGES) return false;
    program->ranges[program->count++] = range;
    segment_attached(range.segment, 1);
    return true;
}

bool program_maps(struct program *program, uint64_t address, struct segment *segment) {
    uint64_t mode = UFFDIO_REGISTER_MODE_MISSING | UFFDIO_REGISTER_MODE_MINOR | UFFDIO_REGISTER_MODE_WP;
    struct range range = {address, segment->length, 0, segment};
    return program->used && serves(program, address, segment->length, mode) && add_range(program, range);
}

/* Pages. */

/* Changes a program's memory, which is refused with EAGAIN while there is an event to be read. */
static bool change(struct program *program, unsigned long request, void *range) {
    while (ioctl(program->faults, request, range) < 0) {
        if (errno != EAGAIN) return false;
        program_ready(&program->source);
    }
    return true;
}

static void set_protected(struct program *program, uint64_t address, uint64_t mode) {
    change(program, UFFDIO_WRITEPROTECT, &(struct uffdio_writeprotect){.range = {address, PAGE}, .mode = mode});
}

/* Opens a page, whose bytes are in the segment's memory, for the program that faults. To read, it stays protected. */
void open_page(const struct fault *fault, enum right right) {
    struct program *program = fault->program;
    struct uffdio_continue range = {.range = {fault->address, PAGE}, .mode = right == WRITE ? 0 : UFFDIO_CONTINUE_MODE_WP};
    if (!program->used || program->generation != fault->generation || change(program, UFFDIO_CONTINUE, &range)) return;
    if (errno == EEXIST && right == WRITE) set_protected(program, fault->address, 0);
    ioctl(program->faults, UFFDIO_WAKE, &range.range);
}

/* In every program. What they fork and unmap meanwhile is heard on the way, and then it is done again. */
void protect_page(const struct page *page) {
    uint64_t before;
    do {
        before = changes;
        EACH_PROGRAM(program) {
            for (const struct range *range = program->ranges; range < program->ranges + program->count; range++) {
                uint64_t place = page->offset - range->offset;
                if (range->segment != page->segment || place >= range->length) continue;
                set_protected(program, range->address + place, UFFDIO_WRITEPROTECT_MODE_WP);
            }
        }
    } while (changes != before);
}

/* Events. */

static void forked(const struct program *parent, int faults) {
    struct program *child = new_program(faults, parent->names);
    for (int index = 0; index < parent->count; index++) add_range(child, parent->ranges[index]);
}

/* Takes the bytes from `start` to `end` out of the ranges. One in whose midst they lie becomes two. */
static void unmapped(struct program *program, uint64_t start, uint64_t end) {
    int count = program->count, kept = 0;
    for (int index = 0; index < count; index++) {
        struct range old = program->ranges[index];
        uint64_t old_end = old.address + old.length;
        if (end <= old.address || start >= old_end) continue;
        program->ranges[index].length = 0;
        if (start > old.address) add_range(program, (struct range){old.address, start - old.address, old.offset, old.segment});
        if (end < old_end) add_range(program, (struct range){end, old_end - end, old.offset + end - old.address, old.segment});
        segment_attached(old.segment, -1);
    }
    for (int index = 0; index < program->count; index++) {
        if (program->ranges[index].length > 0) program->ranges[kept++] = program->ranges[index];
    }
    program->count = kept;
}

static void moved(struct program *program, uint64_t from, uint64_t to) {
    for (int index = 0; index < program->count; index++) {
        if (program->ranges[index].address == from) program->ranges[index].address = to;
    }
}

/* A fault elsewhere is in the page of names, or in what was unmapped meanwhile. */
static void faulted(struct program *program, uint64_t address, uint64_t flags, pid_t thread) {
    enum right needed = flags & (UFFD_PAGEFAULT_FLAG_WRITE | UFFD_PAGEFAULT_FLAG_WP) ? WRITE : READ;
    struct fault fault = {NULL, program, program->generation, address & ~(uint64_t)(PAGE - 1), needed, thread};
    for (const struct range *range = program->ranges; range < program->ranges + program->count; range++) {
        uint64_t place = address - range->address;
        if (place >= range->length) continue;
        page_fault(&range->segment->pages[(place + range->offset) / PAGE], &fault);
        return;
    }
    uint64_t page[PAGE / sizeof(uint64_t)] = {program->generation};
    struct uffdio_copy name = {.dst = program->names, .src = (uintptr_t)page, .len = PAGE};
    if (fault.address == program->names) change(program, UFFDIO_COPY, &name);
    ioctl(program->faults, UFFDIO_WAKE, &(struct uffdio_range){fault.address, PAGE});
}

static void program_ready(struct source *source) {
    struct program *program = (struct program *)source;
    struct uffd_msg message;
    while (program->used && read(program->faults, &message, sizeof message) == sizeof message) {
        if (message.event != UFFD_EVENT_PAGEFAULT) changes++;
        else faulted(program, message.arg.pagefault.address, message.arg.pagefault.flags, (pid_t)message.arg.pagefault.feat.ptid);
        if (message.event == UFFD_EVENT_FORK) forked(program, (int)message.arg.fork.ufd);
        if (message.event == UFFD_EVENT_UNMAP) unmapped(program, message.arg.remove.start, message.arg.remove.end);
        if (message.event == UFFD_EVENT_REMAP) moved(program, message.arg.remap.from, message.arg.remap.to);
    }
}

/* Programs that have ended. A range that isn't registered is refused where the program lives, and with ESRCH where its memory is gone. */
void programs_reap(void) {
    struct uffdio_writeprotect nothing = {.range = {16 * PAGE, PAGE}, .mode = UFFDIO_WRITEPROTECT_MODE_DONTWAKE};
    EACH_PROGRAM(program) {
        if (ioctl(program->faults, UFFDIO_WRITEPROTECT, &nothing) == 0 || errno != ESRCH) continue;
        program->used = false;
        close_watched(program->faults);
        for (int index = 0; index < program->count; index++) segment_attached(program->ranges[index].segment, -1);
    }
}
