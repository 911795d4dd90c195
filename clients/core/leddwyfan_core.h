/* The proved world in your process, in libleddwyfan.a: all sites and the network between them. Or single sites, over a network of your own.
 *
 * README.md says how to build and link it. docs/script.md says what each event does, and docs/refusals.md has the refusals' numbers.
 *
 * What you owe, in every call:
 *   - A handle is a struct leddwyfan_world that you set to LEDDWYFAN_WORLD_EMPTY once and that only these functions changed since, or a
 *     struct leddwyfan_site and LEDDWYFAN_SITE_EMPTY.
 *     You never write its pointer, and never use a copy of the struct: move it, and forget the old place.
 *   - No two threads are in calls with one handle, and a handle stays on its thread. Two handles on two threads are fine.
 *   - Each pointer is that of a live object of its type, or of as many bytes as the length behind it says; not null, even where that is 0;
 *     and no two of one call overlap. A bool is 0 or 1.
 *   - No call comes from a signal handler, nor from the forked child of a process with threads. malloc, realloc and free are the C library's.
 * No function calls you back, and none ends the program. Where malloc answers null, a call says so and changes nothing.
 *
 * What is proved, where you keep this: the world behind a handle is that of the definitions (crates/shm_model/specs/World.antt) after the
 * events that were made of it, and each answer is theirs. So each byte that a load gives is the one stored last to its place. A site behind
 * a handle is that of the definitions (crates/shm_model/specs/Step.antt) after its steps, and answers and sends what they say. So single
 * sites that were made alike make a run of a world, as long as your network hands over only what they sent, unchanged. In crates/shm_c/src
 * each function has its contract.
 */
#ifndef LEDDWYFAN_CORE_H
#define LEDDWYFAN_CORE_H

#include <stdbool.h>
#include <stddef.h>
#include <stdint.h>

#ifdef __cplusplus
extern "C" {
#endif

/* A world, or none. */
struct leddwyfan_world { void *at; };
#define LEDDWYFAN_WORLD_EMPTY { NULL }

/* A site, or none. */
struct leddwyfan_site { void *at; };
#define LEDDWYFAN_SITE_EMPTY { NULL }

/* What became of an event. From LEDDWYFAN_NO_MEMORY on nothing changed. */
enum leddwyfan_answer_kind {
    LEDDWYFAN_BYTE = 1,     /* value is the byte that was loaded */
    LEDDWYFAN_STORED = 2,
    LEDDWYFAN_FAULT = 3,    /* no right yet; it was asked for. Give the event again later */
    LEDDWYFAN_WAITING = 4,  /* no right yet; it is under way. Give the event again later */
    LEDDWYFAN_BEGAN = 5,    /* number is the segment call's */
    LEDDWYFAN_REPLIED = 6,  /* the segment call of this number ended */
    LEDDWYFAN_TOOK = 7,
    LEDDWYFAN_DROPPED = 8,  /* the site ignored the message */
    LEDDWYFAN_REFUSED = 9,  /* value is the refusal's number */
    LEDDWYFAN_NO_MEMORY = 10,
    LEDDWYFAN_NO_WORLD = 11,
    LEDDWYFAN_NO_CALL = 12, /* no segment call has these numbers */
    LEDDWYFAN_NO_SITE = 13,
    LEDDWYFAN_NO_LINE = 14  /* the line spells no message */
};
struct leddwyfan_answer { uint32_t kind, value; uint64_t number; };

/* No message's line is longer (docs/lines.md). */
#define LEDDWYFAN_LINE_BYTES 5700

/* The reply to a segment call that ended; fields that its kind doesn't name are 0. */
enum leddwyfan_reply_kind {
    LEDDWYFAN_NO_REPLY = 0,
    LEDDWYFAN_ID = 1,       /* id */
    LEDDWYFAN_ATTACHED = 2, /* size, read_only; the attachment, if the site still has room for it */
    LEDDWYFAN_DONE = 3,
    LEDDWYFAN_STAT = 4,     /* from size on, all but read_only, the attachment and errno_ */
    LEDDWYFAN_ERROR = 5     /* errno_: the cause's number, 1 to 7 */
};
struct leddwyfan_reply {
    uint32_t kind, id, size;
    bool read_only, has_attachment;
    uint32_t attachment, errno_, key, uid, gid, cuid, cgid, mode;
    bool marked;
    uint64_t attaches;
};

/* A segment call; fields that its kind doesn't name don't count. uid and gid are the caller's, except in a detach. */
enum leddwyfan_call_kind {
    LEDDWYFAN_GET = 1,    /* key, size, mode, flags: 01000 IPC_CREAT, 02000 IPC_EXCL */
    LEDDWYFAN_ATTACH = 2, /* id, read_only */
    LEDDWYFAN_DETACH = 3, /* attachment */
    LEDDWYFAN_REMOVE = 4, /* id */
    LEDDWYFAN_SET = 5,    /* id, new_uid, new_gid, mode */
    LEDDWYFAN_RECORD = 6  /* id */
};
struct leddwyfan_call {
    uint32_t kind, uid, gid, key, id, size, mode, flags, new_uid, new_gid, attachment;
    bool read_only;
};

/* An envelope on its way. number is that of the transaction, of an Ask's request, or of the segment call. */
enum leddwyfan_envelope_kind {
    LEDDWYFAN_NO_ENVELOPE = 0, LEDDWYFAN_ASK = 1, LEDDWYFAN_CLEARED = 2, LEDDWYFAN_CONFIRM = 3, LEDDWYFAN_CLEAR = 4,
    LEDDWYFAN_HAND = 5, LEDDWYFAN_PAGE = 6, LEDDWYFAN_CALL = 7, LEDDWYFAN_REPLY = 8, LEDDWYFAN_PURGE = 9, LEDDWYFAN_PURGED = 10
};
struct leddwyfan_envelope {
    uint32_t kind, from, to, seg, index;
    uint64_t number;
    bool writes;      /* an Ask, Hand or Page for the right to write */
    uint32_t hand_to; /* a Hand's receiver of the page */
};

/* A page as a site holds it: state, and the greatest transaction number that the site met there. */
enum leddwyfan_state {
    LEDDWYFAN_NIL = 0, LEDDWYFAN_COPY = 1, LEDDWYFAN_OWN_READ = 2, LEDDWYFAN_OWN_WRITE = 3, LEDDWYFAN_HANDED = 4,
    LEDDWYFAN_GIVEN_UP = 5, /* the site purged the segment */
    LEDDWYFAN_NO_PAGE = 6   /* no world, no such site or no such page */
};
struct leddwyfan_shown { uint32_t state; uint64_t seen; };

/* What making and copying answer; at all but 0 nothing changed. */
enum leddwyfan_status {
    LEDDWYFAN_OK = 0,
    LEDDWYFAN_BAD_NUMBERS = 4,
    LEDDWYFAN_OUT_OF_MEMORY = 17,
    LEDDWYFAN_FULL = 32, /* the handle that was to get a world has one */
    LEDDWYFAN_EMPTY = 33 /* the handle that was to be copied has none */
};

/* Makes a world of 1 to 16 sites in an empty handle. pages: 0 for no segment, or 1 to 256 pages of segment 0, which every site has
 * attached, to read and write, as attachment 0. frames: 0, or the most pages that a site holds as copies, up to 65,536;
 * it counts only beside pages. */
uint32_t leddwyfan_world_make(struct leddwyfan_world *world, uint32_t sites, uint32_t pages, uint32_t frames);
/* Makes an equal world in the empty handle copy. Both go on alone. */
uint32_t leddwyfan_world_copy(struct leddwyfan_world *world, struct leddwyfan_world *copy);
/* Frees the world, if there is one. The handle is empty then. */
void leddwyfan_world_free(struct leddwyfan_world *world);

/* Events. at is an attachment of the site, number an envelope. A load or store that has the right, a loss and a restart take no memory. */
struct leddwyfan_answer leddwyfan_world_load(struct leddwyfan_world *world, uint32_t site, uint32_t at, uint32_t offset);
struct leddwyfan_answer leddwyfan_world_store(struct leddwyfan_world *world, uint32_t site, uint32_t at, uint32_t offset, uint8_t byte);
struct leddwyfan_answer leddwyfan_world_begin(struct leddwyfan_world *world, uint32_t site, const struct leddwyfan_call *call);
struct leddwyfan_answer leddwyfan_world_tick(struct leddwyfan_world *world, uint32_t site);
struct leddwyfan_answer leddwyfan_world_restart(struct leddwyfan_world *world, uint32_t site);
struct leddwyfan_answer leddwyfan_world_deliver(struct leddwyfan_world *world, uint64_t number, struct leddwyfan_reply *reply);
struct leddwyfan_answer leddwyfan_world_repeat(struct leddwyfan_world *world, uint64_t number, struct leddwyfan_reply *reply);
struct leddwyfan_answer leddwyfan_world_lose(struct leddwyfan_world *world, uint64_t number);

/* Looking; the world stays as it is, though the handle isn't const, and an empty handle has 0 sites and no envelopes. */
uint32_t leddwyfan_world_sites(struct leddwyfan_world *world);
/* How many envelopes were ever sent; they are numbered from 0. */
uint64_t leddwyfan_world_sent(struct leddwyfan_world *world);
void leddwyfan_world_envelope(struct leddwyfan_world *world, uint64_t number, struct leddwyfan_envelope *out);
/* 0 none, 1 to read, 2 to write; 3: no world, no such site or no such page. */
uint32_t leddwyfan_world_access(struct leddwyfan_world *world, uint32_t site, uint32_t seg, uint32_t index);
struct leddwyfan_shown leddwyfan_world_shown(struct leddwyfan_world *world, uint32_t site, uint32_t seg, uint32_t index);

/* ---- A single site. Your network carries what it sends: it may lose, repeat and reorder messages, and neither changes nor invents any. */

/* Makes the site me, from 0 on, of so many sites, in an empty handle. sites, pages and frames are as for a world, and the same at each site. */
uint32_t leddwyfan_site_make(struct leddwyfan_site *site, uint32_t sites, uint32_t me, uint32_t pages, uint32_t frames);
/* Makes an equal site in the empty handle copy, with what its last step sent. Both go on alone. */
uint32_t leddwyfan_site_copy(struct leddwyfan_site *site, struct leddwyfan_site *copy);
/* Frees the site, if there is one. The handle is empty then. */
void leddwyfan_site_free(struct leddwyfan_site *site);

/* Steps. A load or store that has the right, and a restart, take no memory. */
struct leddwyfan_answer leddwyfan_site_load(struct leddwyfan_site *site, uint32_t at, uint32_t offset);
struct leddwyfan_answer leddwyfan_site_store(struct leddwyfan_site *site, uint32_t at, uint32_t offset, uint8_t byte);
struct leddwyfan_answer leddwyfan_site_begin(struct leddwyfan_site *site, const struct leddwyfan_call *call);
struct leddwyfan_answer leddwyfan_site_tick(struct leddwyfan_site *site);
struct leddwyfan_answer leddwyfan_site_restart(struct leddwyfan_site *site);
/* Hands over a message: its line, of so many bytes, without a line feed. One that is for another site, or that this site can't have been
 * sent, is refused with 16 and changes nothing. What its line says of the clock, the index and the place doesn't count. */
struct leddwyfan_answer leddwyfan_site_deliver(struct leddwyfan_site *site, const char *line, size_t length, struct leddwyfan_reply *reply);

/* How many messages the last step sent. Take them before the next step, whose messages take their place. Where nothing changed
 * (LEDDWYFAN_NO_MEMORY and what follows it in the list, or a delivery refused with 16) no step was made, and they stand. */
size_t leddwyfan_site_sent(struct leddwyfan_site *site);
/* Writes the line of the message of this place, from 0 on, if the buffer has room for it, and answers the line's length, with no line feed
 * and no 0 behind. docs/lines.md has the form: `env FROM TO 0 0 PLACE ..`. At most LEDDWYFAN_LINE_BYTES are needed. 0: there is no such
 * message, or memory was refused; nothing was written. */
size_t leddwyfan_site_message(struct leddwyfan_site *site, size_t place, char *buffer, size_t room);

/* Looking, as for a world. */
uint32_t leddwyfan_site_access(struct leddwyfan_site *site, uint32_t seg, uint32_t index);
struct leddwyfan_shown leddwyfan_site_shown(struct leddwyfan_site *site, uint32_t seg, uint32_t index);

#ifdef __cplusplus
}
#endif
#endif
