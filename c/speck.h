/*
 * speck.h: the kernel for C. Version 0.1.
 *
 * WHAT IT IS. A machine is a kernel with a seat for each core. Each core has a port, which makes the core's calls. Threads, or the
 * processors of a bare machine, share a kernel through their ports alone. A note tells what a port has seen; a port that meets it has
 * then seen that too. No call waits for another core, takes a lock, starts a thread, or tries anything a second time; each is a bounded
 * number of steps. The calls of a core take no memory.
 *
 *     struct speck_machine machine = {0};
 *     struct speck_port port[2] = {{{0}}};
 *     struct speck_final last = {0};
 *     struct speck_text tables = {0};
 *     if (speck_boot(&machine, 2, 32, 100) != SPECK_OK) return 1;                      two cores, 32 frames, 100 ticks for each core
 *     for (int core = 0; core < 2; core++) speck_deal(&machine, &port[core]);          core 0's port comes first
 *     struct speck_reply reply = speck_copy(&port[0], 0, 1, 20, SPECK_RIGHT_COPY | SPECK_RIGHT_USE);
 *     for (int core = 0; core < 2; core++) speck_take_back(&machine, &port[core]);     core 0's port first
 *     if (speck_finish(&machine, &last) == SPECK_OK) ..                                what it has left, part by part: speck_read_..
 *     if (speck_show(&last, &tables) == SPECK_OK) ..                                   or as the text of its tables: speck_read
 *     speck_free_text(&tables), speck_free_final(&last);
 *
 * Linked with -lspeck and with nothing else. What is proved of it, and what is tried alone, is told at the end.
 *
 * WHAT A CALLER KEEPS
 *
 * - A slot (machine, port, note, final, text) is zeroed before its first use. No field of it is yours. It may be moved; a copy and its original
 *   are never both used. Free each slot that is not empty: the last of a machine and its ports frees the kernel.
 * - Hand a slot to another thread only across the start or the join of a thread, a lock, or a sequentially consistent atomic.
 * - `malloc`, `realloc` and `free` are those of one allocator, aligned to 16 bytes, and may be called by several threads at once. Beside
 *   them the library calls memcpy, memmove and memset alone.
 * - Nothing is called from the child of a fork of a program with threads.
 *
 * WHAT IS TESTED, AND ANSWERED BY A CODE, WITH NOTHING CHANGED
 *
 *     a slot that is null, or holds nothing, or something else; a
 *     place to write to that is null                                   SPECK_NOTHING_HELD
 *     a slot that is in a call: from an interrupt or a signal handler,
 *     or from a second thread; or one slot given twice                 SPECK_IN_CALL (that call goes on, and is not disturbed)
 *     a slot to be filled that is not empty                            SPECK_FULL
 *     a note or a port of another machine                              SPECK_OTHER_MACHINE
 *     a port that comes back before those with lower numbers           SPECK_NOT_ITS_TURN
 *     a machine that is finished before all its ports are back         SPECK_PORT_OUT
 *     one port more than there are cores                               SPECK_ALL_DEALT
 *     an argument outside its limits                                   SPECK_OUTSIDE; of a boot the SPECK_BAD_.. of the first such
 *     no memory                                                        SPECK_NO_MEMORY: a machine, a port, a note, a final is never lost by it
 *
 * WHAT A MACHINE HOLDS AT BOOT, with n cores and f frames
 *
 *     capability   kind                    in frame     what it is
 *     0            SPECK_KIND_RANGE        4 + 2n       the free memory: all frames from 4 + 2n on, of which there are f - 4 - 2n
 *     1            SPECK_KIND_TABLE        0            the capability table itself; its one leaf, in frame 1, has the numbers 0 to 63
 *     2            SPECK_KIND_PAGES        2            the page table, in which nothing is mapped and no leaf linked
 *     3            SPECK_KIND_COMP         3            the component of all cores, of liveness number 0
 *     4 + core     SPECK_KIND_THREAD       4 + core     the thread that the core runs
 *     12 + core    SPECK_KIND_TCAP         4 + n + core the temporal capability by which it runs, with the budget of the boot,
 *                                                       of scheduler 0 and quality 1; or as its grant says (speck_boot_with)
 *
 * A `table`, `root`, `pages`, `range`, `comp`, `thread`, `tcap`, `gate` or `leaf` among the arguments is the number of a capability of
 * that kind; a `slot` is the number under which something is put into a table, a `page` the same of a page table, an `entry` one of the
 * 64 of a root, and a `frame` the number of a frame of the machine.
 *
 * LIMITS. 1 to 8 cores; 4 + 2n to 512 frames, of 64 words; numbers of capabilities and pages 0 to 4,095; a component's name is a liveness
 * number, 0 to 63, of up to 65,535 epochs; a thread is in up to 16 components; a temporal capability's list names up to 8 schedulers of 0
 * to 63; a quality is 1 to 16,777,215, and a smaller one is better; a budget is up to 500,000,000 ticks, a `tick` up to 1,000,000; a core
 * makes up to 2^40 - 1 calls (1,099,511,627,775), and up to as many sends and receives, the refused ones too.
 *
 * WHEN A MACHINE IS USED UP. A core that has made as many calls as it may is answered SPECK_CALLS_SPENT from then on, and that changes
 * nothing: at 100,000 calls a second after 127 days, at the full speed of a processor after some 20 hours; sooner only where
 * speck_boot_with says so. The other cores go on. A liveness number is used up after as many kills as it has epochs, 65,535, all 64 of
 * them after 4,194,240: then speck_make_comp with it answers SPECK_EPOCHS_SPENT. No call ends either. Finish the machine, once its ports are
 * back, and boot another; or have each core count its calls, and do so in time. Ticks do not end a machine: what a core has spent of them it
 * gives back by speck_replenish, each period say.
 *
 * WHAT TO DO ABOUT A REPLY is its `advice` (below). To make a call until it is carried out or refused for good:
 *
 *     struct speck_reply reply;
 *     for (;;) {
 *         reply = speck_map(port, 2, page, 0, frame, SPECK_PAGE_WRITE);
 *         switch (reply.advice) {
 *         case SPECK_ADVICE_AGAIN:         continue;               a lost race: the call is made again, where it is still wanted
 *         case SPECK_ADVICE_AWAIT_RETURN:  sched_yield(); continue; core reply.n is to return from its call
 *         case SPECK_ADVICE_AWAIT_FLUSH:   have_flushed(reply.n);  continue; speck_flush at that core's port, which may be this one
 *         }
 *         break;
 *     }
 *
 * where `have_flushed(n)` is `speck_flush(port)` where n is `speck_core(port)`, and else asks the thread that has core n's port, or sends
 * core n an interrupt whose handler makes the flush, or, told SPECK_IN_CALL, leaves it to be made after the call in progress. Who asks and
 * waits makes the flushes that it is asked for meanwhile; and where core n's thread has ended, whoever has its port makes its flush. A
 * `tick` that lost a race is made again with 0 ticks: its own are owed already. Each turn counts among the calls that a core may make.
 *
 * IN RING 0. `c/build --kernel` makes the library without a red zone and without SSE: then an interrupt may be taken in the midst of a
 * call, on the same stack, by a handler that keeps the general registers alone. As built without --kernel, take interrupts on a stack of
 * their own, by handlers that keep the SSE registers too, or make each call with interrupts off: it is bounded. A handler may make calls
 * at ports; at one that is in a call it is told SPECK_IN_CALL. A 4 KiB stack does not do: `c/stacks` tells the bytes of each call. Your
 * own heap may take the place of `malloc` (--heap none) in three functions, which may be called by several cores at once:
 *
 *     struct got { uint64_t is_some; void *at; };                                     is_some 0: out of memory
 *     struct got rattle_alloc(size_t size, size_t align);                             a block, aligned to `align`, at most 16
 *     struct got rattle_realloc(void *at, size_t old, size_t size, size_t align);     the same with the first bytes of the block at `at`
 *     void rattle_dealloc(void *at);
 */
#ifndef SPECK_H
#define SPECK_H

#include <stddef.h>
#include <stdint.h>

#ifdef __cplusplus
extern "C" {
#endif

#define SPECK_VERSION 202 /* 10,000 for the first number, 100 for the second, 1 for the third; docs/CHANGES.md has what each changed */

struct speck_machine { uint64_t own[4]; };
struct speck_port { uint64_t own[4]; };
struct speck_note { uint64_t own[4]; };
struct speck_final { uint64_t own[4]; };
struct speck_text { uint64_t own[4]; };

/* What a call of a core answers. Of SPECK_OK, `value` says what it carries. Of SPECK_QUIESCING, SPECK_UNFLUSHED, SPECK_RUNNING and
 * SPECK_BUSY, `n` is the core, of SPECK_REFERENCED the count, of SPECK_SHORT the budget. `advice` says what the caller may do. What does
 * not apply is 0. */
struct speck_reply {
    uint8_t code;
    uint8_t value;
    uint8_t kind;
    uint8_t flags;
    uint16_t frame;
    uint8_t advice;
    uint32_t n;
};

/* The codes: one meaning each, whatever function answers them. Those up to 24 are the replies of the kernel (docs/REPLIES.md). */
enum {
    SPECK_OK = 0,            /* it was carried out */
    SPECK_NO_SLOT = 1,       /* the number is past the limits, or no leaf is linked where it leads */
    SPECK_EMPTY = 2,         /* the slot that is named holds nothing */
    SPECK_WRONG_CAP = 3,     /* the capability has another kind than the call wants */
    SPECK_OCCUPIED = 4,      /* the target holds something; of a component also: its liveness number lives */
    SPECK_QUIESCING = 5,     /* core n may still use what was removed there */
    SPECK_UNFLUSHED = 6,     /* core n may have a translation cached that leads to what was removed there */
    SPECK_FRAME_KIND = 7,    /* the frame is not of the kind that the call needs */
    SPECK_OUT_OF_RANGE = 8,  /* the frame is not in the range */
    SPECK_REFERENCED = 9,    /* n references to the frame stand */
    SPECK_NOT_EMPTY = 10,    /* the object in the frame is not empty, and no capability names it any more */
    SPECK_DEAD = 11,         /* a component was killed: see SPECK_ADVICE_RETURN */
    SPECK_DEEP = 12,         /* the thread is in 16 components */
    SPECK_BOTTOM = 13,       /* the thread is in its first component */
    SPECK_RUNNING = 14,      /* the thread runs on core n */
    SPECK_SHORT = 15,        /* the temporal capability has only n ticks */
    SPECK_UNLIKE = 16,       /* the two lists of qualities differ */
    SPECK_TOO_MANY = 17,     /* the merged list would name more than eight schedulers */
    SPECK_SAME = 18,         /* both numbers lead to one temporal capability */
    SPECK_EPOCHS_SPENT = 19, /* the liveness number has had its last epoch */
    SPECK_RACED = 20,        /* another core changed the word meanwhile */
    SPECK_BUSY = 21,         /* core n is changing the word */
    SPECK_FAULT = 22,        /* the page is not mapped */
    SPECK_CALLS_SPENT = 23,  /* the core has made its last call */
    SPECK_NO_RIGHT = 24,     /* the capability lacks the right that the call needs */

    /* No replies of the kernel: no call was made, and nothing was changed. */
    SPECK_FULL = 240,
    SPECK_BAD_CORES = 241,     /* not 1 to 8 */
    SPECK_BAD_FRAMES = 242,    /* not 4 + 2 * cores to 512 */
    SPECK_BAD_GRANT = 243,     /* a budget past 500,000,000 ticks, a scheduler past 63, or a quality that is not 1 to 16,777,215 */
    SPECK_ALL_DEALT = 244,
    SPECK_NOT_ITS_TURN = 245,
    SPECK_PORT_OUT = 246,
    SPECK_NO_MEMORY = 247,
    SPECK_OTHER_MACHINE = 248,
    SPECK_BAD_CALLS = 249,     /* past 2^40 - 1 */
    SPECK_BAD_EPOCHS = 250,    /* 0 */
    SPECK_IN_CALL = 253,
    SPECK_NOTHING_HELD = 254,
    SPECK_OUTSIDE = 255
};

/* What SPECK_OK carries. */
enum {
    SPECK_VALUE_NOTHING = 0,
    SPECK_VALUE_CAPABILITY = 1, /* its `kind`, `frame`, rights (`flags`) and argument (`n`: a range's length, a gate's epoch) */
    SPECK_VALUE_PAGE = 2,       /* its `frame` and `flags` */
    SPECK_VALUE_AMOUNT = 3,     /* `n`: the ticks that speck_tick charged, how many speck_recv took */
    SPECK_VALUE_PREEMPTS = 4,
    SPECK_VALUE_STAYS = 5
};

/* What a caller may do. */
enum {
    SPECK_ADVICE_DONE = 0,         /* nothing: it was carried out */
    SPECK_ADVICE_CHANGE = 1,       /* ask for something else; the codes from 240 on have it too. SPECK_DEAD of speck_kill and speck_call with
                                    * this advice: what was named is dead, so choose another; but where a look then answers SPECK_DEAD too,
                                    * it is the core's own component */
    SPECK_ADVICE_GIVE_UP = 2,      /* the core makes no further call */
    SPECK_ADVICE_RELEASE = 3,      /* have `n` references released */
    SPECK_ADVICE_AWAIT_RETURN = 4, /* wait until core `n` has returned from its call, then ask again */
    SPECK_ADVICE_AWAIT_FLUSH = 5,  /* have core `n` flush, then ask again */
    SPECK_ADVICE_AWAIT_SWITCH = 6, /* choose another thread, or wait until core `n` runs another */
    SPECK_ADVICE_AGAIN = 7,        /* a lost race: ask again at once, where it is still wanted; a `tick` with 0 ticks */
    SPECK_ADVICE_RETURN = 8        /* SPECK_DEAD: the component in which the core works was killed: `speck_ret` leaves it. In the first
                                    * component of a thread only speck_flush and speck_tick are left */
};

/* The kinds of capabilities. */
enum {
    SPECK_KIND_RANGE = 0,
    SPECK_KIND_TABLE = 1,
    SPECK_KIND_LEAF = 2,
    SPECK_KIND_PAGES = 3,
    SPECK_KIND_PLEAF = 4,
    SPECK_KIND_COMP = 5,
    SPECK_KIND_GATE = 6,
    SPECK_KIND_THREAD = 7,
    SPECK_KIND_TCAP = 8,
    SPECK_KIND_LINK = 9,
    SPECK_KIND_PAGE = 10
};

/* The kinds of frames, for `speck_retype`; the rights of a capability; the flags of a page, of which the kernel makes no use itself. */
enum { SPECK_FRAME_UNTYPED = 0, SPECK_FRAME_USER = 1, SPECK_FRAME_KERNEL = 2 };
enum { SPECK_RIGHT_COPY = 1, SPECK_RIGHT_USE = 2 };
enum { SPECK_PAGE_WRITE = 1, SPECK_PAGE_EXECUTE = 2 };

/* Machines: booted into an empty slot; the ports dealt into empty slots, core 0's first, and taken back in the same order; finished once
 * all are back, which empties the machine's slot and fills that of what it has left. Until then a machine that could not be finished is as it
 * was. What was sent to an endpoint and not taken is dropped then. */
uint8_t speck_boot(struct speck_machine *machine, uint8_t cores, uint16_t frames, uint32_t budget);
uint8_t speck_deal(struct speck_machine *machine, struct speck_port *port);
uint8_t speck_take_back(struct speck_machine *machine, struct speck_port *port);
uint8_t speck_finish(struct speck_machine *machine, struct speck_final *last);

/* Boots a machine whose cores are each granted ticks of their own, through a scheduler at a quality, core 0's grant first; each may make so
 * many calls, at most 2^40 - 1, and a liveness number has so many epochs (1 to 65,535). */
struct speck_grant { uint32_t budget; uint32_t quality; uint8_t sched; };
uint8_t speck_boot_with(struct speck_machine *machine, uint16_t frames, uint64_t calls, uint16_t epochs,
    const struct speck_grant *grants, size_t cores);

/* Each empties its slot, whatever it holds, and answers SPECK_OK, also where it was empty; or SPECK_NOTHING_HELD of a slot that is null, or
 * SPECK_IN_CALL. */
uint8_t speck_free_machine(struct speck_machine *machine);
uint8_t speck_free_port(struct speck_port *port);
uint8_t speck_free_note(struct speck_note *note);
uint8_t speck_free_final(struct speck_final *last);
uint8_t speck_free_text(struct speck_text *text);

/* The core of a port, 0 to 7; else SPECK_NOTHING_HELD or SPECK_IN_CALL. */
uint8_t speck_core(struct speck_port *port);

/* A note of what the port has seen goes into an empty slot. A port that meets it has then seen that too, and the note's slot is empty:
 * its next call comes after all that the note tells of. */
uint8_t speck_note(struct speck_port *port, struct speck_note *note);
uint8_t speck_meet(struct speck_port *port, struct speck_note *note);

/* What a finished machine holds, part by part. Each function writes the part to `into` and answers SPECK_OK. Else it writes nothing: SPECK_OUTSIDE
 * where a number is outside the machine, SPECK_FRAME_KIND where the frame holds no such object, SPECK_EMPTY where nothing stands there. */
struct speck_size { uint16_t frames; uint8_t cores; };
struct speck_frame { uint8_t kind; uint8_t object; };                          /* SPECK_FRAME_..; its object's SPECK_KIND_.., or SPECK_NO_OBJECT */
struct speck_capability { uint8_t kind; uint8_t rights; uint16_t frame; uint32_t argument; }; /* a range's length, a gate's epoch, a page's flags */
struct speck_component { uint16_t table; uint16_t pages; uint16_t epoch; uint8_t live; };     /* the frames of its two roots; its name */
struct speck_quality { uint32_t quality; uint8_t sched; };
struct speck_life { uint16_t epoch; uint16_t frame; uint8_t lives; };          /* `lives` 1: the frame of its component; 0: it was killed */
struct speck_core_end { uint64_t spent; uint64_t back; uint64_t owed; uint16_t thread; uint16_t tcap; uint16_t comp; uint16_t cached; }; /* ticks, frames, a count */
struct speck_translation { uint16_t pages; uint16_t page; uint16_t frame; uint8_t flags; };
enum { SPECK_NO_OBJECT = 255 };

uint8_t speck_read_size(struct speck_final *last, struct speck_size *into);
uint8_t speck_read_frame(struct speck_final *last, uint16_t frame, struct speck_frame *into);
/* What a core counts of the references to a frame, those made less those released, modulo 2^16, from -32,768 to 32,767: the references to it
 * are the sum over all cores, modulo 2^16. One core's count alone says nothing. */
uint8_t speck_read_count(struct speck_final *last, uint16_t frame, uint8_t core, int32_t *into);
/* What an entry, 0 to 63, of a node holds: of a root a link, of a leaf a capability or a mapping (SPECK_KIND_PAGE). */
uint8_t speck_read_entry(struct speck_final *last, uint16_t frame, uint16_t entry, struct speck_capability *into);
/* What stands under the number of a capability, or of a page, of the table with this root. */
uint8_t speck_read_under(struct speck_final *last, uint16_t root, uint16_t number, struct speck_capability *into);
uint8_t speck_read_comp(struct speck_final *last, uint16_t frame, struct speck_component *into);
/* The frame of the component at a height of a thread's stack, 0 to 15; its first component is at 0. */
uint8_t speck_read_stack(struct speck_final *last, uint16_t frame, uint16_t height, uint16_t *into);
uint8_t speck_read_budget(struct speck_final *last, uint16_t frame, uint32_t *into);
/* The pair at a place, 0 to 7, of a temporal capability's list. */
uint8_t speck_read_quality(struct speck_final *last, uint16_t frame, uint16_t place, struct speck_quality *into);
/* What a liveness number, 0 to 63, stands for; SPECK_EMPTY where no component was ever named so. */
uint8_t speck_read_live(struct speck_final *last, uint8_t number, struct speck_life *into);
uint8_t speck_read_core(struct speck_final *last, uint8_t core, struct speck_core_end *into);
/* A translation that the core has cached, the earliest at place 0. */
uint8_t speck_read_cached(struct speck_final *last, uint8_t core, uint8_t place, struct speck_translation *into);

/* The text of all this (docs/FORMATS.md), into an empty slot. */
uint8_t speck_show(struct speck_final *last, struct speck_text *text);

/* Copies the beginning of the text, as much as there is room for, and answers its whole length; 0 where no text is held, or the slot is in a call.
 * It ends with no zero. Where `bytes` is null nothing is copied: so the length is had first. */
uint64_t speck_read(struct speck_text *text, uint8_t *bytes, size_t room);

/* The calls of a port's core: docs/MODEL.md has the rule of each, docs/REPLIES.md what each refusal means. Each looks up its names in the
 * capability table of the component in which the core works. */

/* Capabilities. A look answers what stands under a number. A copy goes under the number `slot`, which holds nothing, of `table`, with those of
 * the rights of the capability that are in `rights` (SPECK_RIGHT_..). What is removed may still be used by calls of other cores that had begun;
 * until these have returned nothing can be put there: SPECK_QUIESCING. */
struct speck_reply speck_look(struct speck_port *port, uint16_t capability);
struct speck_reply speck_copy(struct speck_port *port, uint16_t capability, uint16_t table, uint16_t slot, uint8_t rights);
struct speck_reply speck_remove(struct speck_port *port, uint16_t table, uint16_t slot);

/* Tables grow by leaves: with a leaf in its entry e a root has the numbers 64 e to 64 e + 63. A root of capabilities takes leaves of
 * capabilities, one of pages leaves of pages. */
struct speck_reply speck_grow(struct speck_port *port, uint16_t root, uint16_t entry, uint16_t leaf);
struct speck_reply speck_shrink(struct speck_port *port, uint16_t root, uint16_t entry);

/* A part of a range: the range of the `count` frames from `frame` on, all of `range`, which has both rights; it goes, with both rights too, under
 * the number `slot`, which holds nothing, of `table`. So memory is handed out; what is removed of the parts comes back to nobody: the whole
 * range still has all its frames. */
struct speck_reply speck_part(struct speck_port *port, uint16_t range, uint16_t frame, uint16_t count, uint16_t table, uint16_t slot);

/* Memory. A frame of a range is untyped at first. As SPECK_FRAME_USER it can be mapped, as SPECK_FRAME_KERNEL an object can be made in it; and
 * it can be made untyped again once nothing refers to it, or SPECK_REFERENCED. */
struct speck_reply speck_retype(struct speck_port *port, uint16_t range, uint16_t frame, uint8_t kind);

/* Objects. Each is made in a frame of the range that was made SPECK_FRAME_KERNEL and holds none; its capability, with both rights, goes under the
 * number `slot`, which holds nothing, of `table`. Roots and leaves of capability tables; roots and leaves of page tables; a thread in a component;
 * a temporal capability without ticks, with one scheduler and quality; a component of two roots, under the name `live`, which no other has. */
struct speck_reply speck_make_table(struct speck_port *port, uint16_t range, uint16_t frame, uint16_t table, uint16_t slot);
struct speck_reply speck_make_leaf(struct speck_port *port, uint16_t range, uint16_t frame, uint16_t table, uint16_t slot);
struct speck_reply speck_make_pages(struct speck_port *port, uint16_t range, uint16_t frame, uint16_t table, uint16_t slot);
struct speck_reply speck_make_pleaf(struct speck_port *port, uint16_t range, uint16_t frame, uint16_t table, uint16_t slot);
struct speck_reply speck_make_thread(struct speck_port *port, uint16_t comp, uint16_t range, uint16_t frame, uint16_t table, uint16_t slot);
struct speck_reply speck_make_tcap(struct speck_port *port, uint8_t sched, uint32_t quality,
    uint16_t range, uint16_t frame, uint16_t table, uint16_t slot);
struct speck_reply speck_make_comp(struct speck_port *port, uint16_t names, uint16_t pages, uint8_t live,
    uint16_t range, uint16_t frame, uint16_t table, uint16_t slot);

/* Pages. A map puts a user frame of the range at `page`, which needs a leaf of pages there (speck_grow) and holds nothing, with these flags
 * (SPECK_PAGE_..). A touch answers frame and flags of a page of the component in which the core works, and the core then has that translation
 * cached, until it flushes: what was unmapped may be mapped anew once all cores have, till then SPECK_UNFLUSHED. */
struct speck_reply speck_map(struct speck_port *port, uint16_t pages, uint16_t page, uint16_t range, uint16_t frame, uint8_t flags);
struct speck_reply speck_unmap(struct speck_port *port, uint16_t pages, uint16_t page);
struct speck_reply speck_touch(struct speck_port *port, uint16_t page);
struct speck_reply speck_flush(struct speck_port *port);

/* Components. A gate to a component goes into a slot; a call through it has the core's thread enter the component, a return leaves it. A kill
 * frees the component's name for another one, and each gate to it is dead. A switch has the core go on as another thread, which runs on no core,
 * by a temporal capability. */
struct speck_reply speck_gate(struct speck_port *port, uint16_t comp, uint16_t table, uint16_t slot);
struct speck_reply speck_kill(struct speck_port *port, uint16_t comp);
struct speck_reply speck_call(struct speck_port *port, uint16_t gate);
struct speck_reply speck_ret(struct speck_port *port);
struct speck_reply speck_switch(struct speck_port *port, uint16_t thread, uint16_t tcap);

/* Time. A tick charges these ticks, and what the core owes, to the temporal capability by which it runs, as far as its budget goes, and answers
 * what it charged; the rest is owed. Ticks move between temporal capabilities of equal lists by a transfer, between any two by a delegate, which
 * merges the lists. A test answers whether the first would preempt the second: SPECK_VALUE_PREEMPTS or SPECK_VALUE_STAYS. A replenish gives back
 * to a temporal capability these ticks of those that the core has spent and has not had back, where its list names the scheduler of the core's
 * grant with a quality that is no smaller: so what is outstanding never exceeds the grants, and a machine runs on. */
struct speck_reply speck_tick(struct speck_port *port, uint32_t ticks);
struct speck_reply speck_transfer(struct speck_port *port, uint16_t source, uint16_t target, uint32_t ticks);
struct speck_reply speck_delegate(struct speck_port *port, uint16_t source, uint16_t target, uint32_t ticks);
struct speck_reply speck_test(struct speck_port *port, uint16_t first, uint16_t second);
struct speck_reply speck_replenish(struct speck_port *port, uint16_t tcap, uint32_t ticks);

/* Sends and receives. Each component has an endpoint, which counts: a send through a gate adds one, a receive by the component's capability
 * takes all that there is (0 too). Each is a look of the core, which may be refused as speck_look is, and then one or two steps. An endpoint is
 * that of the component's frame: a component made later in the frame receives what was sent to the one before it. */
struct speck_reply speck_send(struct speck_port *port, uint16_t gate);
struct speck_reply speck_recv(struct speck_port *port, uint16_t comp);

/* WHAT IS PROVED. Each function is a guard in C (c/guard.c) around an export of the crate speck_c. Of the export it is proved that it does
 * with what its slots hold what the kernel's contracts say: the call of one core of a machine whose runs are legal histories, each call in its
 * bound of steps; and that of a finished machine it reads what the words and ends of that machine say. The guards keep a slot from being used
 * twice at once, and machines apart, which the exports ask of their callers. They are not proved; they are tested (c/misuses.c, and in bare/
 * with a trap after each instruction of a call). */

#ifdef __cplusplus
}
#endif

#endif
