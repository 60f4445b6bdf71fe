/*
 * The functions of speck.h: a guard around each proved export of crates/speck_c.
 *
 * A slot has three words before what the proved export sees of it. The first is 1 while a call has the slot: it is set by one atomic
 * exchange before the export is called and cleared after it has returned, so a call that comes meanwhile, from a handler or another
 * thread, finds 1 and touches nothing else. The others tell machines apart: what the slot was last filled with, and of which machine that
 * is. Each boot draws a number, which its ports and their notes carry on. With all three the guards see to what the exports ask of their
 * callers: that a slot is theirs alone while they run, and that a note or a port is of the machine.
 *
 * That an export's own parameter holds such a word is not possible: what is exported to C may hold no atomic.
 */
#include "speck.h"

/* A slot as the exports see it. */
struct held { _Bool full; void *at; };

enum kind { OTHER, MACHINE, PORT, NOTE };

struct guarded { uint32_t in_call, kind; uint64_t machine; struct held held; };

_Static_assert(sizeof(struct guarded) == sizeof(struct speck_port), "a slot has the guard's words and what is held");

#define GUARD(slot) ((struct guarded *)(void *)(slot)->own)
#define HELD(slot) (&GUARD(slot)->held)

static inline int enter(struct guarded *slot) { return __atomic_exchange_n(&slot->in_call, 1, __ATOMIC_SEQ_CST) == 0; }

static inline void leave(struct guarded *slot) { __atomic_store_n(&slot->in_call, 0, __ATOMIC_RELEASE); }

/* Has both slots for a call, or the code by which it is refused. */
static uint8_t enter_both(struct guarded *one, struct guarded *other) {
    if (!enter(one)) return SPECK_IN_CALL;
    if (enter(other)) return SPECK_OK;
    leave(one);
    return SPECK_IN_CALL;
}

static uint8_t leave_both(struct guarded *one, struct guarded *other, uint8_t code) {
    leave(other);
    leave(one);
    return code;
}

/* Says of what has been put into a slot what it is and of which machine, where the code is SPECK_OK; and answers the code. */
static uint8_t filled(struct guarded *slot, uint8_t code, enum kind kind, uint64_t machine) {
    if (code == SPECK_OK) slot->kind = kind, slot->machine = machine;
    return code;
}

/* Whether these two are held, and of different machines. */
static int apart(const struct guarded *one, enum kind first, const struct guarded *other, enum kind second) {
    return one->held.full && other->held.full && one->kind == first && other->kind == second && one->machine != other->machine;
}

/* A reply as it is returned on this processor, in two registers; so no guard puts it into memory and reads it again. */
struct words { uint64_t low; uint32_t n; };
enum { ADVICE_AT = 48 };
_Static_assert(offsetof(struct speck_reply, advice) == ADVICE_AT / 8 && offsetof(struct speck_reply, n) == 8, "where a reply has its parts");

static inline struct words refused(uint64_t code) { return (struct words){ code | (uint64_t)SPECK_ADVICE_CHANGE << ADVICE_AT, 0 }; }

static inline struct words advised(struct words reply, uint64_t when_dead) {
    if ((uint8_t)reply.low == SPECK_DEAD && when_dead != SPECK_ADVICE_CHANGE) reply.low = SPECK_DEAD | when_dead << ADVICE_AT;
    return reply;
}

/* The calls of a core, each with the advice that it has where a component is dead. */
#define CALL(name, when_dead, given, ...) \
    _Static_assert(__builtin_types_compatible_p(__typeof__(speck_##name), struct speck_reply(struct speck_port *, ##__VA_ARGS__)), #name); \
    struct words speck_inner_##name(struct held *port, ##__VA_ARGS__); \
    struct words guard_##name(struct speck_port *port, ##__VA_ARGS__) __asm__("speck_" #name); \
    struct words guard_##name(struct speck_port *port, ##__VA_ARGS__) { \
        if (!port) return refused(SPECK_NOTHING_HELD); \
        if (!enter(GUARD(port))) return refused(SPECK_IN_CALL); \
        struct words reply = speck_inner_##name given; \
        leave(GUARD(port)); \
        return advised(reply, when_dead); \
    }
#define OWN SPECK_ADVICE_RETURN
#define NAMED SPECK_ADVICE_CHANGE

CALL(look, OWN, (HELD(port), capability), uint16_t capability)
CALL(copy, OWN, (HELD(port), capability, table, slot, rights), uint16_t capability, uint16_t table, uint16_t slot, uint8_t rights)
CALL(part, OWN, (HELD(port), range, frame, count, table, slot),
    uint16_t range, uint16_t frame, uint16_t count, uint16_t table, uint16_t slot)
CALL(remove, OWN, (HELD(port), table, slot), uint16_t table, uint16_t slot)
CALL(grow, OWN, (HELD(port), root, entry, leaf), uint16_t root, uint16_t entry, uint16_t leaf)
CALL(shrink, OWN, (HELD(port), root, entry), uint16_t root, uint16_t entry)
CALL(retype, OWN, (HELD(port), range, frame, kind), uint16_t range, uint16_t frame, uint8_t kind)
CALL(make_table, OWN, (HELD(port), range, frame, table, slot), uint16_t range, uint16_t frame, uint16_t table, uint16_t slot)
CALL(make_leaf, OWN, (HELD(port), range, frame, table, slot), uint16_t range, uint16_t frame, uint16_t table, uint16_t slot)
CALL(make_pages, OWN, (HELD(port), range, frame, table, slot), uint16_t range, uint16_t frame, uint16_t table, uint16_t slot)
CALL(make_pleaf, OWN, (HELD(port), range, frame, table, slot), uint16_t range, uint16_t frame, uint16_t table, uint16_t slot)
CALL(make_thread, OWN, (HELD(port), comp, range, frame, table, slot),
    uint16_t comp, uint16_t range, uint16_t frame, uint16_t table, uint16_t slot)
CALL(make_tcap, OWN, (HELD(port), sched, quality, range, frame, table, slot),
    uint8_t sched, uint32_t quality, uint16_t range, uint16_t frame, uint16_t table, uint16_t slot)
CALL(make_comp, OWN, (HELD(port), names, pages, live, range, frame, table, slot),
    uint16_t names, uint16_t pages, uint8_t live, uint16_t range, uint16_t frame, uint16_t table, uint16_t slot)
CALL(map, OWN, (HELD(port), pages, page, range, frame, flags), uint16_t pages, uint16_t page, uint16_t range, uint16_t frame, uint8_t flags)
CALL(unmap, OWN, (HELD(port), pages, page), uint16_t pages, uint16_t page)
CALL(touch, OWN, (HELD(port), page), uint16_t page)
CALL(flush, OWN, (HELD(port)))
CALL(gate, OWN, (HELD(port), comp, table, slot), uint16_t comp, uint16_t table, uint16_t slot)
CALL(kill, NAMED, (HELD(port), comp), uint16_t comp)
CALL(call, NAMED, (HELD(port), gate), uint16_t gate)
CALL(ret, OWN, (HELD(port)))
CALL(switch, OWN, (HELD(port), thread, tcap), uint16_t thread, uint16_t tcap)
CALL(tick, OWN, (HELD(port), ticks), uint32_t ticks)
CALL(transfer, OWN, (HELD(port), source, target, ticks), uint16_t source, uint16_t target, uint32_t ticks)
CALL(delegate, OWN, (HELD(port), source, target, ticks), uint16_t source, uint16_t target, uint32_t ticks)
CALL(test, OWN, (HELD(port), first, second), uint16_t first, uint16_t second)
CALL(replenish, OWN, (HELD(port), tcap, ticks), uint16_t tcap, uint32_t ticks)
CALL(send, OWN, (HELD(port), gate), uint16_t gate)
CALL(recv, OWN, (HELD(port), comp), uint16_t comp)

/* Machines, notes and texts. */
uint8_t speck_inner_boot(struct held *machine, uint8_t cores, uint16_t frames, uint32_t budget);
uint8_t speck_inner_deal(struct held *machine, struct held *port);
uint8_t speck_inner_take_back(struct held *machine, struct held *port);
uint8_t speck_inner_boot_with(struct held *machine, uint16_t frames, uint64_t calls, uint16_t epochs, const struct speck_grant *grants,
    size_t cores);
uint8_t speck_inner_finish(struct held *machine, struct held *last);
uint8_t speck_inner_show(struct held *last, struct held *text);
uint8_t speck_inner_core(struct held *port);
uint8_t speck_inner_note(struct held *port, struct held *note);
uint8_t speck_inner_meet(struct held *port, struct held *note);
uint64_t speck_inner_read(struct held *text, uint8_t *bytes, size_t room);

static uint64_t boots;

/* Gives a machine that has booted its number. */
static uint8_t booted(struct guarded *machine, uint8_t code) {
    if (code == SPECK_OK) filled(machine, code, MACHINE, __atomic_add_fetch(&boots, 1, __ATOMIC_RELAXED));
    leave(machine);
    return code;
}

uint8_t speck_boot(struct speck_machine *machine, uint8_t cores, uint16_t frames, uint32_t budget) {
    if (!machine) return SPECK_NOTHING_HELD;
    if (!enter(GUARD(machine))) return SPECK_IN_CALL;
    return booted(GUARD(machine), speck_inner_boot(HELD(machine), cores, frames, budget));
}

uint8_t speck_boot_with(struct speck_machine *machine, uint16_t frames, uint64_t calls, uint16_t epochs,
    const struct speck_grant *grants, size_t cores) {
    static const struct speck_grant none; /* a slice is never null, also where it is empty */
    if (!machine || (!grants && cores)) return SPECK_NOTHING_HELD;
    if (!enter(GUARD(machine))) return SPECK_IN_CALL;
    return booted(GUARD(machine), speck_inner_boot_with(HELD(machine), frames, calls, epochs, grants ? grants : &none, cores));
}

uint8_t speck_deal(struct speck_machine *machine, struct speck_port *port) {
    if (!machine || !port) return SPECK_NOTHING_HELD;
    uint8_t code = enter_both(GUARD(machine), GUARD(port));
    if (code != SPECK_OK) return code;
    code = filled(GUARD(port), speck_inner_deal(HELD(machine), HELD(port)), PORT, GUARD(machine)->machine);
    return leave_both(GUARD(machine), GUARD(port), code);
}

uint8_t speck_take_back(struct speck_machine *machine, struct speck_port *port) {
    if (!machine || !port) return SPECK_NOTHING_HELD;
    uint8_t code = enter_both(GUARD(machine), GUARD(port));
    if (code != SPECK_OK) return code;
    code = apart(GUARD(machine), MACHINE, GUARD(port), PORT) ? SPECK_OTHER_MACHINE : speck_inner_take_back(HELD(machine), HELD(port));
    return leave_both(GUARD(machine), GUARD(port), code);
}

uint8_t speck_finish(struct speck_machine *machine, struct speck_final *last) {
    if (!machine || !last) return SPECK_NOTHING_HELD;
    uint8_t code = enter_both(GUARD(machine), GUARD(last));
    if (code != SPECK_OK) return code;
    code = filled(GUARD(last), speck_inner_finish(HELD(machine), HELD(last)), OTHER, 0);
    return leave_both(GUARD(machine), GUARD(last), code);
}

uint8_t speck_show(struct speck_final *last, struct speck_text *text) {
    if (!last || !text) return SPECK_NOTHING_HELD;
    uint8_t code = enter_both(GUARD(last), GUARD(text));
    if (code != SPECK_OK) return code;
    code = filled(GUARD(text), speck_inner_show(HELD(last), HELD(text)), OTHER, 0);
    return leave_both(GUARD(last), GUARD(text), code);
}

/* The parts of a finished machine. */
#define READ(name, part, given, ...) \
    uint8_t speck_inner_read_##name(struct held *last, ##__VA_ARGS__, part *into); \
    uint8_t speck_read_##name(struct speck_final *last, ##__VA_ARGS__, part *into) { \
        if (!last || !into) return SPECK_NOTHING_HELD; \
        if (!enter(GUARD(last))) return SPECK_IN_CALL; \
        uint8_t code = speck_inner_read_##name given; \
        leave(GUARD(last)); \
        return code; \
    }

READ(size, struct speck_size, (HELD(last), into))
READ(frame, struct speck_frame, (HELD(last), frame, into), uint16_t frame)
READ(count, int32_t, (HELD(last), frame, core, into), uint16_t frame, uint8_t core)
READ(entry, struct speck_capability, (HELD(last), frame, entry, into), uint16_t frame, uint16_t entry)
READ(under, struct speck_capability, (HELD(last), root, number, into), uint16_t root, uint16_t number)
READ(comp, struct speck_component, (HELD(last), frame, into), uint16_t frame)
READ(stack, uint16_t, (HELD(last), frame, height, into), uint16_t frame, uint16_t height)
READ(budget, uint32_t, (HELD(last), frame, into), uint16_t frame)
READ(quality, struct speck_quality, (HELD(last), frame, place, into), uint16_t frame, uint16_t place)
READ(live, struct speck_life, (HELD(last), number, into), uint8_t number)
READ(core, struct speck_core_end, (HELD(last), core, into), uint8_t core)
READ(cached, struct speck_translation, (HELD(last), core, place, into), uint8_t core, uint8_t place)

uint8_t speck_note(struct speck_port *port, struct speck_note *note) {
    if (!port || !note) return SPECK_NOTHING_HELD;
    uint8_t code = enter_both(GUARD(port), GUARD(note));
    if (code != SPECK_OK) return code;
    code = filled(GUARD(note), speck_inner_note(HELD(port), HELD(note)), NOTE, GUARD(port)->machine);
    return leave_both(GUARD(port), GUARD(note), code);
}

uint8_t speck_meet(struct speck_port *port, struct speck_note *note) {
    if (!port || !note) return SPECK_NOTHING_HELD;
    uint8_t code = enter_both(GUARD(port), GUARD(note));
    if (code != SPECK_OK) return code;
    code = apart(GUARD(port), PORT, GUARD(note), NOTE) ? SPECK_OTHER_MACHINE : speck_inner_meet(HELD(port), HELD(note));
    return leave_both(GUARD(port), GUARD(note), code);
}

uint8_t speck_core(struct speck_port *port) {
    if (!port) return SPECK_NOTHING_HELD;
    if (!enter(GUARD(port))) return SPECK_IN_CALL;
    uint8_t core = speck_inner_core(HELD(port));
    leave(GUARD(port));
    return core;
}

uint64_t speck_read(struct speck_text *text, uint8_t *bytes, size_t room) {
    uint8_t none; /* a slice is never null, also where it is empty */
    if (!text || !enter(GUARD(text))) return 0;
    uint64_t length = speck_inner_read(HELD(text), bytes ? bytes : &none, bytes ? room : 0);
    leave(GUARD(text));
    return length;
}

#define FREE(what) \
    void speck_inner_free_##what(struct held *what); \
    uint8_t speck_free_##what(struct speck_##what *what) { \
        if (!what) return SPECK_NOTHING_HELD; \
        if (!enter(GUARD(what))) return SPECK_IN_CALL; \
        speck_inner_free_##what(HELD(what)); \
        leave(GUARD(what)); \
        return SPECK_OK; \
    }

FREE(machine)
FREE(port)
FREE(note)
FREE(final)
FREE(text)
