/* The kernel on a bare machine: two processors in ring 0, each with a port of one kernel.
 *
 * 1. Both fill and empty one slot, against each other, while a timer interrupts both; its handler charges a tick at the port of its
 *    core, or, told that the port is in a call, leaves the tick to be charged after that call.
 * 2. Both map, touch, unmap and give back a frame. Whoever is told that a core has yet to flush sends it an interrupt, whose handler
 *    flushes.
 * 3. Core 0 copies a capability, and hands core 1 a note; core 1 meets it, and finds the copy.
 * 4. Core 0 makes a copy with a trap after each instruction, and each trap makes a look at the same port. */
#include "speck.h"
#include "hardware.h"

enum { TIMER = 32, FLUSH = 33, TURNS = 1000, MAPPINGS = 200, TICKS = 5 };
enum { MEMORY = 0, TABLE = 1, PAGES = 2, RIGHTS = SPECK_RIGHT_COPY | SPECK_RIGHT_USE };

extern char second_start[], second_end[];
void timer_entry(void), flush_entry(void), step_entry(void), first_core(void), second_core(void);

static struct speck_machine machine;
static struct speck_port port[2];
static struct speck_note note;

/* ---- What interrupts ask of a core: at once, or after the call in progress ---- */

static volatile uint32_t ticks_due[2], ticks_charged[2], flush_due[2];

static void charge(int core) {
    while (ticks_due[core]) {
        struct speck_reply reply = speck_tick(&port[core], 1);
        if (reply.code == SPECK_IN_CALL) return;
        while (reply.advice == SPECK_ADVICE_AGAIN) reply = speck_tick(&port[core], 0);
        ticks_due[core]--;
        ticks_charged[core]++;
    }
}
static void flush(int core) {
    if (flush_due[core] && speck_flush(&port[core]).code != SPECK_IN_CALL) flush_due[core] = 0;
}
void on_timer(void) {
    int core = this_core();
    if (ticks_due[core] + ticks_charged[core] < TICKS) ticks_due[core]++;
    charge(core);
    interrupt_done();
}
void on_flush(void) {
    int core = this_core();
    flush_due[core] = 1;
    flush(core);
    interrupt_done();
}
/* After each call, with interrupts off, so that no handler comes between the test and the call. */
static void after_call(int core) {
    __asm__ volatile("cli" : : : "memory");
    charge(core);
    flush(core);
    __asm__ volatile("sti" : : : "memory");
}

/* ---- Calls, made until they are carried out or refused for good ---- */

static int is_made(int core, struct speck_reply reply) {
    after_call(core);
    switch (reply.advice) {
    case SPECK_ADVICE_AGAIN:
        return 0;
    case SPECK_ADVICE_AWAIT_RETURN:
        pause_for(2000);
        return 0;
    case SPECK_ADVICE_AWAIT_FLUSH:
        if ((int)reply.n == core) speck_flush(&port[core]);
        else interrupt_core((int)reply.n, 0x4000 | FLUSH);
        pause_for(20000);
        return 0;
    default:
        return 1;
    }
}
#define MADE(core, call) ({ struct speck_reply reply_; do reply_ = (call); while (!is_made(core, reply_)); reply_; })

/* ---- The work ---- */

static volatile int at[2];
static void meet_up(int core, int place) {
    __atomic_store_n(&at[core], place, __ATOMIC_SEQ_CST);
    while (__atomic_load_n(&at[!core], __ATOMIC_SEQ_CST) < place) __asm__ volatile("pause");
}
static uint32_t filled[2], mapped[2], wrong[2];

static void fill_one_slot(int core) {
    while (filled[core] < TURNS) {
        if (MADE(core, speck_copy(&port[core], MEMORY, TABLE, 20, RIGHTS)).code != SPECK_OK) continue; /* the other core's is there */
        if (MADE(core, speck_remove(&port[core], TABLE, 20)).code != SPECK_OK) wrong[core]++;
        filled[core]++;
    }
    while (ticks_charged[core] < TICKS) after_call(core);
}
static void map_a_frame(int core) {
    struct speck_port *p = &port[core];
    uint16_t frame = (uint16_t)(40 + core), page = (uint16_t)core;
    for (; mapped[core] < MAPPINGS; mapped[core]++) {
        int good = MADE(core, speck_retype(p, MEMORY, frame, SPECK_FRAME_USER)).code == SPECK_OK
            && MADE(core, speck_map(p, PAGES, page, MEMORY, frame, 1)).code == SPECK_OK
            && MADE(core, speck_touch(p, page)).frame == frame
            && MADE(core, speck_unmap(p, PAGES, page)).code == SPECK_OK
            && MADE(core, speck_retype(p, MEMORY, frame, SPECK_FRAME_UNTYPED)).code == SPECK_OK;
        if (!good) wrong[core]++;
    }
}
static void tell(const char *what, int core, uint64_t n) {
    text("core ");
    number((uint64_t)core);
    text(what);
    number(n);
    put('\n');
}
static void work(int core) {
    meet_up(core, 1);
    timer_on(20000, TIMER);
    fill_one_slot(core);
    timer_off();
    meet_up(core, 2);
    map_a_frame(core);
    meet_up(core, 3);
}

void second_core(void) {
    interrupts_on();
    work(1);
    meet_up(1, 4);
    if (speck_meet(&port[1], &note) != SPECK_OK) text("no note\n");
    struct speck_reply seen = speck_look(&port[1], 30);
    tell(": of kind 0 is what core 0 has put under number 30: ", 1, seen.code == SPECK_OK && seen.kind == SPECK_KIND_RANGE);
    meet_up(1, 5);
    for (;;) __asm__ volatile("cli; hlt");
}

/* ---- A trap after each instruction ---- */

static uint32_t looks[256], unlike;
void on_step(void) {
    struct speck_reply reply = speck_look(&port[0], MEMORY);
    looks[reply.code]++;
    if (reply.code != SPECK_IN_CALL && (reply.code != SPECK_OK || reply.kind != SPECK_KIND_RANGE)) unlike++;
}
static void step_through_a_copy(void) {
    __asm__ volatile("cli; pushf; orq $0x100, (%%rsp); popf" : : : "memory", "cc");
    struct speck_reply reply = speck_copy(&port[0], MEMORY, TABLE, 31, RIGHTS);
    __asm__ volatile("pushf; andq $~0x100, (%%rsp); popf; sti" : : : "memory", "cc");
    text("a look after each instruction of a copy: ");
    text(looks[SPECK_IN_CALL] > 1000 ? "more than 1000" : "too few");
    text(" found the port in a call; answers of another kind: ");
    number(unlike);
    text("; the copy: ");
    number(reply.code);
    put('\n');
}

static void start_second_core(void) {
    memcpy((void *)(uintptr_t)0x8000, second_start, (size_t)(second_end - second_start));
    interrupt_core(1, 0x4500); /* the processor is reset, then told twice to start at 0x8000 */
    pause_for(20000000);
    for (int i = 0; i < 2; i++) {
        interrupt_core(1, 0x4608);
        pause_for(400000);
    }
}
static void end(void) {
    struct speck_final last = {0};
    struct speck_text tables = {0};
    uint8_t bytes[4096];
    int code = speck_take_back(&machine, &port[0]) | speck_take_back(&machine, &port[1]) | speck_finish(&machine, &last) | speck_show(&last, &tables);
    text("taken back and finished: ");
    number((uint64_t)code);
    put('\n');
    uint64_t n = speck_read(&tables, bytes, sizeof bytes);
    for (uint64_t i = 0; i < n && i < sizeof bytes; i++) put((char)bytes[i]);
}
void first_core(void) {
    out(0x21, 0xff); /* the older interrupt controllers are silent */
    out(0xa1, 0xff);
    for (int vector = 0; vector < 32; vector++) handle(vector, fault);
    handle(1, step_entry);
    handle(TIMER, timer_entry);
    handle(FLUSH, flush_entry);
    handle(255, timer_entry);
    text("booted and dealt: ");
    number(speck_boot(&machine, 2, 64, 100000) | speck_deal(&machine, &port[0]) | speck_deal(&machine, &port[1]));
    put('\n');
    size_t before = blocks;
    /* a leaf for the pages 0 to 63 */
    number(speck_retype(&port[0], MEMORY, 20, SPECK_FRAME_KERNEL).code | speck_make_pleaf(&port[0], MEMORY, 20, TABLE, 22).code
        | speck_grow(&port[0], PAGES, 0, 22).code);
    text(": a leaf of the page table\n");
    interrupts_on();
    start_second_core();
    work(0);
    for (int core = 0; core < 2; core++) {
        tell(": filled and emptied the slot, times: ", core, filled[core]);
        tell(": ticks charged by the timer: ", core, ticks_charged[core]);
        tell(": mapped and gave back a frame, times: ", core, mapped[core]);
        tell(": wrong: ", core, wrong[core]);
    }
    (void)MADE(0, speck_copy(&port[0], MEMORY, TABLE, 30, SPECK_RIGHT_USE));
    speck_note(&port[0], &note);
    size_t taken = blocks - before;
    meet_up(0, 4);
    meet_up(0, 5);
    step_through_a_copy();
    text("blocks of memory that the calls took, beside the note's: ");
    number(taken - 1);
    put('\n');
    end();
    stop_machine(0);
}
