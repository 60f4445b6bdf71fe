/* The stack that each function takes: it runs on a stack of its own, painted before, and the deepest byte written tells. And the heap
 * that a machine takes: what the library asks for passes through here. */
#include "speck.h"
#include <malloc.h>
#include <stdio.h>
#include <stdlib.h>
#include <string.h>
#include <ucontext.h>

/* ---- The heap ---- */

struct got { uint64_t is_some; void *at; };
static size_t taken, most;
static void count(size_t less, size_t more) {
    taken = taken - less + more;
    if (taken > most) most = taken;
}
struct got rattle_alloc(size_t size, size_t align) {
    void *at = malloc(size ? size : align);
    count(0, malloc_usable_size(at));
    return (struct got){ at != 0, at };
}
struct got rattle_realloc(void *block, size_t old, size_t size, size_t align) {
    (void)old;
    size_t had = malloc_usable_size(block);
    void *at = realloc(block, size ? size : align);
    count(had, malloc_usable_size(at));
    return (struct got){ at != 0, at };
}
void rattle_dealloc(void *block) {
    count(malloc_usable_size(block), 0);
    free(block);
}

/* ---- The stack ---- */

enum { ROOM = 1 << 16, PAINT = 0xa5 };
static unsigned char stack[ROOM] __attribute__((aligned(64)));
static ucontext_t here, there;
static void (*work)(void);
static unsigned at_entry;
static void enter(void) {
    volatile unsigned char mark = 0;
    at_entry = (unsigned)(stack + ROOM - &mark);
    work();
}
static unsigned depth_of(void (*what)(void)) {
    memset(stack, PAINT, ROOM);
    work = what;
    getcontext(&there);
    there.uc_stack.ss_sp = stack;
    there.uc_stack.ss_size = ROOM;
    there.uc_link = &here;
    makecontext(&there, enter, 0);
    swapcontext(&here, &there);
    unsigned at = 0;
    while (at < ROOM && stack[at] == PAINT) at++;
    return (ROOM - at + 7) / 8 * 8;
}

static struct speck_machine machine;
static struct speck_port port[2], *const p = port, *const q = port + 1;
static struct speck_note note;
static struct speck_final last;
static struct speck_text tables;
static uint8_t bytes[8192], code;
static struct speck_reply reply;
static void nothing(void) {}

#define ROW(name, call) \
    do { \
        void made(void) { call; } \
        unsigned depth = depth_of(made) - nothing_takes; \
        printf("%-12s %6u%s\n", name, depth, code || reply.code ? "  refused" : ""); \
        if (depth > deepest) deepest = depth; \
        code = 0; \
        reply.code = 0; \
    } while (0)

static void heap_of(uint8_t cores, uint16_t frames) {
    struct speck_machine one = {0};
    struct speck_port ports[8] = {{{0}}};
    struct speck_final left = {0};
    taken = most = 0;
    if (speck_boot(&one, cores, frames, 100)) exit(1);
    for (int k = 0; k < cores; k++) speck_deal(&one, &ports[k]);
    size_t held = taken, boot = most;
    for (int k = 0; k < cores; k++) speck_take_back(&one, &ports[k]);
    if (speck_finish(&one, &left)) exit(1);
    printf("%2d cores, %3d frames: %7zu held, %7zu at most while it boots, %7zu while it is finished\n", cores, frames, held, boot, most);
    speck_free_final(&left);
}

int main(void) {
    unsigned nothing_takes = depth_of(nothing), deepest = 0;
    printf("bytes of stack, the call's own return address among them\n");
    ROW("boot", code = speck_boot(&machine, 2, 64, 1000));
    ROW("deal", code = speck_deal(&machine, p); speck_deal(&machine, q));
    ROW("look", reply = speck_look(p, 0));
    ROW("copy", reply = speck_copy(p, 0, 1, 20, 3));
    ROW("remove", reply = speck_remove(p, 1, 20));
    ROW("part", reply = speck_part(p, 0, 12, 4, 1, 28));
    for (uint16_t frame = 20; frame < 28; frame++) reply = speck_retype(p, 0, frame, SPECK_FRAME_KERNEL);
    ROW("retype", reply = speck_retype(p, 0, 30, SPECK_FRAME_KERNEL));
    ROW("make table", reply = speck_make_table(p, 0, 20, 1, 20));
    ROW("make leaf", reply = speck_make_leaf(p, 0, 21, 1, 21));
    ROW("make pages", reply = speck_make_pages(p, 0, 22, 1, 22));
    ROW("make pleaf", reply = speck_make_pleaf(p, 0, 23, 1, 23));
    ROW("make comp", reply = speck_make_comp(p, 20, 22, 1, 0, 24, 1, 24));
    ROW("make thread", reply = speck_make_thread(p, 24, 0, 25, 1, 25));
    ROW("make tcap", reply = speck_make_tcap(p, 1, 5, 0, 26, 1, 26));
    ROW("grow", reply = speck_grow(p, 2, 0, 23));
    reply = speck_retype(p, 0, 40, SPECK_FRAME_USER);
    ROW("map", reply = speck_map(p, 2, 0, 0, 40, 1));
    ROW("touch", reply = speck_touch(p, 0));
    ROW("unmap", reply = speck_unmap(p, 2, 0));
    ROW("flush", reply = speck_flush(p); speck_flush(q));
    ROW("untyped", reply = speck_retype(p, 0, 40, SPECK_FRAME_UNTYPED));
    ROW("shrink", reply = speck_shrink(p, 2, 0));
    ROW("gate", reply = speck_gate(p, 3, 1, 27));
    ROW("call", reply = speck_call(p, 27));
    ROW("ret", reply = speck_ret(p));
    ROW("tick", reply = speck_tick(p, 3));
    ROW("replenish", reply = speck_replenish(p, 12, 1));
    ROW("transfer", reply = speck_transfer(p, 12, 13, 5));
    ROW("delegate", reply = speck_delegate(p, 12, 26, 5));
    ROW("test", reply = speck_test(p, 12, 26));
    ROW("switch", reply = speck_switch(p, 25, 26));
    ROW("kill", reply = speck_kill(q, 24));
    ROW("note", code = speck_note(q, &note));
    ROW("meet", code = speck_meet(p, &note));
    ROW("take back", code = speck_take_back(&machine, p); code |= speck_take_back(&machine, q));
    ROW("finish", code = speck_finish(&machine, &last));
    ROW("show", code = speck_show(&last, &tables));
    ROW("read", speck_read(&tables, bytes, sizeof bytes));
    ROW("free text", code = speck_free_text(&tables));
    printf("deepest      %6u\n\nbytes of heap\n", deepest);
    for (uint8_t cores = 1; cores <= 8; cores *= 2) {
        heap_of(cores, (uint16_t)(4 + 2 * cores));
        heap_of(cores, 512);
    }
    return 0;
}
