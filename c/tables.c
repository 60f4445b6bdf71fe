/* A finished machine read part by part: what stands under a number, who has how many ticks, who names a frame, what a core has cached. Each core
 * was granted ticks of its own, through a scheduler at a quality; and one has sent to a component, of which the other takes what was sent. */
#include "speck.h"
#include <inttypes.h>
#include <stdio.h>

static struct speck_final last;

static void print_frame(uint16_t frame, uint8_t cores) {
    static const char *const objects[] = { "range", "table", "leaf", "pages", "pleaf", "comp", "gate", "thread", "tcap", "link", "page" };
    struct speck_frame what;
    struct speck_capability cap;
    struct speck_component comp;
    struct speck_quality quality;
    uint32_t budget;
    uint16_t at;
    int32_t count, references = 0;
    if (speck_read_frame(&last, frame, &what) || what.kind == SPECK_FRAME_UNTYPED) return;
    for (uint8_t core = 0; core < cores; core++) references += speck_read_count(&last, frame, core, &count) ? 0 : count;
    printf("frame %d: %s, %d references\n", frame, what.kind == SPECK_FRAME_USER ? "user" : what.object == SPECK_NO_OBJECT ? "blank" : objects[what.object], references);
    for (uint16_t entry = 0; entry < 64; entry++)
        if (!speck_read_entry(&last, frame, entry, &cap))
            printf("  %d: %s of frame %d, argument %" PRIu32 ", rights %d\n", entry, objects[cap.kind], cap.frame, cap.argument, cap.rights);
    if (!speck_read_comp(&last, frame, &comp)) printf("  tables %d and %d, number %d in epoch %d\n", comp.table, comp.pages, comp.live, comp.epoch);
    for (uint16_t height = 0; !speck_read_stack(&last, frame, height, &at); height++) printf("  in component %d\n", at);
    if (!speck_read_budget(&last, frame, &budget)) printf("  %" PRIu32 " ticks\n", budget);
    for (uint16_t place = 0; !speck_read_quality(&last, frame, place, &quality); place++) printf("  scheduler %d, quality %" PRIu32 "\n", quality.sched, quality.quality);
}

int main(void) {
    struct speck_machine machine = {{0}};
    struct speck_port port[2] = {{{0}}};
    const struct speck_grant grants[2] = {{ .budget = 1000, .quality = 1, .sched = 0 }, { .budget = 40, .quality = 9, .sched = 63 }};
    uint8_t bad = speck_boot_with(&machine, 24, 100, 10, grants, 2);
    for (int core = 0; core < 2; core++) bad |= speck_deal(&machine, &port[core]);
    /* a leaf of the page table, with a frame mapped; a part of the range; a component, a gate to it, and a thread; a temporal capability with
     * ticks; of the ticks that the core then spends it has some back; then it enters the component, which is killed */
    for (uint16_t frame = 8; frame < 15; frame++) bad |= speck_retype(&port[0], 0, frame, SPECK_FRAME_KERNEL).code;
    bad |= speck_make_pleaf(&port[0], 0, 8, 1, 20).code;
    bad |= speck_grow(&port[0], 2, 3, 20).code;
    bad |= speck_retype(&port[0], 0, 15, SPECK_FRAME_USER).code;
    bad |= speck_map(&port[0], 2, 3 * 64 + 5, 0, 15, 1).code;
    bad |= speck_touch(&port[0], 3 * 64 + 5).code;
    bad |= speck_copy(&port[0], 0, 1, 21, SPECK_RIGHT_USE).code;
    bad |= speck_part(&port[0], 0, 20, 4, 1, 26).code;
    bad |= speck_make_comp(&port[0], 1, 2, 7, 0, 9, 1, 22).code;
    bad |= speck_gate(&port[0], 22, 1, 23).code;
    bad |= speck_make_thread(&port[0], 22, 0, 10, 1, 24).code;
    bad |= speck_make_tcap(&port[0], 5, 70, 0, 11, 1, 25).code;
    bad |= speck_delegate(&port[0], 12, 25, 250).code;
    bad |= speck_tick(&port[0], 30).code;
    bad |= speck_replenish(&port[0], 12, 10).code;
    bad |= speck_send(&port[0], 23).code;
    bad |= speck_send(&port[0], 23).code;
    struct speck_reply taken = speck_recv(&port[1], 22);
    printf("taken of what was sent: %d, value %d, n %u\n", taken.code, taken.value, (unsigned)taken.n);
    bad |= speck_call(&port[0], 23).code;
    bad |= speck_kill(&port[0], 22).code;
    printf("the core's own component is dead: %d, advice %d\n", speck_look(&port[0], 0).code, speck_look(&port[0], 0).advice);
    printf("of a kill, which names another: advice %d\n", speck_kill(&port[0], 3).advice);
    for (int core = 0; core < 2; core++) bad |= speck_take_back(&machine, &port[core]);
    bad |= speck_finish(&machine, &last);
    printf("refused: %d\n", bad);

    struct speck_size size = {0};
    struct speck_capability cap;
    speck_read_size(&last, &size);
    for (uint16_t frame = 0; frame < size.frames; frame++) print_frame(frame, size.cores);
    for (uint16_t page = 0; page < 4096; page++)
        if (!speck_read_under(&last, 2, page, &cap)) printf("page %d: frame %d, flags %" PRIu32 "\n", page, cap.frame, cap.argument);
    for (uint8_t number = 0; number < 64; number++) {
        struct speck_life life;
        if (!speck_read_live(&last, number, &life)) printf("number %d: %s, epoch %d, frame %d\n", number, life.lives ? "lives" : "dead", life.epoch, life.frame);
    }
    for (uint8_t core = 0; core < size.cores; core++) {
        struct speck_core_end end;
        struct speck_translation it;
        if (speck_read_core(&last, core, &end)) continue;
        printf("core %d: thread %d, tcap %d, comp %d, spent %" PRIu64 ", back %" PRIu64 ", owed %" PRIu64 ", cached %d\n", core, end.thread, end.tcap, end.comp, end.spent, end.back, end.owed, end.cached);
        for (uint8_t at = 0; !speck_read_cached(&last, core, at, &it); at++) printf("  page %d of %d: frame %d, flags %d\n", it.page, it.pages, it.frame, it.flags);
    }
    return speck_free_final(&last);
}
