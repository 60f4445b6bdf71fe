/* Two threads share one kernel. Each makes a call of its core at once; then core 1 learns what core 0 has done, and sees it; then each
 * fills and empties a place again and again, and makes a call anew where the answer advises that. */
#include "speck.h"
#include <pthread.h>
#include <stdbool.h>
#include <stdio.h>

static void *copies(void *port) {
    struct speck_reply reply = speck_copy(port, 0, 1, 20, 3);
    return (void *)(uintptr_t)reply.code;
}

static void *ticks(void *port) {
    struct speck_reply reply = speck_tick(port, 7);
    return (void *)(uintptr_t)(reply.code * 256 + reply.n);
}

/* Whether a race was lost, or the other core may still use what was removed. */
static bool again(struct speck_reply reply) {
    return reply.advice == SPECK_ADVICE_AGAIN || reply.advice == SPECK_ADVICE_AWAIT_RETURN;
}

/* How often its core's place was filled and emptied. */
static void *fills(void *port) {
    uint16_t place = 21 + speck_core(port);
    struct speck_reply reply;
    uintptr_t done;
    for (done = 0; done < 100; done++) {
        do reply = speck_copy(port, 0, 1, place, 3);
        while (again(reply));
        if (reply.code != SPECK_OK) break;
        do reply = speck_remove(port, 1, place);
        while (again(reply));
        if (reply.code != SPECK_OK) break;
    }
    return (void *)done;
}

static void tell(const char *what, struct speck_reply reply) {
    printf("%s: code %d, value %d, kind %d, flags %d, frame %d, advice %d, n %u\n", what, reply.code, reply.value, reply.kind, reply.flags,
        reply.frame, reply.advice, (unsigned)reply.n);
}

int main(void) {
    struct speck_machine machine = {0};
    struct speck_port first = {0}, second = {0}, third = {0};
    struct speck_note note = {0};
    struct speck_final last = {0};
    struct speck_text text = {0};
    uint8_t tables[4096];
    pthread_t threads[2];
    void *copied, *ticked;

    tell("a call at an empty slot", speck_look(&first, 0));
    printf("no core: %d\n", speck_boot(&machine, 0, 32, 100));
    printf("too few frames: %d\n", speck_boot(&machine, 2, 7, 100));
    printf("too large a budget: %d\n", speck_boot(&machine, 2, 32, 500000001));
    printf("booted: %d\n", speck_boot(&machine, 2, 32, 100));
    printf("booted once more: %d\n", speck_boot(&machine, 2, 32, 100));
    printf("port of core 0: %d\n", speck_deal(&machine, &first));
    printf("port of core 1: %d\n", speck_deal(&machine, &second));
    printf("a third port: %d\n", speck_deal(&machine, &third));
    printf("the cores: %d, %d, %d\n", speck_core(&first), speck_core(&second), speck_core(&third));
    tell("too many ticks", speck_tick(&first, 1000001));
    tell("too many to transfer", speck_transfer(&first, 12, 13, 101));
    tell("a thread that runs on core 1", speck_switch(&first, 5, 12));

    if (pthread_create(&threads[0], 0, copies, &first) || pthread_create(&threads[1], 0, ticks, &second)) return 1;
    if (pthread_join(threads[0], &copied) || pthread_join(threads[1], &ticked)) return 1;
    printf("copied: %d\n", (int)(uintptr_t)copied);
    printf("ticks charged: %d\n", (int)(uintptr_t)ticked);

    printf("noted: %d\n", speck_note(&first, &note));
    printf("met: %d\n", speck_meet(&second, &note));
    printf("met once more: %d\n", speck_meet(&second, &note));
    tell("looked", speck_look(&second, 20));

    if (pthread_create(&threads[0], 0, fills, &first) || pthread_create(&threads[1], 0, fills, &second)) return 1;
    if (pthread_join(threads[0], &copied) || pthread_join(threads[1], &ticked)) return 1;
    printf("filled and emptied: %d and %d times\n", (int)(uintptr_t)copied, (int)(uintptr_t)ticked);

    printf("finished too early: %d\n", speck_finish(&machine, &last));
    printf("core 1 taken back first: %d\n", speck_take_back(&machine, &second));
    printf("core 0 taken back: %d\n", speck_take_back(&machine, &first));
    printf("core 1 taken back: %d\n", speck_take_back(&machine, &second));
    printf("finished: %d\n", speck_finish(&machine, &last));
    printf("its text: %d\n", speck_show(&last, &text));
    fwrite(tables, 1, speck_read(&text, tables, sizeof tables), stdout);
    speck_free_text(&text);
    speck_free_final(&last);

    printf("booted anew: %d\n", speck_boot(&machine, 2, 32, 100));
    printf("ports: %d", speck_deal(&machine, &first));
    printf(" %d\n", speck_deal(&machine, &second));
    printf("noted, and let go: %d\n", speck_note(&first, &note));
    speck_free_note(&note);
    speck_free_machine(&machine);
    speck_free_port(&first);
    tell("the other port, after all else is freed", speck_look(&second, 1));
    speck_free_port(&second);
    return 0;
}
