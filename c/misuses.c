/* Each misuse of the table in speck.h, and that it changes nothing: what it is answered is printed, and beside it stands that the call
 * which it disturbs, or the one made right after it, goes on as if it had not been. */
#include "speck.h"
#include <pthread.h>
#include <signal.h>
#include <stdio.h>
#include <stdlib.h>
#include <sys/time.h>

/* The library's heap (speck.h, 'In ring 0'), in place of the one over malloc: the allocation of this number, if any, fails. */
static unsigned fails_at;
static int fails(void) { return fails_at && --fails_at == 0; }
struct got { uint64_t is_some; void *at; };
struct got rattle_alloc(size_t size, size_t align) {
    (void)align;
    void *at = fails() ? 0 : malloc(size);
    return (struct got){ at != 0, at };
}
struct got rattle_realloc(void *at, size_t old, size_t size, size_t align) {
    (void)old, (void)align;
    void *now = fails() ? 0 : realloc(at, size);
    return (struct got){ now != 0, now };
}
void rattle_dealloc(void *at) { free(at); }

static struct speck_machine machine, other;
static struct speck_port port[2], others;
static struct speck_note note, of_other;
static struct speck_final last, other_last;
static struct speck_text tables;

static void tell(const char *what, int code) { printf("%s: %d\n", what, code); }

/* A signal comes in the midst of calls at the port. */
static volatile unsigned in_call, looked, unlike;
static void on_signal(int number) {
    (void)number;
    struct speck_reply reply = speck_look(&port[0], 0);
    if (reply.code == SPECK_IN_CALL) {
        in_call++;
        if (speck_free_port(&port[0]) != SPECK_IN_CALL || speck_take_back(&machine, &port[0]) != SPECK_IN_CALL) unlike++;
        if (speck_note(&port[0], &note) != SPECK_IN_CALL || speck_core(&port[0]) != SPECK_IN_CALL) unlike++;
        if (speck_deal(&machine, &port[0]) != SPECK_IN_CALL || speck_meet(&port[0], &note) != SPECK_IN_CALL) unlike++;
    } else if (reply.code == SPECK_OK && reply.frame == 8) looked++;
    else unlike++;
}

static void from_a_signal_handler(void) {
    struct itimerval often = {{0, 100}, {0, 100}}, never = {{0, 0}, {0, 0}};
    unsigned wrong = 0;
    signal(SIGALRM, on_signal);
    setitimer(ITIMER_REAL, &often, 0);
    for (unsigned long turns = 0; in_call < 20 && turns < 200000000; turns++) {
        if (speck_copy(&port[0], 0, 1, 20, 3).code != SPECK_OK) wrong++;
        if (speck_remove(&port[0], 1, 20).code != SPECK_OK) wrong++;
    }
    setitimer(ITIMER_REAL, &never, 0);
    tell("a look from a signal handler, told that the port is in a call, as often as it came inside one", in_call >= 20);
    tell("answers of another kind", (int)unlike);
    tell("calls that it disturbed", (int)wrong);
}

/* Two threads at one port, by mistake: each call is made, or told that the port is in a call. */
static unsigned wrong_answers[2];
static void *looks(void *at) {
    unsigned *wrong = at;
    for (int i = 0; i < 20000; i++) {
        struct speck_reply reply = speck_look(&port[0], 0);
        if (reply.code != SPECK_IN_CALL && (reply.code != SPECK_OK || reply.frame != 8)) ++*wrong;
    }
    return 0;
}

static void from_two_threads(void) {
    pthread_t thread[2];
    for (int i = 0; i < 2; i++) pthread_create(&thread[i], 0, looks, &wrong_answers[i]);
    for (int i = 0; i < 2; i++) pthread_join(thread[i], 0);
    tell("two threads at one port: answers of another kind", (int)(wrong_answers[0] + wrong_answers[1]));
}

/* Each function at no slot, and where it has two at no second one: how many answer otherwise than by SPECK_NOTHING_HELD. */
static int at_no_slot(void) {
    struct speck_size size;
    uint8_t answers[] = {
        speck_boot(0, 1, 16, 100), speck_boot_with(0, 16, 1, 1, 0, 0), speck_deal(0, &port[0]), speck_deal(&machine, 0),
        speck_take_back(0, &port[0]), speck_take_back(&machine, 0), speck_finish(0, &last), speck_finish(&machine, 0),
        speck_free_machine(0), speck_free_port(0), speck_free_note(0), speck_free_final(0), speck_free_text(0), speck_core(0),
        speck_note(0, &note), speck_note(&port[0], 0), speck_meet(0, &note), speck_meet(&port[0], 0), speck_read_size(0, &size),
        speck_show(0, &tables), speck_show(&last, 0), speck_tick(0, 1).code, speck_send(0, 1).code,
    };
    int others_of_them = 0;
    for (size_t at = 0; at < sizeof answers; at++) others_of_them += answers[at] != SPECK_NOTHING_HELD;
    return others_of_them;
}

/* Parts that are none: what is to be written stays as it was. */
static void parts(void) {
    struct speck_capability cap = { .frame = 77 };
    uint16_t frame = 77;
    tell("a frame past the last", speck_read_entry(&last, 32, 0, &cap));
    tell("an entry past the last", speck_read_entry(&last, 0, 64, &cap));
    tell("an entry of a thread", speck_read_entry(&last, 4, 0, &cap));
    tell("an entry that holds nothing", speck_read_entry(&last, 1, 63, &cap));
    tell("a height with no component", speck_read_stack(&last, 4, 1, &frame));
    tell("nowhere to write to", speck_read_entry(&last, 0, 0, 0));
    tell("a part of a text", speck_read_entry((struct speck_final *)&tables, 0, 0, &cap));
    tell("a root past the last", speck_read_under(&last, 32, 0, &cap));
    tell("a number past 4,095", speck_read_under(&last, 0, 4096, &cap));
    tell("a height past 15", speck_read_stack(&last, 4, 16, &frame));
    struct speck_quality quality;
    struct speck_life life;
    struct speck_core_end core;
    int32_t count;
    uint32_t budget;
    tell("a place past 7", speck_read_quality(&last, 6, 8, &quality));
    tell("a liveness number past 63", speck_read_live(&last, 64, &life));
    tell("a liveness number never named", speck_read_live(&last, 63, &life));
    tell("a core past the last", speck_read_core(&last, 2, &core));
    tell("its count", speck_read_count(&last, 0, 2, &count));
    tell("the budget of a thread", speck_read_budget(&last, 4, &budget));
    tell("written", cap.frame != 77 || frame != 77);
}

/* Each allocation of a machine's life fails in turn: nothing is lost, so the same step is made again and goes on. */
static int from_a_full_heap(void) {
    struct speck_machine it = {{0}};
    struct speck_port one = {{0}};
    struct speck_note seen = {{0}};
    struct speck_final left = {{0}};
    struct speck_text text = {{0}};
    int refused = 0, other_codes = 0;
#define STEP(call) \
    for (unsigned at = 1; ; at++) { \
        fails_at = at; \
        uint8_t code = call; \
        fails_at = 0; \
        if (code == SPECK_NO_MEMORY) { refused++; continue; } \
        if (code != SPECK_OK) other_codes++; \
        break; \
    }
    STEP(speck_boot(&it, 1, 16, 100))
    STEP(speck_deal(&it, &one))
    STEP(speck_note(&one, &seen))
    STEP(speck_meet(&one, &seen))
    STEP(speck_look(&one, 0).code)
    STEP(speck_take_back(&it, &one))
    STEP(speck_finish(&it, &left))
    STEP(speck_show(&left, &text))
    tell("refused for want of memory, at least once a step that takes some", refused >= 5);
    return other_codes | speck_free_text(&text) | speck_free_final(&left);
}

int main(void) {
    struct speck_port empty = {{0}};
    tell("a call at no slot", speck_look(0, 0).code);
    tell("a call at an empty slot", speck_look(&empty, 0).code);
    tell("booted", speck_boot(&machine, 2, 32, 100) | speck_deal(&machine, &port[0]) | speck_deal(&machine, &port[1]));
    tell("booted into a full slot", speck_boot(&machine, 2, 32, 100));
    tell("one port more", speck_deal(&machine, &empty));
    tell("a port dealt into a full slot", speck_deal(&machine, &port[0]));
    tell("at no slot, answered otherwise", at_no_slot());
    tell("a call at the slot of a machine", speck_look((struct speck_port *)&machine, 0).code);
    tell("one slot given twice", speck_note(&port[0], (struct speck_note *)&port[0]));
    tell("a machine's slot given twice", speck_deal(&machine, (struct speck_port *)&machine));
    tell("rights outside the limits", speck_copy(&port[0], 0, 1, 20, 4).code);
    tell("too many ticks", speck_tick(&port[0], 1000001).code);
    tell("a kind that is none", speck_retype(&port[0], 0, 20, 3).code);
    tell("flags outside the limits", speck_map(&port[0], 2, 0, 0, 20, 4).code);
    tell("a scheduler past 63 made", speck_make_tcap(&port[0], 64, 1, 0, 20, 1, 20).code);
    tell("a quality of 0 made", speck_make_tcap(&port[0], 0, 0, 0, 20, 1, 20).code);
    tell("a quality past the last made", speck_make_tcap(&port[0], 0, 16777216, 0, 20, 1, 20).code);
    tell("a liveness number past 63 made", speck_make_comp(&port[0], 1, 2, 64, 0, 20, 1, 20).code);
    tell("nothing wrong where each allocation fails in turn", from_a_full_heap());
    tell("cores, frames, budget outside the limits",
        speck_boot(&other, 9, 32, 100) * 1000000 + speck_boot(&other, 2, 7, 100) * 1000 + speck_boot(&other, 2, 32, 500000001));

    struct speck_grant grants[9] = {{ .budget = 1, .quality = 1, .sched = 64 }};
    tell("no grants", speck_boot_with(&other, 32, 1, 1, 0, 0));
    tell("no list of grants", speck_boot_with(&other, 32, 1, 1, 0, 1));
    tell("nine cores", speck_boot_with(&other, 32, 1, 1, grants, 9));
    tell("too many frames, and a scheduler past 63", speck_boot_with(&other, 513, 1, 1, grants, 1));
    tell("a scheduler past 63", speck_boot_with(&other, 32, 1, 1, grants, 1));
    grants[0].sched = 63;
    grants[0].quality = 0;
    tell("a quality of 0", speck_boot_with(&other, 32, 1, 1, grants, 1));
    grants[0].quality = 1;
    tell("booted by grants into a full slot", speck_boot_with(&machine, 32, 1, 1, grants, 1));
    tell("too many calls", speck_boot_with(&other, 32, UINT64_C(1) << 40, 0, grants, 1));
    tell("no epoch", speck_boot_with(&other, 32, 1, 0, grants, 1));
    tell("a send through what is no gate", speck_send(&port[0], 3).code);
    tell("a receive by what is no component", speck_recv(&port[0], 0).code);
    tell("another machine", speck_boot(&other, 1, 16, 100) | speck_deal(&other, &others) | speck_note(&others, &of_other));
    tell("its note met", speck_meet(&port[0], &of_other));
    tell("its port taken back", speck_take_back(&machine, &others));
    tell("its port in the place of a note", speck_meet(&port[0], (struct speck_note *)&others));
    tell("its note in the place of a port", speck_take_back(&machine, (struct speck_port *)&of_other));
    tell("its port in the place of a machine", speck_take_back((struct speck_machine *)&others, &port[0]));
    tell("in the place of one that is finished", speck_finish((struct speck_machine *)&others, &last));
    tell("the note is still there, and met by its own port", speck_meet(&others, &of_other));
    tell("finished before a port is back", speck_finish(&machine, &last));
    tell("the other's port can still make calls", speck_look(&others, 0).code);
    tell("core 1's port back before core 0's", speck_take_back(&machine, &port[1]));

    from_a_signal_handler();
    from_two_threads();

    tell("a note", speck_note(&port[0], &note));
    tell("a note into a full slot", speck_note(&port[1], &note));
    tell("met", speck_meet(&port[1], &note));
    tell("met once more", speck_meet(&port[1], &note));
    tell("core 0's port back", speck_take_back(&machine, &port[0]));
    tell("once more", speck_take_back(&machine, &port[0]));
    tell("finished with a port out", speck_finish(&machine, &last));
    tell("the port that is out", speck_look(&port[1], 0).code);
    tell("it is back", speck_take_back(&machine, &port[1]));
    tell("finished", speck_finish(&machine, &last));
    tell("finished once more", speck_finish(&machine, &last));
    tell("finished with no machine", speck_finish(&machine, &other_last));
    tell("the other's into a full slot", speck_take_back(&other, &others) | speck_finish(&other, &last));
    tell("the other machine is still there", speck_finish(&other, &other_last));
    parts();
    tell("the text", speck_show(&last, &tables));
    tell("what is finished, taken back", speck_take_back(&machine, (struct speck_port *)&last));
    tell("a final's slot given twice", speck_show(&last, (struct speck_text *)&last));
    tell("a text into a full slot", speck_show(&other_last, &tables));
    uint8_t bytes[4096] = {0};
    uint64_t length = speck_read(&tables, 0, sizeof bytes);
    tell("its length, read to nowhere", length > 0 && length == speck_read(&tables, bytes, sizeof bytes) && bytes[length - 1] == '\n');
    tell("the length of no text", (int)speck_read((struct speck_text *)&empty, bytes, sizeof bytes));
    tell("of a slot that holds nothing", speck_show((struct speck_final *)&empty, (struct speck_text *)&machine));
    tell("freed, and once more", speck_free_text(&tables) | speck_free_text(&tables));
    tell("a text that was freed", (int)speck_read(&tables, bytes, sizeof bytes));
    return speck_free_text(&tables) | speck_free_final(&last) | speck_free_final(&other_last);
}
