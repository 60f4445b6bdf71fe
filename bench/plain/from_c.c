/* The rows of rows.rs through the library, as a program in C makes them: from_c ROW CALLS. bench/calls counts its instructions. */
#include "speck.h"
#include <stdlib.h>
#include <string.h>

static struct speck_machine machine;
static struct speck_port port[2];
static unsigned refused;

static void made(struct speck_reply reply) { refused += reply.code != SPECK_OK; }

/* The row's first calls. */
static void prepare(const char *row) {
    struct speck_port *of = port;
    if (!strcmp(row, "map") || !strcmp(row, "touch")) {
        made(speck_retype(of, 0, 8, SPECK_FRAME_KERNEL));
        made(speck_make_pleaf(of, 0, 8, 1, 21));
        made(speck_grow(of, 2, 0, 21));
        made(speck_retype(of, 0, 9, SPECK_FRAME_USER));
    }
    if (!strcmp(row, "touch")) made(speck_map(of, 2, 5, 0, 9, 3));
    if (!strcmp(row, "call")) {
        made(speck_retype(of, 0, 10, SPECK_FRAME_KERNEL));
        made(speck_make_comp(of, 1, 2, 5, 0, 10, 1, 22));
        made(speck_gate(of, 22, 1, 23));
    }
    if (!strcmp(row, "switch")) {
        made(speck_retype(of, 0, 8, SPECK_FRAME_KERNEL));
        made(speck_make_thread(of, 3, 0, 8, 1, 20));
    }
}

/* Makes so many calls, whose row is found once. */
#define ROW(name, count, ...) \
    if (!strcmp(row, name)) { \
        for (long at = 0; at < calls; at += count) { __VA_ARGS__ } \
        return; \
    }
static void make(const char *row, long calls) {
    struct speck_port *of = port;
    ROW("look", 1, made(speck_look(of, 0));)
    ROW("range", 2, made(speck_copy(of, 0, 1, 20, 3)); made(speck_remove(of, 1, 20));)
    ROW("object", 2, made(speck_copy(of, 1, 1, 20, 3)); made(speck_remove(of, 1, 20));)
    ROW("map", 3, made(speck_map(of, 2, 5, 0, 9, 3)); made(speck_unmap(of, 2, 5)); made(speck_flush(of));)
    ROW("touch", 1, made(speck_touch(of, 5));)
    ROW("tick", 1, made(speck_tick(of, 1));)
    ROW("flush", 1, made(speck_flush(of));)
    ROW("call", 2, made(speck_call(of, 23)); made(speck_ret(of));)
    ROW("switch", 2, made(speck_switch(of, 20, 12)); made(speck_switch(of, 4, 12));)
    ROW("transfer", 2, made(speck_transfer(of, 12, 13, 1)); made(speck_transfer(of, 13, 12, 1));)
    ROW("delegate", 2, made(speck_delegate(of, 12, 13, 1)); made(speck_delegate(of, 13, 12, 1));)
    ROW("test", 1, made(speck_test(of, 12, 13));)
    refused++;
}

int main(int count, char **words) {
    if (count != 3) return 2;
    int cores = !strcmp(words[1], "transfer") || !strcmp(words[1], "delegate") || !strcmp(words[1], "test") ? 2 : 1;
    if (speck_boot(&machine, cores, 32, 500000000)) return 1;
    for (int core = 0; core < cores; core++)
        if (speck_deal(&machine, &port[core])) return 1;
    prepare(words[1]);
    make(words[1], atol(words[2]));
    return refused != 0;
}
