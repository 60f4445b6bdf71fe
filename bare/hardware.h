/* What a kernel brings for itself, and no more than this example needs: copies of bytes, a heap, a serial line, interrupts. */
#include <stddef.h>
#include <stdint.h>

/* The copies of bytes that compilers ask for. */
void *memcpy(void *to, const void *from, size_t n) {
    void *at = to;
    __asm__ volatile("rep movsb" : "+D"(at), "+S"(from), "+c"(n) : : "memory");
    return to;
}
void *memset(void *to, int byte, size_t n) {
    void *at = to;
    __asm__ volatile("rep stosb" : "+D"(at), "+c"(n) : "a"(byte) : "memory");
    return to;
}
void *memmove(void *to, const void *from, size_t n) {
    unsigned char *at = to;
    if (at <= (const unsigned char *)from) return memcpy(to, from, n);
    while (n--) at[n] = ((const unsigned char *)from)[n];
    return to;
}

/* The library's heap, in place of malloc: blocks one after another, for several cores at once. What is given back is not used again. */
struct got { uint64_t is_some; void *at; };
static _Alignas(16) char heap[1 << 20];
static size_t heap_used, blocks;
struct got rattle_alloc(size_t size, size_t align) {
    (void)align;
    size_t at = __atomic_fetch_add(&heap_used, (size + 15) & ~(size_t)15, __ATOMIC_RELAXED);
    __atomic_fetch_add(&blocks, 1, __ATOMIC_RELAXED);
    return at + size <= sizeof heap ? (struct got){1, heap + at} : (struct got){0, 0};
}
struct got rattle_realloc(void *block, size_t old, size_t size, size_t align) {
    struct got made = rattle_alloc(size, align);
    if (made.is_some) memcpy(made.at, block, old < size ? old : size);
    return made;
}
void rattle_dealloc(void *block) { (void)block; }

/* The serial line. */
static inline void out(uint16_t port, uint8_t byte) { __asm__ volatile("outb %0, %1" : : "a"(byte), "Nd"(port)); }
static inline uint8_t in(uint16_t port) {
    uint8_t byte;
    __asm__ volatile("inb %1, %0" : "=a"(byte) : "Nd"(port));
    return byte;
}
static void put(char c) {
    while (!(in(0x3fd) & 0x20)) ;
    out(0x3f8, (uint8_t)c);
}
static void text(const char *s) { while (*s) put(*s++); }
static void number(uint64_t n) {
    if (n > 9) number(n / 10);
    put((char)('0' + n % 10));
}

/* The processor's own interrupt controller (local APIC). */
#define APIC(at) (*(volatile uint32_t *)(uintptr_t)(0xfee00000u + (at)))
static int this_core(void) { return (int)(APIC(0x20) >> 24); }
static void interrupt_done(void) { APIC(0xb0) = 0; }
static void interrupt_core(int core, uint32_t what) {
    APIC(0x310) = (uint32_t)core << 24;
    APIC(0x300) = what;
}
static void timer_on(uint32_t period, uint8_t vector) {
    APIC(0x3e0) = 0xb;
    APIC(0x320) = 0x20000u | vector;
    APIC(0x380) = period;
}
static void timer_off(void) { APIC(0x380) = 0; }
static uint64_t cycles(void) {
    uint32_t low, high;
    __asm__ volatile("rdtsc" : "=a"(low), "=d"(high));
    return (uint64_t)high << 32 | low;
}
static void pause_for(uint64_t n) { for (uint64_t end = cycles() + n; cycles() < end; ) __asm__ volatile("pause"); }

/* The table of interrupts. */
static struct { uint16_t low, segment; uint8_t stack, kind; uint16_t middle; uint32_t high, none; } gates[256];
static struct { uint16_t size; void *at; } __attribute__((packed)) gates_at = { sizeof gates - 1, gates };
static void handle(int vector, void (*entry)(void)) {
    uintptr_t at = (uintptr_t)entry;
    gates[vector].low = (uint16_t)at;
    gates[vector].segment = 8;
    gates[vector].kind = 0x8e;
    gates[vector].middle = (uint16_t)(at >> 16);
    gates[vector].high = (uint32_t)((uint64_t)at >> 32);
}
static void interrupts_on(void) {
    __asm__ volatile("lidt %0" : : "m"(gates_at));
    APIC(0xf0) = 0x1ff;
    __asm__ volatile("sti");
}
static void stop_machine(uint8_t status) {
    out(0xf4, status);
    for (;;) __asm__ volatile("cli; hlt");
}
static void fault(void) {
    text("a fault\n");
    stop_machine(1);
}
