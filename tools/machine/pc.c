#include "pc.h"

#include <stdarg.h>

#define SERIAL        0x3f8
#define EXIT          0xf4
#define TRAMPOLINE    0x8000
#define LOCAL_APIC    0xfee00000ULL
#define APIC_ID       0x20
#define APIC_END      0xb0
#define APIC_SPURIOUS 0xf0
#define APIC_COMMAND  0x300
#define APIC_TARGET   0x310

volatile uint32_t arrivals[MOST_PROCESSORS][256];
static volatile uint32_t second_is_up;
static uint64_t gates[256][2];
extern const unsigned char vector_entries[], second_start[], second_start_end[];
void machine_main(void);
void second_main(void);
void vector_arrived(uint64_t vector, uint64_t code);
void trial(void);

static void out8(uint16_t port, uint8_t value) { __asm__ volatile("outb %0, %1" : : "a"(value), "Nd"(port)); }
static void out32(uint16_t port, uint32_t value) { __asm__ volatile("outl %0, %1" : : "a"(value), "Nd"(port)); }

static uint32_t in32(uint16_t port)
{
    uint32_t value;
    __asm__ volatile("inl %1, %0" : "=a"(value) : "Nd"(port));
    return value;
}

void *memset(void *to, int value, size_t size)
{
    unsigned char *bytes = to;
    while (size-- > 0) *bytes++ = (unsigned char)value;
    return to;
}

void *memcpy(void *to, const void *from, size_t size)
{
    unsigned char *bytes = to;
    const unsigned char *source = from;
    while (size-- > 0) *bytes++ = *source++;
    return to;
}

void *memmove(void *to, const void *from, size_t size)
{
    unsigned char *bytes = to;
    const unsigned char *source = from;
    if (bytes <= source) return memcpy(to, from, size);
    while (size-- > 0) bytes[size] = source[size];
    return to;
}

int memcmp(const void *one, const void *other, size_t size)
{
    const unsigned char *a = one, *b = other;
    for (; size > 0; size--, a++, b++)
        if (*a != *b) return *a < *b ? -1 : 1;
    return 0;
}

static void print_number(uint64_t value, unsigned base)
{
    char digits[20];
    int count = 0;
    do digits[count++] = "0123456789abcdef"[value % base];
    while ((value /= base) != 0);
    while (count > 0) out8(SERIAL, (uint8_t)digits[--count]);
}

void print(const char *form, ...)
{
    va_list arguments;
    va_start(arguments, form);
    for (; *form; form++) {
        const char *text;
        if (*form != '%') {
            out8(SERIAL, (uint8_t)*form);
            continue;
        }
        switch (*++form) {
        case 'x':
            out8(SERIAL, '0');
            out8(SERIAL, 'x');
            print_number(va_arg(arguments, uint64_t), 16);
            break;
        case 'd':
            print_number(va_arg(arguments, unsigned), 10);
            break;
        default:
            for (text = va_arg(arguments, const char *); *text; text++) out8(SERIAL, (uint8_t)*text);
        }
    }
    va_end(arguments);
}

void leave(void)
{
    out32(EXIT, 0);
    for (;;) __asm__ volatile("cli; hlt");
}

uint32_t pci_read(unsigned device, unsigned function, unsigned offset)
{
    out32(0xcf8, 0x80000000u | device << 11 | function << 8 | offset);
    return in32(0xcfc);
}

void pci_write(unsigned device, unsigned function, unsigned offset, uint32_t value)
{
    out32(0xcf8, 0x80000000u | device << 11 | function << 8 | offset);
    out32(0xcfc, value);
}

/* Counts an interrupt; an exception ends the trial. */
void vector_arrived(uint64_t vector, uint64_t code)
{
    if (vector < 32) {
        print("FAILED: exception %d of the processor, code or place %x\n", (unsigned)vector, code);
        leave();
    }
    arrivals[read32(LOCAL_APIC + APIC_ID) >> 24 & (MOST_PROCESSORS - 1)][vector]++;
    write32(LOCAL_APIC + APIC_END, 0);
}

/* Loads the table of interrupts on this processor and lets interrupts in. */
static void let_in(void)
{
    struct {
        uint16_t limit;
        uint64_t base;
    } __attribute__((packed)) table = {sizeof gates - 1, (uintptr_t)gates};
    __asm__ volatile("lidt %0" : : "m"(table));
    write32(LOCAL_APIC + APIC_SPURIOUS, 0x1ff);
    __asm__ volatile("sti");
}

static void wait(unsigned turns)
{
    while (turns-- > 0) pause();
}

void start_processors(void)
{
    unsigned vector;
    for (vector = 0; vector < 256; vector++) {
        uint64_t entry = (uintptr_t)vector_entries + 16 * vector;
        gates[vector][0] = (entry & 0xffff) | 8ULL << 16 | 0x8eULL << 40 | (entry >> 16 & 0xffff) << 48;
        gates[vector][1] = entry >> 32;
    }
    out8(0x21, 0xff);
    out8(0xa1, 0xff);
    let_in();
    memcpy((void *)(uintptr_t)TRAMPOLINE, second_start, (size_t)(second_start_end - second_start));
    write32(LOCAL_APIC + APIC_TARGET, 1u << 24);
    write32(LOCAL_APIC + APIC_COMMAND, 0x4500);
    wait(1000);
    write32(LOCAL_APIC + APIC_TARGET, 1u << 24);
    write32(LOCAL_APIC + APIC_COMMAND, 0x4600 | TRAMPOLINE >> 12);
    for (vector = 0; vector < 100000 && !second_is_up; vector++) pause();
    if (!second_is_up) {
        print("FAILED: the second processor does not start\n");
        leave();
    }
}

void second_main(void)
{
    let_in();
    second_is_up = 1;
    for (;;) __asm__ volatile("hlt");
}

void machine_main(void)
{
    trial();
    leave();
}
