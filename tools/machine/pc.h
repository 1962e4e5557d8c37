/* The parts of a PC that the trial uses: its serial port, its processors, and the functions of PCI. */
#ifndef PC_H
#define PC_H

#include <stddef.h>
#include <stdint.h>

#define MOST_PROCESSORS 2

/* Registers of devices. */
static inline uint32_t read32(uint64_t address) { return *(volatile uint32_t *)(uintptr_t)address; }
static inline uint64_t read64(uint64_t address) { return *(volatile uint64_t *)(uintptr_t)address; }
static inline void write32(uint64_t address, uint32_t value) { *(volatile uint32_t *)(uintptr_t)address = value; }
static inline void write64(uint64_t address, uint64_t value) { *(volatile uint64_t *)(uintptr_t)address = value; }

static inline void pause(void) { __asm__ volatile("pause"); }

/* Prints a text in which each %x stands for a number in hexadecimal, %d for one in decimal and %s for a text. */
void print(const char *form, ...);

/* Ends QEMU. */
void leave(void) __attribute__((noreturn));

/* Starts the table of interrupts and the second processor; how many interrupts of each vector came to each processor. */
void start_processors(void);
extern volatile uint32_t arrivals[MOST_PROCESSORS][256];

/* The configuration of a PCI function on bus 0. */
uint32_t pci_read(unsigned device, unsigned function, unsigned offset);
void pci_write(unsigned device, unsigned function, unsigned offset, uint32_t value);

/* What gcc and the library call for copies and comparisons. */
void *memset(void *to, int value, size_t size);
void *memcpy(void *to, const void *from, size_t size);
void *memmove(void *to, const void *from, size_t size);
int memcmp(const void *one, const void *other, size_t size);

#endif
