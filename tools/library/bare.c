/* SPDX-License-Identifier: Apache-2.0 */
/*
 * The library with no C library: the heap is an array (heap.c), and the functions on memory that the archive calls stand
 * here. It grants and revokes a page, and ends with 0 where each call was done. It is for Linux on x86-64, whose call that
 * ends a process is its only one.
 */
#include <netconf.h>

void *memcpy(void *to, const void *from, size_t size)
{
    unsigned char *out = to;
    const unsigned char *in = from;

    while (size--) *out++ = *in++;
    return to;
}

void *memmove(void *to, const void *from, size_t size)
{
    unsigned char *out = to;
    const unsigned char *in = from;

    if (out < in) return memcpy(to, from, size);
    while (size--) out[size] = in[size];
    return to;
}

void *memset(void *to, int byte, size_t size)
{
    unsigned char *out = to;

    while (size--) *out++ = (unsigned char)byte;
    return to;
}

static const uint8_t description[] = "dram is accept [0x0-0x3fffffff];"
                                     "unit iommu kind pages page 12 slots 4 reach 32 to dram;"
                                     "agent card is map [0x0-0x3fff to iommu at 0x0];";

static uint32_t history(void)
{
    struct netconf session = {0};
    struct netconf_event events[8];
    uint8_t line[64];
    uint64_t address;
    size_t count;
    uint32_t status;

    status = netconf_open(&session, description, sizeof description - 1, line, sizeof line, &count);
    if (!status) status = netconf_grant(&session, 1, 2, 0, 0x9000, 0x1000, NETCONF_READ, &address);
    if (!status) status = netconf_pending(&session, 0, events, 8, &count);
    if (!status) status = netconf_settle(&session);
    if (!status) status = netconf_revoke(&session, 1);
    netconf_close(&session);
    return status;
}

__attribute__((force_align_arg_pointer, noreturn)) void _start(void)
{
    long status = history();

    __asm__ volatile("syscall" : : "a"(60L), "D"(status) : "rcx", "r11", "memory");
    __builtin_unreachable();
}
