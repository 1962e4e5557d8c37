/* SPDX-License-Identifier: Apache-2.0 */
/*
 * What the program asks the C library for before it begins: whether the processor has what its code for x86-64 uses. In a
 * page it has none of that code, and every answer is yes. The layout is that of <sys/platform/x86.h> of the GNU C library.
 */
#include <stddef.h>
#include <stdint.h>

struct cpuid_feature {
    uint32_t present[4];
    uint32_t active[4];
};

static const struct cpuid_feature all = {{~0u, ~0u, ~0u, ~0u}, {~0u, ~0u, ~0u, ~0u}};

const struct cpuid_feature *__x86_get_cpuid_feature_leaf(unsigned leaf);
int64_t __write(int file, const void *bytes, size_t size);

const struct cpuid_feature *__x86_get_cpuid_feature_leaf(unsigned leaf)
{
    (void)leaf;
    return &all;
}

/* Would write that the processor lacks something. */
int64_t __write(int file, const void *bytes, size_t size)
{
    (void)file;
    (void)bytes;
    (void)size;
    return -1;
}
