/* What Linux's drivers/of/address.c needs of the kernel, for a user program: types, macros, and the functions of
 * drivers/of/base.c, which are written anew over the tree that address_main.c reads. */
#ifndef KERNEL_H
#define KERNEL_H

#include <errno.h>
#include <stdbool.h>
#include <stdint.h>
#include <stdio.h>
#include <stdlib.h>
#include <string.h>

typedef uint8_t u8;
typedef uint32_t u32;
typedef uint64_t u64;
typedef uint32_t __be32;
typedef u64 resource_size_t;
typedef u64 phys_addr_t;
typedef u64 dma_addr_t;

#define CONFIG_PCI                     1
#define CONFIG_HAS_DMA                 1
#define CONFIG_PPC                     0
#define CONFIG_ARCH_APPLE              0
#define CONFIG_OF_DMA_DEFAULT_COHERENT 0
#define IS_ENABLED(option)             (option)
#define ARRAY_SIZE(array)              (sizeof(array) / sizeof((array)[0]))
#define EXPORT_SYMBOL(name)
#define EXPORT_SYMBOL_GPL(name)
#define __init
#define __iomem
#define BUG()                       abort()
#define pr_debug(...)               ((void)0)
#define pr_cont(...)                ((void)0)
#define pr_err(...)                 ((void)0)
#define pr_warn_once(...)           ((void)0)
#define OF_BAD_ADDR                 ((u64)-1)
#define PHYS_ADDR_MAX               ((u64)-1)
#define upper_32_bits(number)       ((u32)((number) >> 32))
#define PCI_BASE_ADDRESS_0          0x10
#define IORESOURCE_IO               0x100
#define IORESOURCE_MEM              0x200
#define IORESOURCE_PREFETCH         0x2000
#define IORESOURCE_MEM_64           0x100000
#define IORESOURCE_MEM_NONPOSTED    0x400
#define GFP_KERNEL                  0
#define kcalloc(count, size, flags) calloc(count, size)
#define LOGIC_PIO_CPU_MMIO          1
#define IOMEM_ERR_PTR(error)        ((void *)(intptr_t)(error))

struct fwnode_handle {
    int unused;
};

struct property {
    const char *name;
    int length;
    const void *value;
    struct property *next;
};

struct device_node {
    const char *name, *full_name;
    struct device_node *parent, *child, *sibling;
    struct property *properties;
    struct fwnode_handle fwnode;
};

struct resource {
    resource_size_t start, end;
    const char *name;
    unsigned long flags;
    struct resource *parent, *sibling, *child;
};

struct of_bus;

struct of_pci_range_parser {
    struct device_node *node;
    struct of_bus *bus;
    const __be32 *range, *end;
    int na, ns, pna;
    bool dma;
};

struct of_pci_range {
    union {
        u64 pci_addr;
        u64 bus_addr;
    };
    u64 cpu_addr, size;
    u32 flags;
};

#define of_range_parser                  of_pci_range_parser
#define of_range                         of_pci_range
#define for_each_of_range(parser, range) for (; of_pci_range_parser_one(parser, range);)
#define for_each_of_pci_range            for_each_of_range

struct bus_dma_region {
    phys_addr_t cpu_start;
    dma_addr_t dma_start;
    u64 size, offset;
};

struct of_phandle_args {
    struct device_node *np;
    int args_count;
    u32 args[16];
};

struct logic_pio_hwaddr {
    unsigned long flags;
};

extern struct device_node *of_root;

static inline u32 be32_to_cpu(__be32 number) { return __builtin_bswap32(number); }
static inline u32 be32_to_cpup(const __be32 *number) { return __builtin_bswap32(*number); }
static inline __be32 cpu_to_be32(u32 number) { return __builtin_bswap32(number); }

static inline u64 of_read_number(const __be32 *cell, int size)
{
    u64 number = 0;

    while (size--) number = number << 32 | be32_to_cpu(*cell++);
    return number;
}

static inline struct device_node *of_node_get(struct device_node *node) { return node; }
static inline void of_node_put(struct device_node *node) { (void)node; }
static inline struct device_node *of_get_parent(const struct device_node *node) { return node ? node->parent : NULL; }

/* An address of I/O stays what it is on the bus outside, so that it can be compared. */
static inline unsigned long pci_address_to_pio(u64 address) { return address; }
static inline int pci_register_io_range(struct fwnode_handle *node, u64 address, u64 size) { return 0; }
static inline struct logic_pio_hwaddr *find_io_range_by_fwnode(struct fwnode_handle *node) { return NULL; }
static inline unsigned long logic_pio_trans_hwaddr(struct fwnode_handle *node, u64 address, u64 size) { return -1; }
static inline void *ioremap(u64 address, u64 size) { return NULL; }
static inline void *ioremap_np(u64 address, u64 size) { return NULL; }
static inline void *request_mem_region(u64 address, u64 size, const char *name) { return NULL; }
static inline void release_mem_region(u64 address, u64 size) {}
static inline u64 resource_size(const struct resource *resource) { return resource->end - resource->start + 1; }

const void *of_get_property(const struct device_node *node, const char *name, int *length);
bool of_property_read_bool(const struct device_node *node, const char *name);
int of_property_match_string(const struct device_node *node, const char *name, const char *text);
int of_property_read_string_index(const struct device_node *node, const char *name, int index, const char **text);
int of_parse_phandle_with_args(const struct device_node *node, const char *name, const char *cells, int index,
                               struct of_phandle_args *found);
bool of_node_name_eq(const struct device_node *node, const char *name);
bool of_node_is_type(const struct device_node *node, const char *type);
bool of_device_is_compatible(const struct device_node *node, const char *name);
bool of_machine_is_compatible(const char *name);
bool of_device_is_available(const struct device_node *node);
int of_bus_n_addr_cells(struct device_node *node);
int of_bus_n_size_cells(struct device_node *node);
int of_n_addr_cells(struct device_node *node);
int of_n_size_cells(struct device_node *node);

#define for_each_available_child_of_node(parent, child)                                                                \
    for (child = (parent)->child; child; child = child->sibling)                                                       \
        if (of_device_is_available(child))

struct of_pci_range *of_pci_range_parser_one(struct of_pci_range_parser *parser, struct of_pci_range *range);
struct device_node *__of_get_dma_parent(const struct device_node *node);

#endif
