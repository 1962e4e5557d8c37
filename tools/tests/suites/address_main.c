/* Prints what Linux's own drivers/of/address.c computes over a device tree: where each window of a device is for a
 * processor, and the windows of each device for its own accesses. The file of Linux is included as it is.
 *
 *     address TREE      lines `reg PATH INDEX FIRST SIZE`, `dma PATH BUS CPU SIZE`, and `none PATH`: of_dma_get_range
 *                       fails with -ENODEV; `broken PATH`: with another error
 */
#include ADDRESS_C

struct device_node *of_root;

static const u8 *blob, *strings;

/* The next token of the structure of a blob, and what comes after it. */
static u32 word(const u8 *at) { return (u32)at[0] << 24 | at[1] << 16 | at[2] << 8 | at[3]; }

static void *owned(size_t size)
{
    void *made = calloc(1, size);

    if (!made) abort();
    return made;
}

static struct device_node *node_of(const char *name, struct device_node *parent)
{
    struct device_node *node = owned(sizeof(*node)), **last;
    size_t length = strcspn(name, "@");
    char *base = owned(length + 1), *full = owned(strlen(name) + (parent ? strlen(parent->full_name) : 0) + 2);

    memcpy(base, name, length);
    sprintf(full, "%s/%s", parent && parent->parent ? parent->full_name : "", name);
    node->name = base;
    node->full_name = full;
    node->parent = parent;
    if (parent) {
        for (last = &parent->child; *last; last = &(*last)->sibling)
            ;
        *last = node;
    }
    return node;
}

/* Reads the structure of a blob (Devicetree Specification, chapter 5). */
static void read_tree(const u8 *at)
{
    struct device_node *here = NULL;
    struct property *property;

    for (;;) {
        u32 token = word(at);

        at += 4;
        if (token == 1) {
            here = node_of((const char *)at, here);
            if (!of_root) of_root = here;
            at += (strlen((const char *)at) + 4) / 4 * 4;
        } else if (token == 2) {
            here = here->parent;
        } else if (token == 3) {
            property = owned(sizeof(*property));
            property->length = word(at);
            property->name = (const char *)strings + word(at + 4);
            property->value = at + 8;
            property->next = here->properties;
            here->properties = property;
            at += 8 + (property->length + 3) / 4 * 4;
        } else if (token == 9) {
            return;
        }
    }
}

const void *of_get_property(const struct device_node *node, const char *name, int *length)
{
    const struct property *property;

    for (property = node->properties; property; property = property->next)
        if (!strcmp(property->name, name)) {
            if (length) *length = property->length;
            return property->value;
        }
    return NULL;
}

bool of_property_read_bool(const struct device_node *node, const char *name)
{
    return of_get_property(node, name, NULL);
}

int of_property_read_string_index(const struct device_node *node, const char *name, int index, const char **text)
{
    return -EINVAL;
}

int of_property_match_string(const struct device_node *node, const char *name, const char *text)
{
    int length, index = 0;
    const char *value = of_get_property(node, name, &length), *end = value + length;

    for (; value && value < end; value += strlen(value) + 1, index++)
        if (!strcmp(value, text)) return index;
    return -ENODATA;
}

static bool has_string(const struct device_node *node, const char *name, const char *text)
{
    return of_property_match_string(node, name, text) >= 0;
}

bool of_device_is_compatible(const struct device_node *node, const char *name)
{
    return has_string(node, "compatible", name);
}
bool of_machine_is_compatible(const char *name) { return has_string(of_root, "compatible", name); }
bool of_node_name_eq(const struct device_node *node, const char *name) { return !strcmp(node->name, name); }

bool of_node_is_type(const struct device_node *node, const char *type)
{
    const char *value = of_get_property(node, "device_type", NULL);

    return value && !strcmp(value, type);
}

bool of_device_is_available(const struct device_node *node)
{
    const char *value = of_get_property(node, "status", NULL);

    return !value || !strcmp(value, "okay") || !strcmp(value, "ok");
}

/* The cells of the nearest node upwards that has them, and 1 where none has (drivers/of/base.c). */
static int cells(struct device_node *node, const char *name)
{
    const __be32 *value;

    for (; node; node = node->parent)
        if ((value = of_get_property(node, name, NULL))) return be32_to_cpup(value);
    return 1;
}

int of_bus_n_addr_cells(struct device_node *node) { return cells(node, "#address-cells"); }
int of_bus_n_size_cells(struct device_node *node) { return cells(node, "#size-cells"); }
int of_n_addr_cells(struct device_node *node) { return cells(node->parent ? node->parent : node, "#address-cells"); }
int of_n_size_cells(struct device_node *node) { return cells(node->parent ? node->parent : node, "#size-cells"); }

static struct device_node *by_phandle(struct device_node *node, u32 handle)
{
    struct device_node *found = NULL;
    const __be32 *own = of_get_property(node, "phandle", NULL);

    if (own && be32_to_cpup(own) == handle) return node;
    for (node = node->child; node && !found; node = node->sibling) found = by_phandle(node, handle);
    return found;
}

int of_parse_phandle_with_args(const struct device_node *node, const char *name, const char *cells_name, int index,
                               struct of_phandle_args *found)
{
    int length;
    const __be32 *value = of_get_property(node, name, &length), *end = value + length / 4;

    while (value && value < end) {
        const __be32 *count;

        found->np = by_phandle(of_root, be32_to_cpup(value++));
        if (!found->np) return -EINVAL;
        if (!index--) return 0;
        count = of_get_property(found->np, cells_name, NULL);
        value += count ? be32_to_cpup(count) : 0;
    }
    return -ENOENT;
}

static void print_windows(struct device_node *node, struct device_node *bus)
{
    const struct bus_dma_region *map = NULL, *region;
    int status = of_dma_get_range(bus, &map);

    if (status) printf("%s %s\n", status == -ENODEV ? "none" : "broken", node->full_name);
    for (region = map; !status && region->size; region++)
        printf("dma %s %#llx %#llx %#llx\n", node->full_name, (unsigned long long)region->dma_start,
               (unsigned long long)region->cpu_start, (unsigned long long)region->size);
}

static void print_node(struct device_node *node)
{
    struct resource resource;
    struct device_node *child;
    int index;

    if (!of_device_is_available(node)) return;
    for (index = 0; node->parent && of_get_property(node, of_match_bus(node->parent)->addresses, NULL); index++) {
        u64 size;
        unsigned int flags;

        if (!__of_get_address(node, index, -1, &size, &flags)) break;
        if (size && !of_address_to_resource(node, index, &resource))
            printf("reg %s %d %#llx %#llx\n", node->full_name, index, (unsigned long long)resource.start,
                   (unsigned long long)size);
    }
    if (node->parent) print_windows(node, of_bus_pci_match(node) ? node : __of_get_dma_parent(node));
    for (child = node->child; child; child = child->sibling) print_node(child);
}

int main(int count, char **words)
{
    FILE *file = count == 2 ? fopen(words[1], "rb") : NULL;
    size_t size;

    if (!file) return 2;
    fseek(file, 0, SEEK_END);
    size = ftell(file);
    rewind(file);
    blob = owned(size + 4);
    if (fread((void *)blob, 1, size, file) != size) return 2;
    strings = blob + word(blob + 12);
    read_tree(blob + word(blob + 8));
    print_node(of_root);
    return 0;
}
