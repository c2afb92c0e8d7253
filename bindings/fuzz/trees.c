/* A driver for libFuzzer: the input is read as a value of a known kind, or as one of a type that its
 * first octet chooses. The elements of a tree lie inside each other, in the order of the input. If the
 * verdict is DER, an independent parser finds the same elements, at every level. Each path leads to an
 * element of the tree, and each text fits or is refused. The memory that the header says is enough is enough. */
#include <stdlib.h>
#include <yotremul/der_tree.h>

#include "../c/oracle.h"

enum { ENTRIES = 4096, MARKS = 4096, ROOM = 1 << 14 };

static uint8_t types[DER_TYPES_ROOM], buffer[ROOM + 1];
static der_entry entries[ENTRIES];
static uint32_t marks[MARKS];
static char list[1 << 16];

static void must(bool it)
{
    if (!it)
        abort();
}

/* Each element is inside its parent, after the elements before it. */
static void see_places(const der_tree *tree)
{
    for (size_t i = 0; i < tree->found.entries; i++) {
        const der_entry *it = entries + i, *parent = entries + it->parent;
        size_t end = it->offset + it->header_length + it->contents_length;
        must(end <= tree->octets.length && it->header_length >= 2);
        must(i == 0 ? it->parent == 0 && it->depth == 0 : it->parent < i);
        must(i > 0 || it->offset == 0 || tree->found.verdict == 2);
        must(i == 0 || (it->depth == parent->depth + 1 && it->offset >= parent->offset + parent->header_length));
        must(i == 0 || it->offset > entries[i - 1].offset);
        must(i == 0 || end <= parent->offset + parent->header_length + parent->contents_length ||
             tree->found.verdict != 0);
    }
}

/* The elements of a part that the independent parser finds are those of the tree with this parent. */
static size_t see_part(const der_tree *tree, size_t parent, size_t at, uint32_t start, uint32_t end)
{
    while (start < end) {
        answer wanted = by_hand(tree->octets.octets, start, end, false);
        must(wanted.error.kind == DER_OK && at < tree->found.entries);
        const der_entry *it = entries + at;
        must(it->offset == start && it->offset + it->header_length == wanted.head);
        must(it->contents_length == wanted.length && it->parent == parent);
        start = wanted.head + wanted.length;
        if (tree->octets.octets[it->offset] / 32 % 2 == 1)
            at = see_part(tree, at, at + 1, wanted.head, start);
        else /* a string may contain a value */
            for (at++; at < tree->found.entries && entries[at].offset < start; at++)
                continue;
    }
    return at;
}

/* Whether the parser knows all tags: it has no universal tags but those of the library. */
static bool is_known(const uint8_t *octets, uint32_t start, uint32_t end)
{
    while (start < end) {
        answer it = by_hand(octets, start, end, false);
        if (it.error.kind)
            return false;
        if (octets[start] / 32 % 2 == 1 && !is_known(octets, it.head, it.head + it.length))
            return false;
        start = it.head + it.length;
    }
    return true;
}

static void see_texts(const der_tree *tree, size_t index)
{
    static const char *const paths[] = {"", "[0]", "version", "tbsCertificate.subject", "content.signerInfos[0]", "x.y", "["};
    char text[64];
    der_span part = DER_SPAN_INIT;
    size_t count = der_tree_print(tree, index, "", text, sizeof text);
    must(count == DER_NONE || (count < sizeof text && text[count] == 0));
    for (size_t i = 0; i < sizeof paths / sizeof *paths; i++) {
        size_t found = der_tree_at(tree, index, paths[i]);
        must(found == DER_NONE || found < tree->found.entries);
    }
    must(der_tree_octets(tree->octets.octets, tree->octets.length, entries, tree->found.entries, index, &part));
    must(part.octets == tree->octets.octets + entries[index].offset);
    must(!der_tree_octets(tree->octets.octets, tree->octets.length, entries, index, index, &part));
}

/* The number of elements that a walk from child to child finds, with this element. */
static size_t walk(const der_tree *tree, size_t index)
{
    size_t count = 1, child;
    for (size_t number = 0;
         (child = der_tree_child(tree->types, tree->types_length, tree->octets.octets, tree->octets.length, tree->entries,
                                 tree->found.entries, index, number)) != DER_NONE;
         number++) {
        must(tree->entries[child].parent == index && child > index);
        count += walk(tree, child);
    }
    return count;
}

/* Memory that ends with its last octet. */
static void *memory(size_t length)
{
    void *it = malloc(length ? length : 1);
    must(it != NULL);
    return it;
}

/* In the memory that der_tree.h says is enough, and no more, the same is found; and a walk finds each element once. */
static void see_enough(const uint8_t *octets, size_t length, bool is_read, const der_tree_found *found)
{
    size_t capacity = length / 2;
    uint8_t *copy = memory(length), *table = memory(DER_TYPES_ROOM), *space = memory(length + 1);
    der_entry *items = memory(capacity * sizeof *items);
    uint32_t *numbers = memory(MARKS * sizeof *numbers);
    char text[40], *short_text = memory(3);
    memcpy(copy, octets, length);
    der_tree tree = DER_TREE_INIT_SIZED(table, DER_TYPES_ROOM, items, capacity, numbers, MARKS, space, length + 1);
    must(der_tree_load(&tree, copy, length) == is_read);
    if (is_read) {
        must(tree.found.entries == found->entries && tree.found.departures == found->departures);
        must(tree.found.lost == found->lost && tree.found.verdict == found->verdict);
    }
    if (is_read && tree.found.entries > 0 && tree.found.entries < 16) {
        size_t count = walk(&tree, 0), index = length % tree.found.entries;
        must(tree.found.verdict == 0 ? count == tree.found.entries : count <= tree.found.entries);
        size_t all = der_tree_print(&tree, index, "", text, sizeof text);
        size_t some = der_tree_print(&tree, index, "", short_text, 3);
        must(some == (all < 3 ? all : DER_NONE));
        must(some == DER_NONE || memcmp(text, short_text, some + 1) == 0);
    }
    free(copy), free(table), free(space), free(items), free(numbers), free(short_text);
}

int LLVMFuzzerTestOneInput(const uint8_t *octets, size_t length);
int LLVMFuzzerTestOneInput(const uint8_t *octets, size_t length)
{
    der_tree tree = DER_TREE_INIT(types, entries, marks, buffer);
    if (length > ROOM)
        return 0;
    bool is_read = der_tree_load(&tree, octets, length);
    see_enough(octets, length, is_read, &tree.found);
    if (!is_read &&
        (length == 0 ||
         !der_tree_read(types, tree.types_length, octets[length - 1], octets, length, entries, ENTRIES, marks, MARKS,
                        buffer, sizeof buffer, list, sizeof list, &tree.found)))
        return 0;
    see_places(&tree);
    if (tree.found.verdict == 0 && is_known(octets, 0, (uint32_t)length)) {
        must(tree.found.departures + tree.found.lost == 0 && tree.found.entries > 0);
        must(see_part(&tree, 0, 0, 0, (uint32_t)length) == tree.found.entries);
    }
    if (tree.found.entries > 0)
        see_texts(&tree, length % tree.found.entries);
    return 0;
}
