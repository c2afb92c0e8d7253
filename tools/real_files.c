/* Reads files by `der_bench_reads_back`, and each of them with an octet changed, cut short and gone on.
 *
 *     real_files KIND FILE ..    each as it is
 *     real_files KIND! FILE ..   also with each octet in turn changed to each other value, cut at each length,
 *                                and with octets after it
 *     real_files e FILE ..       the extensions of each certificate; with l in place of e, of each revocation list
 *
 * A line for each file has what it is read as: 0 refused, 1 written back to the same octets, 2 to others; and, where
 * it is changed, how many of the changes were refused and how many read. A cut, or octets after, are never read.
 * Of extensions, how many of a known type are written back to the same octets, and how many are not. */
#include <stdint.h>
#include <stdio.h>
#include <stdlib.h>
#include <string.h>
#include <sys/mman.h>

enum { ROOM = 1 << 20, PAGE = 1 << 12, REFUSED = 0, SAME = 1 };

struct totals {
    uint64_t elements, contents, octet_sum;
};

uint8_t der_bench_reads_back(uint8_t kind, const uint8_t *octets, size_t len);
struct totals der_bench_extensions(uint8_t is_list, const uint8_t *octets, size_t len);

static uint8_t *space;

/* The octets stand next of a page that may not be read. */
static uint8_t read_back(uint8_t kind, const uint8_t *octets, size_t len)
{
    uint8_t *at = space + ROOM - len;
    memcpy(at, octets, len);
    return der_bench_reads_back(kind, at, len);
}

static void give_up(const char *name, const char *why, size_t at)
{
    fprintf(stderr, "real_files: %s %s at %zu\n", name, why, at);
    exit(1);
}

static void change(uint8_t kind, const char *name, const uint8_t *octets, size_t len)
{
    size_t printed[2] = {0, 0};
    uint8_t *at = space + ROOM - len;
    memcpy(at, octets, len);
    for (size_t i = 0; i < len; i += 1) {
        for (unsigned by = 1; by < 256; by += 1) {
            at[i] = octets[i] ^ (uint8_t)by;
            uint8_t answer = der_bench_reads_back(kind, at, len);
            if (answer > SAME)
                give_up(name, "is written back to other octets where it is changed", i);
            printed[answer] += 1;
        }
        at[i] = octets[i];
    }
    printf(" %zu %zu", printed[REFUSED], printed[SAME]);
}

static void cut(uint8_t kind, const char *name, const uint8_t *octets, size_t len)
{
    for (size_t i = 0; i < len; i += 1)
        if (read_back(kind, octets, i) != REFUSED)
            give_up(name, "is read where it is cut", i);
}

static void go_on(uint8_t kind, const char *name, uint8_t *octets, size_t len)
{
    for (unsigned after = 0; after < 256; after += 1) {
        octets[len] = (uint8_t)after;
        if (read_back(kind, octets, len + 1) != REFUSED)
            give_up(name, "is read with an octet after it", after);
    }
    memcpy(octets + len, octets, len);
    if (read_back(kind, octets, 2 * len) != REFUSED)
        give_up(name, "is read with itself after it", len);
}

int main(int count, char **words)
{
    static uint8_t octets[ROOM];
    if (count < 3)
        return 2;
    space = mmap(NULL, ROOM + PAGE, PROT_READ | PROT_WRITE, MAP_PRIVATE | MAP_ANONYMOUS, -1, 0);
    if (space == MAP_FAILED || mprotect(space + ROOM, PAGE, PROT_NONE) != 0)
        return 2;
    uint8_t kind = (uint8_t)atoi(words[1]);
    for (int i = 2; i < count; i += 1) {
        FILE *file = fopen(words[i], "rb");
        if (file == NULL)
            return 2;
        size_t len = fread(octets, 1, ROOM / 2, file);
        fclose(file);
        if (words[1][0] == 'e' || words[1][0] == 'l') {
            struct totals seen = der_bench_extensions(words[1][0] == 'l', octets, len);
            printf("%s %zu %d %d\n", words[i], len, (int)seen.elements, (int)seen.contents);
            continue;
        }
        printf("%s %zu %d", words[i], len, read_back(kind, octets, len));
        if (strchr(words[1], '!') != NULL) {
            change(kind, words[i], octets, len);
            cut(kind, words[i], octets, len);
            go_on(kind, words[i], octets, len);
        }
        printf("\n");
    }
    return 0;
}
