/* A driver for libFuzzer: the input is a program of writing calls. What the library writes is
 * compared with an independent writer, which keeps a tree of elements and computes each length from
 * it. A counter has to count the same number. */
#include <stdlib.h>
#include <string.h>
#include <yotremul/der.h>

enum { SPACE = 1 << 16, LEVELS = 16 };

static void must(bool it)
{
    if (!it)
        abort();
}

/* The independent writer: the octets of each open element, innermost last. */
typedef struct {
    uint8_t octets[LEVELS + 1][SPACE];
    size_t counts[LEVELS + 1];
    uint8_t tags[LEVELS + 1];
    int level;
} tree;

static void put(tree *it, const void *octets, size_t count)
{
    memcpy(it->octets[it->level] + it->counts[it->level], octets, count);
    it->counts[it->level] += count;
}

static void put_header(tree *it, uint8_t tag, size_t length)
{
    uint8_t header[6] = {tag, (uint8_t)length};
    size_t count = 2;
    if (length >= 128) {
        size_t octets = length < 256 ? 1 : length < 65536 ? 2 : 3;
        header[1] = (uint8_t)(128 + octets);
        for (size_t i = 0; i < octets; i++)
            header[count++] = (uint8_t)(length >> 8 * (octets - 1 - i));
    }
    put(it, header, count);
}

static void end(tree *it)
{
    int inner = it->level--;
    put_header(it, it->tags[inner], it->counts[inner]);
    put(it, it->octets[inner], it->counts[inner]);
}

typedef struct {
    der_writer writer;
    der_counter counter;
    der_mark marks[LEVELS], counts[LEVELS];
} target;

static void see(target *it, uint8_t call, uint8_t tag, const uint8_t *octets, size_t count, int level)
{
    if (call == 0)
        must(der_begin(&it->writer, tag, &it->marks[level]).kind == DER_OK &&
             der_count_begin(&it->counter, tag, &it->counts[level]).kind == DER_OK);
    else if (call == 1)
        must(der_end(&it->writer, &it->marks[level - 1]).kind == DER_OK &&
             der_count_end(&it->counter, &it->counts[level - 1]).kind == DER_OK);
    else
        must(der_write_element(&it->writer, tag, octets, count).kind == DER_OK &&
             der_count_element(&it->counter, tag, (uint32_t)count).kind == DER_OK);
}

int LLVMFuzzerTestOneInput(const uint8_t *octets, size_t count);
int LLVMFuzzerTestOneInput(const uint8_t *octets, size_t count)
{
    static const uint8_t tags[] = {0x30, 0x31, 0x02, 0x04, 0x05, 0x06, 0xA0, 0x81};
    static uint8_t out[SPACE], zeros[300];
    static tree wanted;
    static target written;
    size_t total = 0;
    wanted.level = 0;
    wanted.counts[0] = 0;
    uint32_t counted = 0;
    der_writer_init(out, sizeof out, &written.writer);
    der_counter_init(&written.counter);
    for (size_t at = 0; at + 1 < count && total < SPACE / 2; at += 2) {
        uint8_t call = octets[at] % 4, tag = tags[octets[at] / 4 % sizeof tags];
        size_t length = octets[at + 1] + (octets[at] >= 240 ? 40u : 0u);
        if ((call == 0 && wanted.level == LEVELS) || (call == 1 && wanted.level == 0))
            continue;
        see(&written, call, tag, zeros, length, wanted.level);
        if (call == 0) {
            wanted.level++;
            wanted.tags[wanted.level] = tag;
            wanted.counts[wanted.level] = 0;
        } else if (call == 1) {
            end(&wanted);
        } else {
            put_header(&wanted, tag, length);
            put(&wanted, zeros, length);
        }
        total += length + 8;
    }
    while (wanted.level > 0) {
        must(der_writer_finish(&written.writer).kind == DER_UNBALANCED);
        see(&written, 1, 0, zeros, 0, wanted.level);
        end(&wanted);
    }
    must(der_writer_finish(&written.writer).kind == DER_OK && der_written(&written.writer) == wanted.counts[0]);
    must(der_counted(&written.counter, &counted).kind == DER_OK && counted == wanted.counts[0]);
    must(memcmp(out, wanted.octets[0], wanted.counts[0]) == 0);
    return 0;
}
