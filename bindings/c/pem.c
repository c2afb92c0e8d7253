/* PEM and base64. With a word and a file it writes the file as text, for a comparison with openssl: `base64` the
 * encoding of its octets, and any other word a block with this label. Alone it sees what each call promises: the
 * vectors of RFC 4648 and RFC 7468, each refusal, and what is left unchanged; it prints how many cases hold, or the
 * first that does not. */
#include "files.h"
#include <string.h>
#include <yotremul/der_tree.h>

static int cases;

#define HOLDS(it) (++cases, (it) ? (void)0 : fail(__LINE__, #it))

static void fail(int line, const char *it)
{
    printf("pem.c:%d: %s\n", line, it);
    exit(1);
}

/* Whether the octets from |start| up to |end| are those that |fill| has put there. */
static bool is_kept(const char *text, size_t start, size_t end)
{
    while (start < end && text[start] == '?')
        start++;
    return start == end;
}

static char *fill(char *text, size_t length)
{
    return memset(text, '?', length);
}

static void see_base64(const char *octets, const char *wanted)
{
    enum { SPACE = 64 };
    char text[SPACE];
    uint8_t back[SPACE];
    size_t length = strlen(octets), count = strlen(wanted);
    HOLDS(DER_BASE64_ROOM(length) == count);
    HOLDS(der_base64_encode((const uint8_t *)octets, length, fill(text, SPACE), count) == count);
    HOLDS(memcmp(text, wanted, count) == 0 && is_kept(text, count, SPACE));
    HOLDS(der_base64_decode(text, count, back, SPACE) == length && memcmp(back, octets, length) == 0);
    for (size_t room = 0; room < count; room++) {
        HOLDS(der_base64_encode((const uint8_t *)octets, length, fill(text, SPACE), room) == DER_NONE);
        HOLDS(is_kept(text, 0, SPACE));
    }
}

/* RFC 4648, 10. */
static void see_vectors(void)
{
    see_base64("", "");
    see_base64("f", "Zg==");
    see_base64("fo", "Zm8=");
    see_base64("foo", "Zm9v");
    see_base64("foob", "Zm9vYg==");
    see_base64("fooba", "Zm9vYmE=");
    see_base64("foobar", "Zm9vYmFy");
    HOLDS(der_base64_encode(NULL, 0, NULL, 0) == 0);
}

/* Labels of RFC 7468, 3: labelchar *( ["-" / SP] labelchar ), or nothing. */
static void see_labels(void)
{
    static const char *const right[] = {"", "A", "X509 CRL", "A-B", "a!~", "A B-C"};
    static const char *const wrong[] = {" ",    "-",    " A",   "A ",   "-A",       "A-",  "A  B",
                                        "A--B", "A- B", "A\tB", "A\n", "\xC3\xA4", "\x7F"};
    char text[128], front[64];
    for (size_t i = 0; i < sizeof right / sizeof *right; i++) {
        size_t length = strlen(right[i]), room = DER_PEM_ROOM(length, 1);
        HOLDS(der_pem_write(right[i], length, (const uint8_t *)"f", 1, fill(text, sizeof text), sizeof text) == room);
        snprintf(front, sizeof front, "-----BEGIN %s-----\nZg==\n-----END ", right[i]);
        HOLDS(memcmp(text, front, strlen(front)) == 0 && is_kept(text, room, sizeof text));
        for (size_t less = 0; less < room; less++) {
            HOLDS(der_pem_write(right[i], length, (const uint8_t *)"f", 1, fill(text, sizeof text), less) == DER_NONE);
            HOLDS(is_kept(text, 0, sizeof text));
        }
    }
    for (size_t i = 0; i < sizeof wrong / sizeof *wrong; i++) {
        size_t length = strlen(wrong[i]);
        HOLDS(der_pem_write(wrong[i], length, NULL, 0, fill(text, sizeof text), sizeof text) == DER_NONE);
        HOLDS(is_kept(text, 0, sizeof text));
    }
    HOLDS(der_pem_write("A\0B", 3, NULL, 0, fill(text, sizeof text), sizeof text) == DER_NONE);
}

/* A block of |length| octets is written, and read again from a text around it. */
static void see_block(size_t length)
{
    static const char label[] = "CERTIFICATE";
    static uint8_t octets[256], back[256];
    static char text[DER_PEM_ROOM(sizeof label - 1, sizeof octets) + 16] = "before\n";
    der_pem_block block = DER_PEM_BLOCK_INIT;
    for (size_t i = 0; i < length; i++)
        octets[i] = (uint8_t)(7 * i + length);
    size_t room = DER_PEM_ROOM(strlen(label), length);
    HOLDS(der_pem_write(label, strlen(label), octets, length, fill(text + 7, sizeof text - 7), room - 1) == DER_NONE);
    HOLDS(is_kept(text, 7, sizeof text));
    HOLDS(der_pem_write(label, strlen(label), octets, length, text + 7, sizeof text - 7) == room);
    HOLDS(is_kept(text, 7 + room, sizeof text) && text[6 + room] == '\n');
    for (size_t at = 7, columns = 0; at < 7 + room; at++, columns++)
        if (text[at] == '\n')
            HOLDS(columns <= 64), columns = SIZE_MAX;
    der_pem_reader reader = DER_PEM_READER_INIT(text, sizeof text);
    HOLDS(der_pem_next(&reader, back, sizeof back, &block) == DER_PEM_BLOCK);
    HOLDS(block.line == 2 && block.length == length && memcmp(back, octets, length) == 0);
    HOLDS(block.label == 18 && block.label_length == strlen(label));
    HOLDS(memcmp(text + block.label, label, strlen(label)) == 0);
    HOLDS(memcmp(text + reader.position, "-----END CERTIFICATE-----\n", 26) == 0 && reader.position + 26 == 7 + room);
    HOLDS(der_pem_next(&reader, back, sizeof back, &block) == DER_PEM_NONE && reader.position == sizeof text);
}

/* What the readers refuse. */
static void see_refusals(void)
{
    uint8_t octets[16];
    HOLDS(der_base64_decode("Zm 9\nv", 6, octets, sizeof octets) == 3 && memcmp(octets, "foo", 3) == 0);
    HOLDS(der_base64_decode("Zm9v", 4, octets, 2) == DER_NONE);
    HOLDS(der_base64_decode("Zm9", 3, octets, sizeof octets) == DER_NONE);
    HOLDS(der_base64_decode("Zh==", 4, octets, sizeof octets) == DER_NONE);
    HOLDS(der_base64_decode("Zm-_", 4, octets, sizeof octets) == DER_NONE);
}

/* A block, the result of its call, and the line of its error, counted from its first line. RFC 7468, 3 has two lines with
 * the same label and dashes at their end, and base64 between them; RFC 1421, 4.6 headers, which an empty line ends. */
static const struct {
    const char *text;
    uint32_t found;
    size_t line;
    bool has_lines;
} blocks[] = {
    {"-----BEGIN A-----\nZm9v\n-----END A-----\n", DER_PEM_BLOCK, 1, true},
    {"-----BEGIN A-----\n-----END A-----\n", DER_PEM_BLOCK, 1, true},
    {"-----BEGIN A-----\nProc-Type: 4,ENCRYPTED\n\nZg==\n-----END A-----\n", DER_PEM_ENCRYPTED, 1, true},
    {"-----BEGIN A-----\nZm9v\nZ===\n-----END A-----\n", DER_PEM_ERROR, 3, true},
    {"-----BEGIN A-----\nZm9vZm9vZm9v\nZm9vZm9v\n-----END A-----\n", DER_PEM_ERROR, 2, true}, /* no room for it */
    {"-----BEGIN A\n", DER_PEM_ERROR, 1, false},
    {"-----BEGIN -A-----\n", DER_PEM_ERROR, 1, false},
    {"-----BEGIN A-----\nZm9v\n", DER_PEM_ERROR, 3, false},
    {"-----BEGIN A-----\nZm9v\n-----END B-----\n", DER_PEM_ERROR, 3, false},
    {"-----BEGIN A-----\nZm9v\n-----END A\n", DER_PEM_ERROR, 3, false},
    {"-----BEGIN A-----\nname: value\nZm9v\n-----END A-----\n", DER_PEM_ERROR, 4, false},
};
enum { BLOCKS = sizeof blocks / sizeof *blocks };

static size_t lines_in(const char *text)
{
    size_t count = 0;
    for (; *text; text++)
        count += *text == '\n';
    return count;
}

/* All blocks of the text of three blocks of the table, in memory that is no longer than the text. */
static void see_walk(const size_t *three)
{
    char joined[256] = "";
    size_t length, line = 0, at = 0;
    for (int i = 0; i < 3; i++)
        strcat(joined, blocks[three[i]].text);
    length = strlen(joined);
    char *text = malloc(length);
    uint8_t octets[12];
    der_pem_block block = DER_PEM_BLOCK_INIT;
    HOLDS(text != NULL);
    memcpy(text, joined, length);
    der_pem_reader reader = DER_PEM_READER_INIT(text, length);
    for (int i = 0; i < 3; i++) {
        size_t before = reader.position;
        HOLDS(der_pem_next(&reader, octets, sizeof octets, &block) == blocks[three[i]].found);
        HOLDS(before < reader.position && reader.position <= length);
        HOLDS(block.line == line + blocks[three[i]].line);
        HOLDS(block.label == (blocks[three[i]].has_lines ? at + 11 : 0));
        HOLDS(block.label_length == (blocks[three[i]].has_lines ? 1 : 0));
        HOLDS(blocks[three[i]].found == DER_PEM_BLOCK || block.length == 0);
        line += lines_in(blocks[three[i]].text);
        at += strlen(blocks[three[i]].text);
    }
    der_pem_block kept = block;
    for (int i = 0; i < 2; i++) {
        HOLDS(der_pem_next(&reader, octets, sizeof octets, &block) == DER_PEM_NONE);
        HOLDS(reader.position == length && reader.text == text && memcmp(&kept, &block, sizeof block) == 0);
    }
    /* a position after the end is the end */
    reader.position = SIZE_MAX;
    HOLDS(der_pem_next(&reader, octets, sizeof octets, &block) == DER_PEM_NONE && reader.position == length);
    free(text);
}

/* A text that ends inside a block, after each of its octets. */
static void see_cut(void)
{
    for (size_t i = 0; i < BLOCKS; i++)
        for (size_t length = 0; length < strlen(blocks[i].text); length++) {
            char *text = malloc(length + 1);
            uint8_t octets[12];
            der_pem_block block = DER_PEM_BLOCK_INIT;
            HOLDS(text != NULL);
            text = realloc(memcpy(text, blocks[i].text, length), length ? length : 1);
            HOLDS(text != NULL);
            der_pem_reader reader = DER_PEM_READER_INIT(text, length);
            size_t count = 0;
            while (der_pem_next(&reader, octets, sizeof octets, &block) != DER_PEM_NONE)
                count++;
            HOLDS(count == (length < 11 ? 0 : 1));
            free(text);
        }
}

static void see_walks(void)
{
    size_t three[3];
    for (three[0] = 0; three[0] < BLOCKS; three[0]++)
        for (three[1] = 0; three[1] < BLOCKS; three[1]++)
            for (three[2] = 0; three[2] < BLOCKS; three[2]++)
                see_walk(three);
    der_pem_reader empty = DER_PEM_READER_INIT(NULL, 0);
    der_pem_block block = DER_PEM_BLOCK_INIT;
    HOLDS(der_pem_next(&empty, NULL, 0, &block) == DER_PEM_NONE && empty.position == 0 && empty.line == 0);
}

static void write_text(const char *word, const char *path)
{
    static uint8_t octets[FILE_SPACE];
    static char text[DER_PEM_ROOM(64, FILE_SPACE)];
    der_span file = read_file(path, octets);
    bool is_base64 = strcmp(word, "base64") == 0;
    size_t count = is_base64 ? der_base64_encode(file.octets, file.length, text, sizeof text)
                             : der_pem_write(word, strlen(word), file.octets, file.length, text, sizeof text);
    if (count == DER_NONE || fwrite(text, 1, count, stdout) != count)
        give_up("cannot write the text");
}

int main(int argc, char **argv)
{
    if (argc == 3)
        return write_text(argv[1], argv[2]), 0;
    see_vectors();
    see_labels();
    for (size_t length = 0; length <= 200; length++)
        see_block(length);
    see_refusals();
    see_walks();
    see_cut();
    printf("%d cases hold\n", cases);
    return 0;
}
