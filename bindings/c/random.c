/* Reads random octets with the library and with an independent parser, written from X.690 alone,
 * and stops at the first difference: random COUNT. What is read is also written again, and read as
 * a tree. */
#include <stdio.h>
#include <stdlib.h>
#include <string.h>
#include <yotremul/der.h>

#include "oracle.h"

static uint64_t state = 0x9E3779B97F4A7C15;

static uint32_t draw(uint32_t below)
{
    state ^= state << 13;
    state ^= state >> 7;
    state ^= state << 17;
    return (uint32_t)(state >> 32) % below;
}

static void stop(const char *why, const uint8_t *octets, uint32_t count)
{
    fprintf(stderr, "random: %s:", why);
    for (uint32_t i = 0; i < count; i++)
        fprintf(stderr, " %02X", octets[i]);
    fprintf(stderr, "\n");
    exit(1);
}

static der_reader reader_of(const uint8_t *octets, uint32_t count, bool ber)
{
    der_reader reader = DER_READER_INIT;
    if (der_reader_init(octets, count, ber, &reader).kind)
        stop("a reader", octets, count);
    return reader;
}

static size_t walk(der_reader *reader, int depth, der_node *nodes, size_t at, bool *is_refused)
{
    while (!*is_refused && !der_is_finished(reader)) {
        der_element element = DER_ELEMENT_INIT;
        der_reader inside = DER_READER_INIT;
        if (der_read_element(reader, &element).kind) {
            *is_refused = true;
            break;
        }
        nodes[at++] = (der_node){element.tag, element.start, element.contents_start,
                                 element.contents_start + (uint32_t)element.length, (uint8_t)depth,
                                 element.constructed, element.indefinite};
        if (element.constructed && depth < 32) {
            if (der_open(reader, &element, &inside).kind)
                *is_refused = true;
            else
                at = walk(&inside, depth + 1, nodes, at, is_refused);
        }
    }
    return at;
}

static bool is_same(const der_node *a, const der_node *b)
{
    return a->tag == b->tag && a->start == b->start && a->contents_start == b->contents_start && a->end == b->end &&
           a->depth == b->depth && a->constructed == b->constructed && a->indefinite == b->indefinite;
}

static void see_tree(const uint8_t *octets, uint32_t count, bool ber)
{
    static der_node nodes[128], others[128];
    der_reader reader = reader_of(octets, count, ber), copy = reader;
    size_t number = 0;
    bool is_refused = false;
    der_error error = der_read_tree(&reader, nodes, 128, &number);
    size_t wanted = walk(&copy, 0, others, 0, &is_refused);
    if ((error.kind != 0) != is_refused || number != wanted)
        stop("a tree", octets, count);
    /* space for exactly that number of nodes, and for one less */
    for (size_t capacity = number; !is_refused && capacity + 1 >= number && capacity <= number; capacity--) {
        der_reader again = reader_of(octets, count, ber);
        size_t reported = 0;
        error = der_read_tree(&again, others + 64, capacity, &reported);
        if (error.kind != (capacity < number ? DER_OVERLENGTH : 0) || reported != capacity ||
            der_finish(&again).kind != (capacity < number ? DER_FAILED : 0))
            stop("a tree in a small array", octets, count);
    }
    for (size_t i = 0; i < number; i++)
        if (!is_same(&nodes[i], &others[i]))
            stop("a node", octets, count);
}

/* writes an element inside another with der_begin and der_end, and compares it with the same
 * element written with its lengths computed first */
static void see_parts(der_tag tag, uint32_t length, uint32_t capacity)
{
    static uint8_t written[1100], wanted[1100], contents[1024];
    der_writer writer = DER_WRITER_INIT, other = DER_WRITER_INIT;
    der_mark outer = DER_MARK_INIT, inner = DER_MARK_INIT;
    uint32_t inside = 0, whole = 0;
    for (uint32_t i = 0; i < length; i++)
        contents[i] = (uint8_t)draw(256);
    memset(written, 0xEE, sizeof written);
    memset(wanted, 0xEE, sizeof wanted);
    if (der_element_length(tag, length, &inside).kind || der_element_length(DER_SEQUENCE, inside + 2, &whole).kind)
        stop("a length", contents, length);
    der_writer_init(wanted, sizeof wanted, &other);
    der_write_header(&other, DER_SEQUENCE, inside + 2);
    der_write_element(&other, tag, contents, length);
    der_write_element(&other, DER_NULL, NULL, 0);
    der_writer_init(written, capacity, &writer);
    der_begin(&writer, DER_SEQUENCE, &outer);
    der_begin(&writer, tag, &inner);
    der_write(&writer, contents, length);
    der_end(&writer, &inner);
    der_write_element(&writer, DER_NULL, NULL, 0);
    der_end(&writer, &outer);
    bool is_refused = der_writer_finish(&writer).kind != 0;
    if (is_refused != (capacity < whole) || (!is_refused && (der_written(&writer) != whole || memcmp(written, wanted, whole))))
        stop("an element with another inside", contents, length);
    for (uint32_t i = capacity; i < sizeof written; i++)
        if (written[i] != 0xEE)
            stop("an octet after the buffer", contents, length);
}

/* the function that docs/BINDINGS.md shows */
static bool join(der_reader *reader, const der_element *string, uint8_t *out, size_t capacity, size_t *count)
{
    der_reader inside = DER_READER_INIT;
    der_element segment = DER_ELEMENT_INIT;
    if (!string->constructed) {
        if (string->length > capacity - *count)
            return false;
        memcpy(out + *count, string->contents, string->length);
        *count += string->length;
        return true;
    }
    if (der_open(reader, string, &inside).kind)
        return false;
    while (!der_is_finished(&inside))
        if (der_expect(&inside, DER_OCTET_STRING, &segment).kind || !join(&inside, &segment, out, capacity, count))
            return false;
    return true;
}

static void see_segments(void)
{
    static const uint8_t octets[] = {0x24, 0x80, 0x04, 0x01, 0xAA, 0x24, 0x80, 0x04, 0x00, 0x04, 0x02,
                                     0xBB, 0xCC, 0x00, 0x00, 0x24, 0x03, 0x04, 0x01, 0xDD, 0x00, 0x00};
    static const uint8_t wanted[] = {0xAA, 0xBB, 0xCC, 0xDD};
    uint8_t out[4];
    for (size_t capacity = 3; capacity <= 4; capacity++) {
        der_reader reader = reader_of(octets, sizeof octets, true);
        der_element string = DER_ELEMENT_INIT;
        size_t count = 0;
        if (der_expect(&reader, DER_OCTET_STRING, &string).kind || der_finish(&reader).kind ||
            join(&reader, &string, out, capacity, &count) != (capacity == 4))
            stop("segments", octets, sizeof octets);
        if (capacity == 4 && (count != 4 || memcmp(out, wanted, 4)))
            stop("segments that are joined", octets, sizeof octets);
    }
}

/* a text is truncated to its space, with a zero octet after it; a tag that is none is left out; no error has the text "no
 * error" */
static void see_texts(void)
{
    static const char wanted[] = "unexpected ASN.1 DER tag: expected INTEGER, got NULL at DER byte 0";
    static const char unknown[] = "unexpected ASN.1 DER tag: got NULL at DER byte 0";
    static const uint8_t octets[] = {5, 0};
    der_reader reader = reader_of(octets, sizeof octets, false);
    der_element element = DER_ELEMENT_INIT;
    char text[160];
    der_error error = der_expect(&reader, DER_INTEGER, &element);
    for (size_t capacity = 0; capacity < sizeof text; capacity++) {
        memset(text, '#', sizeof text);
        size_t count = der_error_text(error, text, capacity), space = capacity ? capacity - 1 : 0;
        if (count != (space < sizeof wanted - 1 ? space : sizeof wanted - 1) || memcmp(text, wanted, count) ||
            text[count] != (capacity ? 0 : '#') || text[count + 1] != '#')
            stop("a text", octets, sizeof octets);
    }
    /* 7 is not a tag */
    error.expected = 7;
    if (der_error_text(error, text, sizeof text) != sizeof unknown - 1 || memcmp(text, unknown, sizeof unknown - 1))
        stop("a text without the tag that was expected", octets, sizeof octets);
    if (der_error_text((der_error){0, false, 0, 0, 0, 0, 0}, text, sizeof text) != 8 || memcmp(text, "no error", 8))
        stop("the text of no error", octets, sizeof octets);
}

int main(int argc, char **argv)
{
    static const uint8_t often[] = {0x30, 0x31, 0x24, 0x80, 0x81, 0x82, 0x84, 0x85, 0x02, 0x04, 0x05, 0x1F,
                                    0x9F, 0xBF, 0xA0, 0x00, 0x00, 0x01, 0x03, 0x7F, 0xFF};
    uint8_t octets[64], written[64];
    long elements = 0, number = argc > 1 ? atol(argv[1]) : 1000000;
    see_segments();
    see_texts();
    for (long i = 0; i < number; i++) {
        uint32_t count = draw(24);
        for (uint32_t j = 0; j < count; j++)
            octets[j] = draw(3) ? often[draw(sizeof often)] : (uint8_t)draw(256);
        der_reader reader = reader_of(octets, count, false);
        der_element element = DER_ELEMENT_INIT;
        der_error error = der_read_element(&reader, &element);
        answer wanted = by_hand(octets, 0, count, false);
        if (memcmp(&error, &wanted.error, sizeof error))
            stop("an error", octets, count);
        if (!error.kind) {
            elements++;
            if (element.tag != wanted.tag || element.contents_start != wanted.head || element.length != wanted.length ||
                element.contents != octets + wanted.head || element.constructed != octets[0] / 32 % 2)
                stop("an element", octets, count);
            der_writer writer = DER_WRITER_INIT;
            uint32_t whole = 0;
            der_writer_init(written, sizeof written, &writer);
            der_write_element(&writer, element.tag, element.contents, element.length);
            if (der_element_length(element.tag, (uint32_t)element.length, &whole).kind || der_writer_finish(&writer).kind || der_written(&writer) != wanted.head + wanted.length ||
                whole != wanted.head + wanted.length || memcmp(written, octets, whole))
                stop("an element that was written", octets, count);
        }
        see_tree(octets, count, false);
        see_tree(octets, count, true);
        if (i % 16 == 0) {
            uint32_t length = draw(4) ? draw(300) : draw(1024), number = draw(100000);
            see_parts(draw(2) ? DER_OCTET_STRING : DER_CONTEXT(number) + DER_CONSTRUCTED, length, length + draw(24));
        }
    }
    printf("%ld inputs, %ld with an element\n", number, elements);
    return 0;
}
