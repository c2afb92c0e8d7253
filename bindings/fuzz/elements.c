/* A driver for libFuzzer: all elements of the input, at every level, are read by the library and by
 * an independent parser, and each element or error has to be the same. Under BER, what the library
 * reads has to end where the independent parser ends. */
#include <stdlib.h>
#include <yotremul/der.h>

#include "../c/oracle.h"

enum { LEVELS = 40 };

static void must(bool it)
{
    if (!it)
        abort();
}

/* Reads a part under DER. */
static void see_part(der_reader *reader, const uint8_t *octets, uint32_t start, uint32_t end, int levels)
{
    while (!der_is_finished(reader)) {
        der_element element = DER_ELEMENT_INIT;
        der_error error = der_read_element(reader, &element);
        answer wanted = by_hand(octets, start, end, false);
        must(memcmp(&error, &wanted.error, sizeof error) == 0);
        if (error.kind) {
            must(der_finish(reader).kind == DER_FAILED && element.length == 0);
            return;
        }
        must(element.tag == wanted.tag && element.start == start && element.contents_start == wanted.head);
        must(element.length == wanted.length && element.contents == octets + wanted.head);
        must(element.constructed == (octets[start] / 32 % 2 == 1) && !element.indefinite);
        der_span whole = DER_SPAN_INIT;
        must(der_element_octets(reader, &element, &whole).kind == DER_OK && whole.octets == octets + start);
        start = wanted.head + wanted.length;
        must(whole.length == start - element.start && der_position(reader) == start);
        if (element.constructed && levels > 0) {
            der_reader inside = DER_READER_INIT;
            must(der_open(reader, &element, &inside).kind == DER_OK);
            see_part(&inside, octets, wanted.head, start, levels - 1);
        }
    }
    must(start == end && der_finish(reader).kind == DER_OK);
}

/* Where the element at |at| ends under BER, or 0 if it is refused or the part ends before it. */
static uint32_t end_under_ber(const uint8_t *octets, uint32_t at, uint32_t end, int levels)
{
    answer it = by_hand(octets, at, end, true);
    if (it.error.kind == DER_OK)
        return it.head + it.length;
    if (it.error.kind != DER_INDEFINITE_LENGTH || octets[at] / 32 % 2 == 0 || levels == 0)
        return 0;
    at = it.error.position;
    while (at < end && octets[at] != 0) {
        at = end_under_ber(octets, at, end, levels - 1);
        if (at == 0)
            return 0;
    }
    return end - at >= 2 && octets[at] == 0 && octets[at + 1] == 0 ? at + 2 : 0;
}

static void see_under_ber(const uint8_t *octets, uint32_t count)
{
    der_reader reader = DER_READER_INIT;
    must(der_reader_init(octets, count, true, &reader).kind == DER_OK);
    while (!der_is_finished(&reader)) {
        uint32_t start = (uint32_t)der_position(&reader);
        der_element element = DER_ELEMENT_INIT;
        der_span whole = DER_SPAN_INIT;
        if (der_read_element(&reader, &element).kind)
            return;
        must(end_under_ber(octets, start, count, 1000) == der_position(&reader));
        must(der_element_octets(&reader, &element, &whole).kind == DER_OK);
        must(whole.octets == octets + start && whole.length == der_position(&reader) - start);
    }
}

int LLVMFuzzerTestOneInput(const uint8_t *octets, size_t count);
int LLVMFuzzerTestOneInput(const uint8_t *octets, size_t count)
{
    der_reader reader = DER_READER_INIT;
    must(der_reader_init(octets, count, false, &reader).kind == DER_OK);
    see_part(&reader, octets, 0, (uint32_t)count, LEVELS);
    see_under_ber(octets, (uint32_t)count);
    return 0;
}
