/* Values read and written: octets worked out from X.690, each refusal with its kind and position,
 * and what is left unchanged. It prints how many cases hold, or the first that does not. */
#include <stdio.h>
#include <stdlib.h>
#include <string.h>
#include <yotremul/der.h>

static int cases;

#define HOLDS(it) (++cases, (it) ? (void)0 : give_up(__LINE__, #it))
#define OCTETS(...) (const uint8_t[]){__VA_ARGS__}, sizeof((const uint8_t[]){__VA_ARGS__})

static void give_up(int line, const char *it)
{
    printf("values.c:%d: %s\n", line, it);
    exit(1);
}

static der_reader reader_of(const uint8_t *octets, size_t length)
{
    der_reader reader = DER_READER_INIT;
    HOLDS(der_reader_init(octets, length, false, &reader).kind == DER_OK);
    return reader;
}

/* The contents are refused after the element, and the reader has failed. */
static bool is_refused(der_error error, const der_reader *reader, der_tag tag, size_t end)
{
    return error.kind == DER_VALUE && error.actual == tag && error.has_position && error.position == end &&
           der_finish(reader).kind == DER_FAILED;
}

static void see_boolean(const uint8_t *octets, size_t length, int wanted)
{
    der_reader reader = reader_of(octets, length);
    bool value = wanted != 1;
    der_error error = der_read_boolean(&reader, DER_BOOLEAN, &value);
    if (wanted >= 0)
        HOLDS(error.kind == DER_OK && value == (wanted == 1) && der_finish(&reader).kind == DER_OK);
    else
        HOLDS(is_refused(error, &reader, DER_BOOLEAN, length) && value);
}

static void see_booleans(void)
{
    see_boolean(OCTETS(1, 1, 0xFF), 1);
    see_boolean(OCTETS(1, 1, 0), 0);
    see_boolean(OCTETS(1, 1, 1), -1);
    see_boolean(OCTETS(1, 0), -1);
    see_boolean(OCTETS(1, 2, 0, 0), -1);
}

/* An INTEGER as a number without a sign, with one, and as octets; 1 where it has the form. */
static void see_integer(const uint8_t *octets, size_t length, int is_unsigned, uint64_t natural, int is_signed,
                        int64_t number, int is_integer)
{
    der_reader reader = reader_of(octets, length);
    uint64_t read_natural = 99;
    int64_t read_number = 99;
    der_span span = DER_SPAN_INIT;
    der_error error = der_read_uint64(&reader, DER_INTEGER, &read_natural);
    if (is_unsigned)
        HOLDS(error.kind == DER_OK && read_natural == natural && der_finish(&reader).kind == DER_OK);
    else
        HOLDS(is_refused(error, &reader, DER_INTEGER, length) && read_natural == 99);
    reader = reader_of(octets, length);
    error = der_read_int64(&reader, DER_INTEGER, &read_number);
    if (is_signed)
        HOLDS(error.kind == DER_OK && read_number == number && der_finish(&reader).kind == DER_OK);
    else
        HOLDS(is_refused(error, &reader, DER_INTEGER, length) && read_number == 99);
    reader = reader_of(octets, length);
    error = der_read_integer(&reader, DER_INTEGER, &span);
    if (is_integer)
        HOLDS(error.kind == DER_OK && span.octets == octets + 2 && span.length == length - 2);
    else
        HOLDS(is_refused(error, &reader, DER_INTEGER, length) && span.length == 0);
}

static void see_integers(void)
{
    see_integer(OCTETS(2, 1, 0), 1, 0, 1, 0, 1);
    see_integer(OCTETS(2, 1, 0x7F), 1, 127, 1, 127, 1);
    see_integer(OCTETS(2, 2, 0, 0x80), 1, 128, 1, 128, 1);
    see_integer(OCTETS(2, 1, 0x80), 0, 0, 1, -128, 1);
    see_integer(OCTETS(2, 2, 0xFF, 0x7F), 0, 0, 1, -129, 1);
    see_integer(OCTETS(2, 8, 0x7F, 255, 255, 255, 255, 255, 255, 255), 1, INT64_MAX, 1, INT64_MAX, 1);
    see_integer(OCTETS(2, 8, 0x80, 0, 0, 0, 0, 0, 0, 0), 0, 0, 1, INT64_MIN, 1);
    see_integer(OCTETS(2, 9, 0, 255, 255, 255, 255, 255, 255, 255, 255), 1, UINT64_MAX, 0, 0, 1);
    see_integer(OCTETS(2, 9, 1, 0, 0, 0, 0, 0, 0, 0, 0), 0, 0, 0, 0, 1);
    see_integer(OCTETS(2, 0), 0, 0, 0, 0, 0);
    see_integer(OCTETS(2, 2, 0, 0x7F), 0, 0, 0, 0, 0);
    see_integer(OCTETS(2, 2, 0xFF, 0x80), 0, 0, 0, 0, 0);
}

static void see_bit_string(const uint8_t *octets, size_t length, int unused)
{
    der_reader reader = reader_of(octets, length);
    der_bits bits = DER_BITS_INIT;
    der_error error = der_read_bit_string(&reader, DER_BIT_STRING, &bits);
    if (unused >= 0)
        HOLDS(error.kind == DER_OK && bits.unused == unused && bits.length == length - 3 &&
              (bits.length == 0 || bits.octets == octets + 3));
    else
        HOLDS(is_refused(error, &reader, DER_BIT_STRING, length) && bits.length == 0 && bits.unused == 0);
}

static void see_bit_strings(void)
{
    see_bit_string(OCTETS(3, 1, 0), 0);
    see_bit_string(OCTETS(3, 4, 6, 0x6E, 0x5D, 0xC0), 6);
    see_bit_string(OCTETS(3, 4, 6, 0x6E, 0x5D, 0xE0), -1);
    see_bit_string(OCTETS(3, 0), -1);
    see_bit_string(OCTETS(3, 1, 1), -1);
    see_bit_string(OCTETS(3, 2, 8, 0), -1);
}

static void see_null(void)
{
    der_reader reader = reader_of(OCTETS(5, 0, 5, 1, 0));
    HOLDS(der_read_null(&reader, DER_NULL).kind == DER_OK && der_position(&reader) == 2);
    HOLDS(is_refused(der_read_null(&reader, DER_NULL), &reader, DER_NULL, 5));
}

/* An implicit tag, and a tag that is not there. */
static void see_tags(void)
{
    der_reader reader = reader_of(OCTETS(0x81, 1, 5, 0x82, 1, 2));
    uint64_t number = 0;
    bool truth = false;
    HOLDS(der_read_uint64(&reader, DER_CONTEXT(2), &number).kind == DER_TAG_UNEXPECTED && number == 0);
    HOLDS(der_read_uint64(&reader, DER_CONTEXT(1), &number).kind == DER_OK && number == 5);
    HOLDS(is_refused(der_read_boolean(&reader, DER_CONTEXT(2), &truth), &reader, DER_CONTEXT(2), 6) && !truth);
}

static void see_oid(const uint8_t *octets, size_t length, const char *wanted)
{
    der_reader reader = reader_of(octets, length);
    der_span oid = DER_SPAN_INIT;
    der_error error = der_read_oid(&reader, DER_OBJECT_IDENTIFIER, &oid);
    if (!wanted) {
        HOLDS(is_refused(error, &reader, DER_OBJECT_IDENTIFIER, length) && oid.length == 0);
        return;
    }
    HOLDS(error.kind == DER_OK && oid.octets == octets + 2 && oid.length == length - 2);
    char text[80];
    uint8_t back[32];
    size_t count = 99, size = strlen(wanted);
    HOLDS(der_oid_text(oid.octets, oid.length, text, size, &count).kind == DER_OVERLENGTH && count == 99);
    HOLDS(der_oid_text(oid.octets, oid.length, text, size + 1, &count).kind == DER_OK && count == size);
    HOLDS(strcmp(text, wanted) == 0);
    HOLDS(der_oid_from_text(wanted, size, back, sizeof back, &count).kind == DER_OK && count == oid.length);
    HOLDS(memcmp(back, oid.octets, count) == 0);
    HOLDS(der_oid_is(oid.octets, oid.length, wanted, size) && !der_oid_is(oid.octets, oid.length, "2.5.4.4", 7));
}

static void see_oids(void)
{
    see_oid(OCTETS(6, 3, 0x55, 4, 3), "2.5.4.3");
    see_oid(OCTETS(6, 9, 0x2A, 0x86, 0x48, 0x86, 0xF7, 0x0D, 1, 1, 0x0B), "1.2.840.113549.1.1.11");
    see_oid(OCTETS(6, 3, 0x88, 0x37, 3), "2.999.3");
    see_oid(OCTETS(6, 1, 0), "0.0");
    see_oid(OCTETS(6, 1, 0x7F), "2.47");
    /* arcs of 64 and of 128 bits */
    see_oid(OCTETS(6, 11, 0x69, 0x81, 0xFF, 0xFF, 0xFF, 0xFF, 0xFF, 0xFF, 0xFF, 0xFF, 0x7F),
            "2.25.18446744073709551615");
    see_oid(OCTETS(6, 20, 0x69, 0x83, 0xFF, 0xFF, 0xFF, 0xFF, 0xFF, 0xFF, 0xFF, 0xFF, 0xFF, 0xFF, 0xFF, 0xFF, 0xFF, 0xFF,
                   0xFF, 0xFF, 0xFF, 0x7F),
            "2.25.340282366920938463463374607431768211455");
    see_oid(OCTETS(6, 0), NULL);
    see_oid(OCTETS(6, 1, 0x86), NULL);
    see_oid(OCTETS(6, 2, 0x55, 0x84), NULL);
    see_oid(OCTETS(6, 3, 0x55, 0x80, 3), NULL);
}

/* Texts in dotted notation that are none. */
static void see_oid_texts(void)
{
    static const char *const texts[] = {"", "1", "3.1", "1.40", "1.2.", ".1.2", "1..2", "1.02", "1.-2", "1.2a", "a"};
    uint8_t oid[8] = {9};
    size_t count = 99;
    for (size_t i = 0; i < sizeof texts / sizeof *texts; i++) {
        der_error error = der_oid_from_text(texts[i], strlen(texts[i]), oid, sizeof oid, &count);
        HOLDS(error.kind == DER_OID_MALFORMED && count == 99 && oid[0] == 9);
        HOLDS(!der_oid_is(oid, 0, texts[i], strlen(texts[i])));
    }
    HOLDS(der_oid_from_text("2.5.4.3", 7, oid, 2, &count).kind == DER_OVERLENGTH && count == 99 && oid[0] == 9);
    static const uint64_t wanted[] = {2, 999, 3};
    uint64_t arcs[4] = {7, 7, 7, 7};
    HOLDS(der_oid_arcs(OCTETS(0x88, 0x37, 3), arcs, 2, &count).kind == DER_OVERLENGTH && count == 99 && arcs[0] == 7);
    HOLDS(der_oid_arcs(OCTETS(0x88, 0x37, 3), arcs, 3, &count).kind == DER_OK && count == 3);
    HOLDS(memcmp(arcs, wanted, sizeof wanted) == 0 && arcs[3] == 7);
    count = 99;
    HOLDS(der_oid_arcs(OCTETS(0x88), arcs, 4, &count).kind == DER_VALUE && count == 99);
    HOLDS(der_oid_arcs(OCTETS(0x2A, 0x82, 0x80, 0x80, 0x80, 0x80, 0x80, 0x80, 0x80, 0x80, 0), arcs, 4, &count).kind ==
              DER_OVERFLOW &&
          count == 99);
    char text[80];
    HOLDS(der_oid_text(oid, 0, text, sizeof text, &count).kind == DER_VALUE && count == 99);
    /* an arc of 131 bits is no number here */
    HOLDS(der_oid_text(OCTETS(0x69, 0x90, 0x80, 0x80, 0x80, 0x80, 0x80, 0x80, 0x80, 0x80, 0x80, 0x80, 0x80, 0x80, 0x80,
                              0x80, 0x80, 0x80, 0x80, 0x80, 0),
                       text, sizeof text, &count)
                  .kind == DER_OVERFLOW &&
          count == 99);
}

/* A dotted notation is too large only if it is one. An arc under 2.25 is a UUID, a number of 128 bits (X.667). */
static void see_large_oid_texts(void)
{
    static const char *const large[] = {
        "2.25.340282366920938463463374607431768211456", "2.25.340282366920938463463374607431768211456.1",
        "2.340282366920938463463374607431768211376", "1.2.99999999999999999999999999999999999999999999"};
    static const char *const malformed[] = {
        "2.25.0340282366920938463463374607431768211456", "2.25.340282366920938463463374607431768211456.",
        "2.25.340282366920938463463374607431768211456..1", "2.25.340282366920938463463374607431768211456x",
        "2.25.340282366920938463463374607431768211456.01", "340282366920938463463374607431768211456.1",
        "3.340282366920938463463374607431768211456", "1.340282366920938463463374607431768211456",
        "340282366920938463463374607431768211456", "0.40.340282366920938463463374607431768211456"};
    uint8_t oid[257] = {9};
    char text[1024] = "2.5";
    size_t count = 99;
    for (size_t i = 0; i < sizeof large / sizeof *large; i++) {
        HOLDS(der_oid_from_text(large[i], strlen(large[i]), oid, sizeof oid, &count).kind == DER_OVERFLOW);
        HOLDS(count == 99 && oid[0] == 9);
    }
    for (size_t i = 0; i < sizeof malformed / sizeof *malformed; i++) {
        HOLDS(der_oid_from_text(malformed[i], strlen(malformed[i]), oid, sizeof oid, &count).kind == DER_OID_MALFORMED);
        HOLDS(count == 99 && oid[0] == 9);
    }
    /* 256 contents octets, and 257 */
    for (int i = 0; i < 255; i++)
        strcat(text, ".1");
    HOLDS(der_oid_from_text(text, strlen(text), oid, sizeof oid, &count).kind == DER_OK && count == 256);
    HOLDS(oid[0] == 0x55 && oid[1] == 1 && oid[255] == 1);
    strcat(text, ".1");
    HOLDS(der_oid_from_text(text, strlen(text), oid, sizeof oid, &count).kind == DER_OVERFLOW && count == 256);
    strcat(text, ".");
    HOLDS(der_oid_from_text(text, strlen(text), oid, sizeof oid, &count).kind == DER_OID_MALFORMED && count == 256);
    /* 80 + 2^128 - 81 is the largest subidentifier of the first two arcs */
    see_oid(OCTETS(6, 19, 0x83, 0xFF, 0xFF, 0xFF, 0xFF, 0xFF, 0xFF, 0xFF, 0xFF, 0xFF, 0xFF, 0xFF, 0xFF, 0xFF, 0xFF,
                   0xFF, 0xFF, 0xFF, 0x7F),
            "2.340282366920938463463374607431768211375");
}

/* The next tag, of which the identifier alone is read. */
static void see_next_tag(const uint8_t *octets, size_t length, bool ber, der_tag wanted)
{
    der_reader reader = DER_READER_INIT;
    der_tag tag = 99;
    HOLDS(der_reader_init(octets, length, ber, &reader).kind == DER_OK);
    HOLDS(der_peek(&reader, &tag).kind == DER_OK && tag == wanted && der_next_is(&reader, wanted));
    HOLDS(!der_next_is(&reader, wanted + 1) && !der_next_is(&reader, wanted + 256) && !der_next_is(&reader, 0));
    HOLDS(der_position(&reader) == 0 && der_finish(&reader).kind == DER_TRAILING_DATA);
}

/* No tag is next; the reader stays where it is, and has not failed. */
static void see_no_next_tag(const uint8_t *octets, size_t length, bool ber, uint8_t kind, uint32_t position)
{
    der_reader reader = DER_READER_INIT;
    der_tag tag = 99;
    HOLDS(der_reader_init(octets, length, ber, &reader).kind == DER_OK);
    der_error error = der_peek(&reader, &tag);
    HOLDS(error.kind == kind && error.has_position && error.position == position && tag == 99);
    HOLDS(!der_next_is(&reader, length ? octets[0] : 0) && der_position(&reader) == 0);
    HOLDS(der_finish(&reader).kind == (length ? DER_TRAILING_DATA : DER_OK));
}

/* Identifiers by X.690 8.1.2. */
static void see_next_tags(void)
{
    see_next_tag(OCTETS(2, 1, 7), false, DER_INTEGER);
    see_next_tag(OCTETS(0x30), false, DER_SEQUENCE);
    see_next_tag(OCTETS(4, 0x80), true, DER_OCTET_STRING);
    see_next_tag(OCTETS(0x24, 0x80), true, DER_OCTET_STRING); /* of segments (8.7.1) */
    see_next_tag(OCTETS(0xA3, 0), false, DER_CONTEXT(3) | DER_CONSTRUCTED);
    see_next_tag(OCTETS(0x9F, 0x1F), false, DER_CONTEXT(31));
    see_next_tag(OCTETS(0x7F, 0x87, 0x68, 0), false, DER_APPLICATION(1000) | DER_CONSTRUCTED);
    see_next_tag(OCTETS(0xDF, 0x8F, 0xFF, 0xFF, 0xFF, 0x7F), false, DER_PRIVATE(UINT64_C(4294967295)));
    see_no_next_tag(NULL, 0, false, DER_INCOMPLETE, 0);
    see_no_next_tag(OCTETS(0x9F), false, DER_INCOMPLETE, 1);
    see_no_next_tag(OCTETS(0x9F, 0x87), true, DER_INCOMPLETE, 2);
    see_no_next_tag(OCTETS(0, 0), true, DER_TAG_UNKNOWN, 1);
    see_no_next_tag(OCTETS(0x24, 0), false, DER_TAG_UNKNOWN, 1);
    see_no_next_tag(OCTETS(0x1F, 0x1F), false, DER_TAG_NUMBER_INVALID, 1);
    see_no_next_tag(OCTETS(0x9F, 0x1E, 0), false, DER_TAG_NUMBER_INVALID, 2); /* 8.1.2.2: 30 has the short form */
    see_no_next_tag(OCTETS(0x9F, 0x80, 0x1F), false, DER_TAG_NUMBER_INVALID, 2);
    der_reader reader = reader_of(OCTETS(2, 2, 7));
    der_tag tag = 99;
    HOLDS(der_skip(&reader).kind == DER_INCOMPLETE && !der_next_is(&reader, DER_INTEGER));
    HOLDS(der_peek(&reader, &tag).kind == DER_FAILED && tag == 99);
}

/* SEQUENCE { BOOLEAN DEFAULT FALSE, INTEGER OPTIONAL }: both may be missing, and nothing else may be there. */
static void see_fields(const uint8_t *octets, size_t length, bool is_valid, bool is_set, uint64_t wanted)
{
    der_reader reader = reader_of(octets, length), inside = DER_READER_INIT;
    bool value = false;
    uint64_t number = 99;
    HOLDS(der_enter(&reader, DER_SEQUENCE, &inside).kind == DER_OK);
    bool is_read = !(der_next_is(&inside, DER_BOOLEAN) && der_read_boolean(&inside, DER_BOOLEAN, &value).kind) &&
                   !(der_next_is(&inside, DER_INTEGER) && der_read_uint64(&inside, DER_INTEGER, &number).kind);
    HOLDS(is_valid == (is_read && der_finish(&inside).kind == DER_OK) && value == is_set && number == wanted);
}

static void see_optional_values(void)
{
    see_fields(OCTETS(0x30, 0), true, false, 99);
    see_fields(OCTETS(0x30, 3, 1, 1, 0xFF), true, true, 99);
    see_fields(OCTETS(0x30, 3, 2, 1, 5), true, false, 5);
    see_fields(OCTETS(0x30, 6, 1, 1, 0xFF, 2, 1, 0), true, true, 0);
    see_fields(OCTETS(0x30, 6, 2, 1, 5, 1, 1, 0xFF), false, false, 5);
    see_fields(OCTETS(0x30, 6, 1, 1, 0xFF, 2, 1, 0x80), false, true, 99);
    see_fields(OCTETS(0x30, 2, 5, 0), false, false, 99);
    see_fields(OCTETS(0x30, 1, 2), false, false, 99);
}

/* The characters of a string, as numbers; none where the contents are refused. */
static void see_text(const uint8_t *octets, size_t length, const uint32_t *characters, size_t count)
{
    der_reader reader = reader_of(octets, length);
    der_text text = DER_TEXT_INIT;
    uint32_t character = 0;
    der_error error = der_read_text(&reader, octets[0], octets[0], &text);
    if (!characters) {
        HOLDS(is_refused(error, &reader, octets[0], length) && text.length == 0);
        return;
    }
    HOLDS(error.kind == DER_OK && text.octets == octets + 2 && text.length == length - 2 && text.type == octets[0]);
    for (size_t i = 0; i < count; i++)
        HOLDS(der_next_character(&text, &character) && character == characters[i]);
    character = 7;
    HOLDS(!der_next_character(&text, &character) && character == 7);
}

static void see_texts(void)
{
    static const uint32_t utf8[] = {0x53, 0xF6, 0x20AC, 0x1F600}, latin1[] = {0x53, 0xF6}, bmp[] = {0x53, 0x20AC};
    static const uint32_t plain[] = {'A', ' ', '1'};
    see_text(OCTETS(0x0C, 10, 0x53, 0xC3, 0xB6, 0xE2, 0x82, 0xAC, 0xF0, 0x9F, 0x98, 0x80), utf8, 4);
    see_text(OCTETS(0x14, 2, 0x53, 0xF6), latin1, 2);
    see_text(OCTETS(0x1E, 4, 0, 0x53, 0x20, 0xAC), bmp, 2);
    see_text(OCTETS(0x13, 3, 'A', ' ', '1'), plain, 3);
    see_text(OCTETS(0x16, 3, 'A', ' ', '1'), plain, 3);
    see_text(OCTETS(0x1A, 3, 'A', ' ', '1'), plain, 3);
    see_text(OCTETS(0x12, 2, ' ', '1'), plain + 1, 2);
    see_text(OCTETS(0x0C, 0), utf8, 0);
    see_text(OCTETS(0x0C, 1, 0xC3), NULL, 0);
    see_text(OCTETS(0x0C, 3, 0xED, 0xA0, 0x80), NULL, 0); /* a surrogate */
    see_text(OCTETS(0x13, 1, '*'), NULL, 0);
    see_text(OCTETS(0x12, 1, 'A'), NULL, 0);
    see_text(OCTETS(0x16, 1, 0x80), NULL, 0);
    see_text(OCTETS(0x1A, 1, 0x0A), NULL, 0);
    see_text(OCTETS(0x1E, 3, 0, 0x53, 0), NULL, 0);
    der_reader reader = reader_of(OCTETS(0x80, 1, 'A'));
    der_text text = DER_TEXT_INIT;
    HOLDS(der_read_text(&reader, DER_CONTEXT(0), DER_IA5_STRING, &text).kind == DER_OK && text.length == 1);
    reader = reader_of(OCTETS(5, 0));
    HOLDS(der_read_text(&reader, DER_NULL, DER_NULL, &text).kind == DER_TAG_NUMBER_INVALID && text.length == 1);
    HOLDS(der_finish(&reader).kind == DER_FAILED);
}

/* A time as text; without a text there is no such time. */
static void see_time_text(der_time time, const char *wanted)
{
    char text[24] = "#######################";
    size_t count = 99;
    if (!wanted) {
        der_error error = der_time_text(&time, text, sizeof text, &count);
        HOLDS(error.kind == DER_DATE_TIME && !error.has_position && count == 99 && text[0] == '#');
        return;
    }
    HOLDS(der_time_text(&time, text, 20, &count).kind == DER_OVERLENGTH && count == 99 && text[0] == '#');
    HOLDS(der_time_text(&time, text, 21, &count).kind == DER_OK && count == 20);
    HOLDS(strcmp(text, wanted) == 0 && text[21] == '#');
}

/* By RFC 3339 5.6, and its examples in 5.8: 1996-12-19T16:39:57-08:00 is 1996-12-20T00:39:57Z. A leap second
 * is no time of X.690 here. */
static void see_time_texts(void)
{
    see_time_text((der_time){0, 1985, 4, 12, 23, 20, 50}, "1985-04-12T23:20:50Z");
    see_time_text((der_time){0, 1996, 12, 20, 0, 39, 57}, "1996-12-20T00:39:57Z");
    see_time_text((der_time){0, 0, 2, 29, 0, 0, 0}, "0000-02-29T00:00:00Z");
    see_time_text((der_time){0, 9999, 12, 31, 23, 59, 59}, "9999-12-31T23:59:59Z");
    see_time_text((der_time){0, 2026, 11, 29, 11, 24, 0}, "2026-11-29T11:24:00Z");
    see_time_text((der_time){0, 10000, 1, 1, 0, 0, 0}, NULL);
    see_time_text((der_time){0, 2026, 0, 1, 0, 0, 0}, NULL);
    see_time_text((der_time){0, 2026, 2, 29, 0, 0, 0}, NULL);
    see_time_text((der_time){0, 2026, 1, 0, 0, 0, 0}, NULL);
    see_time_text((der_time){0, 2026, 1, 1, 24, 0, 0}, NULL);
    see_time_text((der_time){0, 2026, 1, 1, 0, 60, 0}, NULL);
    see_time_text((der_time){0, 1990, 12, 31, 23, 59, 60}, NULL);
}

static void see_time(const char *octets, bool is_valid, uint16_t year, int64_t seconds)
{
    const uint8_t *at = (const uint8_t *)octets;
    size_t length = strlen(octets);
    der_reader reader = reader_of(at, length);
    der_time time = DER_TIME_INIT;
    der_error error = der_read_time(&reader, at[0], at[0], &time);
    if (!is_valid) {
        HOLDS(is_refused(error, &reader, at[0], length) && time.year == 1970);
        return;
    }
    HOLDS(error.kind == DER_OK && time.year == year && time.seconds == seconds);
    uint8_t out[64];
    der_writer writer = DER_WRITER_INIT;
    der_writer_init(out, sizeof out, &writer);
    HOLDS(der_write_time(&writer, at[0], at[0], &time).kind == DER_OK);
    HOLDS(der_write_time_seconds(&writer, at[0], at[0], seconds).kind == DER_OK);
    HOLDS(der_written(&writer) == 2 * length && memcmp(out, at, length) == 0 && memcmp(out + length, at, length) == 0);
}

/* The seconds are those that `date -u +%s` prints. */
static void see_times(void)
{
    see_time("\x17\x0D" "000229123000Z", true, 2000, 951827400);
    see_time("\x17\x0D" "500101000000Z", true, 1950, -631152000);
    see_time("\x17\x0D" "491231235959Z", true, 2049, 2524607999);
    see_time("\x18\x0F" "20500101000000Z", true, 2050, 2524608000);
    see_time("\x18\x0F" "00000101000000Z", true, 0, -62167219200);
    see_time("\x18\x0F" "99991231235959Z", true, 9999, 253402300799);
    see_time("\x17\x0D" "010229000000Z", false, 0, 0); /* no leap year */
    see_time("\x17\x0D" "001301000000Z", false, 0, 0);
    see_time("\x17\x0D" "000101240000Z", false, 0, 0);
    see_time("\x17\x0D" "000101000060Z", false, 0, 0);
    see_time("\x17\x0B" "0001010000Z", false, 0, 0);
    see_time("\x18\x11" "20500101000000.5Z", false, 0, 0);
    see_time("\x17\x11" "000101000000+0100", false, 0, 0);
}

typedef struct {
    uint8_t octets[64];
    der_writer writer;
} output;

static void start(output *out)
{
    static const der_writer none = DER_WRITER_INIT;
    out->writer = none;
    der_writer_init(out->octets, sizeof out->octets, &out->writer);
}

static bool wrote(output *out, const uint8_t *octets, size_t length)
{
    bool same = der_writer_finish(&out->writer).kind == DER_OK && der_written(&out->writer) == length &&
                memcmp(out->octets, octets, length) == 0;
    start(out);
    return same;
}

/* Nothing is written, and the writer has failed. */
static bool refused(output *out, der_error error, uint8_t kind, der_tag tag)
{
    bool same = error.kind == kind && error.actual == tag % 256 && der_written(&out->writer) == 0 &&
                der_writer_finish(&out->writer).kind == DER_FAILED;
    start(out);
    return same;
}

static void see_writing(void)
{
    output out;
    start(&out);
    HOLDS(!der_write_boolean(&out.writer, DER_BOOLEAN, true).kind && wrote(&out, OCTETS(1, 1, 0xFF)));
    HOLDS(!der_write_uint64(&out.writer, DER_INTEGER, 0).kind && wrote(&out, OCTETS(2, 1, 0)));
    HOLDS(!der_write_uint64(&out.writer, DER_INTEGER, 128).kind && wrote(&out, OCTETS(2, 2, 0, 0x80)));
    HOLDS(!der_write_uint64(&out.writer, DER_INTEGER, UINT64_MAX).kind &&
          wrote(&out, OCTETS(2, 9, 0, 255, 255, 255, 255, 255, 255, 255, 255)));
    HOLDS(!der_write_int64(&out.writer, DER_ENUMERATED, -129).kind && wrote(&out, OCTETS(10, 2, 0xFF, 0x7F)));
    HOLDS(!der_write_int64(&out.writer, DER_CONTEXT(3), INT64_MIN).kind &&
          wrote(&out, OCTETS(0x83, 8, 0x80, 0, 0, 0, 0, 0, 0, 0)));
    HOLDS(!der_write_integer(&out.writer, DER_INTEGER, OCTETS(0, 0x80)).kind && wrote(&out, OCTETS(2, 2, 0, 0x80)));
    HOLDS(refused(&out, der_write_integer(&out.writer, DER_INTEGER, OCTETS(0, 0x7F)), DER_VALUE, DER_INTEGER));
    HOLDS(refused(&out, der_write_integer(&out.writer, DER_INTEGER, NULL, 0), DER_VALUE, DER_INTEGER));
    HOLDS(!der_write_bit_string(&out.writer, DER_BIT_STRING, OCTETS(0x6E, 0xC0), 6).kind &&
          wrote(&out, OCTETS(3, 3, 6, 0x6E, 0xC0)));
    HOLDS(refused(&out, der_write_bit_string(&out.writer, DER_BIT_STRING, OCTETS(0x6E, 0xE0), 6), DER_VALUE,
                  DER_BIT_STRING));
    HOLDS(!der_write_null(&out.writer, DER_NULL).kind && wrote(&out, OCTETS(5, 0)));
    HOLDS(!der_write_oid(&out.writer, DER_OBJECT_IDENTIFIER, OCTETS(0x55, 4, 3)).kind &&
          wrote(&out, OCTETS(6, 3, 0x55, 4, 3)));
    HOLDS(refused(&out, der_write_oid(&out.writer, DER_OBJECT_IDENTIFIER, OCTETS(0x55, 0x84)), DER_VALUE,
                  DER_OBJECT_IDENTIFIER));
    HOLDS(!der_write_oid_text(&out.writer, DER_OBJECT_IDENTIFIER, "2.5.4.3", 7).kind &&
          wrote(&out, OCTETS(6, 3, 0x55, 4, 3)));
    HOLDS(der_write_oid_text(&out.writer, DER_OBJECT_IDENTIFIER, "2.5.4.", 6).kind != DER_OK);
    start(&out);
    HOLDS(!der_write_text(&out.writer, DER_CONTEXT(2), DER_IA5_STRING, OCTETS('a', '@')).kind &&
          wrote(&out, OCTETS(0x82, 2, 'a', '@')));
    HOLDS(refused(&out, der_write_text(&out.writer, DER_PRINTABLE_STRING, DER_PRINTABLE_STRING, OCTETS('a', '@')),
                  DER_VALUE, DER_PRINTABLE_STRING));
    HOLDS(refused(&out, der_write_text(&out.writer, DER_NULL, DER_NULL, OCTETS('a')), DER_VALUE, DER_NULL));
    der_time late = {0, 2050, 1, 1, 0, 0, 0}, none = {0, 2049, 2, 29, 0, 0, 0};
    HOLDS(refused(&out, der_write_time(&out.writer, DER_UTC_TIME, DER_UTC_TIME, &late), DER_VALUE, DER_UTC_TIME));
    HOLDS(refused(&out, der_write_time(&out.writer, DER_UTC_TIME, DER_UTC_TIME, &none), DER_VALUE, DER_UTC_TIME));
    HOLDS(refused(&out, der_write_time_seconds(&out.writer, DER_UTC_TIME, DER_UTC_TIME, 2524608000), DER_VALUE,
                  DER_UTC_TIME));
}

static void see_sets(void)
{
    static const uint8_t nine[] = {2, 1, 9}, large[] = {2, 2, 1, 0}, three[] = {2, 1, 3}, truth[] = {1, 1, 0xFF};
    der_span elements[] = {{nine, 3}, {large, 4}, {three, 3}, {truth, 3}, {three, 3}};
    output out;
    der_mark set = DER_MARK_INIT;
    start(&out);
    der_sort_set(elements, 5);
    HOLDS(der_begin(&out.writer, DER_SET, &set).kind == DER_OK);
    for (size_t i = 0; i < 5; i++)
        HOLDS(der_write(&out.writer, elements[i].octets, elements[i].length).kind == DER_OK);
    HOLDS(der_end(&out.writer, &set).kind == DER_OK);
    HOLDS(wrote(&out, OCTETS(0x31, 16, 1, 1, 0xFF, 2, 1, 3, 2, 1, 3, 2, 1, 9, 2, 2, 1, 0)));
    der_sort_set(NULL, 0);
}

int main(void)
{
    see_booleans();
    see_integers();
    see_bit_strings();
    see_null();
    see_tags();
    see_next_tags();
    see_optional_values();
    see_oids();
    see_oid_texts();
    see_large_oid_texts();
    see_texts();
    see_times();
    see_time_texts();
    see_writing();
    see_sets();
    printf("%d cases hold\n", cases);
    return 0;
}
