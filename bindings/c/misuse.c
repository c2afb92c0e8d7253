/* What calls leave behind when they fail, seen from outside: readers and writers fail, and
 * out-parameters keep their values. It prints how many cases hold, or the first that does not. */
#include <stdio.h>
#include <stdlib.h>
#include <string.h>
#include <yotremul/der.h>

static int cases;

#define HOLDS(it) (++cases, (it) ? (void)0 : give_up(__LINE__, #it))

static void give_up(int line, const char *it)
{
    printf("misuse.c:%d: %s\n", line, it);
    exit(1);
}

static bool is(der_error error, uint8_t kind, uint32_t position, uint32_t first, uint32_t second)
{
    return error.kind == kind && error.has_position && error.position == position && error.first == first &&
           error.second == second;
}

static der_reader reader_of(const uint8_t *octets, size_t length, bool ber)
{
    der_reader reader = DER_READER_INIT;
    HOLDS(der_reader_init(octets, length, ber, &reader).kind == DER_OK);
    return reader;
}

static bool has_failed(der_reader *reader)
{
    der_element element = DER_ELEMENT_INIT;
    return der_finish(reader).kind == DER_FAILED && der_read_element(reader, &element).kind == DER_FAILED;
}

/* An element whose contents are cut is refused alike by all calls, which leave the reader failed. */
static void see_cut(const uint8_t *octets, size_t length, bool ber, der_tag tag, der_error wanted)
{
    const uint8_t mark[] = "mark";
    for (int call = 0; call < 6; call++) {
        der_reader reader = reader_of(octets, length, ber), inside = DER_READER_INIT;
        der_element element = DER_ELEMENT_INIT;
        der_error error = {0, false, 0, 0, 0, 0, 0};
        bool present = true;
        element.contents = mark;
        element.length = 4;
        element.tag = 99;
        if (call == 0)
            error = der_read_element(&reader, &element);
        else if (call == 1)
            error = der_expect(&reader, tag, &element);
        else if (call == 2)
            error = der_enter(&reader, tag, &inside);
        else if (call == 3)
            error = der_skip(&reader);
        else if (call == 4)
            error = der_optional(&reader, tag, &element, &present);
        else {
            der_node node = DER_NODE_INIT;
            size_t count = 7;
            error = der_read_tree(&reader, &node, 1, &count);
            HOLDS(count == 0);
        }
        HOLDS(memcmp(&error, &wanted, sizeof error) == 0);
        HOLDS(has_failed(&reader));
        HOLDS(element.contents == mark && element.length == 4 && element.tag == 99 && present);
        HOLDS(inside.length == 0 && inside.end == 0 && !inside.failed);
    }
}

static void see_cuts(void)
{
    static const uint8_t sequence[] = {0x30, 5, 2, 1, 7};
    static const uint8_t indefinite[] = {0x30, 0x80, 2, 1, 7};
    static const uint8_t huge[] = {4, 0x84, 0xFF, 0xFF, 0xFF, 0xFF, 2, 1, 7};
    static const uint8_t header[] = {0x30, 0x82, 1};
    der_error cut = {DER_INCOMPLETE, true, 0, 0, 2, 7, 5};
    der_error open = {DER_INCOMPLETE, true, 0, 0, 5, 6, 5};
    der_error overflow = {DER_OVERFLOW, false, 0, 0, 0, 0, 0};
    der_error short_header = {DER_INCOMPLETE, true, 0, 0, 3, 4, 3};
    see_cut(sequence, sizeof sequence, false, DER_SEQUENCE, cut);
    see_cut(indefinite, sizeof indefinite, true, DER_SEQUENCE, open);
    see_cut(huge, sizeof huge, false, DER_OCTET_STRING, overflow);
    see_cut(header, sizeof header, false, DER_SEQUENCE, short_header);
}

/* Another tag leaves the reader where it was. */
static void see_tags(void)
{
    static const uint8_t octets[] = {2, 1, 7};
    der_reader reader = reader_of(octets, sizeof octets, false), inside = DER_READER_INIT;
    der_element element = DER_ELEMENT_INIT;
    bool present = true;
    der_error error = der_expect(&reader, DER_SEQUENCE, &element);
    HOLDS(error.kind == DER_TAG_UNEXPECTED && error.expected == 0x30 && error.actual == 2);
    HOLDS(error.has_position && error.position == 0);
    HOLDS(der_enter(&reader, DER_SEQUENCE, &inside).kind == DER_TAG_UNEXPECTED);
    HOLDS(der_optional(&reader, DER_BOOLEAN, &element, &present).kind == DER_OK && !present);
    HOLDS(der_position(&reader) == 0 && !(der_is_finished)(&reader) && !der_is_finished(&reader));
    HOLDS(der_optional(&reader, DER_INTEGER, &element, &present).kind == DER_OK && present && element.length == 1);
    HOLDS(der_optional(&reader, DER_INTEGER, &element, &present).kind == DER_OK && !present);
    HOLDS(element.start == 0 && element.length == 1 && der_position(&reader) == 3);
    /* the function, and not the macro */
    HOLDS((der_is_finished)(&reader) && der_is_finished(&reader) && der_finish(&reader).kind == DER_OK);
    HOLDS(is(der_expect(&reader, DER_INTEGER, &element), DER_INCOMPLETE, 3, 4, 3));
    HOLDS(has_failed(&reader));
}

/* A number that is no tag is reported as such, before what is wrong with the element or the value. */
static void see_no_tag(void)
{
    static const uint8_t octets[] = {2, 1, 7, 4, 1, 8};
    static const der_tag none[] = {0, 7, 0x1F, UINT64_C(0x80) + 256, DER_CONTEXT(31) - 256, UINT64_MAX};
    for (size_t i = 0; i < sizeof none / sizeof *none; i++) {
        der_reader reader = reader_of(octets, sizeof octets, false), inside = DER_READER_INIT;
        der_element element = DER_ELEMENT_INIT;
        bool present = true;
        int64_t number = 5;
        HOLDS(der_expect(&reader, none[i], &element).kind == DER_TAG_NUMBER_INVALID && has_failed(&reader));
        reader = reader_of(octets, sizeof octets, false);
        HOLDS(der_enter(&reader, none[i], &inside).kind == DER_TAG_NUMBER_INVALID && has_failed(&reader));
        reader = reader_of(octets, sizeof octets, false);
        HOLDS(der_optional(&reader, none[i], &element, &present).kind == DER_TAG_NUMBER_INVALID && present);
        HOLDS(has_failed(&reader) && element.length == 0);
        reader = reader_of(octets, sizeof octets, false);
        HOLDS(der_read_int64(&reader, none[i], &number).kind == DER_TAG_NUMBER_INVALID && number == 5);
        HOLDS(has_failed(&reader));
    }
}

/* A second tag that does not match is reported where its header begins. */
static void see_place_of_tag(void)
{
    static const uint8_t octets[] = {0x30, 6, 2, 1, 7, 4, 1, 8};
    der_reader reader = reader_of(octets, sizeof octets, false), inside = DER_READER_INIT;
    der_element element = DER_ELEMENT_INIT;
    HOLDS(der_enter(&reader, DER_SEQUENCE, &inside).kind == DER_OK && der_skip(&inside).kind == DER_OK);
    HOLDS(is(der_expect(&inside, DER_CONTEXT(1000), &element), DER_TAG_UNEXPECTED, 5, 1000, 0));
    HOLDS(is(der_enter(&inside, DER_SET, &reader), DER_TAG_UNEXPECTED, 5, 0, 0) && der_position(&inside) == 5);
}

/* Writing what is no value with what is no tag says that it is no tag, and every error has a text. */
static der_error written(int call, der_writer *writer, der_tag tag)
{
    static const uint8_t long_zero[] = {0, 1};
    const der_time time = {0, 2026, 13, 1, 0, 0, 0};
    switch (call) {
    case 0:
        return der_write_integer(writer, tag, long_zero, 2);
    case 1:
        return der_write_oid(writer, tag, long_zero, 0);
    case 2:
        return der_write_text(writer, tag, DER_NUMERIC_STRING, (const uint8_t *)"a", 1);
    case 3:
        return der_write_bit_string(writer, tag, long_zero, 2, 1);
    case 4:
        return der_write_oid_text(writer, tag, "2.5.29.", 7);
    case 5:
        return der_write_time(writer, tag, DER_UTC_TIME, &time);
    case 6:
        return der_write_time_seconds(writer, tag, DER_UTC_TIME, INT64_MAX);
    default:
        return der_write_time_seconds(writer, tag, DER_UTC_TIME, INT64_C(-62167219200));
    }
}

static void see_no_value(void)
{
    for (int call = 0; call < 8; call++) {
        uint8_t out[16];
        char text[160];
        der_writer writer = DER_WRITER_INIT;
        der_writer_init(out, sizeof out, &writer);
        der_error error = written(call, &writer, 0);
        HOLDS(error.kind == DER_TAG_NUMBER_INVALID && der_written(&writer) == 0);
        HOLDS(der_error_text(error, text, sizeof text) > 0 && strcmp(text, "no error") != 0);
        HOLDS(der_writer_finish(&writer).kind == DER_FAILED);
        der_writer_init(out, sizeof out, &writer);
        error = written(call, &writer, DER_CONTEXT(1000));
        HOLDS(error.kind == DER_VALUE && error.actual == 0x9F && error.second == 1000 && der_written(&writer) == 0);
        HOLDS(der_error_text(error, text, sizeof text) > 0 && strcmp(text, "no error") != 0);
    }
}

/* A number that is too large is no malformed identifier. */
static void see_large_identifiers(void)
{
    uint8_t oid[300];
    char text[1000] = "2.5";
    size_t count = 9;
    HOLDS(der_oid_from_text(DER_LITERAL("2.5.340282366920938463463374607431768211456"), oid, sizeof oid, &count).kind ==
          DER_OVERFLOW);
    for (int i = 0; i < 300; i++)
        strcat(text, ".1");
    HOLDS(der_oid_from_text(text, strlen(text), oid, sizeof oid, &count).kind == DER_OVERFLOW);
    HOLDS(der_oid_from_text(DER_LITERAL("2.5..1"), oid, sizeof oid, &count).kind == DER_OID_MALFORMED && count == 9);
    HOLDS(der_oid_from_text(DER_LITERAL("2.5.29.17"), oid, sizeof oid, &count).kind == DER_OK && count == 3);
    HOLDS(der_oid_is(oid, count, DER_LITERAL("2.5.29.17")) && !der_oid_is(oid, count, DER_LITERAL("2.5.29.1")));
}

/* A call that the rules or the depth refuse makes the reader fail too. */
static void see_rules(void)
{
    static const uint8_t octets[] = {5, 0, 0, 0};
    der_reader reader = reader_of(octets, sizeof octets, false);
    uint32_t count = 9;
    HOLDS(der_scan(&reader, &count).kind == DER_ENCODING_RULES && count == 9);
    HOLDS(has_failed(&reader));
    /* 65 elements, each inside the one before */
    uint8_t deep[131] = {0x30, 0x81, 0x80};
    for (uint8_t i = 0; i < 64; i++) {
        deep[3 + 2 * i] = 0x30;
        deep[4 + 2 * i] = (uint8_t)(126 - 2 * i);
    }
    reader = reader_of(deep, sizeof deep, false);
    for (int level = 0; level < 64; level++) {
        der_reader inside = DER_READER_INIT;
        HOLDS(der_enter(&reader, DER_SEQUENCE, &inside).kind == DER_OK);
        reader = inside;
    }
    der_reader inside = DER_READER_INIT, copy = reader;
    der_element element = DER_ELEMENT_INIT;
    HOLDS(is(der_enter(&reader, DER_SEQUENCE, &inside), DER_NESTING_DEPTH, 131, 0, 0) && has_failed(&reader));
    HOLDS(der_read_element(&copy, &element).kind == DER_OK);
    HOLDS(der_open(&copy, &element, &inside).kind == DER_NESTING_DEPTH && has_failed(&copy));
    HOLDS(inside.length == 0);
}

/* An element of another reader does not make a reader fail. */
static void see_foreign(void)
{
    static const uint8_t octets[] = {0x30, 3, 2, 1, 7}, other[] = {0x30, 0};
    der_reader reader = reader_of(octets, sizeof octets, false), small = reader_of(other, sizeof other, false);
    der_reader inside = DER_READER_INIT;
    der_element element = DER_ELEMENT_INIT;
    der_span span = DER_SPAN_INIT;
    HOLDS(der_read_element(&reader, &element).kind == DER_OK);
    HOLDS(der_open(&small, &element, &inside).kind == DER_READER);
    HOLDS(der_element_octets(&small, &element, &span).kind == DER_READER && span.length == 0);
    HOLDS(der_skip(&small).kind == DER_OK && der_finish(&small).kind == DER_OK);
    HOLDS(der_element_octets(&reader, &element, &span).kind == DER_OK && span.octets == octets && span.length == 5);
    HOLDS(der_open(&reader, &element, &inside).kind == DER_OK);
    /* also one whose positions are in the octets of the other reader */
    static const uint8_t longer[] = {0x30, 3, 1, 1, 0};
    der_reader another = reader_of(longer, sizeof longer, false);
    der_error error = DER_ERROR_INIT;
    span.length = 9;
    HOLDS(der_open(&another, &element, &inside).kind == DER_READER);
    HOLDS(der_element_octets(&another, &element, &span).kind == DER_READER && span.length == 9);
    HOLDS(der_skip(&another).kind == DER_OK && der_finish(&another).kind == error.kind);
}

/* A writer counts the elements that are begun and not ended. */
static void see_marks(void)
{
    static const uint8_t seven[] = {7}, nested[] = {0x30, 5, 0x31, 3, 2, 1, 7};
    uint8_t out[64];
    der_writer writer = DER_WRITER_INIT;
    der_mark outer = DER_MARK_INIT, inner = DER_MARK_INIT;
    der_writer_init(out, sizeof out, &writer);
    HOLDS(der_begin(&writer, DER_SEQUENCE, &outer).kind == DER_OK);
    HOLDS(der_write_element(&writer, DER_INTEGER, seven, 1).kind == DER_OK);
    HOLDS(is(der_writer_finish(&writer), DER_UNBALANCED, 5, 0, 0));
    HOLDS(der_end(&writer, &outer).kind == DER_OK && der_writer_finish(&writer).kind == DER_OK);
    HOLDS(is(der_end(&writer, &outer), DER_UNBALANCED, 5, 0, 0));
    HOLDS(der_writer_finish(&writer).kind == DER_FAILED);

    der_writer_init(out, sizeof out, &writer);
    HOLDS(der_begin(&writer, DER_SEQUENCE, &outer).kind == DER_OK && der_begin(&writer, DER_SET, &inner).kind == DER_OK);
    HOLDS(der_write_element(&writer, DER_INTEGER, seven, 1).kind == DER_OK);
    der_writer copy = writer;
    HOLDS(der_end(&copy, &outer).kind == DER_UNBALANCED && der_writer_finish(&copy).kind == DER_FAILED);
    HOLDS(der_end(&writer, &inner).kind == DER_OK && der_end(&writer, &outer).kind == DER_OK);
    HOLDS(der_writer_finish(&writer).kind == DER_OK && der_written(&writer) == sizeof nested);
    HOLDS(memcmp(out, nested, sizeof nested) == 0);
}

/* A counter fails where a writer would. */
static void see_counter(void)
{
    der_counter counter = DER_COUNTER_INIT;
    der_mark outer = DER_MARK_INIT, inner = DER_MARK_INIT;
    uint32_t count = 9;
    der_counter_init(&counter);
    HOLDS(der_count_begin(&counter, DER_SEQUENCE, &outer).kind == DER_OK);
    HOLDS(der_count_element(&counter, DER_OCTET_STRING, 200).kind == DER_OK);
    HOLDS(is(der_counted(&counter, &count), DER_UNBALANCED, 205, 0, 0) && count == 9);
    HOLDS(der_count_begin(&counter, DER_CONTEXT(1000), &inner).kind == DER_OK);
    der_counter copy = counter;
    HOLDS(der_count_end(&copy, &outer).kind == DER_UNBALANCED && der_counted(&copy, &count).kind == DER_FAILED);
    HOLDS(der_count(&counter, 3).kind == DER_OK && der_count_end(&counter, &inner).kind == DER_OK);
    HOLDS(der_count_end(&counter, &outer).kind == DER_OK);
    /* 2 + 1 of the outer header, 203 of the string, 4 + 3 of the other element */
    HOLDS(der_counted(&counter, &count).kind == DER_OK && count == 213);
    HOLDS(der_count_header(&counter, 7, 0).kind == DER_TAG_NUMBER_INVALID);
    HOLDS(der_counted(&counter, &count).kind == DER_FAILED && count == 213);
    der_counter_init(&counter);
    HOLDS(der_count(&counter, UINT32_MAX).kind == DER_OK);
    HOLDS(is(der_count(&counter, 1), DER_OVERFLOW, UINT32_MAX, 0, 0));
}

/* A text ends with a zero octet, also one that is cut; and every kind has a name. */
static void see_texts(void)
{
    static const uint8_t kinds[] = {
        DER_DATE_TIME, DER_ENCODING_RULES, DER_FAILED, DER_INCOMPLETE, DER_INDEFINITE_LENGTH, DER_LENGTH,
        DER_NESTING_DEPTH, DER_NONCANONICAL, DER_OID_MALFORMED, DER_SET_DUPLICATE, DER_SET_ORDERING, DER_OVERFLOW,
        DER_OVERLENGTH, DER_READER, DER_TAG_MODE_UNKNOWN, DER_TAG_NUMBER_INVALID, DER_TAG_UNEXPECTED,
        DER_TAG_UNKNOWN, DER_TRAILING_DATA, DER_UTF8, DER_VALUE, DER_OUT_OF_MEMORY, DER_UNBALANCED};
    char text[160], cut[5] = "....";
    for (uint8_t i = 0; i < sizeof kinds; i++) {
        bool has_tag = kinds[i] == DER_LENGTH || kinds[i] == DER_NONCANONICAL || kinds[i] == DER_VALUE;
        der_error error = {kinds[i], true, 0, 0, 0, 0, 0};
        error.expected = kinds[i] == DER_TAG_UNEXPECTED ? 2 : 0;
        error.actual = has_tag || kinds[i] == DER_TAG_UNEXPECTED ? 5 : 0;
        HOLDS(kinds[i] == i + 1);
        memset(text, '.', sizeof text);
        HOLDS(der_error_text(error, text, sizeof text) == strlen(text));
        HOLDS(kinds[i] == DER_UTF8 || strcmp(text, "no error") != 0);
    }
    der_error failed = {DER_FAILED, false, 0, 0, 0, 0, 0}, none = {DER_OK, false, 0, 0, 0, 0, 0};
    size_t whole = der_error_text(failed, text, sizeof text);
    HOLDS(whole > 4 && der_error_text(failed, cut, sizeof cut) == 4 && cut[4] == 0 && memcmp(cut, text, 4) == 0);
    HOLDS(der_error_text(failed, NULL, 0) == 0);
    HOLDS(der_error_text(none, text, sizeof text) == 8 && strcmp(text, "no error") == 0);
}

int main(void)
{
    HOLDS(der_version() == DER_VERSION);
    see_cuts();
    see_tags();
    see_no_tag();
    see_place_of_tag();
    see_no_value();
    see_large_identifiers();
    see_rules();
    see_foreign();
    see_marks();
    see_counter();
    see_texts();
    printf("%d cases hold\n", cases);
    return 0;
}
