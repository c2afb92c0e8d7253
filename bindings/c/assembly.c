/* What is written from parts, with the octets that X.690 and the RFCs demand, each refusal, and what a
 * failed writer says. It prints how many cases hold, or the first that does not. */
#include <stdio.h>
#include <stdlib.h>
#include <string.h>
#include <yotremul/der.h>

static int cases;

#define HOLDS(it) (++cases, (it) ? (void)0 : give_up(__LINE__, #it))
#define OCTETS(...) (const uint8_t[]){__VA_ARGS__}, sizeof((const uint8_t[]){__VA_ARGS__})

static void give_up(int line, const char *it)
{
    printf("assembly.c:%d: %s\n", line, it);
    exit(1);
}

static uint8_t space[70000];

static der_writer writer_of(size_t length)
{
    der_writer writer = DER_WRITER_INIT;
    der_writer_init(space, length, &writer);
    return writer;
}

static bool has_written(const der_writer *writer, const uint8_t *octets, size_t length)
{
    return der_writer_finish(writer).kind == DER_OK && der_written(writer) == length &&
           memcmp(space, octets, length) == 0;
}

/* The element is refused with a value of this tag, and the writer has failed. */
static bool is_refused(der_error error, const der_writer *writer, uint8_t tag)
{
    return error.kind == DER_VALUE && error.actual == tag && !error.has_position && der_written(writer) == 0 &&
           der_writer_finish(writer).kind == DER_FAILED;
}

static void see_parts(void)
{
    static const uint8_t long_part[40000] = {0};
    der_span parts[] = {{(const uint8_t *)"\x02\x01\x05", 3}, DER_SPAN_INIT, {(const uint8_t *)"\x05\x00", 2}};
    der_span long_parts[] = {{long_part, sizeof long_part}, {long_part, 20000}};
    der_writer writer = writer_of(sizeof space);
    HOLDS(der_write_parts(&writer, DER_SEQUENCE, parts, 3).kind == DER_OK);
    HOLDS(has_written(&writer, OCTETS(0x30, 0x05, 0x02, 0x01, 0x05, 0x05, 0x00)));
    writer = writer_of(sizeof space);
    HOLDS(der_write_parts(&writer, DER_SET, NULL, 0).kind == DER_OK && has_written(&writer, OCTETS(0x31, 0x00)));
    /* 60000 octets, whose length is EA60 */
    writer = writer_of(sizeof space);
    HOLDS(der_write_parts(&writer, DER_OCTET_STRING, long_parts, 2).kind == DER_OK && der_written(&writer) == 60004);
    HOLDS(memcmp(space, "\x04\x82\xEA\x60\x00", 5) == 0);
    /* the header fits, and the contents do not: nothing of them is written */
    writer = writer_of(6);
    memset(space, 0xAA, sizeof space);
    der_error error = der_write_parts(&writer, DER_SEQUENCE, parts, 3);
    HOLDS(error.kind == DER_OVERLENGTH && error.has_position && error.position == 7);
    HOLDS(der_written(&writer) == 2 && space[2] == 0xAA && der_writer_finish(&writer).kind == DER_FAILED);
    error = der_write_parts(&writer, DER_SEQUENCE, parts, 3);
    HOLDS(error.kind == DER_FAILED && error.position == 2);
    writer = writer_of(sizeof space);
    HOLDS(der_write_parts(&writer, 0, parts, 3).kind == DER_TAG_NUMBER_INVALID && der_written(&writer) == 0);
}

/* CN=a, as openssl writes it: `openssl req -x509 .. -subj /CN=a`, and O=b as a PrintableString. */
static void see_attributes(void)
{
    der_writer writer = writer_of(sizeof space);
    der_write_name_attribute(&writer, DER_ID_COMMON_NAME, DER_UTF8_STRING, (const uint8_t *)"a", 1);
    HOLDS(has_written(&writer, OCTETS(0x31, 0x0A, 0x30, 0x08, 0x06, 0x03, 0x55, 0x04, 0x03, 0x0C, 0x01, 'a')));
    writer = writer_of(sizeof space);
    der_write_name_attribute(&writer, DER_ID_ORGANIZATION_NAME, DER_PRINTABLE_STRING, (const uint8_t *)"b", 1);
    HOLDS(has_written(&writer, OCTETS(0x31, 0x0A, 0x30, 0x08, 0x06, 0x03, 0x55, 0x04, 0x0A, 0x13, 0x01, 'b')));
    /* no OBJECT IDENTIFIER; characters that a type has not; no string type */
    writer = writer_of(sizeof space);
    HOLDS(is_refused(der_write_name_attribute(&writer, OCTETS(0x80, 0x01), DER_UTF8_STRING, (const uint8_t *)"a", 1),
                     &writer, 0x31));
    writer = writer_of(sizeof space);
    HOLDS(is_refused(der_write_name_attribute(&writer, DER_ID_COMMON_NAME, DER_PRINTABLE_STRING,
                                              (const uint8_t *)"@", 1), &writer, 0x31));
    writer = writer_of(sizeof space);
    HOLDS(is_refused(der_write_name_attribute(&writer, DER_ID_COMMON_NAME, DER_INTEGER, (const uint8_t *)"a", 1),
                     &writer, 0x31));
}

/* A keyUsage of digitalSignature (RFC 5280, 4.2.1.3), and the same that is critical. */
static void see_extensions(void)
{
    static const uint8_t usage[] = {0x03, 0x02, 0x07, 0x80};
    der_writer writer = writer_of(sizeof space);
    der_write_extension(&writer, DER_ID_KEY_USAGE, false, usage, sizeof usage);
    HOLDS(has_written(&writer, OCTETS(0x30, 0x0B, 0x06, 0x03, 0x55, 0x1D, 0x0F, 0x04, 0x04, 0x03, 0x02, 0x07, 0x80)));
    writer = writer_of(sizeof space);
    der_write_extension(&writer, DER_ID_KEY_USAGE, true, usage, sizeof usage);
    HOLDS(has_written(&writer, OCTETS(0x30, 0x0E, 0x06, 0x03, 0x55, 0x1D, 0x0F, 0x01, 0x01, 0xFF, 0x04, 0x04, 0x03,
                                      0x02, 0x07, 0x80)));
    writer = writer_of(sizeof space);
    HOLDS(is_refused(der_write_extension(&writer, NULL, 0, true, usage, sizeof usage), &writer, 0x30));
    writer = writer_of(sizeof space);
    der_write_algorithm(&writer, DER_ID_ED25519, false);
    HOLDS(has_written(&writer, OCTETS(0x30, 0x05, 0x06, 0x03, 0x2B, 0x65, 0x70)));
    writer = writer_of(sizeof space);
    HOLDS(is_refused(der_write_algorithm(&writer, OCTETS(0x2B, 0x80), true), &writer, 0x30));
}

/* 1949-12-31T23:59:59Z and 1950-01-01; 2049-12-31T23:59:59Z and 2050-01-01 (RFC 5280, 4.1.2.5). */
static void see_validity(void)
{
    der_writer writer = writer_of(sizeof space);
    der_write_validity(&writer, -631152001, -631152000);
    HOLDS(der_writer_finish(&writer).kind == DER_OK && der_written(&writer) == 34);
    HOLDS(memcmp(space, "\x30\x20\x18\x0F" "19491231235959Z" "\x17\x0D" "500101000000Z", 34) == 0);
    writer = writer_of(sizeof space);
    der_write_validity(&writer, 2524607999, 2524608000);
    HOLDS(der_writer_finish(&writer).kind == DER_OK && der_written(&writer) == 34);
    HOLDS(memcmp(space, "\x30\x20\x17\x0D" "491231235959Z" "\x18\x0F" "20500101000000Z", 34) == 0);
    /* after 9999-12-31T23:59:59Z no type has a time */
    writer = writer_of(sizeof space);
    HOLDS(der_write_validity(&writer, 0, 253402300800).kind == DER_VALUE);
    HOLDS(der_writer_finish(&writer).kind == DER_FAILED);
}

/* Parts without extensions; a serial number that is none. */
static void see_structures(void)
{
    der_certificate_parts parts = DER_CERTIFICATE_PARTS_INIT;
    der_writer writer = writer_of(sizeof space);
    der_write_request_part(&writer, OCTETS(0x30, 0x00), OCTETS(0x05, 0x00), NULL, 0);
    HOLDS(has_written(&writer, OCTETS(0x30, 0x09, 0x02, 0x01, 0x00, 0x30, 0x00, 0x05, 0x00, 0xA0, 0x00)));
    writer = writer_of(sizeof space);
    HOLDS(is_refused(der_write_certificate_part(&writer, &parts), &writer, 0x30));
    parts.serial_number = (der_span){(const uint8_t *)"\x00\x80", 2};
    writer = writer_of(sizeof space);
    der_write_certificate_part(&writer, &parts);
    HOLDS(has_written(&writer, OCTETS(0x30, 0x09, 0xA0, 0x03, 0x02, 0x01, 0x02, 0x02, 0x02, 0x00, 0x80)));
    writer = writer_of(sizeof space);
    der_write_signed(&writer, OCTETS(0x30, 0x00), OCTETS(0x30, 0x00), OCTETS(0x12, 0x34));
    HOLDS(has_written(&writer, OCTETS(0x30, 0x09, 0x30, 0x00, 0x30, 0x00, 0x03, 0x03, 0x00, 0x12, 0x34)));
    writer = writer_of(8);
    HOLDS(der_write_signed(&writer, OCTETS(0x30, 0x00), OCTETS(0x30, 0x00), OCTETS(0x12, 0x34)).kind == DER_OVERLENGTH);
}

int main(void)
{
    see_parts();
    see_attributes();
    see_extensions();
    see_validity();
    see_structures();
    printf("%d cases\n", cases);
    return 0;
}
