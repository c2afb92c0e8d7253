/* Extensions that are found by their type: extensions FILE reads the certificate web.der, whose extensions openssl
 * prints, and lists of extensions that are wrong. */
#include <stdio.h>
#include <stdlib.h>
#include <string.h>
#include <yotremul/der.h>

enum { SPACE = 1 << 10 };

static void must(bool it)
{
    if (!it)
        abort();
}

static bool is_text(der_span span, const char *text)
{
    return span.length == strlen(text) && memcmp(span.octets, text, span.length) == 0;
}

static bool is_oid(der_span span, const char *text)
{
    return der_oid_is(span.octets, span.length, text, strlen(text));
}

/* A reader of the list that a lookup has found. */
static der_reader list_of(der_error error, const der_found *found, bool critical)
{
    der_reader reader = DER_READER_INIT;
    must(error.kind == DER_OK && found->present && found->critical == critical);
    must(der_reader_init(found->contents.octets, found->contents.length, false, &reader).kind == DER_OK);
    return reader;
}

/* web.der was made by openssl 3.0.19 with the extensions of web.cnf:
 *     openssl req -x509 -newkey ec -pkeyopt ec_paramgen_curve:P-256 -nodes -keyout ca.pem -out ca.crt \
 *         -subj /O=Authority -set_serial 0x1234
 *     openssl req -new -newkey ec -pkeyopt ec_paramgen_curve:P-256 -nodes -keyout web.pem -out web.csr \
 *         -subj /CN=example.org
 *     openssl x509 -req -in web.csr -CA ca.crt -CAkey ca.pem -set_serial 0x4321 -extfile web.cnf \
 *         -extensions web -days 30 -outform DER -out web.der
 * The comments below are what `openssl x509 -inform DER -in web.der -noout -ext ..` prints of each. */

/* extendedKeyUsage: `critical`, `TLS Web Server Authentication, TLS Web Client Authentication, Microsoft Smartcard
 * Login`, whose identifiers are those of RFC 5280, 4.2.1.12, and 1.3.6.1.4.1.311.20.2.2. */
static void see_purposes_of_web(der_span extensions)
{
    static const char *const wanted[] = {"1.3.6.1.5.5.7.3.1", "1.3.6.1.5.5.7.3.2", "1.3.6.1.4.1.311.20.2.2"};
    der_found found = DER_FOUND_INIT;
    der_span purpose = DER_SPAN_INIT;
    der_error error = der_extended_key_usage(extensions.octets, extensions.length, &found);
    der_reader purposes = list_of(error, &found, true);
    for (size_t i = 0; i < 3; i++)
        must(der_next_key_purpose(&purposes, &purpose).kind == DER_OK && is_oid(purpose, wanted[i]));
    must(der_is_finished(&purposes) && der_next_key_purpose(&purposes, &purpose).kind == DER_INCOMPLETE);
    must(is_oid(purpose, wanted[2]));
}

static bool has_octets(der_span span, const char *octets, size_t length)
{
    return span.length == length && memcmp(span.octets, octets, length) == 0;
}

/* subjectKeyIdentifier: `7C:51:9F:98:5C:77:F7:86:D0:F9:80:D3:60:6D:61:AB:10:74:16:42`. */
static void see_subject_key_of_web(der_span extensions)
{
    der_found found = DER_FOUND_INIT;
    must(der_subject_key_identifier(extensions.octets, extensions.length, &found).kind == DER_OK);
    must(found.present && !found.critical);
    must(has_octets(found.contents, "\x7C\x51\x9F\x98\x5C\x77\xF7\x86\xD0\xF9\x80\xD3\x60\x6D\x61\xAB\x10\x74\x16\x42",
                    20));
    must(der_subject_key_identifier(NULL, 0, &found).kind == DER_OK && !found.present && found.contents.length == 0);
}

/* authorityKeyIdentifier: `keyid:3F:3D:BD:E7:3A:BC:44:AB:CD:1F:67:41:0C:A7:63:E4:8C:32:77:7F`,
 * `DirName:/O=Authority`, `serial:12:34`. */
static void see_authority_key_of_web(der_span extensions)
{
    der_authority_key key = DER_AUTHORITY_KEY_INIT;
    der_reader names = DER_READER_INIT, levels = DER_READER_INIT, level = DER_READER_INIT;
    der_general_name name = DER_GENERAL_NAME_INIT;
    der_attribute attribute = DER_ATTRIBUTE_INIT;
    must(der_authority_key_identifier(extensions.octets, extensions.length, &key).kind == DER_OK);
    must(key.present && !key.critical && key.has_key_identifier && key.has_issuer && key.has_serial_number);
    must(has_octets(key.key_identifier,
                    "\x3F\x3D\xBD\xE7\x3A\xBC\x44\xAB\xCD\x1F\x67\x41\x0C\xA7\x63\xE4\x8C\x32\x77\x7F", 20));
    must(has_octets(key.serial_number, "\x12\x34", 2));
    must(der_reader_init(key.issuer.octets, key.issuer.length, false, &names).kind == DER_OK);
    must(der_next_general_name(&names, &name).kind == DER_OK && der_finish(&names).kind == DER_OK);
    must(name.kind == DER_DIRECTORY_NAME);
    must(der_reader_init(name.contents.octets, name.contents.length, false, &levels).kind == DER_OK);
    must(der_enter(&levels, DER_SET, &level).kind == DER_OK && der_finish(&levels).kind == DER_OK);
    must(der_next_attribute(&level, &attribute).kind == DER_OK && der_finish(&level).kind == DER_OK);
    must(is_oid(attribute.identifier, "2.5.4.10") && is_text(attribute.value.contents, "Authority"));
}

/* An authorityKeyIdentifier without fields, one with an empty list of names, and one whose fields are in the wrong
 * order. */
static void see_authority_keys(void)
{
    static const uint8_t none[] = {0x30, 9, 6, 3, 0x55, 0x1D, 0x23, 4, 2, 0x30, 0};
    static const uint8_t no_names[] = {0x30, 11, 6, 3, 0x55, 0x1D, 0x23, 4, 4, 0x30, 2, 0xA1, 0};
    static const uint8_t wrong[] = {0x30, 14, 6, 3, 0x55, 0x1D, 0x23, 4, 7, 0x30, 5, 0x82, 1, 5, 0x80, 0};
    der_authority_key key = DER_AUTHORITY_KEY_INIT;
    must(der_authority_key_identifier(none, sizeof none, &key).kind == DER_OK && key.present);
    must(!key.has_key_identifier && !key.has_issuer && !key.has_serial_number);
    must(der_authority_key_identifier(no_names, sizeof no_names, &key).kind == DER_OK);
    must(!key.has_key_identifier && key.has_issuer && key.issuer.length == 0 && !key.has_serial_number);
    must(der_authority_key_identifier(wrong, sizeof wrong, &key).kind != DER_OK && key.has_issuer);
    must(der_authority_key_identifier(NULL, 0, &key).kind == DER_OK && !key.present && !key.has_issuer);
}

/* authorityInfoAccess: `OCSP - URI:http://ocsp.example.org/`, `CA Issuers - URI:http://example.org/ca.crt`,
 * `CA Issuers - DNS:example.org`. The identifiers of OCSP and CA Issuers are those of RFC 5280, 4.2.2.1. */
static void see_access_of_web(der_span extensions)
{
    static const char *const methods[] = {"1.3.6.1.5.5.7.48.1", "1.3.6.1.5.5.7.48.2", "1.3.6.1.5.5.7.48.2"};
    static const char *const places[] = {"http://ocsp.example.org/", "http://example.org/ca.crt", "example.org"};
    static const uint8_t kinds[] = {DER_URI, DER_URI, DER_DNS_NAME};
    der_found found = DER_FOUND_INIT;
    der_access_description description = DER_ACCESS_DESCRIPTION_INIT;
    der_error error = der_authority_information_access(extensions.octets, extensions.length, &found);
    der_reader descriptions = list_of(error, &found, false);
    for (size_t i = 0; i < 3; i++) {
        must(der_next_access_description(&descriptions, &description).kind == DER_OK);
        must(is_oid(description.method, methods[i]) && description.location.kind == kinds[i]);
        must(is_text(description.location.contents, places[i]));
    }
    must(der_is_finished(&descriptions));
    must(der_next_access_description(&descriptions, &description).kind == DER_INCOMPLETE);
    must(is_oid(description.method, methods[2]) && is_text(description.location.contents, places[2]));
    must(der_authority_information_access(NULL, 0, &found).kind == DER_OK && !found.present);
}

static der_reader names_of(der_span names)
{
    der_reader reader = DER_READER_INIT;
    must(der_reader_init(names.octets, names.length, false, &reader).kind == DER_OK);
    return reader;
}

/* The next name is this URI. */
static void see_uri(der_reader *names, const char *uri)
{
    der_general_name name = DER_GENERAL_NAME_INIT;
    must(der_next_general_name(names, &name).kind == DER_OK && name.kind == DER_URI && is_text(name.contents, uri));
}

/* The second of the points below: `Relative Name: CN = lists`, `Reasons: Key Compromise, CA Compromise`,
 * `CRL Issuer: DirName:O = Lists`. */
static void see_relative_point(const der_distribution_point *point)
{
    der_reader level = names_of(point->relative_name), names = names_of(point->list_issuer);
    der_attribute attribute = DER_ATTRIBUTE_INIT;
    der_general_name name = DER_GENERAL_NAME_INIT;
    must(!point->has_full_name && point->full_name.length == 0 && point->has_relative_name);
    must(der_next_attribute(&level, &attribute).kind == DER_OK && der_finish(&level).kind == DER_OK);
    must(is_oid(attribute.identifier, "2.5.4.3") && is_text(attribute.value.contents, "lists"));
    must(point->has_reasons && point->reasons == (DER_KEY_COMPROMISE | DER_CA_COMPROMISE) && point->has_list_issuer);
    must(der_next_general_name(&names, &name).kind == DER_OK && der_finish(&names).kind == DER_OK);
    must(name.kind == DER_DIRECTORY_NAME);
    der_reader levels = names_of(name.contents);
    must(der_enter(&levels, DER_SET, &level).kind == DER_OK && der_finish(&levels).kind == DER_OK);
    must(der_next_attribute(&level, &attribute).kind == DER_OK && der_finish(&level).kind == DER_OK);
    must(is_oid(attribute.identifier, "2.5.4.10") && is_text(attribute.value.contents, "Lists"));
}

/* crlDistributionPoints: `Full Name: URI:http://example.org/a.crl URI:ldap://example.org/b`; the point above; `Full
 * Name: URI:http://example.org/c.crl Reasons: Superseded`. */
static void see_points_of_web(der_span extensions)
{
    der_found found = DER_FOUND_INIT;
    der_distribution_point point = DER_DISTRIBUTION_POINT_INIT;
    der_error error = der_distribution_points(extensions.octets, extensions.length, &found);
    der_reader points = list_of(error, &found, false);
    must(der_next_distribution_point(&points, &point).kind == DER_OK && point.has_full_name);
    der_reader names = names_of(point.full_name);
    see_uri(&names, "http://example.org/a.crl");
    see_uri(&names, "ldap://example.org/b");
    must(der_finish(&names).kind == DER_OK && !point.has_relative_name && !point.has_reasons && !point.has_list_issuer);
    must(point.relative_name.length == 0 && point.list_issuer.length == 0 && point.reasons == 0);
    must(der_next_distribution_point(&points, &point).kind == DER_OK);
    see_relative_point(&point);
    must(der_next_distribution_point(&points, &point).kind == DER_OK && point.has_full_name);
    names = names_of(point.full_name);
    see_uri(&names, "http://example.org/c.crl");
    must(der_finish(&names).kind == DER_OK && !point.has_relative_name && !point.has_list_issuer);
    must(point.has_reasons && point.reasons == DER_SUPERSEDED && der_is_finished(&points));
    must(der_next_distribution_point(&points, &point).kind == DER_INCOMPLETE && point.reasons == DER_SUPERSEDED);
    must(der_distribution_points(NULL, 0, &found).kind == DER_OK && !found.present);
}

static void see_web(const uint8_t *octets, size_t length)
{
    der_certificate certificate = DER_CERTIFICATE_INIT;
    must(der_certificate_read(octets, length, &certificate).kind == DER_OK && certificate.has_extensions);
    see_purposes_of_web(certificate.extensions);
    see_subject_key_of_web(certificate.extensions);
    see_authority_key_of_web(certificate.extensions);
    see_access_of_web(certificate.extensions);
    see_points_of_web(certificate.extensions);
}

/* An extKeyUsage that is wrong, one that is there twice, and one that is absent. */
static void see_wrong_purposes(void)
{
    static const uint8_t wrong[] = {0x30, 0x0F, 6, 3, 0x55, 0x1D, 0x25, 4, 8, 0x30, 6, 6, 1, 0x55, 6, 1, 0x80};
    uint8_t twice[2 * sizeof wrong];
    der_found found = DER_FOUND_INIT;
    der_span purpose = DER_SPAN_INIT;
    der_reader reader = DER_READER_INIT;
    found.critical = true;
    der_error error = der_extended_key_usage(wrong, sizeof wrong, &found);
    must(error.kind == DER_VALUE && error.position == 8 && found.critical);
    memcpy(twice, wrong, sizeof wrong);
    memcpy(twice + sizeof wrong, wrong, sizeof wrong);
    must(der_extended_key_usage(twice, sizeof twice, &found).kind == DER_SET_DUPLICATE && found.critical);
    must(der_extended_key_usage(NULL, 0, &found).kind == DER_OK && !found.present && !found.critical);
    /* an INTEGER in the place of an OBJECT IDENTIFIER leaves the reader */
    must(der_reader_init((const uint8_t *)"\2\1\5", 3, false, &reader).kind == DER_OK);
    must(der_next_key_purpose(&reader, &purpose).kind == DER_TAG_UNEXPECTED && purpose.length == 0);
    must(der_position(&reader) == 0 && der_skip(&reader).kind == DER_OK && der_finish(&reader).kind == DER_OK);
}

/* keyUsage with digitalSignature and keyEncipherment, critical, and other octets that are none. */
static void see_usages(void)
{
    static const uint8_t usages[] = {0x30, 0x0E, 6, 3, 0x55, 0x1D, 0x0F, 1, 1, 0xFF, 4, 4, 3, 2, 5, 0xA0};
    uint8_t twice[2 * sizeof usages], wrong[sizeof usages];
    der_usage usage = DER_USAGE_INIT;
    must(der_key_usage(usages, sizeof usages, &usage).kind == DER_OK);
    must(usage.present && usage.critical && usage.bits == (DER_DIGITAL_SIGNATURE | DER_KEY_ENCIPHERMENT));
    memcpy(twice, usages, sizeof usages);
    memcpy(twice + sizeof usages, usages, sizeof usages);
    usage.bits = 99;
    must(der_key_usage(twice, sizeof twice, &usage).kind == DER_SET_DUPLICATE && usage.bits == 99);
    memcpy(wrong, usages, sizeof usages);
    wrong[14] = 9; /* nine unused bits */
    der_error error = der_key_usage(wrong, sizeof wrong, &usage);
    must(error.kind == DER_VALUE && error.position == 4 && usage.bits == 99);
    must(der_key_usage(NULL, 0, &usage).kind == DER_OK && !usage.present && usage.bits == 0);
}

/* The keyUsage of two roots that Debian trusts, of which `openssl x509 -noout -ext keyUsage` prints `Certificate Sign,
 * CRL Sign`; and a basicConstraints that writes cA FALSE, of which it prints `CA:FALSE`. */
static void see_lenient(void)
{
    static const uint8_t zeros[] = {0x30, 0x0F, 6, 3, 0x55, 0x1D, 0x0F, 1, 1, 0xFF, 4, 5, 3, 3, 7, 6, 0};
    static const uint8_t written[] = {0x30, 0x0F, 6, 3, 0x55, 0x1D, 0x13, 1, 1, 0xFF, 4, 5, 0x30, 3, 1, 1, 0};
    der_usage usage = DER_USAGE_INIT;
    der_constraints constraints = DER_CONSTRAINTS_INIT;
    bool is_der = true;
    must(der_key_usage(zeros, sizeof zeros, &usage).kind == DER_VALUE);
    must(der_key_usage_lenient(zeros, sizeof zeros, &usage, &is_der).kind == DER_OK && !is_der);
    must(usage.present && usage.critical && usage.bits == (DER_KEY_CERT_SIGN | DER_CRL_SIGN));
    must(der_basic_constraints(written, sizeof written, &constraints).kind != DER_OK);
    is_der = true;
    must(der_basic_constraints_lenient(written, sizeof written, &constraints, &is_der).kind == DER_OK && !is_der);
    must(constraints.present && constraints.critical && !constraints.is_authority && !constraints.has_path_length);
    must(der_key_usage_lenient(NULL, 0, &usage, &is_der).kind == DER_OK && is_der && !usage.present);
}

/* Octets that are missing in the value of an extension: as every call on elements says it, of the value. */
static void see_needed(der_error error, uint32_t first, uint32_t second, uint32_t position)
{
    must(error.kind == DER_INCOMPLETE && error.first == first && error.second == second && error.position == position);
}

static void see_cut_values(void)
{
    static const uint8_t usages[] = {0x30, 0x0E, 6, 3, 0x55, 0x1D, 0x0F, 1, 1, 0xFF, 4, 4, 3, 5, 5, 0xA0};
    static const uint8_t header[] = {0x30, 0x0B, 6, 3, 0x55, 0x1D, 0x0F, 1, 1, 0xFF, 4, 1, 3};
    static const uint8_t limits[] = {0x30, 0x0C, 6, 3, 0x55, 0x1D, 0x13, 4, 5, 0x30, 6, 1, 1, 0xFF};
    static const uint8_t named[] = {0x30, 0x0D, 6, 3, 0x55, 0x1D, 0x11, 4, 6, 0x30, 9, 0x82, 2, 'a', 'b'};
    static const uint8_t inner[] = {0x30, 0x0C, 6, 3, 0x55, 0x1D, 0x11, 4, 5, 0x30, 3, 0x82, 2, 'a'};
    static const uint8_t purposes[] = {0x30, 0x0B, 6, 3, 0x55, 0x1D, 0x25, 4, 4, 0x30, 4, 6, 1};
    static const uint8_t key[] = {0x30, 0x0B, 6, 3, 0x55, 0x1D, 0x0E, 4, 4, 4, 8, 1, 2};
    der_usage usage = DER_USAGE_INIT;
    der_constraints constraints = DER_CONSTRAINTS_INIT;
    der_names names = DER_NAMES_INIT;
    der_found found = DER_FOUND_INIT;
    see_needed(der_key_usage(usages, sizeof usages, &usage), 7, 4, 2);
    see_needed(der_key_usage(header, sizeof header, &usage), 2, 1, 1);
    see_needed(der_basic_constraints(limits, sizeof limits, &constraints), 8, 5, 2);
    see_needed(der_subject_alternative_name(named, sizeof named, &names), 11, 6, 2);
    see_needed(der_subject_alternative_name(inner, sizeof inner, &names), 6, 5, 5);
    see_needed(der_extended_key_usage(purposes, sizeof purposes, &found), 6, 4, 2);
    see_needed(der_subject_key_identifier(key, sizeof key, &found), 10, 4, 2);
    /* these need one octet more than there is */
    bool is_der = true;
    see_needed(der_key_usage_lenient(usages, sizeof usages, &usage, &is_der), 5, 4, 4);
    see_needed(der_basic_constraints_lenient(limits, sizeof limits, &constraints, &is_der), 6, 5, 5);
    for (uint32_t cut = 1; cut < sizeof usages; cut++)
        see_needed(der_key_usage(usages, cut, &usage), cut + 1, cut, cut);
    must(!usage.present && !constraints.present && !names.present && !found.present && is_der);
}

int main(int argc, char **argv)
{
    static uint8_t octets[SPACE];
    see_usages();
    see_lenient();
    see_wrong_purposes();
    see_authority_keys();
    see_cut_values();
    for (int i = 1; i < argc; i++) {
        size_t length = strlen(argv[i]);
        if (length < 8 || strcmp(argv[i] + length - 8, "/web.der") != 0)
            continue;
        FILE *file = fopen(argv[i], "rb");
        must(file != NULL);
        see_web(octets, fread(octets, 1, sizeof octets, file));
        fclose(file);
        printf("the extensions of web.der are those that openssl prints\n");
    }
    return 0;
}
