/* Certificates, requests and keys of openssl: certificates FILE .. reads the files by the ends of their
 * names, compares what it knows of them, and changes each octet and cuts each length. An independent
 * walk over the elements (the fuzzer's) has to find the same. It prints how many were read. */
#include "../fuzz/certificate.c"

#include <stdio.h>

enum { SPACE = 1 << 14 };

static long read_count, refused_count;

static bool is_text(der_span span, const char *text)
{
    return span.length == strlen(text) && memcmp(span.octets, text, span.length) == 0;
}


/* The text of the subject C=DE, O=Test & Söhne, CN=example.org as RFC 4514 writes it, at each capacity; and what a
 * name that is cut leaves. */
static void see_text(der_span name)
{
    static const char wanted[] = "CN=example.org,O=Test & S\xC3\xB6hne,C=DE", kept[64] = "";
    char text[64] = "";
    for (size_t room = 0; room <= sizeof text; room++) {
        size_t count = 99;
        der_error error = der_name_text(name.octets, name.length, text, room, &count);
        if (room < sizeof wanted) {
            must(error.kind == DER_OVERLENGTH && count == 99 && memcmp(text, kept, sizeof text) == 0);
        } else {
            must(error.kind == DER_OK && count == sizeof wanted - 1 && memcmp(text, wanted, sizeof wanted) == 0);
            must(memcmp(text + sizeof wanted, kept, sizeof text - sizeof wanted) == 0);
            memset(text, 0, sizeof text);
        }
    }
    for (size_t length = 0; length < name.length; length++) {
        size_t count = 99;
        der_error error = der_name_text(name.octets, length, text, sizeof text, &count);
        must(error.kind == DER_OK || (error.kind == DER_INCOMPLETE && count == 99));
        must(error.kind == DER_OK || memcmp(text, kept, sizeof text) == 0);
        must(length > 0 || (error.kind == DER_OK && count == 0 && text[0] == 0));
        memset(text, 0, sizeof text);
    }
}

/* The subject is C=DE, O=Test & Söhne, CN=example.org. */
static void see_subject(der_span name)
{
    static const char *const identifiers[] = {"2.5.4.6", "2.5.4.10", "2.5.4.3"};
    static const char *const values[] = {"DE", "Test & S\xC3\xB6hne", "example.org"};
    der_reader levels = DER_READER_INIT, level = DER_READER_INIT;
    size_t count = 0;
    must(der_reader_init(name.octets, name.length, false, &levels).kind == DER_OK);
    while (!der_is_finished(&levels)) {
        der_attribute attribute = DER_ATTRIBUTE_INIT;
        must(der_enter(&levels, DER_SET, &level).kind == DER_OK);
        must(der_next_attribute(&level, &attribute).kind == DER_OK && der_finish(&level).kind == DER_OK);
        must(count < 3 && der_oid_is(attribute.identifier.octets, attribute.identifier.length, identifiers[count],
                                     strlen(identifiers[count])));
        must(attribute.value.tag == (count == 0 ? DER_PRINTABLE_STRING : DER_UTF8_STRING));
        must(is_text(attribute.value.contents, values[count]));
        count++;
    }
    must(count == 3);
    see_text(name);
}

static void see_names(der_span extensions)
{
    static const uint8_t address[] = {127, 0, 0, 1};
    der_names found = DER_NAMES_INIT;
    der_reader names = DER_READER_INIT;
    der_general_name name = DER_GENERAL_NAME_INIT;
    must(der_subject_alternative_name(extensions.octets, extensions.length, &found).kind == DER_OK);
    must(found.present && !found.critical);
    must(der_reader_init(found.names.octets, found.names.length, false, &names).kind == DER_OK);
    must(der_next_general_name(&names, &name).kind == DER_OK);
    must(name.kind == DER_DNS_NAME && is_text(name.contents, "example.org"));
    must(der_next_general_name(&names, &name).kind == DER_OK);
    must(name.kind == DER_DNS_NAME && is_text(name.contents, "www.example.org"));
    must(der_next_general_name(&names, &name).kind == DER_OK);
    must(name.kind == DER_IP_ADDRESS && name.contents.length == 4 && memcmp(name.contents.octets, address, 4) == 0);
    must(der_finish(&names).kind == DER_OK);
    must(der_next_general_name(&names, &name).kind == DER_INCOMPLETE && name.kind == DER_IP_ADDRESS);
}

static void see_extension_calls(der_span extensions)
{
    der_usage usage = DER_USAGE_INIT;
    der_constraints constraints = DER_CONSTRAINTS_INIT;
    must(der_key_usage(extensions.octets, extensions.length, &usage).kind == DER_OK && !usage.present);
    must(der_basic_constraints(extensions.octets, extensions.length, &constraints).kind == DER_OK);
    must(constraints.present && constraints.critical && constraints.is_authority && !constraints.has_path_length);
    see_names(extensions);
}

static void see_certificate(const uint8_t *octets, size_t length)
{
    der_certificate certificate = DER_CERTIFICATE_INIT;
    must(der_certificate_read(octets, length, &certificate).kind == DER_OK);
    must(certificate.version == 3 && certificate.not_after - certificate.not_before == 30 * 86400);
    must(certificate.has_extensions && !certificate.has_issuer_unique_id && !certificate.has_subject_unique_id);
    see_subject(certificate.issuer);
    see_subject(certificate.subject);
    see_extension_calls(certificate.extensions);
}

static void see_request(const uint8_t *octets, size_t length)
{
    der_request request = DER_REQUEST_INIT, before = request;
    der_reader attributes = DER_READER_INIT;
    must(der_request_read(octets, length - 1, &request).kind == DER_INCOMPLETE);
    must(memcmp(&request, &before, sizeof before) == 0);
    must(der_request_read(octets, length, &request).kind == DER_OK);
    see_subject(request.subject);
    must(request.signed_part.octets > octets && request.signed_part.octets[0] == 0x30);
    must(request.public_key.whole.octets[0] == 0x30 && request.signature.unused == 0);
    must(der_reader_init(request.attributes.octets, request.attributes.length, false, &attributes).kind == DER_OK);
    must(der_skip(&attributes).kind == DER_OK && der_finish(&attributes).kind == DER_OK);
}

static void see_private_key(const uint8_t *octets, size_t length)
{
    der_private_key key = DER_PRIVATE_KEY_INIT, before = key;
    must(der_private_key_read(octets, length - 1, &key).kind == DER_INCOMPLETE);
    must(memcmp(&key, &before, sizeof before) == 0);
    must(der_private_key_read(octets, length, &key).kind == DER_OK);
    must(key.version == 1 && !key.has_attributes && !key.has_public_key && key.key.length > 0);
    must(key.key.octets + key.key.length == octets + length);
}

/* A list with one entry: number 1234, revoked at 2026-01-02T03:04:05Z because of its key. */
static void see_revocation_list(const uint8_t *octets, size_t length)
{
    der_revocation_list list = DER_REVOCATION_LIST_INIT, before = list;
    der_reader entries = DER_READER_INIT, reasons = DER_READER_INIT;
    der_revoked entry = DER_REVOKED_INIT;
    der_extension reason = DER_EXTENSION_INIT;
    must(der_revocation_list_read(octets, length - 1, &list).kind == DER_INCOMPLETE);
    must(memcmp(&list, &before, sizeof before) == 0);
    must(der_revocation_list_read(octets, length, &list).kind == DER_OK && list.version == 2);
    must(list.has_next_update && list.next_update - list.this_update == 30 * 86400 && list.has_entries);
    see_subject(list.issuer);
    must(der_reader_init(list.entries.octets, list.entries.length, false, &entries).kind == DER_OK);
    must(der_next_revoked(&entries, &entry).kind == DER_OK && der_finish(&entries).kind == DER_OK);
    must(entry.serial_number.length == 2 && memcmp(entry.serial_number.octets, "\x12\x34", 2) == 0);
    must(entry.revocation_date == 1767323045 && entry.has_extensions);
    must(der_reader_init(entry.extensions.octets, entry.extensions.length, false, &reasons).kind == DER_OK);
    must(der_next_extension(&reasons, &reason).kind == DER_OK && der_finish(&reasons).kind == DER_OK);
    must(der_oid_is(reason.identifier.octets, reason.identifier.length, "2.5.29.21", 9) && !reason.critical);
}

/* The octets as they are, with each octet changed, and cut at each length: what is read is checked,
 * and what is refused changes nothing. */
static void see_changes(uint8_t *octets, size_t length)
{
    static const uint8_t marks[] = {0x01, 0x80, 0x20};
    for (size_t at = 0; at < length; at++)
        for (size_t i = 0; i < sizeof marks; i++) {
            octets[at] ^= marks[i];
            LLVMFuzzerTestOneInput(octets, length);
            octets[at] ^= marks[i];
        }
    for (size_t shorter = 0; shorter < length; shorter++) {
        der_certificate certificate = DER_CERTIFICATE_INIT, before = certificate;
        must(der_certificate_read(octets, shorter, &certificate).kind != DER_OK);
        must(memcmp(&certificate, &before, sizeof before) == 0);
        refused_count++;
    }
}

static bool ends_with(const char *path, const char *end)
{
    size_t length = strlen(path), count = strlen(end);
    return length >= count && strcmp(path + length - count, end) == 0;
}

/* Reads the octets as what the end of the path says. */
static der_error read_as(const char *path, const uint8_t *octets, size_t length)
{
    der_certificate certificate = DER_CERTIFICATE_INIT;
    der_request request = DER_REQUEST_INIT;
    der_public_key public_key = DER_PUBLIC_KEY_INIT;
    der_private_key private_key = DER_PRIVATE_KEY_INIT;
    der_revocation_list list = DER_REVOCATION_LIST_INIT;
    if (ends_with(path, "-certificate.der"))
        return der_certificate_read(octets, length, &certificate);
    if (ends_with(path, "-request.der"))
        return der_request_read(octets, length, &request);
    if (ends_with(path, "-public.der"))
        return der_public_key_read(octets, length, &public_key);
    if (ends_with(path, "-private.der"))
        return der_private_key_read(octets, length, &private_key);
    return der_revocation_list_read(octets, length, &list);
}

/* An error of octets that are cut says how many are needed: all, once the header is there. So a caller
 * that reads as many and tries again is done after two rounds. */
static void see_needed(const char *path, const uint8_t *octets, size_t length)
{
    size_t header = octets[1] < 0x80 ? 2 : 2 + (octets[1] & 0x7F);
    for (size_t cut = 0; cut < length; cut++) {
        der_error error = read_as(path, octets, cut);
        must(error.kind == DER_INCOMPLETE && error.second == cut);
        must(error.first == (cut < header ? cut + 1 : length) && error.position == (cut < header ? cut : header));
    }
    must(read_as(path, octets, length).kind == DER_OK);
}

/* Items of a list that are cut say so too, in octets from the start of the list. */
static void see_needed_items(void)
{
    static const uint8_t item[] = {0x30, 6, 6, 1, 0x55, 4, 1, 1}, name[] = {0x82, 3, 'a', 'b', 'c'};
    static const uint8_t entry[] = {0x30, 18, 2, 1, 7, 23, 13, '2', '6', '0', '1', '0', '1', '0', '0', '0', '0', '0', '0', 'Z'};
    for (size_t cut = 2; cut < sizeof entry; cut++) {
        der_reader reader = DER_READER_INIT;
        der_extension extension = DER_EXTENSION_INIT;
        der_attribute attribute = DER_ATTRIBUTE_INIT;
        der_general_name found = DER_GENERAL_NAME_INIT;
        der_revoked revoked = DER_REVOKED_INIT;
        der_error error;
        if (cut < sizeof item) {
            must(der_reader_init(item, cut, false, &reader).kind == DER_OK);
            error = der_next_extension(&reader, &extension);
            must(error.kind == DER_INCOMPLETE && error.first == sizeof item && error.second == cut && error.position == 2);
            must(der_reader_init(item, cut, false, &reader).kind == DER_OK);
            error = der_next_attribute(&reader, &attribute);
            must(error.kind == DER_INCOMPLETE && error.first == sizeof item && error.second == cut && error.position == 2);
        }
        if (cut < sizeof name) {
            must(der_reader_init(name, cut, false, &reader).kind == DER_OK);
            error = der_next_general_name(&reader, &found);
            must(error.kind == DER_INCOMPLETE && error.first == sizeof name && error.second == cut && error.position == 2);
        }
        must(der_reader_init(entry, cut, false, &reader).kind == DER_OK);
        error = der_next_revoked(&reader, &revoked);
        must(error.kind == DER_INCOMPLETE && error.first == sizeof entry && error.second == cut && error.position == 2);
    }
}

int main(int argc, char **argv)
{
    static uint8_t octets[SPACE];
    see_needed_items();
    for (int i = 1; i < argc; i++) {
        FILE *file = fopen(argv[i], "rb");
        must(file != NULL);
        size_t length = fread(octets, 1, sizeof octets, file);
        fclose(file);
        if (ends_with(argv[i], "-certificate.der")) {
            see_certificate(octets, length);
            LLVMFuzzerTestOneInput(octets, length);
            see_changes(octets, length);
        } else if (ends_with(argv[i], "web.der")) {
            LLVMFuzzerTestOneInput(octets, length);
            see_changes(octets, length);
            continue;
        } else if (ends_with(argv[i], "-public.der")) {
            der_public_key key = DER_PUBLIC_KEY_INIT;
            must(der_public_key_read(octets, length, &key).kind == DER_OK && key.key.unused == 0);
            must(der_public_key_read(octets, length - 1, &key).kind == DER_INCOMPLETE);
            must(key.whole.octets == octets && key.whole.length == length);
        } else if (ends_with(argv[i], "-request.der")) {
            see_request(octets, length);
        } else if (ends_with(argv[i], "-private.der")) {
            see_private_key(octets, length);
        } else if (ends_with(argv[i], "-list.der")) {
            see_revocation_list(octets, length);
        } else {
            continue;
        }
        see_needed(argv[i], octets, length);
        read_count++;
    }
    printf("%ld files, %ld cuts refused\n", read_count, refused_count);
    return 0;
}
