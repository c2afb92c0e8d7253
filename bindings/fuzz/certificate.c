/* A driver for libFuzzer: a certificate that the library reads is read again by an independent walk
 * over its elements, and each field has to be the same octets. Then all its names, extensions and
 * general names are read: none may be an error, and each lies in the certificate. */
#define _DEFAULT_SOURCE /* timegm */
#include <stdlib.h>
#include <time.h>
#include <yotremul/der.h>

#include "../c/oracle.h"

static const uint8_t *input;

static void must(bool it)
{
    if (!it)
        abort();
}

/* A part of the input that the independent walk is in. */
typedef struct {
    uint32_t at, end;
} part;

static bool is_next(const part *it, uint8_t tag)
{
    return it->at < it->end && input[it->at] == tag;
}

/* The next element, whose contents are a part. */
static part take(part *it, uint8_t tag)
{
    must(is_next(it, tag));
    answer found = by_hand(input, it->at, it->end, false);
    must(found.error.kind == DER_OK);
    it->at = found.head + found.length;
    return (part){found.head, it->at};
}

static bool is_span(der_span span, part it)
{
    return span.octets == input + it.at && span.length == it.end - it.at;
}

static void see_algorithm(const der_algorithm *found, part it)
{
    must(is_span(found->identifier, take(&it, 0x06)));
    if (it.at == it.end) {
        must(found->parameters.tag == 0);
        return;
    }
    must(found->parameters.tag % 256 == input[it.at]);
    must(is_span(found->parameters.contents, take(&it, input[it.at])));
    must(it.at == it.end);
}

static void see_bits(const der_bits *found, part it)
{
    must(it.at < it.end && found->unused == input[it.at]);
    must(found->length == it.end - it.at - 1);
    must(found->length == 0 || found->octets == input + it.at + 1);
}

static int two(const uint8_t *digits)
{
    return (digits[0] - '0') * 10 + digits[1] - '0';
}

static void see_time(int64_t found, part *it)
{
    bool is_utc = is_next(it, 0x17);
    part contents = take(it, is_utc ? 0x17 : 0x18);
    const uint8_t *digits = input + contents.at;
    int year = is_utc ? two(digits) + (two(digits) < 50 ? 2000 : 1900) : 100 * two(digits) + two(digits + 2);
    digits += is_utc ? 2 : 4;
    struct tm fields = {0};
    fields.tm_year = year - 1900;
    fields.tm_mon = two(digits) - 1;
    fields.tm_mday = two(digits + 2);
    fields.tm_hour = two(digits + 4);
    fields.tm_min = two(digits + 6);
    fields.tm_sec = two(digits + 8);
    must(contents.end - contents.at == (is_utc ? 13u : 15u) && timegm(&fields) == found);
}

static void see_signed(const der_certificate *found, part it)
{
    uint8_t version = 1;
    if (is_next(&it, 0xA0)) {
        part inside = take(&it, 0xA0), number = take(&inside, 0x02);
        must(inside.at == inside.end && number.end - number.at == 1);
        version = (uint8_t)(input[number.at] + 1);
    }
    must(found->version == version);
    must(is_span(found->serial_number, take(&it, 0x02)));
    see_algorithm(&found->signed_algorithm, take(&it, 0x30));
    must(is_span(found->issuer, take(&it, 0x30)));
    part validity = take(&it, 0x30);
    see_time(found->not_before, &validity);
    see_time(found->not_after, &validity);
    must(validity.at == validity.end && is_span(found->subject, take(&it, 0x30)));
    uint32_t key_start = it.at;
    part key = take(&it, 0x30);
    must(is_span(found->public_key.whole, (part){key_start, key.end}));
    see_algorithm(&found->public_key.algorithm, take(&key, 0x30));
    see_bits(&found->public_key.key, take(&key, 0x03));
    must(key.at == key.end);
    must(found->has_issuer_unique_id == is_next(&it, 0x81));
    if (found->has_issuer_unique_id)
        see_bits(&found->issuer_unique_id, take(&it, 0x81));
    must(found->has_subject_unique_id == is_next(&it, 0x82));
    if (found->has_subject_unique_id)
        see_bits(&found->subject_unique_id, take(&it, 0x82));
    must(found->has_extensions == is_next(&it, 0xA3));
    if (found->has_extensions) {
        part inside = take(&it, 0xA3);
        must(is_span(found->extensions, take(&inside, 0x30)) && inside.at == inside.end);
    }
    must(it.at == it.end);
}

static void see_inside(const uint8_t *octets, size_t count)
{
    must(count == 0 || octets >= input);
    uint8_t sum = 0;
    for (size_t i = 0; i < count; i++)
        sum = (uint8_t)(sum + octets[i]);
    (void)sum;
}

static void see_name(der_span name)
{
    der_reader levels = DER_READER_INIT, level = DER_READER_INIT;
    must(der_reader_init(name.octets, name.length, false, &levels).kind == DER_OK);
    while (!der_is_finished(&levels)) {
        must(der_enter(&levels, DER_SET, &level).kind == DER_OK);
        while (!der_is_finished(&level)) {
            der_attribute attribute = DER_ATTRIBUTE_INIT;
            must(der_next_attribute(&level, &attribute).kind == DER_OK);
            see_inside(attribute.identifier.octets, attribute.identifier.length);
            see_inside(attribute.value.contents.octets, attribute.value.contents.length);
        }
    }
}

/* Makes |reader| a reader of the list that a lookup has found; false if it has found none. */
static bool is_list(der_error error, const der_found *found, der_reader *reader)
{
    if (error.kind) {
        must(!found->present && !found->critical && found->contents.length == 0);
        return false;
    }
    must(found->present || (!found->critical && found->contents.length == 0));
    must(der_reader_init(found->contents.octets, found->contents.length, false, reader).kind == DER_OK);
    return found->present;
}

static void see_purposes(der_span extensions)
{
    der_found found = DER_FOUND_INIT;
    der_reader reader = DER_READER_INIT;
    der_error error = der_extended_key_usage(extensions.octets, extensions.length, &found);
    if (!is_list(error, &found, &reader))
        return;
    while (!der_is_finished(&reader)) {
        der_span purpose = DER_SPAN_INIT;
        must(der_next_key_purpose(&reader, &purpose).kind == DER_OK && purpose.length > 0);
        see_inside(purpose.octets, purpose.length);
    }
}

static void see_general_names(der_span names)
{
    der_reader reader = DER_READER_INIT;
    must(der_reader_init(names.octets, names.length, false, &reader).kind == DER_OK);
    while (!der_is_finished(&reader)) {
        der_general_name name = DER_GENERAL_NAME_INIT;
        must(der_next_general_name(&reader, &name).kind == DER_OK);
        see_inside(name.contents.octets, name.contents.length);
    }
}

static void see_key_identifiers(der_span extensions)
{
    der_found found = DER_FOUND_INIT;
    der_authority_key key = DER_AUTHORITY_KEY_INIT;
    if (der_subject_key_identifier(extensions.octets, extensions.length, &found).kind)
        must(!found.present && found.contents.length == 0);
    see_inside(found.contents.octets, found.contents.length);
    if (der_authority_key_identifier(extensions.octets, extensions.length, &key).kind)
        must(!key.present);
    must(key.present || (!key.critical && !key.has_key_identifier && !key.has_issuer && !key.has_serial_number));
    must(key.has_key_identifier || key.key_identifier.length == 0);
    must(key.has_serial_number == (key.serial_number.length > 0) && (key.has_issuer || key.issuer.length == 0));
    see_inside(key.key_identifier.octets, key.key_identifier.length);
    see_general_names(key.issuer);
}

static void see_access(der_span extensions)
{
    der_found found = DER_FOUND_INIT;
    der_reader reader = DER_READER_INIT;
    der_error error = der_authority_information_access(extensions.octets, extensions.length, &found);
    if (!is_list(error, &found, &reader))
        return;
    while (!der_is_finished(&reader)) {
        der_access_description description = DER_ACCESS_DESCRIPTION_INIT;
        must(der_next_access_description(&reader, &description).kind == DER_OK && description.method.length > 0);
        see_inside(description.method.octets, description.method.length);
        see_inside(description.location.contents.octets, description.location.contents.length);
    }
}

static void see_distribution_points(der_span extensions)
{
    der_found found = DER_FOUND_INIT;
    der_reader reader = DER_READER_INIT, level = DER_READER_INIT;
    der_error error = der_distribution_points(extensions.octets, extensions.length, &found);
    if (!is_list(error, &found, &reader))
        return;
    while (!der_is_finished(&reader)) {
        der_distribution_point point = DER_DISTRIBUTION_POINT_INIT;
        must(der_next_distribution_point(&reader, &point).kind == DER_OK);
        must(!point.has_full_name || !point.has_relative_name);
        must(point.has_full_name || point.full_name.length == 0);
        must(point.has_relative_name || point.relative_name.length == 0);
        must(point.has_list_issuer || point.list_issuer.length == 0);
        must(point.has_reasons || point.reasons == 0);
        see_general_names(point.full_name);
        see_general_names(point.list_issuer);
        must(der_reader_init(point.relative_name.octets, point.relative_name.length, false, &level).kind == DER_OK);
        while (!der_is_finished(&level)) {
            der_attribute attribute = DER_ATTRIBUTE_INIT;
            must(der_next_attribute(&level, &attribute).kind == DER_OK);
        }
    }
}

static void see_extensions(der_span extensions)
{
    der_reader reader = DER_READER_INIT;
    must(der_reader_init(extensions.octets, extensions.length, false, &reader).kind == DER_OK);
    while (!der_is_finished(&reader)) {
        der_extension extension = DER_EXTENSION_INIT;
        must(der_next_extension(&reader, &extension).kind == DER_OK);
        see_inside(extension.identifier.octets, extension.identifier.length);
        see_inside(extension.value.octets, extension.value.length);
    }
    der_usage usage = DER_USAGE_INIT;
    der_constraints constraints = DER_CONSTRAINTS_INIT;
    der_names names = DER_NAMES_INIT;
    see_purposes(extensions);
    see_key_identifiers(extensions);
    see_access(extensions);
    see_distribution_points(extensions);
    if (der_key_usage(extensions.octets, extensions.length, &usage).kind)
        must(!usage.present && usage.bits == 0);
    if (der_basic_constraints(extensions.octets, extensions.length, &constraints).kind)
        must(!constraints.present && constraints.path_length == 0);
    if (der_subject_alternative_name(extensions.octets, extensions.length, &names).kind || !names.present)
        return;
    see_general_names(names.names);
}

int LLVMFuzzerTestOneInput(const uint8_t *octets, size_t count);
int LLVMFuzzerTestOneInput(const uint8_t *octets, size_t count)
{
    der_certificate certificate = DER_CERTIFICATE_INIT;
    if (der_certificate_read(octets, count, &certificate).kind)
        return 0;
    input = octets;
    part all = {0, (uint32_t)count}, inside = take(&all, 0x30);
    must(all.at == all.end);
    uint32_t start = inside.at;
    part to_be_signed = take(&inside, 0x30);
    must(is_span(certificate.signed_part, (part){start, to_be_signed.end}));
    see_signed(&certificate, to_be_signed);
    see_algorithm(&certificate.signature_algorithm, take(&inside, 0x30));
    see_bits(&certificate.signature, take(&inside, 0x03));
    must(inside.at == inside.end);
    see_name(certificate.issuer);
    see_name(certificate.subject);
    see_extensions(certificate.extensions);
    return 0;
}
