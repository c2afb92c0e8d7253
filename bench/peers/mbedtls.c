/* The work of calls.c with the reader of mbedTLS, which checks a tag only where one is requested,
 * and with its writer, which writes from the end of a buffer backwards. */
#include <mbedtls/asn1.h>
#include <mbedtls/asn1write.h>
#include <stdint.h>

typedef struct {
    uint64_t elements, contents, octet_sum;
} totals;

typedef struct {
    uint32_t number, length;
    uint8_t class, constructed;
} wanted;

static inline void pass(totals *reported, const uint8_t *contents, size_t length)
{
    reported->elements++;
    reported->contents += length;
    reported->octet_sum += length ? contents[0] : 0;
}

totals mbedtls_walk(const uint8_t *octets, size_t length)
{
    totals reported = {0, 0, 0};
    unsigned char *at = (unsigned char *)octets;
    const unsigned char *end = octets + length;
    while (at < end) {
        size_t count;
        at++;
        if (mbedtls_asn1_get_len(&at, end, &count))
            return reported;
        pass(&reported, at, count);
        at += count;
    }
    return reported;
}

static int walk_part(unsigned char **at, const unsigned char *end, int levels, totals *reported)
{
    while (*at < end) {
        unsigned char tag = *(*at)++;
        size_t count;
        if (mbedtls_asn1_get_len(at, end, &count))
            return 1;
        if (tag & MBEDTLS_ASN1_CONSTRUCTED && levels > 0) {
            pass(reported, *at, 0);
            if (walk_part(at, *at + count, levels - 1, reported))
                return 1;
        } else {
            pass(reported, *at, count);
            *at += count;
        }
    }
    return 0;
}

totals mbedtls_nested(const uint8_t *octets, size_t length)
{
    totals reported = {0, 0, 0};
    unsigned char *at = (unsigned char *)octets;
    walk_part(&at, octets + length, 64, &reported);
    return reported;
}

static int read_key(unsigned char **at, const unsigned char *end, totals *reported)
{
    size_t key, identifier, algorithm, month, own;
    if (mbedtls_asn1_get_tag(at, end, &key, 0x30))
        return 1;
    const unsigned char *key_end = *at + key;
    if (mbedtls_asn1_get_tag(at, key_end, &identifier, 0x30))
        return 1;
    const unsigned char *identifier_end = *at + identifier;
    if (mbedtls_asn1_get_tag(at, identifier_end, &algorithm, 0x04))
        return 1;
    *at += algorithm;
    if (mbedtls_asn1_get_tag(at, identifier_end, &month, 0x04) || month != 1 || **at > 11)
        return 1;
    reported->octet_sum += *(*at)++;
    if (*at != identifier_end || mbedtls_asn1_get_tag(at, key_end, &own, 0x04))
        return 1;
    *at += own;
    reported->elements++;
    reported->contents += algorithm + own;
    return *at != key_end;
}

totals mbedtls_keys(const uint8_t *octets, size_t length)
{
    totals reported = {0, 0, 0};
    unsigned char *at = (unsigned char *)octets;
    while (at < octets + length && !read_key(&at, octets + length, &reported))
        ;
    return reported;
}

totals mbedtls_headers(const wanted *all, size_t count, uint8_t *out, size_t space)
{
    totals reported = {count, space, 0};
    unsigned char *at = out + space;
    for (const wanted *it = all + count; it-- > all;) {
        unsigned char tag = (unsigned char)(it->class << 6 | (it->constructed ? 0x20 : 0) | it->number);
        if (mbedtls_asn1_write_len(&at, out, it->length) < 0 || mbedtls_asn1_write_tag(&at, out, tag) < 0)
            return (totals){0, 0, 0};
    }
    return reported;
}

static int write_element(unsigned char **at, uint8_t *out, uint64_t number)
{
    number = __builtin_bswap64(number);
    return mbedtls_asn1_write_octet_string(at, out, (const unsigned char *)&number, 8);
}

totals mbedtls_elements(const uint64_t *numbers, size_t count, uint8_t *out, size_t space)
{
    totals reported = {count, space, 0};
    unsigned char *at = out + space;
    for (size_t i = count; i-- > 0;)
        if (write_element(&at, out, numbers[i]) < 0)
            return (totals){0, 0, 0};
    return reported;
}

totals mbedtls_sequences(const uint64_t *numbers, size_t count, uint8_t *out, size_t space)
{
    totals reported = {count, space, 0};
    unsigned char *at = out + space;
    for (size_t i = count; i-- > 0;) {
        int sum = 0;
        for (int k = 0; k < 4; k++)
            sum += write_element(&at, out, numbers[i]);
        if (mbedtls_asn1_write_len(&at, out, (size_t)sum) < 0 || mbedtls_asn1_write_tag(&at, out, 0x30) < 0)
            return (totals){0, 0, 0};
    }
    return reported;
}
