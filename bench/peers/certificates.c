/* Certificates in sequence, read with OpenSSL and with mbedTLS, and walked: each function returns
 * their number. One certificate, written |times| times with OpenSSL. And a revocation list, of which
 * the number of entries is returned. */
#include <openssl/x509v3.h>
#include <stdint.h>

uint64_t openssl_certificates(const uint8_t *octets, size_t len)
{
    const unsigned char *upcoming = octets;
    uint64_t count = 0;
    while (upcoming < octets + len) {
        X509 *certificate = d2i_X509(NULL, &upcoming, octets + len - upcoming);
        if (certificate == NULL)
            break;
        X509_free(certificate);
        count += 1;
    }
    return count;
}

/* The DNS names of each certificate are counted; the result is the number of certificates. */
uint64_t openssl_dns_names(const uint8_t *octets, size_t len)
{
    const unsigned char *upcoming = octets;
    uint64_t count = 0, hosts = 0;
    while (upcoming < octets + len) {
        X509 *certificate = d2i_X509(NULL, &upcoming, octets + len - upcoming);
        if (certificate == NULL)
            break;
        GENERAL_NAMES *names = X509_get_ext_d2i(certificate, NID_subject_alt_name, NULL, NULL);
        for (int at = 0; at < sk_GENERAL_NAME_num(names); at += 1)
            if (sk_GENERAL_NAME_value(names, at)->type == GEN_DNS)
                hosts += 1;
        GENERAL_NAMES_free(names);
        X509_free(certificate);
        count += 1;
    }
    return hosts == 0 ? 0 : count;
}

/* OpenSSL keeps the octets that it read, and writes the certificate's contents from them. */
uint64_t openssl_written(const uint8_t *octets, size_t len, uint64_t times)
{
    const unsigned char *upcoming = octets;
    X509 *certificate = d2i_X509(NULL, &upcoming, (long)len);
    uint64_t count = 0;
    while (certificate != NULL && count < times) {
        unsigned char *written = NULL;
        if (i2d_X509(certificate, &written) != (int)len)
            break;
        OPENSSL_free(written);
        count += 1;
    }
    X509_free(certificate);
    return count;
}

uint64_t openssl_revocation_list(const uint8_t *octets, size_t len)
{
    const unsigned char *upcoming = octets;
    X509_CRL *list = d2i_X509_CRL(NULL, &upcoming, (long)len);
    if (list == NULL)
        return 0;
    STACK_OF(X509_REVOKED) *entries = X509_CRL_get_REVOKED(list);
    uint64_t count = 0;
    for (int at = 0; at < sk_X509_REVOKED_num(entries); at += 1)
        if (X509_REVOKED_get0_serialNumber(sk_X509_REVOKED_value(entries, at)) != NULL)
            count += 1;
    X509_CRL_free(list);
    return count;
}

/* The length of the next element with its header, if its length has three octets; else 0. */
static size_t element_len(const uint8_t *upcoming, const uint8_t *end)
{
    if (end - upcoming < 4 || upcoming[0] != 0x30 || upcoming[1] != 0x82)
        return 0;
    size_t len = 4 + (size_t)(upcoming[2] << 8 | upcoming[3]);
    return len <= (size_t)(end - upcoming) ? len : 0;
}

/* Walks over each element and those inside it, without checking tags or contents. */
static int walk(const uint8_t *upcoming, const uint8_t *end, uint64_t *elements)
{
    while (upcoming < end) {
        if (end - upcoming < 2)
            return 0;
        uint8_t tag = upcoming[0];
        size_t length = upcoming[1];
        upcoming += 2;
        if (length >= 0x80) {
            size_t octets = length & 0x7F;
            if (octets == 0 || octets > 4 || (size_t)(end - upcoming) < octets)
                return 0;
            for (length = 0; octets > 0; octets -= 1)
                length = length << 8 | *upcoming++;
        }
        if ((size_t)(end - upcoming) < length)
            return 0;
        *elements += 1;
        if ((tag & 0x20) != 0 && !walk(upcoming, upcoming + length, elements))
            return 0;
        upcoming += length;
    }
    return 1;
}

uint64_t walked_certificates(const uint8_t *octets, size_t len)
{
    uint64_t count = 0, elements = 0;
    size_t one;
    for (const uint8_t *upcoming = octets; (one = element_len(upcoming, octets + len)) != 0; upcoming += one) {
        if (!walk(upcoming, upcoming + one, &elements))
            break;
        count += 1;
    }
    return elements == 0 ? 0 : count;
}

#ifdef MBEDTLS
#include <mbedtls/x509_crt.h>

/* The certificates borrow the octets, as with the library. */
uint64_t mbedtls_certificates(const uint8_t *octets, size_t len)
{
    uint64_t count = 0;
    size_t one;
    for (const uint8_t *upcoming = octets; (one = element_len(upcoming, octets + len)) != 0; upcoming += one) {
        mbedtls_x509_crt certificate;
        mbedtls_x509_crt_init(&certificate);
        int answer = mbedtls_x509_crt_parse_der_nocopy(&certificate, upcoming, one);
        mbedtls_x509_crt_free(&certificate);
        if (answer != 0)
            break;
        count += 1;
    }
    return count;
}
#endif
