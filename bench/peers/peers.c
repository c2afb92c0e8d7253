/* The library for C beside mbedTLS and OpenSSL, over certificates of files: peers FILE ..
 * Each row is a walk over all elements, a tree of all elements, a certificate read into a struct, a tree with the
 * types and fields of a certificate, beside the structs of the peers, or a name that is written.
 * Prints `row|count|way|ns` for the fastest of the rounds, for each element or certificate. */
#define _POSIX_C_SOURCE 199309L /* clock_gettime */
#include <mbedtls/asn1.h>
#include <mbedtls/x509_crt.h>
#include <openssl/asn1.h>
#include <openssl/x509.h>
#include <stdio.h>
#include <stdlib.h>
#include <time.h>
#include <yotremul/der.h>
#include <yotremul/der_tree.h>

enum { ROUNDS = 40, NODES = 4096, FILES = 4096, LEVELS = 64, NAME = 59 };

typedef struct {
    const uint8_t *octets;
    size_t length;
} file;

static file files[FILES];
static size_t file_count;

static void give_up(const char *why)
{
    fprintf(stderr, "peers: %s\n", why);
    exit(1);
}

/* Walks: the number of elements, which all ways have to agree on. */

static size_t library_part(der_reader *reader, int levels)
{
    der_element element = DER_ELEMENT_INIT;
    size_t count = 0;
    while (!der_is_finished(reader)) {
        if (der_read_element(reader, &element).kind)
            give_up("the library refuses a certificate");
        count++;
        if (element.constructed && levels > 0) {
            der_reader inside = DER_READER_INIT;
            if (der_open(reader, &element, &inside).kind)
                give_up("the library does not open a part");
            count += library_part(&inside, levels - 1);
        }
    }
    return count;
}

static size_t library_walk(const file *it)
{
    der_reader reader = DER_READER_INIT;
    if (der_reader_init(it->octets, it->length, false, &reader).kind)
        give_up("a file is too long");
    return library_part(&reader, LEVELS);
}

static size_t library_tree(const file *it)
{
    static der_node nodes[NODES];
    der_reader reader = DER_READER_INIT;
    size_t count = 0;
    if (der_reader_init(it->octets, it->length, false, &reader).kind ||
        der_read_tree(&reader, nodes, NODES, &count).kind)
        give_up("the library reads no tree");
    return count;
}

static size_t mbedtls_part(unsigned char **at, const unsigned char *end, int levels)
{
    size_t count = 0, length;
    while (*at < end) {
        unsigned char tag = *(*at)++;
        if (mbedtls_asn1_get_len(at, end, &length))
            give_up("mbedTLS refuses a certificate");
        count++;
        if (tag & MBEDTLS_ASN1_CONSTRUCTED && levels > 0)
            count += mbedtls_part(at, *at + length, levels - 1);
        else
            *at += length;
    }
    return count;
}

static size_t mbedtls_walk(const file *it)
{
    unsigned char *at = (unsigned char *)it->octets;
    return mbedtls_part(&at, it->octets + it->length, LEVELS);
}

static size_t openssl_part(const unsigned char **at, const unsigned char *end, int levels)
{
    size_t count = 0;
    while (*at < end) {
        long length;
        int tag, class;
        int form = ASN1_get_object(at, &length, &tag, &class, end - *at);
        if (form & 0x80)
            give_up("OpenSSL refuses a certificate");
        count++;
        if (form & V_ASN1_CONSTRUCTED && levels > 0)
            count += openssl_part(at, *at + length, levels - 1);
        else
            *at += length;
    }
    return count;
}

static size_t openssl_walk(const file *it)
{
    const unsigned char *at = it->octets;
    return openssl_part(&at, it->octets + it->length, LEVELS);
}

/* Certificates: 1 for each. */

static size_t library_certificate(const file *it)
{
    der_certificate certificate = DER_CERTIFICATE_INIT;
    if (der_certificate_read(it->octets, it->length, &certificate).kind)
        give_up("the library refuses a certificate");
    return 1;
}

/* All elements with their types, their fields and the departures, by the table of the known types. */
static size_t library_typed_tree(const file *it)
{
    static uint8_t types[DER_TYPES_ROOM], buffer[1 << 16];
    static der_entry entries[NODES];
    static uint32_t marks[4096];
    static size_t table;
    static uint32_t certificate;
    der_tree_found found = DER_TREE_FOUND_INIT;
    if (!table) {
        table = der_known_types(types, sizeof types);
        certificate = der_type_find(types, table, "Certificate", 11);
    }
    if (!der_tree_read(types, table, certificate, it->octets, it->length, entries, NODES, marks, 4096, buffer,
                       sizeof buffer, NULL, 0, &found))
        give_up("the library reads no tree of a certificate");
    return 1;
}

static size_t mbedtls_certificate(const file *it)
{
    mbedtls_x509_crt certificate;
    mbedtls_x509_crt_init(&certificate);
    if (mbedtls_x509_crt_parse_der(&certificate, it->octets, it->length))
        give_up("mbedTLS refuses a certificate");
    mbedtls_x509_crt_free(&certificate);
    return 1;
}

static size_t openssl_certificate(const file *it)
{
    const unsigned char *at = it->octets;
    X509 *certificate = d2i_X509(NULL, &at, (long)it->length);
    if (!certificate)
        give_up("OpenSSL refuses a certificate");
    X509_free(certificate);
    return 1;
}

/* A name of a country, an organization and a common name, written: 1 for each certificate. */

static uint8_t written[512];

static size_t library_name(const file *it)
{
    der_writer writer = DER_WRITER_INIT;
    der_mark mark;
    (void)it;
    der_writer_init(written, sizeof written, &writer);
    der_begin(&writer, DER_SEQUENCE, &mark);
    der_write_name_attribute(&writer, DER_ID_COUNTRY_NAME, DER_PRINTABLE_STRING, (const uint8_t *)"DE", 2);
    der_write_name_attribute(&writer, DER_ID_ORGANIZATION_NAME, DER_UTF8_STRING, (const uint8_t *)"Example", 7);
    der_write_name_attribute(&writer, DER_ID_COMMON_NAME, DER_UTF8_STRING, (const uint8_t *)"www.example.org", 15);
    der_end(&writer, &mark);
    if (der_writer_finish(&writer).kind || der_written(&writer) != NAME)
        give_up("the library writes no name");
    return 1;
}

static size_t mbedtls_name(const file *it)
{
    mbedtls_asn1_named_data *name = NULL;
    unsigned char *at = written + sizeof written;
    (void)it;
    if (mbedtls_x509_string_to_names(&name, "C=DE,O=Example,CN=www.example.org") ||
        mbedtls_x509_write_names(&at, written, name) != NAME)
        give_up("mbedTLS writes no name");
    mbedtls_asn1_free_named_data_list(&name);
    return 1;
}

static size_t openssl_name(const file *it)
{
    X509_NAME *name = X509_NAME_new();
    unsigned char *at = written;
    (void)it;
    if (!X509_NAME_add_entry_by_NID(name, NID_countryName, MBSTRING_UTF8, (const unsigned char *)"DE", 2, -1, 0) ||
        !X509_NAME_add_entry_by_NID(name, NID_organizationName, MBSTRING_UTF8, (const unsigned char *)"Example", 7, -1, 0) ||
        !X509_NAME_add_entry_by_NID(name, NID_commonName, MBSTRING_UTF8, (const unsigned char *)"www.example.org", 15, -1, 0) ||
        i2d_X509_NAME(name, &at) != NAME)
        give_up("OpenSSL writes no name");
    X509_NAME_free(name);
    return 1;
}

typedef struct {
    const char *row, *name;
    size_t (*run)(const file *);
} way;

static const way ways[] = {
    {"elements and parts", "library", library_walk},    {"elements and parts", "mbedTLS", mbedtls_walk},
    {"elements and parts", "OpenSSL", openssl_walk},    {"tree", "library", library_tree},
    {"tree", "mbedTLS", mbedtls_walk},                  {"tree", "OpenSSL", openssl_walk},
    {"certificate", "library", library_certificate},    {"certificate", "mbedTLS", mbedtls_certificate},
    {"certificate", "OpenSSL", openssl_certificate},    {"tree with types", "library", library_typed_tree},
    {"tree with types", "mbedTLS", mbedtls_certificate}, {"tree with types", "OpenSSL", openssl_certificate},
    {"name written", "library", library_name},          {"name written", "mbedTLS", mbedtls_name},
    {"name written", "OpenSSL", openssl_name},
};
enum { WAYS = sizeof ways / sizeof *ways };

static double seconds(void)
{
    struct timespec now;
    clock_gettime(CLOCK_MONOTONIC, &now);
    return (double)now.tv_sec + 1e-9 * (double)now.tv_nsec;
}

static file read_file(const char *path)
{
    static uint8_t buffer[1 << 20];
    FILE *from = fopen(path, "rb");
    size_t length = from ? fread(buffer, 1, sizeof buffer, from) : 0;
    uint8_t *octets = malloc(length ? length : 1);
    if (!from || !octets || !length)
        give_up(path);
    for (size_t i = 0; i < length; i++)
        octets[i] = buffer[i];
    fclose(from);
    return (file){octets, length};
}

int main(int argc, char **argv)
{
    double least[WAYS];
    size_t counts[WAYS] = {0};
    for (int i = 1; i < argc && file_count < FILES; i++) {
        file it = read_file(argv[i]);
        mbedtls_x509_crt certificate;
        mbedtls_x509_crt_init(&certificate);
        /* those that mbedTLS does not read, as of a curve that it lacks, are left out for all */
        if (mbedtls_x509_crt_parse_der(&certificate, it.octets, it.length) == 0)
            files[file_count++] = it;
        mbedtls_x509_crt_free(&certificate);
    }
    for (int round = 0; round < ROUNDS; round++)
        for (int i = 0; i < WAYS; i++) {
            double start = seconds();
            size_t count = 0;
            for (size_t k = 0; k < file_count; k++)
                count += ways[i].run(&files[k]);
            double time = seconds() - start;
            if (round == 0 || time < least[i])
                least[i] = time;
            counts[i] = count;
        }
    for (int i = 0; i < WAYS; i++) {
        if (counts[i] != counts[i / 3 * 3])
            give_up("the ways do not agree on how many there are");
        printf("%s|%zu|%s|%.3f\n", ways[i].row, counts[i], ways[i].name, 1e9 * least[i] / (double)counts[i]);
    }
    return 0;
}
