/* Makes a certificate that an authority signs with its own key (RFC 5280, 4.1), in two steps:
 *
 *     cc make_certificate.c $(pkg-config --cflags --libs der_c) -o make_certificate
 *     ./make_certificate KEY NAME SECONDS PART                      writes the part that is signed
 *     openssl dgst -sha256 -sign PRIVATE -out SIGNATURE PART
 *     ./make_certificate KEY NAME SECONDS CERTIFICATE SIGNATURE     writes the whole certificate
 *
 * KEY is a public key in DER (openssl pkey -pubout -outform DER), of RSA or of an elliptic curve. The
 * certificate begins at SECONDS since 1970-01-01T00:00:00Z, and ends 90 days later. The signature is not
 * verified.
 */
#include "signing.h"

/* The extensions: a critical basicConstraints, which says that this is an authority (RFC 5280, 4.2.1.9). */
static der_span write_extensions(uint8_t *space)
{
    uint8_t constraints_space[16];
    der_mark mark = DER_MARK_INIT;
    der_writer constraints = begin_sequence(constraints_space, sizeof constraints_space, &mark);
    der_write_boolean(&constraints, DER_BOOLEAN, true);
    der_span value = end_sequence(&constraints, &mark);
    der_writer extensions = begin_sequence(space, FILE_SPACE, &mark);
    der_write_extension(&extensions, DER_ID_BASIC_CONSTRAINTS, true, value.octets, value.length);
    return end_sequence(&extensions, &mark);
}

/* TBSCertificate, the part that is signed. */
static der_span write_part(uint8_t *space, der_span key, const char *name, long long seconds)
{
    static uint8_t extensions_space[FILE_SPACE], name_space[FILE_SPACE];
    uint8_t algorithm_space[64], validity_space[64];
    der_certificate_parts parts = DER_CERTIFICATE_PARTS_INIT;
    der_writer validity = DER_WRITER_INIT, writer = DER_WRITER_INIT;
    der_writer_init(validity_space, sizeof validity_space, &validity);
    der_write_validity(&validity, seconds, seconds + 90 * 86400);
    must(der_writer_finish(&validity));
    parts.serial_number = (der_span){(const uint8_t *)"\x01", 1};
    parts.signature_algorithm = write_algorithm(algorithm_space, sizeof algorithm_space, key);
    parts.issuer = parts.subject = write_common_name(name_space, name);
    parts.validity = (der_span){validity_space, der_written(&validity)};
    parts.public_key = key;
    parts.extensions = write_extensions(extensions_space);
    der_writer_init(space, FILE_SPACE, &writer);
    der_write_certificate_part(&writer, &parts);
    must(der_writer_finish(&writer));
    return (der_span){space, der_written(&writer)};
}

int main(int argc, char **argv)
{
    static uint8_t key_space[FILE_SPACE], part_space[FILE_SPACE];
    if (argc != 5 && argc != 6)
        give_up("usage: make_certificate KEY NAME SECONDS PART, or make_certificate KEY NAME SECONDS CERTIFICATE SIGNATURE");
    der_span key = read_file(argv[1], key_space);
    der_span part = write_part(part_space, key, argv[2], strtoll(argv[3], NULL, 10));
    if (argc == 5)
        write_file(argv[4], part.octets, part.length);
    else
        write_signed(argv[4], part, key, argv[5]);
    return 0;
}
