/* Makes a certificate request (PKCS #10, RFC 2986) for a DNS name, in two steps:
 *
 *     cc make_request.c $(pkg-config --cflags --libs der_c) -o make_request
 *     ./make_request KEY NAME PART                  writes the part that is signed
 *     openssl dgst -sha256 -sign PRIVATE -out SIGNATURE PART
 *     ./make_request KEY NAME REQUEST SIGNATURE     writes the whole request
 *
 * KEY is a public key in DER (openssl pkey -pubout -outform DER), of RSA or of an elliptic curve.
 * The signature is not verified.
 */
#include "signing.h"

/* The extensions that are requested: the DNS name (RFC 5280, 4.2.1.6). */
static der_span write_extensions(uint8_t *space, const char *name)
{
    uint8_t names_space[512];
    der_mark mark = DER_MARK_INIT;
    der_writer names = begin_sequence(names_space, sizeof names_space, &mark);
    der_write_text(&names, DER_CONTEXT(2), DER_IA5_STRING, (const uint8_t *)name, strlen(name));
    der_span value = end_sequence(&names, &mark);
    der_writer extensions = begin_sequence(space, FILE_SPACE, &mark);
    der_write_extension(&extensions, DER_ID_SUBJECT_ALTERNATIVE_NAME, false, value.octets, value.length);
    return end_sequence(&extensions, &mark);
}

/* CertificationRequestInfo, the part that is signed. */
static der_span write_part(uint8_t *space, der_span key, const char *name)
{
    static uint8_t extensions_space[FILE_SPACE], subject_space[FILE_SPACE];
    der_span extensions = write_extensions(extensions_space, name);
    der_span subject = write_common_name(subject_space, name);
    der_writer writer = DER_WRITER_INIT;
    der_writer_init(space, FILE_SPACE, &writer);
    der_write_request_part(&writer, subject.octets, subject.length, key.octets, key.length, extensions.octets,
                           extensions.length);
    must(der_writer_finish(&writer));
    return (der_span){space, der_written(&writer)};
}

int main(int argc, char **argv)
{
    static uint8_t key_space[FILE_SPACE], part_space[FILE_SPACE];
    if (argc != 4 && argc != 5)
        give_up("usage: make_request KEY NAME PART, or make_request KEY NAME REQUEST SIGNATURE");
    der_span key = read_file(argv[1], key_space);
    der_span part = write_part(part_space, key, argv[2]);
    if (argc == 4)
        write_file(argv[3], part.octets, part.length);
    else
        write_signed(argv[3], part, key, argv[4]);
    return 0;
}
