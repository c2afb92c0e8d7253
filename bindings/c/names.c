/* Prints the DNS names of a certificate, a line each. The certificate is read, and nothing about it
 * is verified. To compare a line with the name of a host is no check that the certificate is for that
 * host (RFC 9525, 6): the library that opens the connection has such a check.
 *
 *     cc names.c $(pkg-config --cflags --libs der_c) -o names
 *     ./names CERTIFICATE
 */
#include "files.h"

/* A name comes from the certificate, so octets that are not printable are escaped. */
static void print_name(der_span name)
{
    for (size_t i = 0; i < name.length; i++)
        if (name.octets[i] > 32 && name.octets[i] < 127 && name.octets[i] != '\\')
            putchar(name.octets[i]);
        else
            printf("\\%02X", name.octets[i]);
    putchar('\n');
}

static void print_names(der_span file)
{
    der_certificate certificate = DER_CERTIFICATE_INIT;
    der_names found = DER_NAMES_INIT;
    der_reader names = DER_READER_INIT;
    must(der_certificate_read(file.octets, file.length, &certificate));
    must(der_subject_alternative_name(certificate.extensions.octets, certificate.extensions.length, &found));
    if (!found.present)
        return;
    must(der_reader_init(found.names.octets, found.names.length, false, &names));
    while (!der_is_finished(&names)) {
        der_general_name name = DER_GENERAL_NAME_INIT;
        must(der_next_general_name(&names, &name));
        if (name.kind == DER_DNS_NAME)
            print_name(name.contents);
    }
}

int main(int argc, char **argv)
{
    static uint8_t space[FILE_SPACE];
    if (argc != 2)
        give_up("usage: names CERTIFICATE");
    print_names(read_file(argv[1], space));
    return 0;
}
