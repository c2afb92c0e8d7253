/* Prints the subject of a certificate, as `openssl x509 -subject -nameopt RFC2253,-esc_msb` does. The text is for people: it
 * says nothing of a host (RFC 9525, 2). */
#include "files.h"

int main(int argc, char **argv)
{
    static uint8_t space[FILE_SPACE];
    static char text[FILE_SPACE];
    der_certificate certificate = DER_CERTIFICATE_INIT;
    size_t count = 0;
    if (argc != 2)
        give_up("subject CERTIFICATE");
    der_span octets = read_file(argv[1], space);
    must(der_certificate_read(octets.octets, octets.length, &certificate));
    must(der_name_text(certificate.subject.octets, certificate.subject.length, text, sizeof text, &count));
    printf("subject=%s\n", text);
    return 0;
}
