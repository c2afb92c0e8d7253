/* Prints what the program der_tool prints, using the C library:
 * cases head|tlv [--ber] HEX, or order HEX HEX. */
#include <stdio.h>
#include <stdlib.h>
#include <string.h>
#include <yotremul/der.h>

static size_t octets_of(const char *hex, uint8_t *octets)
{
    size_t count = strlen(hex) / 2;
    for (size_t i = 0; i < count; i++) {
        char two[3] = {hex[2 * i], hex[2 * i + 1], 0};
        octets[i] = (uint8_t)strtoul(two, NULL, 16);
    }
    return count;
}

static void print_hex(const uint8_t *octets, size_t count)
{
    for (size_t i = 0; i < count; i++)
        printf("%02x", octets[i]);
    puts(count ? "" : "-");
}

static int refuse(der_error error)
{
    char text[160];
    size_t count = der_error_text(error, text, sizeof text);
    printf("error: %.*s\n", (int)count, text);
    return 1;
}

static void print_tag(der_tag tag)
{
    /* the text of this error ends with the text of the tag */
    static const char front[] = "unexpected ASN.1 DER tag: got ";
    char text[160];
    der_error error = {DER_TAG_UNEXPECTED, false, 0, (uint8_t)(tag % 256), 0, 0, (uint32_t)(tag / 256)};
    size_t count = der_error_text(error, text, sizeof text) - strlen(front);
    printf("tag: %.*s\n", (int)count, text + strlen(front));
}

static int head(const uint8_t *octets, size_t count, bool ber)
{
    der_reader reader = DER_READER_INIT;
    der_header header = DER_HEADER_INIT;
    der_error error = der_reader_init(octets, count, ber, &reader);
    if (!error.kind)
        error = der_read_header(&reader, &header);
    if (error.kind)
        return refuse(error);
    print_tag(header.tag);
    printf("constructed: %s\nlength: %u%s\nrest: ", header.constructed ? "yes" : "no", header.length,
           header.indefinite ? " indefinite" : "");
    /* der_finish returns how many octets are left */
    error = der_finish(&reader);
    print_hex(octets + count - error.second, error.second);
    return 0;
}

static int tlv(const uint8_t *octets, size_t count, bool ber)
{
    der_reader reader = DER_READER_INIT;
    der_header header = DER_HEADER_INIT;
    der_error error = der_reader_init(octets, count, ber, &reader);
    if (!error.kind)
        error = der_read_header(&reader, &header);
    if (error.kind)
        return refuse(error);
    der_error left = der_finish(&reader);
    uint64_t whole = count - left.second + (uint64_t)header.length;
    if (whole > UINT32_MAX)
        return refuse((der_error){DER_OVERFLOW, false, 0, 0, 0, 0, 0});
    if (whole > count)
        return refuse((der_error){DER_INCOMPLETE, true, 0, 0, 0, (uint32_t)whole, (uint32_t)count});
    print_hex(octets, whole);
    return 0;
}

static int order(const uint8_t *first, size_t first_count, const uint8_t *second, size_t second_count)
{
    static const char *const words[3] = {"less", "equal", "greater"};
    int32_t it = 0;
    der_error error = der_compare(first, first_count, second, second_count, &it);
    if (error.kind)
        return refuse(error);
    puts(words[it + 1]);
    return 0;
}

int main(int argc, char **argv)
{
    static uint8_t first[1 << 20], second[1 << 20];
    bool ber = argc > 2 && strcmp(argv[2], "--ber") == 0;
    if (argc < 3 + ber)
        return 2;
    size_t count = octets_of(argv[2 + ber], first);
    if (strcmp(argv[1], "order") == 0)
        return argc == 4 ? order(first, count, second, octets_of(argv[3], second)) : 2;
    return strcmp(argv[1], "head") == 0 ? head(first, count, ber) : tlv(first, count, ber);
}
