/* Prints the elements of a file as `openssl asn1parse -inform DER` does, up to and including types.
 *
 *     cc asn1parse.c $(pkg-config --cflags --libs der_c) -o asn1parse
 *     ./asn1parse FILE [ber]
 */
#include <stdio.h>
#include <stdlib.h>
#include <string.h>
#include <yotremul/der.h>

static const char *const universal[32] = {
    "EOC", "BOOLEAN", "INTEGER", "BIT STRING", "OCTET STRING", "NULL", "OBJECT", "OBJECT DESCRIPTOR",
    "EXTERNAL", "REAL", "ENUMERATED", "<ASN1 11>", "UTF8STRING", "<ASN1 13>", "<ASN1 14>", "<ASN1 15>",
    "SEQUENCE", "SET", "NUMERICSTRING", "PRINTABLESTRING", "T61STRING", "VIDEOTEXSTRING", "IA5STRING",
    "UTCTIME", "GENERALIZEDTIME", "GRAPHICSTRING", "VISIBLESTRING", "GENERALSTRING", "UNIVERSALSTRING",
    "<ASN1 29>", "BMPSTRING", "<ASN1 31>"};

static void print_type(der_tag tag)
{
    static const char *const classes[4] = {"", "appl", "cont", "priv"};
    unsigned octet = tag % 256;
    unsigned number = octet % 32 < 31 ? octet % 32 : (unsigned)(tag / 256);
    char text[32];
    if (octet < 64)
        snprintf(text, sizeof text, "%s", universal[number]);
    else
        snprintf(text, sizeof text, "%s [ %u ]", classes[octet / 64], number);
    printf("%-18s", text);
}

static der_error print_all(der_reader *reader, int depth)
{
    while (!der_is_finished(reader)) {
        der_element element = DER_ELEMENT_INIT;
        der_reader inside = DER_READER_INIT;
        der_error error = der_read_element(reader, &element);
        if (error.kind != DER_OK)
            return error;
        printf("%5u:d=%-2d hl=%u ", element.start, depth, element.contents_start - element.start);
        if (element.indefinite)
            printf("l=inf  ");
        else
            printf("l=%4zu ", element.length);
        printf("%s: ", element.constructed ? "cons" : "prim");
        print_type(element.tag);
        putchar('\n');
        if (!element.constructed)
            continue;
        error = der_open(reader, &element, &inside);
        if (error.kind == DER_OK)
            error = print_all(&inside, depth + 1);
        if (error.kind != DER_OK)
            return error;
    }
    return der_finish(reader);
}

static uint8_t *read_file(const char *path, size_t *length)
{
    FILE *file = fopen(path, "rb");
    uint8_t *octets = NULL;
    long size = -1;
    if (file && fseek(file, 0, SEEK_END) == 0 && (size = ftell(file)) >= 0)
        octets = malloc((size_t)size + 1);
    if (octets) {
        rewind(file);
        *length = fread(octets, 1, (size_t)size, file);
    }
    if (file)
        fclose(file);
    return octets;
}

int main(int argc, char **argv)
{
    if (argc < 2) {
        fprintf(stderr, "usage: example FILE [ber]\n");
        return 2;
    }
    size_t length = 0;
    uint8_t *octets = read_file(argv[1], &length);
    if (!octets) {
        perror(argv[1]);
        return 2;
    }
    der_reader reader = DER_READER_INIT;
    der_error error = der_reader_init(octets, length, argc > 2 && strcmp(argv[2], "ber") == 0, &reader);
    if (error.kind == DER_OK)
        error = print_all(&reader, 0);
    if (error.kind != DER_OK) {
        char text[160];
        size_t count = der_error_text(error, text, sizeof text);
        fprintf(stderr, "%.*s\n", (int)count, text);
    }
    free(octets);
    return error.kind != DER_OK;
}
