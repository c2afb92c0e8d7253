/* Prints the label and the size of each block of a PEM file, and the line of each block with an error. */
#include "files.h"
#include <yotremul/der_tree.h>

int main(int argc, char **argv)
{
    static uint8_t space[FILE_SPACE], octets[FILE_SPACE];
    if (argc != 2)
        give_up("blocks FILE");
    der_span file = read_file(argv[1], space);
    const char *text = (const char *)file.octets;
    der_pem_reader reader = DER_PEM_READER_INIT(text, file.length);
    der_pem_block block = DER_PEM_BLOCK_INIT;
    uint32_t found;
    while ((found = der_pem_next(&reader, octets, sizeof octets, &block)) != DER_PEM_NONE)
        if (found == DER_PEM_BLOCK)
            printf("line %zu: %.*s, %zu octets\n", block.line, (int)block.label_length, text + block.label, block.length);
        else
            printf("line %zu: %s\n", block.line, found == DER_PEM_ENCRYPTED ? "an encrypted block" : "an error");
    return 0;
}
