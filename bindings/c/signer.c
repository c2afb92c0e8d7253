/* Prints the names of the signers of a CMS message, and when each signed. */
#include <stdio.h>
#include <yotremul/der_tree.h>

static uint8_t octets[1 << 20], types[DER_TYPES_ROOM], buffer[sizeof octets + 1];
static der_entry entries[1 << 16];
static uint32_t marks[4096];

int main(int argc, char **argv)
{
    der_tree tree = DER_TREE_INIT(types, entries, marks, buffer);
    FILE *file = argc == 2 ? fopen(argv[1], "rb") : NULL;
    size_t length = file ? fread(octets, 1, sizeof octets, file) : 0, signer;
    char path[80], text[1000];
    if (!der_tree_load(&tree, octets, length))
        return fprintf(stderr, "no message\n"), 1;
    for (int i = 0; snprintf(path, sizeof path, "content.signerInfos[%d]", i),
             (signer = der_tree_at(&tree, 0, path)) != DER_NONE; i++) {
        if (der_tree_print(&tree, signer, "sid.issuerAndSerialNumber.issuer", text, sizeof text) != DER_NONE)
            printf("signer: %s\n", text);
        for (int j = 0; snprintf(path, sizeof path, "signedAttrs[%d].type", j),
                 der_tree_print(&tree, signer, path, text, sizeof text) != DER_NONE; j++)
            if (strncmp(text, "signingTime ", 12) == 0 && snprintf(path, sizeof path, "signedAttrs[%d].values[0]", j) > 0 &&
                der_tree_print(&tree, signer, path, text, sizeof text) != DER_NONE)
                printf("time: %s\n", text);
    }
    return 0;
}
