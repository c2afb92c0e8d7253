/* Prints the status of each certificate of an OCSP response, and when it was revoked. */
#include <stdio.h>
#include <yotremul/der_tree.h>

static uint8_t octets[1 << 20], types[DER_TYPES_ROOM], buffer[sizeof octets + 1];
static der_entry entries[1 << 16];
static uint32_t marks[4096];

int main(int argc, char **argv)
{
    static const char *const statuses[] = {"good", "revoked", "unknown"};
    der_tree tree = DER_TREE_INIT(types, entries, marks, buffer);
    FILE *file = argc == 2 ? fopen(argv[1], "rb") : NULL;
    size_t length = file ? fread(octets, 1, sizeof octets, file) : 0, item;
    char path[80], text[1000];
    if (!der_tree_load(&tree, octets, length))
        return fprintf(stderr, "no response\n"), 1;
    for (int i = 0; snprintf(path, sizeof path, "responseBytes.response.tbsResponseData.responses[%d]", i),
             (item = der_tree_at(&tree, 0, path)) != DER_NONE; i++) {
        if (der_tree_print(&tree, item, "certID.serialNumber", text, sizeof text) != DER_NONE)
            printf("%s:", text);
        for (int j = 0; j < 3 && snprintf(path, sizeof path, "certStatus.%s", statuses[j]) > 0; j++)
            if (der_tree_at(&tree, item, path) != DER_NONE)
                printf(" %s", statuses[j]);
        if (der_tree_print(&tree, item, "certStatus.revoked.revocationTime", text, sizeof text) != DER_NONE)
            printf(" %s", text);
        printf("\n");
    }
    return 0;
}
