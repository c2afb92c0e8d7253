/* A signed message under BER, read with OpenSSL from memory: the number of octets of its content. */
#include <openssl/bio.h>
#include <openssl/cms.h>
#include <stdint.h>

uint64_t openssl_message(const uint8_t *octets, size_t len)
{
    uint64_t count = 0;
    BIO *input = BIO_new_mem_buf(octets, (int)len);
    CMS_ContentInfo *message = input == NULL ? NULL : d2i_CMS_bio(input, NULL);
    if (message != NULL) {
        ASN1_OCTET_STRING **content = CMS_get0_content(message);
        if (content != NULL && *content != NULL)
            count = (uint64_t)ASN1_STRING_length(*content);
    }
    CMS_ContentInfo_free(message);
    BIO_free(input);
    return count;
}
