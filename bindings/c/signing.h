/* What the programs that make requests and certificates share. */
#include <string.h>

#include "files.h"

/* A writer into |space|, in which a SEQUENCE is begun. */
static inline der_writer begin_sequence(uint8_t *space, size_t length, der_mark *mark)
{
    der_writer writer = DER_WRITER_INIT;
    der_writer_init(space, length, &writer);
    der_begin(&writer, DER_SEQUENCE, mark);
    return writer;
}

/* The whole SEQUENCE. */
static inline der_span end_sequence(der_writer *writer, const der_mark *mark)
{
    der_end(writer, mark);
    must(der_writer_finish(writer));
    return (der_span){writer->octets, der_written(writer)};
}

/* A name with one attribute, the common name. */
static inline der_span write_common_name(uint8_t *space, const char *name)
{
    der_mark mark = DER_MARK_INIT;
    der_writer writer = begin_sequence(space, FILE_SPACE, &mark);
    der_write_name_attribute(&writer, DER_ID_COMMON_NAME, DER_UTF8_STRING, (const uint8_t *)name, strlen(name));
    return end_sequence(&writer, &mark);
}

/* The algorithm of a signature by the private key of this public key. */
static inline der_span write_algorithm(uint8_t *space, size_t length, der_span key)
{
    der_public_key read = DER_PUBLIC_KEY_INIT;
    der_writer writer = DER_WRITER_INIT;
    must(der_public_key_read(key.octets, key.length, &read));
    der_writer_init(space, length, &writer);
    if (der_oid_is(read.algorithm.identifier.octets, read.algorithm.identifier.length, DER_LITERAL("1.2.840.113549.1.1.1")))
        der_write_algorithm(&writer, DER_ID_SHA256_WITH_RSA, true);
    else
        der_write_algorithm(&writer, DER_ID_ECDSA_WITH_SHA256, false);
    must(der_writer_finish(&writer));
    return (der_span){space, der_written(&writer)};
}

/* Writes to a file what is signed, with the algorithm and the signature in another file. */
static inline void write_signed(const char *path, der_span part, der_span key, const char *signature_path)
{
    static uint8_t signature_space[FILE_SPACE], space[2 * FILE_SPACE];
    uint8_t algorithm_space[64];
    der_span algorithm = write_algorithm(algorithm_space, sizeof algorithm_space, key);
    der_span signature = read_file(signature_path, signature_space);
    der_writer writer = DER_WRITER_INIT;
    der_writer_init(space, sizeof space, &writer);
    der_write_signed(&writer, part.octets, part.length, algorithm.octets, algorithm.length, signature.octets,
                     signature.length);
    must(der_writer_finish(&writer));
    write_file(path, space, der_written(&writer));
}
