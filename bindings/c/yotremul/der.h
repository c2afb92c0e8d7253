/* yotremul/der.h: proved readers and writers of DER (ITU-T X.690), and a reader of BER.
 *
 * No function allocates, blocks, calls back or has state of its own. A function keeps a pointer only
 * where its comment says so. All structs are small values that the caller owns: keep them on the
 * stack, copy them, discard them.
 *
 * Nothing here is validated: no signature, no chain of certificates, no date against a clock. The
 * contents of an element are checked only by the calls that say so.
 *
 * Errors. A function that can fail returns a |der_error| by value, whose |kind| is |DER_OK| on
 * success. These rules hold for every function:
 *   - Two errors leave the reader as it was, not failed: |DER_TAG_UNEXPECTED|, after which the caller
 *     may ask for another tag, and |DER_READER|, which |der_open| and |der_element_octets| report for
 *     an element of another reader. Any other error makes the reader or the writer that was passed in
 *     fail: every later call on it fails with |DER_FAILED|.
 *   - A call to which the reader or the writer is |const|, as to |der_peek| and |der_finish|, leaves it
 *     as it is, whatever the result.
 *   - No out-parameter changes in a call that fails, except those of |der_read_tree|, which reports
 *     the elements that come before the error.
 *   - |DER_INCOMPLETE| says that octets are missing. |first| octets are needed, and |second| are
 *     there, both counted from the start of the input. If the header of the element was read, |first|
 *     is where the element would end. If the header itself is cut, the length of the element is not
 *     known, and |first| is |second| plus one. An indefinite length is known only at the end of the
 *     contents: in an element inside that is cut, |first| is at most where that element would end. If
 *     |first| would be above 4294967295, the error is |DER_OVERFLOW|.
 *     More octets do not help in two cases:
 *       - A reader that |der_enter| or |der_open| made has no octets left, or its next element passes
 *         its end. |second| is that end.
 *       - In a certificate, a request, a key, a revocation list, an item or the value of an extension,
 *         an element passes the end of the element around it.
 *     |der_key_usage|, and the other calls that read the value of an extension, count from the start
 *     of that value. |first| is |second| plus one if the list of extensions is cut, and, if no length is
 *     indefinite, also in |der_key_usage_lenient| and |der_basic_constraints_lenient|.
 *     Under BER, a primitive element with an indefinite length, such as 04 80, may have this error too:
 *     the end of its contents is looked for before its form is refused.
 *
 * What is read. Under DER each element is a header and contents, with the fewest octets for the tag
 * number and for the length (X.690 10.1). Under BER, lengths of the indefinite form are read too, at
 * every level, with their end-of-contents octets, and an OCTET STRING may be constructed of segments.
 * Nothing more of BER is read: a length in more octets than necessary is |DER_LENGTH|, and another
 * constructed string is |DER_TAG_UNKNOWN|. Under both rules these are |DER_TAG_UNKNOWN| too: the
 * universal tags 0, 7, 8, 11, 14, 15, 25, 28 and 29, each universal tag whose constructed bit is not
 * that of its type, and constructed ones from 31. Primitive ones from 31 are |DER_TAG_NUMBER_INVALID|.
 *
 * The caller must ensure the following, which no function can check:
 *   - A pointer and a length describe octets that may be read, or a buffer that may be written. The
 *     pointer may be NULL if the length is 0. No other pointer may be NULL.
 *   - Octets that a struct points to live as long as it does, and are not written meanwhile. The
 *     buffer of a |der_writer| is written only by the functions here.
 *   - A struct that is passed in by pointer was initialised with its macro |.._INIT|, or set by a
 *     function here. The fields of readers, writers, counters and marks are changed only by the
 *     functions here. A |bool| is 0 or 1.
 *   - Two pointers in one call point to different structs, and a buffer that is written overlaps
 *     nothing else that is passed to the call.
 *   - No two threads use one reader or writer at a time, unless all of them only read it.
 * A length above 4294967295 is reported as an error, except by |der_writer_init| and
 * |der_next_character|.
 *
 * Link with libder_c.a (pkg-config der_c). It needs memcpy, memmove, memset and memcmp, and nothing
 * else. It is compiled for x86-64-v2. */
#ifndef YOTREMUL_DER_H
#define YOTREMUL_DER_H

#include <stdbool.h>
#include <stddef.h>
#include <stdint.h>

/* The version of this header: 10000 times the major number, plus 100 times the minor number, plus
 * the patch number. |der_version| returns that of the library. */
#define DER_VERSION 300
#define DER_VERSION_TEXT "0.3.0"

#ifdef __cplusplus
extern "C" {
#define DER_NUMBER(n) (uint64_t(n))
#define DER_NO_OCTETS (reinterpret_cast<const uint8_t *>(""))
#define DER_NO_BUFFER (const_cast<uint8_t *>(DER_NO_OCTETS))
#else
#define DER_NUMBER(n) ((uint64_t)(n))
#define DER_NO_OCTETS ((const uint8_t *)"")
#define DER_NO_BUFFER ((uint8_t *)(uintptr_t)"")
#endif

#if defined(__cplusplus) && __cplusplus >= 201103L
#define DER_STATIC_ASSERT(name, it) static_assert(it, #name)
#elif !defined(__cplusplus) && defined(__STDC_VERSION__) && __STDC_VERSION__ >= 201112L
#define DER_STATIC_ASSERT(name, it) _Static_assert(it, #name)
#else
#define DER_STATIC_ASSERT(name, it) typedef char der_assert_##name[(it) ? 1 : -1]
#endif

/* DER_MUST_USE warns where the result of a call is ignored. The calls that write have no such
 * warning: their errors are also reported by |der_writer_finish|. DER_NONNULL names the parameters
 * that may not be NULL. */
#if defined(__GNUC__)
#define DER_MUST_USE __attribute__((warn_unused_result))
#define DER_NONNULL(...) __attribute__((nonnull(__VA_ARGS__)))
#else
#define DER_MUST_USE
#define DER_NONNULL(...)
#endif

/* der_version returns |DER_VERSION| of the library. */
uint32_t der_version(void);

/* Errors. */

/* The kinds of |der_error|. The numbers never change; new kinds get new numbers at the end. */
enum {
    DER_OK = 0,
    DER_DATE_TIME = 1,         /* a value is not a date or time */
    DER_ENCODING_RULES = 2,    /* the call does not work under the encoding rules of the reader */
    DER_FAILED = 3,            /* the reader or writer had failed before */
    DER_INCOMPLETE = 4,        /* |first| octets are needed, and there are |second| */
    DER_INDEFINITE_LENGTH = 5, /* an indefinite length not allowed here, or not closed properly */
    DER_LENGTH = 6,            /* the length octets after tag |actual| break the encoding rules */
    DER_NESTING_DEPTH = 7,     /* elements are nested too deeply */
    DER_NONCANONICAL = 8,      /* a value with tag |actual| is not encoded canonically */
    DER_OID_MALFORMED = 9,     /* a text is not the dotted notation of an OBJECT IDENTIFIER */
    DER_SET_DUPLICATE = 10,    /* an extension occurs twice */
    DER_SET_ORDERING = 11,     /* the elements of a SET OF are not in order */
    DER_OVERFLOW = 12,           /* a number of octets, or a value, is too large */
    DER_OVERLENGTH = 13,         /* there is too little space */
    DER_READER = 14,             /* the element does not lie in the octets of the reader */
    DER_TAG_MODE_UNKNOWN = 15,   /* not reported by any function here */
    DER_TAG_NUMBER_INVALID = 16, /* a tag number is malformed, or a |der_tag| is not a tag */
    DER_TAG_UNEXPECTED = 17,     /* the tag is |actual|, and |expected| was requested */
    DER_TAG_UNKNOWN = 18,        /* no universal tag has the identifier octet |first| */
    DER_TRAILING_DATA = 19,      /* |first| octets are read, and |second| are left */
    DER_UTF8 = 20,
    DER_VALUE = 21,              /* the contents of a value with tag |actual| are malformed */
    DER_OUT_OF_MEMORY = 22,      /* not reported by any function here */
    DER_UNBALANCED = 23          /* an element is not ended, or is ended out of order */
};

/* An error, in 16 octets. A field that the kind does not use is 0. */
typedef struct der_error {
    uint8_t kind;
    bool has_position; /* whether |position| is known */
    uint8_t expected;  /* the first octet of the expected tag, or 0 */
    uint8_t actual;    /* the first octet of the tag that was found, or 0 */
    uint32_t position; /* in octets from the start of the input or of the output */
    uint32_t first;    /* depends on |kind|; the tag number of |expected| if it is 31 or more */
    uint32_t second;   /* depends on |kind|; the tag number of |actual| if it is 31 or more */
} der_error;
#define DER_ERROR_INIT {DER_OK, false, 0, 0, 0, 0, 0}

/* der_error_text writes the text of |error| and a zero octet into |text|, truncated to |capacity|
 * octets with the zero octet, and returns the number of octets without the zero octet. It writes
 * "no error" if |error| is not an error that a function here returns. 160 octets are enough for
 * every text. */
size_t der_error_text(der_error error, char *text, size_t capacity);

/* Tags. */

/* A der_tag is the first identifier octet of a tag, plus 256 times its number if that is 31 or
 * more. Under BER, an OCTET STRING in segments (identifier octet 0x24) also has the tag
 * |DER_OCTET_STRING|: the field |constructed| of its element is true. */
typedef uint64_t der_tag;

#define DER_BOOLEAN UINT64_C(0x01)
#define DER_INTEGER UINT64_C(0x02)
#define DER_BIT_STRING UINT64_C(0x03)
#define DER_OCTET_STRING UINT64_C(0x04)
#define DER_NULL UINT64_C(0x05)
#define DER_OBJECT_IDENTIFIER UINT64_C(0x06)
#define DER_REAL UINT64_C(0x09)
#define DER_ENUMERATED UINT64_C(0x0A)
#define DER_UTF8_STRING UINT64_C(0x0C)
#define DER_RELATIVE_OID UINT64_C(0x0D)
#define DER_NUMERIC_STRING UINT64_C(0x12)
#define DER_PRINTABLE_STRING UINT64_C(0x13)
#define DER_TELETEX_STRING UINT64_C(0x14)
#define DER_VIDEOTEX_STRING UINT64_C(0x15)
#define DER_IA5_STRING UINT64_C(0x16)
#define DER_UTC_TIME UINT64_C(0x17)
#define DER_GENERALIZED_TIME UINT64_C(0x18)
#define DER_VISIBLE_STRING UINT64_C(0x1A)
#define DER_GENERAL_STRING UINT64_C(0x1B)
#define DER_BMP_STRING UINT64_C(0x1E)
#define DER_SEQUENCE UINT64_C(0x30)
#define DER_SET UINT64_C(0x31)

/* DER_CONTEXT(n) is the tag [n]; DER_APPLICATION and DER_PRIVATE are the same for the two other
 * classes. |n| is a constant or a variable below 2^32, and is evaluated more than once. The tags
 * are primitive: add DER_CONSTRUCTED for a constructed tag. */
#define DER_CONSTRUCTED UINT64_C(0x20)
#define DER_CLASS_TAG(octet, n) \
    (DER_NUMBER(n) < 31 ? (octet) + DER_NUMBER(n) : (octet) + 31 + 256 * DER_NUMBER(n))
#define DER_APPLICATION(n) DER_CLASS_TAG(UINT64_C(0x40), n)
#define DER_CONTEXT(n) DER_CLASS_TAG(UINT64_C(0x80), n)
#define DER_PRIVATE(n) DER_CLASS_TAG(UINT64_C(0xC0), n)

/* Octets of the input. */

/* A der_span is a part of the input. */
typedef struct der_span {
    const uint8_t *octets;
    size_t length;
} der_span;
#define DER_SPAN_INIT {DER_NO_OCTETS, 0}

/* The bits of a BIT STRING. The first bit is the most significant bit of the first octet. */
typedef struct der_bits {
    const uint8_t *octets;
    size_t length;  /* of |octets| */
    uint8_t unused; /* how many of the low bits of the last octet are not part of the string */
} der_bits;
#define DER_BITS_INIT {DER_NO_OCTETS, 0, 0}

/* Reading. */

/* A der_reader reads octets that it does not own. Its fields are private. */
typedef struct der_reader {
    const uint8_t *octets;
    size_t length;
    size_t position;
    uint32_t end;
    uint8_t depth;
    bool ber;
    bool failed;
} der_reader;
#define DER_READER_INIT {DER_NO_OCTETS, 0, 0, 0, 0, false, false}

/* The header of an element. */
typedef struct der_header {
    der_tag tag;
    uint32_t length;  /* of the contents, in octets, with end-of-contents octets if any */
    bool constructed; /* whether the identifier has the constructed bit */
    bool indefinite;  /* whether the length was read in the indefinite form */
} der_header;
#define DER_HEADER_INIT {0, 0, false, false}

/* An element. Its |contents| point into the octets of the reader, and are not checked. */
typedef struct der_element {
    const uint8_t *contents;
    size_t length;           /* of |contents|, without end-of-contents octets */
    der_tag tag;
    uint32_t start;          /* where the header begins, in octets from the start of the input */
    uint32_t contents_start; /* where the contents begin */
    bool constructed;
    bool indefinite;
} der_element;
#define DER_ELEMENT_INIT {DER_NO_OCTETS, 0, 0, 0, 0, false, false}

/* der_reader_init makes |reader| read the |length| octets at |octets|, under the Basic Encoding
 * Rules if |ber| is true, and else under the Distinguished Encoding Rules. It keeps |octets|. Fails
 * with DER_OVERFLOW if |length| exceeds 4294967295. */
DER_MUST_USE DER_NONNULL(4)
der_error der_reader_init(const uint8_t *octets, size_t length, bool ber, der_reader *reader);

/* der_position returns where the reader is, in octets from the start of the input. */
DER_NONNULL(1)
size_t der_position(const der_reader *reader);

/* der_is_finished returns whether no octets are left. A loop asks for each element, so the macro has
 * the compiler put the comparison in its place. */
DER_NONNULL(1)
bool der_is_finished(const der_reader *reader);
DER_NONNULL(1)
static inline bool der_is_finished_inline(const der_reader *reader)
{
    return reader->position == reader->end;
}
#define der_is_finished(reader) der_is_finished_inline(reader)

/* der_finish returns DER_OK if no octets are left and the reader has not failed; else DER_FAILED or
 * DER_TRAILING_DATA, at the position of the reader. It leaves the reader as it is. */
DER_MUST_USE DER_NONNULL(1)
der_error der_finish(const der_reader *reader);

/* der_read_header reads a header (X.690 8.1.2, 8.1.3, 10.1). Fails with DER_FAILED, DER_INCOMPLETE,
 * DER_OVERFLOW, DER_TAG_UNKNOWN, DER_TAG_NUMBER_INVALID, DER_INDEFINITE_LENGTH, DER_LENGTH and, if
 * indefinite-length contents after it are nested too deeply, DER_NESTING_DEPTH. Under BER the
 * contents of an indefinite length are scanned for their end. */
DER_MUST_USE DER_NONNULL(1, 2)
der_error der_read_header(der_reader *reader, der_header *header);

/* der_read_element reads a header and its contents, and consumes the end-of-contents octets of an
 * indefinite length. Fails like |der_read_header|, and with DER_INCOMPLETE and DER_OVERFLOW if the
 * contents are not all there. */
DER_MUST_USE DER_NONNULL(1, 2)
der_error der_read_element(der_reader *reader, der_element *element);

/* der_skip consumes an element. Fails like |der_read_element|. */
DER_MUST_USE DER_NONNULL(1)
der_error der_skip(der_reader *reader);

/* der_peek sets |*tag| to the tag of the next element, which is not consumed. Only the identifier is
 * read, so the call that reads the element may still fail. Fails with DER_FAILED, with DER_INCOMPLETE
 * or DER_OVERFLOW if the identifier is cut or no octets are left, with DER_TAG_UNKNOWN and with
 * DER_TAG_NUMBER_INVALID. */
DER_MUST_USE DER_NONNULL(1, 2)
der_error der_peek(const der_reader *reader, der_tag *tag);

/* der_next_is returns whether the next element has this tag. It is false if no octets are left, if the
 * reader has failed, and if the next octets are no identifier. A value with OPTIONAL or DEFAULT is read
 * if it is next:
 *
 *     uint64_t version = 0;
 *     if (der_next_is(&reader, DER_INTEGER) && der_read_uint64(&reader, DER_INTEGER, &version).kind)
 *         return false;
 */
DER_MUST_USE DER_NONNULL(1)
bool der_next_is(const der_reader *reader, der_tag tag);

/* der_expect reads an element that has this tag. Fails like |der_read_element|; with
 * DER_TAG_UNEXPECTED, at the start of the next element, if that has another tag; and with
 * DER_TAG_NUMBER_INVALID if |tag| is no tag and there is a next element. */
DER_MUST_USE DER_NONNULL(1, 3)
der_error der_expect(der_reader *reader, der_tag tag, der_element *element);

/* der_optional reads an element that has this tag, if it is next, and sets |*present| to whether it
 * is. At the end of the octets, and where the next element has another tag, |*present| is false,
 * there is no error, and the reader and |*element| are unchanged. Fails like |der_read_element|, and
 * with DER_TAG_NUMBER_INVALID if |tag| is no tag and there is a next element. */
DER_MUST_USE DER_NONNULL(1, 3, 4)
der_error der_optional(der_reader *reader, der_tag tag, der_element *element, bool *present);

/* der_enter consumes an element that has this tag, and makes |inside| read its contents. Fails like
 * |der_expect|, and with DER_NESTING_DEPTH if the element is inside 64 others. |inside| ends where
 * the contents end: call |der_finish| on it. */
DER_MUST_USE DER_NONNULL(1, 3)
der_error der_enter(der_reader *reader, der_tag tag, der_reader *inside);

/* der_open makes |inside| read the contents of |element|, which |reader| or a copy of it has read
 * before. Fails with DER_READER if the element does not lie in the octets of the reader, with
 * DER_FAILED if the reader has failed, and with DER_NESTING_DEPTH if the element is inside 64
 * others. |reader| stays where it is. The function sees only whether the positions of the element are
 * in the input; the macro also compares where its contents are, so it refuses an element of other
 * octets too. */
DER_MUST_USE DER_NONNULL(1, 2, 3)
der_error der_open(der_reader *reader, const der_element *element, der_reader *inside);

/* der_element_octets sets |*octets| to all octets of |element|, which |reader| or a copy of it has
 * read before: the header, the contents and the end-of-contents octets, as they are signed or
 * hashed. Fails with DER_FAILED if the reader has failed, and with DER_READER if the element does not
 * lie in the octets of the reader. The macro also compares where its contents are, as that of
 * |der_open| does. */
DER_MUST_USE DER_NONNULL(1, 2, 3)
der_error der_element_octets(const der_reader *reader, const der_element *element, der_span *octets);

DER_NONNULL(1, 2)
static inline bool der_is_foreign(const der_reader *reader, const der_element *element)
{
    return !reader->failed && element->contents != reader->octets + element->contents_start;
}
DER_MUST_USE DER_NONNULL(1, 2, 3)
static inline der_error der_open_inline(der_reader *reader, const der_element *element, der_reader *inside)
{
    der_error foreign = {DER_READER, false, 0, 0, 0, 0, 0};
    return der_is_foreign(reader, element) ? foreign : der_open(reader, element, inside);
}
DER_MUST_USE DER_NONNULL(1, 2, 3)
static inline der_error der_element_octets_inline(const der_reader *reader, const der_element *element,
                                                  der_span *octets)
{
    der_error foreign = {DER_READER, false, 0, 0, 0, 0, 0};
    return der_is_foreign(reader, element) ? foreign : der_element_octets(reader, element, octets);
}
#define der_open(reader, element, inside) der_open_inline(reader, element, inside)
#define der_element_octets(reader, element, octets) der_element_octets_inline(reader, element, octets)

/* der_scan consumes indefinite-length contents and the end-of-contents octets that close them
 * (X.690 8.1.3.6), and sets |*count| to the number of octets consumed, end-of-contents octets
 * included. The reader is just after octet 0x80 before the call. Fails with DER_ENCODING_RULES if
 * the reader does not read under the Basic Encoding Rules, and with the error that is found in the
 * contents. */
DER_MUST_USE DER_NONNULL(1, 2)
der_error der_scan(der_reader *reader, uint32_t *count);

/* An element of a tree. Positions are in octets from the start of the input. */
typedef struct der_node {
    der_tag tag;
    uint32_t start;          /* where the header begins */
    uint32_t contents_start; /* where the contents begin */
    uint32_t end;            /* where the contents end */
    uint8_t depth;           /* how many elements of the tree contain it */
    bool constructed;
    bool indefinite;
} der_node;
#define DER_NODE_INIT {0, 0, 0, 0, 0, false, false}

/* der_read_tree reads all elements that are left and everything inside constructed ones into
 * |nodes|, an array of |capacity| nodes, each element before those inside it, and sets |*count| to
 * their number. It descends 32 levels; an element deeper than that is one node. Before the call
 * each |bool| in |nodes| is 0 or 1, and all else in them is arbitrary (an array of zeros will do).
 * Fails like |der_read_element|, and with DER_OVERLENGTH if |capacity| nodes are too few; then
 * |*count| nodes are set, those before the element that is refused. */
DER_MUST_USE DER_NONNULL(1, 4)
der_error der_read_tree(der_reader *reader, der_node *nodes, size_t capacity, size_t *count);

/* der_compare compares two whole elements under the Distinguished Encoding Rules in the order of a
 * SET OF (X.690 11.6), and sets |*order| to -1, 0 or 1. Fails if |first|, or else |second|, is not
 * exactly one element: like |der_read_element|, with DER_OVERFLOW, or with DER_TRAILING_DATA. */
DER_MUST_USE DER_NONNULL(5)
der_error der_compare(const uint8_t *first, size_t first_length, const uint8_t *second, size_t second_length,
                      int32_t *order);

/* Values.
 *
 * Each call reads the next element, which must have |tag|, and checks its contents by the rules of
 * DER, also if the reader reads BER. A |tag| other than the type's own is that of a value with an IMPLICIT tag. They fail like
 * |der_expect|; and with DER_VALUE, at the position after the element, if its contents are not those
 * of a value of the type. An ENUMERATED is read by |der_read_int64|, an OCTET STRING by
 * |der_expect|. */

/* der_read_boolean reads a BOOLEAN (X.690 8.2, 11.1). */
DER_MUST_USE DER_NONNULL(1, 3)
der_error der_read_boolean(der_reader *reader, der_tag tag, bool *value);

/* der_read_uint64 and der_read_int64 read an INTEGER (X.690 8.3). DER_VALUE is also the error of one
 * that the type of |*value| cannot hold. */
DER_MUST_USE DER_NONNULL(1, 3)
der_error der_read_uint64(der_reader *reader, der_tag tag, uint64_t *value);
DER_MUST_USE DER_NONNULL(1, 3)
der_error der_read_int64(der_reader *reader, der_tag tag, int64_t *value);

/* der_read_integer reads an INTEGER of any size: its octets are the number in two's complement, the
 * most significant octet first, and there is at least one. */
DER_MUST_USE DER_NONNULL(1, 3)
der_error der_read_integer(der_reader *reader, der_tag tag, der_span *value);

/* der_read_bit_string reads a BIT STRING (X.690 8.6, 11.2). */
DER_MUST_USE DER_NONNULL(1, 3)
der_error der_read_bit_string(der_reader *reader, der_tag tag, der_bits *bits);

/* der_read_null reads a NULL (X.690 8.8). */
DER_MUST_USE DER_NONNULL(1)
der_error der_read_null(der_reader *reader, der_tag tag);

/* der_read_oid reads an OBJECT IDENTIFIER (X.690 8.19), as contents octets. */
DER_MUST_USE DER_NONNULL(1, 3)
der_error der_read_oid(der_reader *reader, der_tag tag, der_span *oid);

/* The characters of a string. |type| is the universal tag of its type. */
typedef struct der_text {
    const uint8_t *octets;
    size_t length;
    der_tag type;
} der_text;
#define DER_TEXT_INIT {DER_NO_OCTETS, 0, DER_UTF8_STRING}

/* der_read_text reads a string, and checks that its characters are those of |type|, which is
 * DER_UTF8_STRING, DER_NUMERIC_STRING, DER_PRINTABLE_STRING, DER_TELETEX_STRING, DER_IA5_STRING,
 * DER_VISIBLE_STRING or DER_BMP_STRING; another |type| is DER_TAG_NUMBER_INVALID. Any octets are a
 * TeletexString. A BMPString has no surrogates. */
DER_MUST_USE DER_NONNULL(1, 4)
der_error der_read_text(der_reader *reader, der_tag tag, der_tag type, der_text *text);

/* der_next_character removes the first character of |text|, sets |*character| to its number in
 * Unicode, and returns true. It returns false and changes nothing if no octets are left, if the octets
 * of a UTF8String or BMPString do not begin with a character, and if |type| is no string type. In the
 * other types each octet is a character of ISO 8859-1: that it belongs to |type| is checked only by
 * |der_read_text|. */
DER_MUST_USE DER_NONNULL(1, 2)
bool der_next_character(der_text *text, uint32_t *character);

/* A time in UTC. */
typedef struct der_time {
    int64_t seconds; /* since 1970-01-01T00:00:00Z, without leap seconds */
    uint16_t year;   /* 0 to 9999 */
    uint8_t month;   /* 1 to 12 */
    uint8_t day;     /* 1 to 31 */
    uint8_t hour;    /* 0 to 23 */
    uint8_t minute;  /* 0 to 59 */
    uint8_t second;  /* 0 to 59 */
} der_time;
#define DER_TIME_INIT {0, 1970, 1, 1, 0, 0, 0}

/* der_read_time reads a time of |type|, which is DER_UTC_TIME or DER_GENERALIZED_TIME (X.690 11.7,
 * 11.8); another |type| is DER_TAG_NUMBER_INVALID. A UTCTime is in the years 1950 to 2049. Fractions
 * of a second are refused. */
DER_MUST_USE DER_NONNULL(1, 4)
der_error der_read_time(der_reader *reader, der_tag tag, der_tag type, der_time *time);

/* der_time_text writes a time as RFC 3339 does, as "2026-11-29T11:24:00Z", and a zero octet into |text|,
 * and sets |*count| to 20, the number of octets without the zero octet. It ignores |seconds|. Fails
 * with DER_DATE_TIME if there is no such time, and with DER_OVERLENGTH if |capacity| is below 21. */
DER_MUST_USE DER_NONNULL(1, 4)
der_error der_time_text(const der_time *time, char *text, size_t capacity, size_t *count);

/* OBJECT IDENTIFIERs, as contents octets. */

/* der_oid_text writes an OBJECT IDENTIFIER in dotted notation, as "2.5.4.3", and a zero octet into
 * |text|, and sets |*count| to the number of octets without the zero octet. Fails with DER_VALUE if
 * |oid| is no OBJECT IDENTIFIER, with DER_OVERFLOW if the subidentifier of an arc needs more than 128
 * bits, and with DER_OVERLENGTH if |capacity| is too small. */
DER_MUST_USE DER_NONNULL(5)
der_error der_oid_text(const uint8_t *oid, size_t length, char *text, size_t capacity, size_t *count);

/* der_oid_arcs writes the arcs of an OBJECT IDENTIFIER into |arcs|, an array of |capacity| numbers, and
 * sets |*count| to how many they are: at most one more than |length|. Fails with DER_VALUE if |oid| is
 * no OBJECT IDENTIFIER, with DER_OVERFLOW if an arc needs more than 64 bits (|der_oid_text| allows 128),
 * and with DER_OVERLENGTH if |capacity| is too small. */
DER_MUST_USE DER_NONNULL(5)
der_error der_oid_arcs(const uint8_t *oid, size_t length, uint64_t *arcs, size_t capacity, size_t *count);

/* der_oid_from_text writes the contents octets of an OBJECT IDENTIFIER in dotted notation into |oid|,
 * and sets |*count| to their number. Fails with DER_OID_MALFORMED if |text| is no dotted notation, however
 * large its numbers are; with DER_OVERFLOW if it is, but a subidentifier needs more than 128 bits or all
 * of them more than 256 octets; and with DER_OVERLENGTH if |capacity| is too small. */
DER_MUST_USE DER_NONNULL(5)
der_error der_oid_from_text(const char *text, size_t length, uint8_t *oid, size_t capacity, size_t *count);

/* der_oid_is returns whether |text| is the dotted notation of |oid|. It is false if |oid| is no OBJECT
 * IDENTIFIER, and if a subidentifier needs more than 128 bits. With
 * DER_LITERAL the text is a literal: der_oid_is(oid, length, DER_LITERAL("2.5.29.17")). It stands for
 * the octets of a literal and their number, without the final zero octet. */
bool der_oid_is(const uint8_t *oid, size_t length, const char *text, size_t text_length);
#define DER_LITERAL(text) ("" text), (sizeof(text) - 1)

/* Certificates, requests and keys.
 *
 * They are read under DER. All spans and bits that have octets point into the input. Nothing is
 * validated: no signature, no chain of certificates, no clock. The contents of extensions, of
 * parameters, of keys and of values of attributes are not checked, except by the calls that read them.
 * Nor is it checked that the algorithm inside the signed part is the one outside it, or that |version|
 * allows the fields that are there.
 *
 * The calls that read a whole value fail with the first error that they find, and with
 * DER_TRAILING_DATA also if octets follow. A position counts from the start of |octets|. Not every
 * error has one (see |has_position|): that a SEQUENCE has another tag, for example, is
 * DER_TAG_UNEXPECTED without a position. The same holds for the items of lists and the values of
 * extensions below. */

/* An element of any tag, without its header. */
typedef struct der_any {
    der_span contents;
    der_tag tag; /* 0 if there is no element */
} der_any;
#define DER_ANY_INIT {DER_SPAN_INIT, 0}

/* An algorithm (RFC 5280, 4.1.1.2). */
typedef struct der_algorithm {
    der_span identifier; /* an OBJECT IDENTIFIER */
    der_any parameters;
} der_algorithm;
#define DER_ALGORITHM_INIT {DER_SPAN_INIT, DER_ANY_INIT}

/* A public key (SubjectPublicKeyInfo; RFC 5280, 4.1.2.7). */
typedef struct der_public_key {
    der_span whole; /* all octets of the SubjectPublicKeyInfo, as they are hashed */
    der_algorithm algorithm;
    der_bits key;   /* in the format of the algorithm, which is not checked */
} der_public_key;
#define DER_PUBLIC_KEY_INIT {DER_SPAN_INIT, DER_ALGORITHM_INIT, DER_BITS_INIT}

/* A certificate (RFC 5280, 4.1). A name is the contents of a Name: see |der_next_attribute|. */
typedef struct der_certificate {
    der_span signed_part;              /* all octets of tbsCertificate, which the signature covers */
    der_span serial_number;            /* the octets of an INTEGER; it may be negative */
    der_span issuer;                   /* a name */
    der_span subject;                  /* a name */
    der_algorithm signed_algorithm;    /* the algorithm of the signature, in the signed part */
    der_public_key public_key;
    der_bits issuer_unique_id;         /* no bits if it is absent */
    der_bits subject_unique_id;        /* no bits if it is absent */
    der_span extensions;               /* the contents of the list; none if it is absent */
    der_algorithm signature_algorithm; /* the algorithm of the signature, outside the signed part */
    der_bits signature;
    int64_t not_before;                /* in seconds since 1970-01-01T00:00:00Z */
    int64_t not_after;
    uint8_t version;                   /* 1, 2 or 3 */
    bool has_issuer_unique_id;
    bool has_subject_unique_id;
    bool has_extensions;
} der_certificate;
#define DER_CERTIFICATE_INIT                                                                                       \
    {DER_SPAN_INIT, DER_SPAN_INIT, DER_SPAN_INIT, DER_SPAN_INIT,      DER_ALGORITHM_INIT, DER_PUBLIC_KEY_INIT,      \
     DER_BITS_INIT, DER_BITS_INIT, DER_SPAN_INIT, DER_ALGORITHM_INIT, DER_BITS_INIT,      0,                        \
     0,             0,             false,         false,              false}

/* der_certificate_read reads |octets|, which must be one certificate and no more. */
DER_MUST_USE DER_NONNULL(3)
der_error der_certificate_read(const uint8_t *octets, size_t length, der_certificate *certificate);

/* der_public_key_read reads |octets|, which must be one SubjectPublicKeyInfo and no more. */
DER_MUST_USE DER_NONNULL(3)
der_error der_public_key_read(const uint8_t *octets, size_t length, der_public_key *key);

/* A certificate request (PKCS #10; RFC 2986, 4). Its version is always 1. */
typedef struct der_request {
    der_span signed_part;       /* all octets of certificationRequestInfo, which the signature covers */
    der_span subject;           /* a name */
    der_public_key public_key;
    der_span attributes;        /* the contents of the SET OF attributes */
    der_algorithm signature_algorithm;
    der_bits signature;
} der_request;
#define DER_REQUEST_INIT \
    {DER_SPAN_INIT, DER_SPAN_INIT, DER_PUBLIC_KEY_INIT, DER_SPAN_INIT, DER_ALGORITHM_INIT, DER_BITS_INIT}

/* der_request_read reads |octets|, which must be one certificate request and no more. */
DER_MUST_USE DER_NONNULL(3)
der_error der_request_read(const uint8_t *octets, size_t length, der_request *request);

/* A private key with its algorithm (PKCS #8; RFC 5958, 2). */
typedef struct der_private_key {
    der_algorithm algorithm;
    der_span key;         /* the contents of the OCTET STRING, in the format of the algorithm */
    der_span attributes;  /* the contents of the SET OF attributes; none if it is absent */
    der_bits public_key;  /* no bits if it is absent; that it belongs to |key| is not checked */
    uint8_t version;      /* 1 or 2 */
    bool has_attributes;
    bool has_public_key;
} der_private_key;
#define DER_PRIVATE_KEY_INIT \
    {DER_ALGORITHM_INIT, DER_SPAN_INIT, DER_SPAN_INIT, DER_BITS_INIT, 0, false, false}

/* der_private_key_read reads |octets|, which must be one PrivateKeyInfo and no more. An encrypted
 * key is another format, and is refused. */
DER_MUST_USE DER_NONNULL(3)
der_error der_private_key_read(const uint8_t *octets, size_t length, der_private_key *key);

/* A certificate revocation list (RFC 5280, 5.1). */
typedef struct der_revocation_list {
    der_span signed_part;           /* all octets of tbsCertList, which the signature covers */
    der_algorithm signed_algorithm; /* the algorithm of the signature, in the signed part */
    der_span issuer;                /* a name */
    der_span entries;               /* for |der_next_revoked|; none if the list of them is absent */
    der_span extensions;            /* the contents of the list; none if it is absent */
    der_algorithm signature_algorithm;
    der_bits signature;
    int64_t this_update;            /* in seconds since 1970-01-01T00:00:00Z */
    int64_t next_update;            /* 0 if it is absent */
    uint8_t version;                /* 1, 2 or 3; 1 if it is absent */
    bool has_next_update;
    bool has_entries;
    bool has_extensions;
} der_revocation_list;
#define DER_REVOCATION_LIST_INIT                                                                          \
    {DER_SPAN_INIT,      DER_ALGORITHM_INIT, DER_SPAN_INIT, DER_SPAN_INIT, DER_SPAN_INIT, DER_ALGORITHM_INIT, \
     DER_BITS_INIT,      0,                  0,             0,             false,         false,              \
     false}

/* der_revocation_list_read reads |octets|, which must be one revocation list and no more. Each entry is checked;
 * |der_next_revoked| reads them one by one. */
DER_MUST_USE DER_NONNULL(3)
der_error der_revocation_list_read(const uint8_t *octets, size_t length, der_revocation_list *list);

/* Items of lists. Make a |der_reader| of the span of the list, with |ber| false: a reader of BER also
 * accepts items that are not DER. Read items until |der_is_finished|. Positions of errors count from
 * the start of the span. At the end the error is DER_INCOMPLETE. */

/* An extension (RFC 5280, 4.2). */
typedef struct der_extension {
    der_span identifier; /* an OBJECT IDENTIFIER */
    der_span value;      /* the contents of the OCTET STRING, which are not checked */
    bool critical;
} der_extension;
#define DER_EXTENSION_INIT {DER_SPAN_INIT, DER_SPAN_INIT, false}

/* der_next_extension reads the next extension of a list of them. */
DER_MUST_USE DER_NONNULL(1, 2)
der_error der_next_extension(der_reader *reader, der_extension *extension);

/* An attribute of a name (RFC 5280, 4.1.2.4). */
typedef struct der_attribute {
    der_span identifier; /* an OBJECT IDENTIFIER */
    der_any value;       /* which is not checked */
} der_attribute;
#define DER_ATTRIBUTE_INIT {DER_SPAN_INIT, DER_ANY_INIT}

/* der_next_attribute reads the next attribute of one level of a name. A name is levels, each a SET
 * of attributes: make a reader of the name, enter each level with |der_enter| and DER_SET, and read
 * its attributes until |der_is_finished|. */
DER_MUST_USE DER_NONNULL(1, 2)
der_error der_next_attribute(der_reader *reader, der_attribute *attribute);

/* der_name_text writes a name as RFC 4514 does, as "CN=example.org,O=Example,C=DE", and a zero octet into
 * |text|, and sets |*count| to the number of octets without the zero octet. The last level comes first.
 * A type without a short name in RFC 4514 or RFC 4519 is written as its OBJECT IDENTIFIER, with ? for an
 * arc that needs more than 128 bits. The value of such a type is written as # and its encoding in
 * hexadecimal, and so is each value that is not a string that |der_read_text| accepts. The characters that
 * |der_is_hidden| names are written as a backslash and two hexadecimal digits for each octet in UTF-8, as
 * "\E2\80\AE" for U+202E (RFC 4514, 2.4), so there is no other zero octet.
 *
 * The text is for people. Different names may have one text, as those whose strings have different types:
 * to compare names, compare elements. To check a host, do not compare this text or its CN with anything
 * (RFC 9525, 2).
 *
 * Fails with the error of the first level that cannot be read, whose position counts from the start of
 * |name|, and with DER_OVERLENGTH if |capacity| is too small. In DER_INCOMPLETE |first| is |second| plus
 * one. */
DER_MUST_USE DER_NONNULL(5)
der_error der_name_text(const uint8_t *name, size_t length, char *text, size_t capacity, size_t *count);

/* der_is_hidden returns true if a reader would not see a character as it is: a control character, an
 * invisible one or one that turns the text around it (in Unicode the categories Cc, Cf, Zl and Zp, the
 * characters with Default_Ignorable_Code_Point, and U+2800). A number that is no character counts as hidden.
 * Escape such characters before you print other texts of a certificate, as those of |der_next_character|. */
bool der_is_hidden(uint32_t character);

/* The forms of general names, by the numbers of their tags. */
enum {
    DER_OTHER_NAME = 0,     /* |identifier| and |value| */
    DER_RFC822_NAME = 1,    /* a mail address, in characters of 7 bits */
    DER_DNS_NAME = 2,       /* characters of 7 bits */
    DER_X400_ADDRESS = 3,   /* the contents of a SEQUENCE, which are not checked */
    DER_DIRECTORY_NAME = 4, /* a name: enter each level, as |der_next_attribute| says */
    DER_EDI_PARTY_NAME = 5, /* its fields are not given */
    DER_URI = 6,            /* characters of 7 bits */
    DER_IP_ADDRESS = 7,     /* octets, whose number is not checked */
    DER_REGISTERED_ID = 8   /* an OBJECT IDENTIFIER */
};

/* A general name (RFC 5280, 4.2.1.6). */
typedef struct der_general_name {
    der_span contents;   /* as |kind| says; none if it is 0 or 5 */
    der_span identifier; /* the form of an otherName, an OBJECT IDENTIFIER */
    der_any value;       /* the value of an otherName */
    uint8_t kind;
} der_general_name;
#define DER_GENERAL_NAME_INIT {DER_SPAN_INIT, DER_SPAN_INIT, DER_ANY_INIT, 0}

/* der_next_general_name reads the next name of a list of general names. */
DER_MUST_USE DER_NONNULL(1, 2)
der_error der_next_general_name(der_reader *reader, der_general_name *name);

/* An entry of a revocation list (RFC 5280, 5.1.2.6). */
typedef struct der_revoked {
    der_span serial_number; /* the octets of an INTEGER */
    der_span extensions;    /* the contents of the list; none if it is absent */
    int64_t revocation_date; /* in seconds since 1970-01-01T00:00:00Z */
    bool has_extensions;
} der_revoked;
#define DER_REVOKED_INIT {DER_SPAN_INIT, DER_SPAN_INIT, 0, false}

/* der_next_revoked reads the next entry of the entries of a revocation list. */
DER_MUST_USE DER_NONNULL(1, 2)
der_error der_next_revoked(der_reader *reader, der_revoked *entry);

/* Extensions that are found and read by their type. |extensions| are the contents of a list. An
 * extension that is absent is no error: |present| is then false, and all else 0, false or empty. The
 * calls fail, in this order:
 *   - with the first error of the list itself, whose position counts from the start of the list. The
 *     lists that |der_certificate_read|, |der_revocation_list_read| and |der_next_revoked| set have
 *     none;
 *   - with DER_SET_DUPLICATE, without a position, if the list has the extension more than once;
 *   - with the error of its value, whose position, if any, counts from the start of the value. */

/* Bits of keyUsage (RFC 5280, 4.2.1.3). */
enum {
    DER_DIGITAL_SIGNATURE = 1 << 0,
    DER_NON_REPUDIATION = 1 << 1,
    DER_KEY_ENCIPHERMENT = 1 << 2,
    DER_DATA_ENCIPHERMENT = 1 << 3,
    DER_KEY_AGREEMENT = 1 << 4,
    DER_KEY_CERT_SIGN = 1 << 5,
    DER_CRL_SIGN = 1 << 6,
    DER_ENCIPHER_ONLY = 1 << 7,
    DER_DECIPHER_ONLY = 1 << 8
};

/* What keyUsage says. */
typedef struct der_usage {
    uint16_t bits; /* bit n of the extension is 1 << n; those from 16 are left out */
    bool present;
    bool critical;
} der_usage;
#define DER_USAGE_INIT {0, false, false}

DER_MUST_USE DER_NONNULL(3)
der_error der_key_usage(const uint8_t *extensions, size_t length, der_usage *usage);

/* der_key_usage_lenient is |der_key_usage|, but also accepts BER that is not DER: the bits may have zero bits
 * after them, as in some roots. |*is_der| is whether the contents are DER; it is true if the extension is absent.
 * Unused bits that are 1, segments, and lengths in more octets than necessary are errors. */
DER_MUST_USE DER_NONNULL(3, 4)
der_error der_key_usage_lenient(const uint8_t *extensions, size_t length, der_usage *usage, bool *is_der);

/* What basicConstraints says (RFC 5280, 4.2.1.9). */
typedef struct der_constraints {
    uint64_t path_length; /* how many certificates of authorities may follow; one that is negative or
                           * above 2^64 - 1 is DER_VALUE; 0 if it is not limited */
    bool present;
    bool critical;
    bool is_authority;    /* whether the subject may issue certificates */
    bool has_path_length;
} der_constraints;
#define DER_CONSTRAINTS_INIT {0, false, false, false, false}

DER_MUST_USE DER_NONNULL(3)
der_error der_basic_constraints(const uint8_t *extensions, size_t length, der_constraints *constraints);

/* der_basic_constraints_lenient is |der_basic_constraints|, but also accepts BER that is not DER: |cA FALSE|
 * may be written, and the length may be indefinite. A TRUE other than FF is an error. |*is_der| is as in
 * |der_key_usage_lenient|. */
DER_MUST_USE DER_NONNULL(3, 4)
der_error der_basic_constraints_lenient(const uint8_t *extensions, size_t length, der_constraints *constraints,
                                        bool *is_der);

/* The names of subjectAltName (RFC 5280, 4.2.1.6), for |der_next_general_name|. There may be none. */
typedef struct der_names {
    der_span names;
    bool present;
    bool critical;
} der_names;
#define DER_NAMES_INIT {DER_SPAN_INIT, false, false}

DER_MUST_USE DER_NONNULL(3)
der_error der_subject_alternative_name(const uint8_t *extensions, size_t length, der_names *names);

/* The contents of an extension whose value is a list or octets. */
typedef struct der_found {
    der_span contents; /* none if the extension is absent */
    bool present;
    bool critical;
} der_found;
#define DER_FOUND_INIT {DER_SPAN_INIT, false, false}

/* der_extended_key_usage finds extKeyUsage (RFC 5280, 4.2.1.12): the purposes of the key, for
 * |der_next_key_purpose|. There may be none. */
DER_MUST_USE DER_NONNULL(3)
der_error der_extended_key_usage(const uint8_t *extensions, size_t length, der_found *purposes);

/* der_next_key_purpose reads the next purpose of a list of them, an OBJECT IDENTIFIER: compare it with
 * |der_oid_is|, as with 1.3.6.1.5.5.7.3.1 for the server of TLS. */
DER_MUST_USE DER_NONNULL(1, 2)
der_error der_next_key_purpose(der_reader *reader, der_span *purpose);

/* der_subject_key_identifier finds subjectKeyIdentifier (RFC 5280, 4.2.1.2): the octets of the identifier,
 * which is compared with no key. */
DER_MUST_USE DER_NONNULL(3)
der_error der_subject_key_identifier(const uint8_t *extensions, size_t length, der_found *identifier);

/* What authorityKeyIdentifier says (RFC 5280, 4.2.1.1): which key of the issuer signed the certificate. */
typedef struct der_authority_key {
    der_span key_identifier; /* octets; none if they are absent */
    der_span issuer;         /* names of who issued the issuer's certificate, for |der_next_general_name|; may be empty */
    der_span serial_number;  /* of that certificate, the octets of an INTEGER; none if it is absent */
    bool present;
    bool critical;
    bool has_key_identifier;
    bool has_issuer;         /* one of issuer and serial number without the other is no error */
    bool has_serial_number;
} der_authority_key;
#define DER_AUTHORITY_KEY_INIT {DER_SPAN_INIT, DER_SPAN_INIT, DER_SPAN_INIT, false, false, false, false, false}

DER_MUST_USE DER_NONNULL(3)
der_error der_authority_key_identifier(const uint8_t *extensions, size_t length, der_authority_key *key);

/* der_authority_information_access finds authorityInfoAccess (RFC 5280, 4.2.2.1): where more about the issuer
 * is found, for |der_next_access_description|. There may be no place. */
DER_MUST_USE DER_NONNULL(3)
der_error der_authority_information_access(const uint8_t *extensions, size_t length, der_found *descriptions);

/* Which information is found, and where (AccessDescription). */
typedef struct der_access_description {
    der_span method; /* an OBJECT IDENTIFIER: 1.3.6.1.5.5.7.48.1 for OCSP, 1.3.6.1.5.5.7.48.2 for certificates */
    der_general_name location;
} der_access_description;
#define DER_ACCESS_DESCRIPTION_INIT {DER_SPAN_INIT, DER_GENERAL_NAME_INIT}

/* der_next_access_description reads the next access description of a list of them. */
DER_MUST_USE DER_NONNULL(1, 2)
der_error der_next_access_description(der_reader *reader, der_access_description *description);

/* der_distribution_points finds cRLDistributionPoints (RFC 5280, 4.2.1.13): where revocation lists are found, for
 * |der_next_distribution_point|. There may be no place. */
DER_MUST_USE DER_NONNULL(3)
der_error der_distribution_points(const uint8_t *extensions, size_t length, der_found *points);

/* Bits of the reasons for a revocation (RFC 5280, 4.2.1.13). */
enum {
    DER_KEY_COMPROMISE = 1 << 1,
    DER_CA_COMPROMISE = 1 << 2,
    DER_AFFILIATION_CHANGED = 1 << 3,
    DER_SUPERSEDED = 1 << 4,
    DER_CESSATION_OF_OPERATION = 1 << 5,
    DER_CERTIFICATE_HOLD = 1 << 6,
    DER_PRIVILEGE_WITHDRAWN = 1 << 7,
    DER_AA_COMPROMISE = 1 << 8
};

/* Where a revocation list is found (DistributionPoint). The place has a full name or a relative name. Place and
 * issuer may both be absent. */
typedef struct der_distribution_point {
    der_span full_name;     /* the names of the place, for |der_next_general_name|; most are URIs */
    der_span relative_name; /* attributes of a level below the name of the issuer of the list, for |der_next_attribute| */
    der_span list_issuer;   /* for |der_next_general_name|; if it is absent, the issuer of the certificate */
    uint16_t reasons;       /* bit n is 1 << n, below 16; 0 if they are absent: the list covers all reasons */
    bool has_full_name;
    bool has_relative_name;
    bool has_reasons;
    bool has_list_issuer;
} der_distribution_point;
#define DER_DISTRIBUTION_POINT_INIT {DER_SPAN_INIT, DER_SPAN_INIT, DER_SPAN_INIT, 0, false, false, false, false}

/* der_next_distribution_point reads the next distribution point of a list of them. */
DER_MUST_USE DER_NONNULL(1, 2)
der_error der_next_distribution_point(der_reader *reader, der_distribution_point *point);

/* Writing. */

/* A der_writer writes into a buffer that it does not own. Its fields are private. */
typedef struct der_writer {
    uint8_t *octets;
    size_t length;
    size_t position;
    size_t innermost;
    bool failed;
} der_writer;
#define DER_WRITER_INIT {DER_NO_BUFFER, 0, 0, 0, false}

/* A der_mark is an element that is begun and not ended. Its fields are private. */
typedef struct der_mark {
    size_t start;
    size_t outer;
} der_mark;
#define DER_MARK_INIT {0, 0}

/* der_writer_init makes |writer| write into the |length| octets at |octets|. It keeps |octets|. At
 * most 4294967295 octets are written. */
DER_NONNULL(3)
void der_writer_init(uint8_t *octets, size_t length, der_writer *writer);

/* der_written returns how many octets are written. They are at the start of the buffer. */
DER_NONNULL(1)
size_t der_written(const der_writer *writer);

/* der_writer_finish returns DER_OK if the writer has not failed and no element is open; else
 * DER_FAILED or DER_UNBALANCED, at the number of octets written. A caller may thus ignore the errors
 * of a sequence of writing calls, and check once here. It leaves the writer as it is. */
DER_MUST_USE DER_NONNULL(1)
der_error der_writer_finish(const der_writer *writer);

/* der_writer_fail makes the writer fail. */
DER_NONNULL(1)
void der_writer_fail(der_writer *writer);

/* der_write writes |length| octets unchanged. Fails with DER_FAILED, DER_OVERFLOW and
 * DER_OVERLENGTH; nothing is written then. */
DER_NONNULL(1)
der_error der_write(der_writer *writer, const uint8_t *octets, size_t length);

/* der_write_header writes the header of an element of |tag| with |length| octets of contents. Fails
 * like |der_write|, and with DER_TAG_NUMBER_INVALID if |tag| is not a tag; octets of the header
 * that were already written remain. */
DER_NONNULL(1)
der_error der_write_header(der_writer *writer, der_tag tag, uint32_t length);

/* der_write_element writes a header and the contents. Fails like |der_write_header|, and with
 * DER_OVERFLOW if |length| exceeds 4294967295. */
DER_NONNULL(1)
der_error der_write_element(der_writer *writer, der_tag tag, const uint8_t *contents, size_t length);

/* der_write_parts writes a header, and then the octets of |count| spans, one after another, which are
 * the contents. Fails like |der_write_element| with all these octets as contents. */
DER_NONNULL(1)
der_error der_write_parts(der_writer *writer, der_tag tag, const der_span *parts, size_t count);

/* To write an element with others inside, either compute the lengths first, or begin and end it.
 *
 * der_element_length sets |*count| to the number of octets of an element of |tag| with |length|
 * octets of contents: the sum over the elements inside is the length to pass to |der_write_header|.
 * Fails with DER_TAG_NUMBER_INVALID if |tag| is not a tag, and with DER_OVERFLOW if the number
 * exceeds 4294967295. */
DER_MUST_USE DER_NONNULL(3)
der_error der_element_length(der_tag tag, uint32_t length, uint32_t *count);

/* der_begin begins an element of |tag|, and sets |*mark|. All that is written until |der_end| belongs
 * to the contents, including elements begun and ended in between. Fails like |der_write_header|. */
DER_NONNULL(1, 3)
der_error der_begin(der_writer *writer, der_tag tag, der_mark *mark);

/* der_end ends the element that was begun with |mark|, which must be the innermost one that is not
 * ended; else it fails with DER_UNBALANCED. The length of the contents replaces the octet before
 * them; contents of 128 octets or more are moved to make space for it. Fails with DER_FAILED, and
 * like |der_write| if there is no space for the length; nothing is moved then. */
DER_NONNULL(1, 2)
der_error der_end(der_writer *writer, const der_mark *mark);

/* Counting. A der_counter counts what the same calls on a writer would write into a buffer of
 * 4294967295 octets. Its fields are private. */
typedef struct der_counter {
    size_t innermost;
    uint32_t count;
    bool failed;
} der_counter;
#define DER_COUNTER_INIT {0, 0, false}

/* der_counter_init makes |counter| a counter of no octets. */
DER_NONNULL(1)
void der_counter_init(der_counter *counter);

/* der_count, der_count_header and der_count_element count octets, a header and an element. They fail
 * with DER_FAILED and DER_OVERFLOW, and with DER_TAG_NUMBER_INVALID if |tag| is not a tag; the counter
 * has failed then. */
DER_NONNULL(1)
der_error der_count(der_counter *counter, size_t length);
DER_NONNULL(1)
der_error der_count_header(der_counter *counter, der_tag tag, uint32_t length);
DER_NONNULL(1)
der_error der_count_element(der_counter *counter, der_tag tag, uint32_t length);

/* der_count_begin and der_count_end count an element with others inside, as |der_begin| and |der_end|
 * write it, with the same errors. */
DER_NONNULL(1, 3)
der_error der_count_begin(der_counter *counter, der_tag tag, der_mark *mark);
DER_NONNULL(1, 2)
der_error der_count_end(der_counter *counter, const der_mark *mark);

/* der_counted sets |*count| to the number of octets. Fails with DER_FAILED if the counter has failed,
 * and with DER_UNBALANCED if an element is open. */
DER_MUST_USE DER_NONNULL(1, 2)
der_error der_counted(const der_counter *counter, uint32_t *count);

/* der_sort_set sorts |elements| into the order of a SET OF (X.690 11.6), that of their octets, so that
 * they can be written one by one. Each span is to be the encoding of one element, which is not
 * checked. It moves the spans, and not the octets that they point to. */
void der_sort_set(der_span *elements, size_t count);

/* Values. Each call writes one element with |tag|, whose contents are those of the value under DER.
 * They fail like |der_write_element|, and with DER_VALUE if |tag| is a tag and the argument is no
 * value of the type; nothing is written then. An OCTET STRING is written by |der_write_element|. */

DER_NONNULL(1)
der_error der_write_boolean(der_writer *writer, der_tag tag, bool value);
DER_NONNULL(1)
der_error der_write_uint64(der_writer *writer, der_tag tag, uint64_t value);
DER_NONNULL(1)
der_error der_write_int64(der_writer *writer, der_tag tag, int64_t value);

/* |octets| are the number in two's complement, as few as possible. */
DER_NONNULL(1)
der_error der_write_integer(der_writer *writer, der_tag tag, const uint8_t *octets, size_t length);

/* The |unused| low bits of the last octet are 0. After an error of space, octets that were already written
 * remain. */
DER_NONNULL(1)
der_error der_write_bit_string(der_writer *writer, der_tag tag, const uint8_t *octets, size_t length, uint8_t unused);
DER_NONNULL(1)
der_error der_write_null(der_writer *writer, der_tag tag);

/* An OBJECT IDENTIFIER, given as contents octets, and in dotted notation. All errors of |der_oid_from_text|
 * in the text, also that it is too large, are DER_VALUE here. */
DER_NONNULL(1)
der_error der_write_oid(der_writer *writer, der_tag tag, const uint8_t *oid, size_t length);
DER_NONNULL(1)
der_error der_write_oid_text(der_writer *writer, der_tag tag, const char *text, size_t length);

/* |octets| are characters of |type|, as |der_read_text| checks them. */
DER_NONNULL(1)
der_error der_write_text(der_writer *writer, der_tag tag, der_tag type, const uint8_t *octets, size_t length);

/* A time of |type|, from its fields, without |seconds|; and from seconds since 1970. A UTCTime is in
 * the years 1950 to 2049. In the calls that write, another |type| is DER_VALUE. */
DER_NONNULL(1, 4)
der_error der_write_time(der_writer *writer, der_tag tag, der_tag type, const der_time *time);
DER_NONNULL(1)
der_error der_write_time_seconds(der_writer *writer, der_tag tag, der_tag type, int64_t seconds);

/* Names, extensions, requests and certificates that are written from parts.
 *
 * OBJECT IDENTIFIERs are passed as contents octets. Each DER_ID_.. below stands for both arguments, the
 * octets and their number; |der_oid_from_text| makes the octets of others. A part that is called an
 * element is the whole encoding of a value, which is written as it is and not checked: to see that what
 * was written is a request or a certificate, read it with |der_request_read| or |der_certificate_read|.
 * No call signs.
 *
 * The calls fail like |der_write_element|. OBJECT IDENTIFIERs, texts, times and the serial number are
 * checked: one that is no value is DER_VALUE, with the tag of the element that is written. The writer has
 * failed then. */

#ifdef __cplusplus
#define DER_OCTETS(text) (reinterpret_cast<const uint8_t *>("" text)), (sizeof(text) - 1)
#else
#define DER_OCTETS(text) ((const uint8_t *)("" text)), (sizeof(text) - 1)
#endif

/* Types of attributes of names (RFC 5280, appendix A.1; RFC 4519). */
#define DER_ID_COMMON_NAME DER_OCTETS("\x55\x04\x03") /* 2.5.4.3 */
#define DER_ID_SERIAL_NUMBER DER_OCTETS("\x55\x04\x05") /* 2.5.4.5 */
#define DER_ID_COUNTRY_NAME DER_OCTETS("\x55\x04\x06") /* 2.5.4.6 */
#define DER_ID_LOCALITY_NAME DER_OCTETS("\x55\x04\x07") /* 2.5.4.7 */
#define DER_ID_STATE_OR_PROVINCE_NAME DER_OCTETS("\x55\x04\x08") /* 2.5.4.8 */
#define DER_ID_ORGANIZATION_NAME DER_OCTETS("\x55\x04\x0A") /* 2.5.4.10 */
#define DER_ID_ORGANIZATIONAL_UNIT_NAME DER_OCTETS("\x55\x04\x0B") /* 2.5.4.11 */
#define DER_ID_EMAIL_ADDRESS DER_OCTETS("\x2A\x86\x48\x86\xF7\x0D\x01\x09\x01") /* 1.2.840.113549.1.9.1 */
#define DER_ID_DOMAIN_COMPONENT DER_OCTETS("\x09\x92\x26\x89\x93\xF2\x2C\x64\x01\x19") /* 0.9.2342.19200300.100.1.25 */

/* Extensions (RFC 5280, 4.2). */
#define DER_ID_SUBJECT_KEY_IDENTIFIER DER_OCTETS("\x55\x1D\x0E") /* 2.5.29.14 */
#define DER_ID_KEY_USAGE DER_OCTETS("\x55\x1D\x0F") /* 2.5.29.15 */
#define DER_ID_SUBJECT_ALTERNATIVE_NAME DER_OCTETS("\x55\x1D\x11") /* 2.5.29.17 */
#define DER_ID_BASIC_CONSTRAINTS DER_OCTETS("\x55\x1D\x13") /* 2.5.29.19 */
#define DER_ID_CRL_DISTRIBUTION_POINTS DER_OCTETS("\x55\x1D\x1F") /* 2.5.29.31 */
#define DER_ID_CERTIFICATE_POLICIES DER_OCTETS("\x55\x1D\x20") /* 2.5.29.32 */
#define DER_ID_AUTHORITY_KEY_IDENTIFIER DER_OCTETS("\x55\x1D\x23") /* 2.5.29.35 */
#define DER_ID_EXTENDED_KEY_USAGE DER_OCTETS("\x55\x1D\x25") /* 2.5.29.37 */
#define DER_ID_AUTHORITY_INFORMATION_ACCESS DER_OCTETS("\x2B\x06\x01\x05\x05\x07\x01\x01") /* 1.3.6.1.5.5.7.1.1 */

/* Algorithms of keys and of signatures (RFC 4055, 5480, 5758 and 8410). Those with RSA in their name have
 * NULL parameters. Those of ECDSA, and Ed25519, have none. DER_ID_EC_PUBLIC_KEY has a curve, which
 * |der_write_algorithm| cannot write. */
#define DER_ID_RSA_ENCRYPTION DER_OCTETS("\x2A\x86\x48\x86\xF7\x0D\x01\x01\x01") /* 1.2.840.113549.1.1.1 */
#define DER_ID_SHA256_WITH_RSA DER_OCTETS("\x2A\x86\x48\x86\xF7\x0D\x01\x01\x0B") /* 1.2.840.113549.1.1.11 */
#define DER_ID_SHA384_WITH_RSA DER_OCTETS("\x2A\x86\x48\x86\xF7\x0D\x01\x01\x0C") /* 1.2.840.113549.1.1.12 */
#define DER_ID_SHA512_WITH_RSA DER_OCTETS("\x2A\x86\x48\x86\xF7\x0D\x01\x01\x0D") /* 1.2.840.113549.1.1.13 */
#define DER_ID_EC_PUBLIC_KEY DER_OCTETS("\x2A\x86\x48\xCE\x3D\x02\x01") /* 1.2.840.10045.2.1 */
#define DER_ID_ECDSA_WITH_SHA256 DER_OCTETS("\x2A\x86\x48\xCE\x3D\x04\x03\x02") /* 1.2.840.10045.4.3.2 */
#define DER_ID_ECDSA_WITH_SHA384 DER_OCTETS("\x2A\x86\x48\xCE\x3D\x04\x03\x03") /* 1.2.840.10045.4.3.3 */
#define DER_ID_ECDSA_WITH_SHA512 DER_OCTETS("\x2A\x86\x48\xCE\x3D\x04\x03\x04") /* 1.2.840.10045.4.3.4 */
#define DER_ID_ED25519 DER_OCTETS("\x2B\x65\x70") /* 1.3.101.112 */

/* Key purposes, for an extKeyUsage (RFC 5280, 4.2.1.12). */
#define DER_ID_SERVER_AUTH DER_OCTETS("\x2B\x06\x01\x05\x05\x07\x03\x01") /* 1.3.6.1.5.5.7.3.1 */
#define DER_ID_CLIENT_AUTH DER_OCTETS("\x2B\x06\x01\x05\x05\x07\x03\x02") /* 1.3.6.1.5.5.7.3.2 */
#define DER_ID_CODE_SIGNING DER_OCTETS("\x2B\x06\x01\x05\x05\x07\x03\x03") /* 1.3.6.1.5.5.7.3.3 */
#define DER_ID_EMAIL_PROTECTION DER_OCTETS("\x2B\x06\x01\x05\x05\x07\x03\x04") /* 1.3.6.1.5.5.7.3.4 */
#define DER_ID_TIME_STAMPING DER_OCTETS("\x2B\x06\x01\x05\x05\x07\x03\x08") /* 1.3.6.1.5.5.7.3.8 */
#define DER_ID_OCSP_SIGNING DER_OCTETS("\x2B\x06\x01\x05\x05\x07\x03\x09") /* 1.3.6.1.5.5.7.3.9 */

/* der_write_name_attribute writes one level of a name with one attribute: its type, and the characters of a
 * string of |type|, which is one that |der_read_text| takes. A Name is a SEQUENCE of levels: begin and end it.
 * RFC 5280 (4.1.2.4) wants DER_UTF8_STRING or DER_PRINTABLE_STRING, the latter for DER_ID_COUNTRY_NAME and
 * DER_ID_SERIAL_NUMBER, and DER_IA5_STRING for DER_ID_EMAIL_ADDRESS and DER_ID_DOMAIN_COMPONENT. */
DER_NONNULL(1)
der_error der_write_name_attribute(der_writer *writer, const uint8_t *identifier, size_t length, der_tag type,
                                   const uint8_t *text, size_t text_length);

/* der_write_extension writes an extension; |value| is an element. Extensions are a SEQUENCE of them. */
DER_NONNULL(1)
der_error der_write_extension(der_writer *writer, const uint8_t *identifier, size_t length, bool critical,
                              const uint8_t *value, size_t value_length);

/* der_write_algorithm writes an algorithm, with NULL parameters or with none. */
DER_NONNULL(1)
der_error der_write_algorithm(der_writer *writer, const uint8_t *identifier, size_t length, bool null_parameters);

/* der_write_request_part writes the part of a certification request (RFC 2986, 4.1) that is signed. The
 * subject is a Name, the key a SubjectPublicKeyInfo, and |extensions|, if it has octets, a SEQUENCE of those
 * that are requested. All are elements. A name or a list of extensions that was read has no header: write it
 * with |der_write_element| and DER_SEQUENCE first. */
DER_NONNULL(1)
der_error der_write_request_part(der_writer *writer, const uint8_t *subject, size_t subject_length,
                                 const uint8_t *public_key, size_t key_length, const uint8_t *extensions,
                                 size_t extensions_length);

/* der_write_validity writes the validity of a certificate, from seconds since 1970-01-01T00:00:00Z. Times
 * from 1950 to 2049 are UTCTimes, and others GeneralizedTimes. A time outside the years 0 to 9999 is
 * DER_VALUE; octets that were already written remain. The order of the times is not checked. */
DER_NONNULL(1)
der_error der_write_validity(der_writer *writer, int64_t not_before, int64_t not_after);

/* The parts of a certificate that is written: elements, but for the serial number. A name or a list of
 * extensions that was read has no header: see |der_write_request_part|. */
typedef struct der_certificate_parts {
    der_span serial_number; /* the contents octets of an INTEGER */
    der_span signature_algorithm;
    der_span issuer;
    der_span validity;
    der_span subject;
    der_span public_key;
    der_span extensions; /* no octets: there are no extensions */
} der_certificate_parts;
#define DER_CERTIFICATE_PARTS_INIT \
    {DER_SPAN_INIT, DER_SPAN_INIT, DER_SPAN_INIT, DER_SPAN_INIT, DER_SPAN_INIT, DER_SPAN_INIT, DER_SPAN_INIT}

/* der_write_certificate_part writes the part of a certificate (RFC 5280, 4.1) of version 3 that is signed. */
DER_NONNULL(1, 2)
der_error der_write_certificate_part(der_writer *writer, const der_certificate_parts *parts);

/* der_write_signed writes a certificate, a revocation list or a request: the part that is signed and the
 * algorithm, which are elements, and the octets of the signature as a BIT STRING. */
DER_NONNULL(1)
der_error der_write_signed(der_writer *writer, const uint8_t *part, size_t part_length, const uint8_t *algorithm,
                           size_t algorithm_length, const uint8_t *signature, size_t signature_length);

/* The layouts that the library was compiled for. */
DER_STATIC_ASSERT(words, sizeof(void *) == 8 && sizeof(size_t) == 8 && sizeof(bool) == 1);
DER_STATIC_ASSERT(error, sizeof(der_error) == 16 && offsetof(der_error, has_position) == 1 &&
                             offsetof(der_error, expected) == 2 && offsetof(der_error, actual) == 3 &&
                             offsetof(der_error, position) == 4 && offsetof(der_error, first) == 8 &&
                             offsetof(der_error, second) == 12);
DER_STATIC_ASSERT(span, sizeof(der_span) == 16 && offsetof(der_span, length) == 8);
DER_STATIC_ASSERT(bits, sizeof(der_bits) == 24 && offsetof(der_bits, length) == 8 && offsetof(der_bits, unused) == 16);
DER_STATIC_ASSERT(reader, sizeof(der_reader) == 32 && offsetof(der_reader, length) == 8 &&
                              offsetof(der_reader, position) == 16 && offsetof(der_reader, end) == 24 &&
                              offsetof(der_reader, depth) == 28 && offsetof(der_reader, ber) == 29 &&
                              offsetof(der_reader, failed) == 30);
DER_STATIC_ASSERT(header, sizeof(der_header) == 16 && offsetof(der_header, length) == 8 &&
                              offsetof(der_header, constructed) == 12 && offsetof(der_header, indefinite) == 13);
DER_STATIC_ASSERT(element, sizeof(der_element) == 40 && offsetof(der_element, length) == 8 &&
                               offsetof(der_element, tag) == 16 && offsetof(der_element, start) == 24 &&
                               offsetof(der_element, contents_start) == 28 && offsetof(der_element, constructed) == 32 &&
                               offsetof(der_element, indefinite) == 33);
DER_STATIC_ASSERT(node, sizeof(der_node) == 24 && offsetof(der_node, start) == 8 &&
                            offsetof(der_node, contents_start) == 12 && offsetof(der_node, end) == 16 &&
                            offsetof(der_node, depth) == 20 && offsetof(der_node, constructed) == 21 &&
                            offsetof(der_node, indefinite) == 22);
DER_STATIC_ASSERT(text, sizeof(der_text) == 24 && offsetof(der_text, length) == 8 && offsetof(der_text, type) == 16);
DER_STATIC_ASSERT(time, sizeof(der_time) == 16 && offsetof(der_time, year) == 8 && offsetof(der_time, month) == 10 &&
                            offsetof(der_time, day) == 11 && offsetof(der_time, hour) == 12 &&
                            offsetof(der_time, minute) == 13 && offsetof(der_time, second) == 14);
DER_STATIC_ASSERT(any, sizeof(der_any) == 24 && offsetof(der_any, tag) == 16);
DER_STATIC_ASSERT(algorithm, sizeof(der_algorithm) == 40 && offsetof(der_algorithm, parameters) == 16);
DER_STATIC_ASSERT(public_key, sizeof(der_public_key) == 80 && offsetof(der_public_key, algorithm) == 16 &&
                                  offsetof(der_public_key, key) == 56);
DER_STATIC_ASSERT(certificate, sizeof(der_certificate) == 336 && offsetof(der_certificate, serial_number) == 16 &&
                                   offsetof(der_certificate, issuer) == 32 && offsetof(der_certificate, subject) == 48 &&
                                   offsetof(der_certificate, signed_algorithm) == 64 &&
                                   offsetof(der_certificate, public_key) == 104 &&
                                   offsetof(der_certificate, issuer_unique_id) == 184 &&
                                   offsetof(der_certificate, subject_unique_id) == 208 &&
                                   offsetof(der_certificate, extensions) == 232 &&
                                   offsetof(der_certificate, signature_algorithm) == 248 &&
                                   offsetof(der_certificate, signature) == 288 &&
                                   offsetof(der_certificate, not_before) == 312 &&
                                   offsetof(der_certificate, not_after) == 320 &&
                                   offsetof(der_certificate, version) == 328 &&
                                   offsetof(der_certificate, has_issuer_unique_id) == 329 &&
                                   offsetof(der_certificate, has_subject_unique_id) == 330 &&
                                   offsetof(der_certificate, has_extensions) == 331);
DER_STATIC_ASSERT(request, sizeof(der_request) == 192 && offsetof(der_request, subject) == 16 &&
                               offsetof(der_request, public_key) == 32 && offsetof(der_request, attributes) == 112 &&
                               offsetof(der_request, signature_algorithm) == 128 &&
                               offsetof(der_request, signature) == 168);
DER_STATIC_ASSERT(private_key, sizeof(der_private_key) == 104 && offsetof(der_private_key, key) == 40 &&
                                   offsetof(der_private_key, attributes) == 56 &&
                                   offsetof(der_private_key, public_key) == 72 &&
                                   offsetof(der_private_key, version) == 96 &&
                                   offsetof(der_private_key, has_attributes) == 97 &&
                                   offsetof(der_private_key, has_public_key) == 98);
DER_STATIC_ASSERT(revocation_list, sizeof(der_revocation_list) == 192 &&
                                       offsetof(der_revocation_list, signed_algorithm) == 16 &&
                                       offsetof(der_revocation_list, issuer) == 56 &&
                                       offsetof(der_revocation_list, entries) == 72 &&
                                       offsetof(der_revocation_list, extensions) == 88 &&
                                       offsetof(der_revocation_list, signature_algorithm) == 104 &&
                                       offsetof(der_revocation_list, signature) == 144 &&
                                       offsetof(der_revocation_list, this_update) == 168 &&
                                       offsetof(der_revocation_list, next_update) == 176 &&
                                       offsetof(der_revocation_list, version) == 184 &&
                                       offsetof(der_revocation_list, has_next_update) == 185 &&
                                       offsetof(der_revocation_list, has_entries) == 186 &&
                                       offsetof(der_revocation_list, has_extensions) == 187);
DER_STATIC_ASSERT(extension, sizeof(der_extension) == 40 && offsetof(der_extension, value) == 16 &&
                                 offsetof(der_extension, critical) == 32);
DER_STATIC_ASSERT(attribute, sizeof(der_attribute) == 40 && offsetof(der_attribute, value) == 16);
DER_STATIC_ASSERT(general_name, sizeof(der_general_name) == 64 && offsetof(der_general_name, identifier) == 16 &&
                                    offsetof(der_general_name, value) == 32 && offsetof(der_general_name, kind) == 56);
DER_STATIC_ASSERT(revoked, sizeof(der_revoked) == 48 && offsetof(der_revoked, extensions) == 16 &&
                               offsetof(der_revoked, revocation_date) == 32 && offsetof(der_revoked, has_extensions) == 40);
DER_STATIC_ASSERT(usage, sizeof(der_usage) == 4 && offsetof(der_usage, present) == 2 &&
                             offsetof(der_usage, critical) == 3);
DER_STATIC_ASSERT(constraints, sizeof(der_constraints) == 16 && offsetof(der_constraints, present) == 8 &&
                                   offsetof(der_constraints, critical) == 9 &&
                                   offsetof(der_constraints, is_authority) == 10 &&
                                   offsetof(der_constraints, has_path_length) == 11);
DER_STATIC_ASSERT(names, sizeof(der_names) == 24 && offsetof(der_names, present) == 16 &&
                             offsetof(der_names, critical) == 17);
DER_STATIC_ASSERT(found, sizeof(der_found) == 24 && offsetof(der_found, present) == 16 &&
                             offsetof(der_found, critical) == 17);
DER_STATIC_ASSERT(authority_key, sizeof(der_authority_key) == 56 && offsetof(der_authority_key, issuer) == 16 &&
                                     offsetof(der_authority_key, serial_number) == 32 &&
                                     offsetof(der_authority_key, present) == 48 &&
                                     offsetof(der_authority_key, critical) == 49 &&
                                     offsetof(der_authority_key, has_key_identifier) == 50 &&
                                     offsetof(der_authority_key, has_issuer) == 51 &&
                                     offsetof(der_authority_key, has_serial_number) == 52);
DER_STATIC_ASSERT(access_description, sizeof(der_access_description) == 80 &&
                                          offsetof(der_access_description, location) == 16);
DER_STATIC_ASSERT(distribution_point, sizeof(der_distribution_point) == 56 &&
                                          offsetof(der_distribution_point, relative_name) == 16 &&
                                          offsetof(der_distribution_point, list_issuer) == 32 &&
                                          offsetof(der_distribution_point, reasons) == 48 &&
                                          offsetof(der_distribution_point, has_full_name) == 50 &&
                                          offsetof(der_distribution_point, has_relative_name) == 51 &&
                                          offsetof(der_distribution_point, has_reasons) == 52 &&
                                          offsetof(der_distribution_point, has_list_issuer) == 53);
DER_STATIC_ASSERT(writer, sizeof(der_writer) == 40 && offsetof(der_writer, length) == 8 &&
                              offsetof(der_writer, position) == 16 && offsetof(der_writer, innermost) == 24 &&
                              offsetof(der_writer, failed) == 32);
DER_STATIC_ASSERT(mark, sizeof(der_mark) == 16 && offsetof(der_mark, outer) == 8);
DER_STATIC_ASSERT(counter, sizeof(der_counter) == 16 && offsetof(der_counter, count) == 8 &&
                               offsetof(der_counter, failed) == 12);
DER_STATIC_ASSERT(certificate_parts, sizeof(der_certificate_parts) == 112 &&
                                         offsetof(der_certificate_parts, signature_algorithm) == 16 &&
                                         offsetof(der_certificate_parts, issuer) == 32 &&
                                         offsetof(der_certificate_parts, validity) == 48 &&
                                         offsetof(der_certificate_parts, subject) == 64 &&
                                         offsetof(der_certificate_parts, public_key) == 80 &&
                                         offsetof(der_certificate_parts, extensions) == 96);

#ifdef __cplusplus
}
#endif
#endif
