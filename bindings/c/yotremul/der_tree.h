/* yotremul/der_tree.h: values of any known type as trees of elements, with the names of their fields
 * and their types; and PEM. The known types are those of certificates, requests, revocation lists,
 * keys, CMS, PKCS #12, OCSP and timestamps, with their extensions and attributes.
 *
 * No function allocates. A program that calls none of these functions does not link the table of
 * types.
 *
 * Memory. A tree is read into memory of the caller, which a |der_tree| points to: the table of the
 * types (|DER_TYPES_ROOM| octets), an array of entries (one for each element), an array of numbers
 * (|marks|, which are no |der_mark|s) and a buffer. The last two are working memory of the calls. Half
 * as many entries as the input has octets are always enough. For the known types 4096 marks are
 * enough, and a buffer that is one octet longer than the input. Only |der_kind_find| reports too little
 * memory apart from other faults.
 *
 * Texts. A call that writes a text writes a zero octet after it, and returns the number of octets of
 * the text, without the zero octet. It returns |DER_NONE| if the text does not fit, or if there is no
 * such element. Base64 and PEM are written without a zero octet.
 *
 * The caller must ensure what the head of der.h says. */
#ifndef YOTREMUL_DER_TREE_H
#define YOTREMUL_DER_TREE_H

#include <string.h>
#include <yotremul/der.h>

#ifdef __cplusplus
extern "C" {
#endif

/* The result of a call that returns an index or a number of octets, if there is none. */
#define DER_NONE SIZE_MAX
/* The result of a call that returns a type or a kind, if there is none. */
#define DER_NO_TYPE UINT32_C(4294967295)
/* The result of |der_kind_find| if there is too little memory. */
#define DER_NO_ROOM UINT32_C(4294967294)

/* A number of octets that is enough for the table of the known types. */
#define DER_TYPES_ROOM 100000

/* An element of a tree. The elements are in the order of the input: each comes before the elements
 * inside it. */
typedef struct der_entry {
    size_t offset;          /* where the header begins, in octets from the start of the input */
    size_t contents_length; /* the number of contents octets */
    size_t parent;          /* the index of the element around it; its own index for the first */
    uint32_t type;          /* the index of the type in the table; DER_NO_TYPE if it has none */
    uint32_t field;         /* the index of the field in the table; DER_NO_TYPE if it is no field */
    uint32_t alternative;   /* the index of the alternative of a CHOICE; DER_NO_TYPE if it is none */
    uint8_t header_length;  /* the number of octets of the header */
    uint8_t depth;          /* the number of elements around it */
} der_entry;
#define DER_ENTRY_INIT {0, 0, 0, DER_NO_TYPE, DER_NO_TYPE, DER_NO_TYPE, 0, 0}

/* What |der_tree_read| found. A departure is a fault by which the octets are not DER. */
typedef struct der_tree_found {
    size_t entries;    /* the number of elements */
    size_t departures; /* the number of departures that were kept: the first 1000 at most */
    size_t lost;       /* the number of departures after these */
    size_t listed;     /* the number of octets of the text in |list|; SIZE_MAX if it does not fit */
    uint32_t verdict;  /* 0 if the octets are DER, 1 if they are only BER, 2 if they are neither */
} der_tree_found;
#define DER_TREE_FOUND_INIT {0, 0, 0, 0, 2}

/* The types of the library. */

/* der_known_types writes the table of the known types into |table|, and returns the number of octets
 * written. If |table| is too short, it writes only the first part, which is not a usable table.
 * der_known_types_room returns a number of octets that is enough. */
size_t der_known_types_room(void);
size_t der_known_types(uint8_t *table, size_t capacity);

/* der_type_find returns the index of the type with this name in a table of types, such as
 * `asn1_compile --schema` writes. It returns DER_NO_TYPE if the table has no such type, or if |table|
 * is not a table of types. */
uint32_t der_type_find(const uint8_t *table, size_t table_length, const char *name, size_t length);

/* A kind is what a file may contain, such as a certificate or a private key; it has a number.
 * der_kind_find returns the kind of the value in |octets|; DER_NO_TYPE if it is of no known kind, and
 * DER_NO_ROOM if there is too little memory. |table| must be the table of the known types.
 * der_kind_of_label returns the kind that a PEM block with this label should contain; DER_NO_TYPE if
 * the label stands for none. der_kind_type returns the index of the type of a kind in the table of the
 * known types; for a number that is no kind, that of the type that any element has. der_kind_word writes the word for a
 * kind, as the option `--as` of `der_show` has it. */
uint32_t der_kind_find(const uint8_t *table, size_t table_length, const uint8_t *octets, size_t length,
                       der_entry *entries, size_t capacity, uint32_t *marks, size_t mark_count, uint8_t *buffer,
                       size_t buffer_length);
uint32_t der_kind_of_label(const char *label, size_t length);
uint32_t der_kind_type(uint32_t kind);
size_t der_kind_word(uint32_t kind, char *text, size_t capacity);

/* Reading. The functions below that take a |der_tree| have fewer parameters. */

/* der_tree_read reads |octets| as a value of the type with the index |type| in |table|, and continues
 * after a departure. It stores the elements in |entries|, and sets |*found|. It writes the departures
 * into |list| as JSON, as `der_show --json` does, each with the index of its element. If they do not fit,
 * the octets of |list| are unspecified. It returns false if |entries|, |marks| or |buffer| is too short,
 * if |table| is not a table of types, or if there is no such type. */
bool der_tree_read(const uint8_t *table, size_t table_length, uint32_t type, const uint8_t *octets, size_t length,
                   der_entry *entries, size_t capacity, uint32_t *marks, size_t mark_count, uint8_t *buffer,
                   size_t buffer_length, char *list, size_t list_length, der_tree_found *found);

/* der_tree_find returns the index of the element at the end of |path|, which starts at the element with
 * the index |from|. A path consists of names of fields with full stops between them, and of numbers of
 * list items in brackets, counted from 0, such as tbsCertificate.extensions[2].extnValue.cA.
 * der_tree_child returns the index of an element directly inside the element |parent|: |number| is its
 * position among these, counted from 0. Both return DER_NONE if there is no such element. */
size_t der_tree_find(const uint8_t *table, size_t table_length, const uint8_t *octets, size_t length,
                     const der_entry *entries, size_t count, size_t from, const char *path, size_t path_length);
size_t der_tree_child(const uint8_t *table, size_t table_length, const uint8_t *octets, size_t length,
                      const der_entry *entries, size_t count, size_t parent, size_t number);

/* der_tree_octets sets |*part| to the octets of an element, and der_tree_contents to its contents octets.
 * They return false if there is no such element. To read the value of an element, make a |der_reader|
 * of its octets. */
bool der_tree_octets(const uint8_t *octets, size_t length, const der_entry *entries, size_t count, size_t index,
                     der_span *part);
bool der_tree_contents(const uint8_t *octets, size_t length, const der_entry *entries, size_t count, size_t index,
                       der_span *part);

/* der_tree_name writes the name of the field or of the alternative that an element is, and der_tree_type
 * the name of its type; the text is empty if there is no name. der_tree_text writes the value of a
 * primitive element as `der_show` prints it: an OBJECT IDENTIFIER with its name, a time, a number or a
 * string. Of a distinguished name it writes the name; of another element that begins with an OBJECT
 * IDENTIFIER, that one; of all others an empty text. */
size_t der_tree_name(const uint8_t *table, size_t table_length, const uint8_t *octets, size_t length,
                     const der_entry *entries, size_t count, size_t index, char *text, size_t capacity);
size_t der_tree_type(const uint8_t *table, size_t table_length, const uint8_t *octets, size_t length,
                     const der_entry *entries, size_t count, size_t index, char *text, size_t capacity);
size_t der_tree_text(const uint8_t *table, size_t table_length, const uint8_t *octets, size_t length,
                     const der_entry *entries, size_t count, size_t index, char *text, size_t capacity);

/* A tree, with the memory that it is read into. Initialise it with DER_TREE_INIT, from four arrays: a
 * pointer in place of one is refused when the program is compiled, since its memory has no known size.
 * Initialise it with DER_TREE_INIT_SIZED from pointers, such as malloc returns, each with its number of
 * octets, entries or marks. |octets| is the input, and |found| what was found in it. */
typedef struct der_tree {
    uint8_t *types;
    size_t types_length;
    der_entry *entries;
    size_t capacity;
    uint32_t *marks;
    size_t mark_count;
    uint8_t *buffer;
    size_t buffer_length;
    der_span octets;
    der_tree_found found;
} der_tree;
#define DER_TREE_INIT(types, entries, marks, buffer)                                                               \
    DER_TREE_INIT_SIZED(types, DER_ARRAY_ITEMS(types), entries, DER_ARRAY_ITEMS(entries), marks,                     \
                        DER_ARRAY_ITEMS(marks), buffer, DER_ARRAY_ITEMS(buffer))
#define DER_TREE_INIT_SIZED(types, types_length, entries, capacity, marks, mark_count, buffer, buffer_length)        \
    {                                                                                                              \
        (types), (types_length), (entries), (capacity), (marks), (mark_count), (buffer), (buffer_length),            \
            DER_SPAN_INIT, DER_TREE_FOUND_INIT                                                                      \
    }

/* The number of items of an array; a pointer is an error of the compiler. */
#define DER_ONLY_ARRAYS "DER_TREE_INIT takes arrays: for pointers use DER_TREE_INIT_SIZED"
#ifdef __cplusplus
extern "C++" {
template <typename T> struct der_array_items {
    static_assert(sizeof(T) == 0, DER_ONLY_ARRAYS);
    static const size_t count = 0;
};
template <typename T, size_t n> struct der_array_items<T[n]> {
    static const size_t count = n;
};
template <typename T, size_t n> struct der_array_items<T (&)[n]> {
    static const size_t count = n;
};
}
#define DER_ARRAY_ITEMS(array) (+der_array_items<decltype(array)>::count)
#elif defined(__GNUC__)
#define DER_IS_POINTER(array) __builtin_types_compatible_p(__typeof__(array), __typeof__(&(array)[0]))
#if defined(__STDC_VERSION__) && __STDC_VERSION__ >= 201112L
#define DER_SEE_ARRAY(array) _Static_assert(!DER_IS_POINTER(array), DER_ONLY_ARRAYS)
#else
#define DER_SEE_ARRAY(array)                                                                                       \
    int DER_TREE_INIT_takes_arrays_for_pointers_use_DER_TREE_INIT_SIZED : DER_IS_POINTER(array) ? -1 : 1
#endif
#define DER_ARRAY_ITEMS(array)                                                                                     \
    (sizeof(array) / sizeof *(array) + 0 * sizeof(struct {                                                         \
         int none;                                                                                                 \
         DER_SEE_ARRAY(array);                                                                                     \
     }))
#else
#define DER_ARRAY_ITEMS(array) (sizeof(array) / sizeof *(array))
#endif

/* der_tree_load reads a value of any known kind into |tree|. It returns false if the value is of no known
 * kind, or if there is too little memory. It keeps the pointer |octets|. */
static inline bool der_tree_load(der_tree *tree, const uint8_t *octets, size_t length)
{
    size_t count = der_known_types(tree->types, tree->types_length);
    uint32_t kind = der_kind_find(tree->types, count, octets, length, tree->entries, tree->capacity, tree->marks,
                                  tree->mark_count, tree->buffer, tree->buffer_length);
    tree->types_length = count;
    tree->octets.octets = octets;
    tree->octets.length = length;
    return kind < DER_NO_ROOM &&
           der_tree_read(tree->types, count, der_kind_type(kind), octets, length, tree->entries, tree->capacity,
                         tree->marks, tree->mark_count, tree->buffer, tree->buffer_length, NULL, 0, &tree->found);
}

/* der_tree_at returns the index of the element at the end of |path|, as |der_tree_find| does. */
static inline size_t der_tree_at(const der_tree *tree, size_t from, const char *path)
{
    return der_tree_find(tree->types, tree->types_length, tree->octets.octets, tree->octets.length, tree->entries,
                         tree->found.entries, from, path, strlen(path));
}

/* der_tree_print writes the text of the element at the end of |path|, as |der_tree_text| does. */
static inline size_t der_tree_print(const der_tree *tree, size_t from, const char *path, char *text, size_t capacity)
{
    return der_tree_text(tree->types, tree->types_length, tree->octets.octets, tree->octets.length, tree->entries,
                         tree->found.entries, der_tree_at(tree, from, path), text, capacity);
}

/* PEM. This loop reads each block of a text:
 *
 *     der_pem_reader reader = DER_PEM_READER_INIT(text, length);
 *     der_pem_block block = DER_PEM_BLOCK_INIT;
 *     uint32_t found;
 *     while ((found = der_pem_next(&reader, octets, capacity, &block)) != DER_PEM_NONE) {
 *         if (found == DER_PEM_BLOCK)
 *             use(text + block.label, block.label_length, octets, block.length);
 *         else
 *             report(block.line);
 *     }
 *
 * Each call moves the reader on, also after an error. So the loop ends, and each block is found once,
 * also after a block with an error. */

/* A PEM text, and how far it has been read. Initialise it with DER_PEM_READER_INIT. It keeps the pointer
 * |text|. */
typedef struct der_pem_reader {
    const char *text;
    size_t length;
    size_t position; /* where the search for the next block begins; at most |length| after each call */
    size_t line;     /* the number of lines before |position| */
} der_pem_reader;
#define DER_PEM_READER_INIT(text, length) {(text), (length), 0, 0}

/* A block of a PEM text. Positions are in octets from the start of the text. */
typedef struct der_pem_block {
    size_t label; /* the position of the label */
    size_t label_length;
    size_t line;   /* the number of the -----BEGIN line, or of the line with the error, from 1 */
    size_t length; /* the number of decoded octets */
} der_pem_block;
#define DER_PEM_BLOCK_INIT {0, 0, 0, 0}

enum {
    DER_PEM_BLOCK = 0,
    DER_PEM_NONE = 1,     /* there is no further block */
    DER_PEM_ERROR = 2,    /* the first error of the block is in the line |line| */
    DER_PEM_ENCRYPTED = 3 /* the headers of the block say that it is encrypted; it is not decoded */
};

/* der_pem_next finds the next block, decodes it into |octets|, and returns one of the numbers above. As many
 * octets as the text has are always enough for |octets|; too few are an error, and to read the block with more,
 * copy the reader before the call.
 *
 * After DER_PEM_BLOCK and DER_PEM_ENCRYPTED, and if the base64 of a block is invalid or its octets do not fit, the
 * reader is at the -----END line of the block. After any other error it is after the -----BEGIN line, and all fields
 * of |block| but |line| are 0. After DER_PEM_NONE it is at the end, and |block| is unchanged. |octets| are unchanged
 * after DER_PEM_NONE and DER_PEM_ENCRYPTED. */
uint32_t der_pem_next(der_pem_reader *reader, uint8_t *octets, size_t capacity, der_pem_block *block);

/* der_base64_decode decodes base64, which may have white space in it, and returns the number of octets. It
 * returns DER_NONE if the octets do not fit, or if |text| is not base64. If it has digits for more octets than
 * fit, nothing is written. Otherwise some of |octets| may have been written. */
size_t der_base64_decode(const char *text, size_t length, uint8_t *octets, size_t capacity);

/* The number of octets that der_base64_encode and der_pem_write write, for |length| octets and a label of
 * |label_length| octets. It is a constant if the arguments are constants. */
#define DER_BASE64_ROOM(length) (((length) + 2) / 3 * 4)
#define DER_PEM_ROOM(label_length, length)                                                                         \
    (2 * (label_length) + DER_BASE64_ROOM(length) + (DER_BASE64_ROOM(length) + 63) / 64 + 32)

/* der_base64_encode writes base64 with padding and without white space (RFC 4648, 4). der_pem_write writes
 * a block: the line -----BEGIN label-----, base64 in lines of 64 characters, and the line
 * -----END label-----; each line ends in LF (RFC 7468, 2). Both return the number of octets written,
 * write no zero octet, and change no other octets of |text|. They return DER_NONE and write nothing if
 * the text does not fit. So does der_pem_write if |label| is not a label: a label has printable ASCII
 * characters, and each - and each space in it is between two other characters (RFC 7468, 3). */
size_t der_base64_encode(const uint8_t *octets, size_t length, char *text, size_t capacity);
size_t der_pem_write(const char *label, size_t label_length, const uint8_t *octets, size_t length, char *text,
                     size_t capacity);

/* These assertions fail if the layouts of the structs are not those for which the library was compiled. */
DER_STATIC_ASSERT(entry, sizeof(der_entry) == 40 && offsetof(der_entry, parent) == 16 &&
                             offsetof(der_entry, type) == 24 && offsetof(der_entry, alternative) == 32 &&
                             offsetof(der_entry, header_length) == 36 && offsetof(der_entry, depth) == 37);
DER_STATIC_ASSERT(tree_found, sizeof(der_tree_found) == 40 && offsetof(der_tree_found, listed) == 24 &&
                                  offsetof(der_tree_found, verdict) == 32);
DER_STATIC_ASSERT(pem_reader, sizeof(der_pem_reader) == 32 && offsetof(der_pem_reader, length) == 8 &&
                                  offsetof(der_pem_reader, position) == 16 && offsetof(der_pem_reader, line) == 24);
DER_STATIC_ASSERT(pem_block, sizeof(der_pem_block) == 32 && offsetof(der_pem_block, line) == 16 &&
                                 offsetof(der_pem_block, length) == 24);

#ifdef __cplusplus
}
#endif
#endif
