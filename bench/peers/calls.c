/* What calls.rs measures of C: the same work with the library's functions and by hand. Each
 * function returns what it read or wrote, so that all can be compared. */
#include <string.h>
#include <yotremul/der.h>

typedef struct {
    uint64_t elements, contents, octet_sum;
} totals;

/* a header to write, with the layout of written.rs */
typedef struct {
    uint32_t number, length;
    uint8_t class, constructed;
} wanted;

enum { LEVELS = 64 };

static inline void pass(totals *reported, const uint8_t *contents, size_t length)
{
    reported->elements++;
    reported->contents += length;
    reported->octet_sum += length ? contents[0] : 0;
}

/* With the library's functions. */

totals calls_walk(const uint8_t *octets, size_t length)
{
    totals reported = {0, 0, 0};
    der_reader reader = DER_READER_INIT;
    der_element element = DER_ELEMENT_INIT;
    if (der_reader_init(octets, length, false, &reader).kind)
        return reported;
    while (!der_is_finished(&reader) && !der_read_element(&reader, &element).kind)
        pass(&reported, element.contents, element.length);
    return reported;
}

static bool walk_part(der_reader *reader, int levels, totals *reported)
{
    der_element element = DER_ELEMENT_INIT;
    while (!der_is_finished(reader)) {
        if (der_read_element(reader, &element).kind)
            return false;
        if (element.constructed && levels > 0) {
            der_reader inside = DER_READER_INIT;
            pass(reported, NULL, 0);
            if (der_open(reader, &element, &inside).kind || !walk_part(&inside, levels - 1, reported))
                return false;
        } else {
            pass(reported, element.contents, element.length);
        }
    }
    return true;
}

totals calls_nested(const uint8_t *octets, size_t length)
{
    totals reported = {0, 0, 0};
    der_reader reader = DER_READER_INIT;
    if (der_reader_init(octets, length, false, &reader).kind)
        return reported;
    walk_part(&reader, LEVELS, &reported);
    return reported;
}

/* one call for each certificate */
totals calls_tree(const uint8_t *octets, size_t length)
{
    static der_node nodes[512];
    totals reported = {0, 0, 0};
    der_reader reader = DER_READER_INIT, inside = DER_READER_INIT;
    der_element element = DER_ELEMENT_INIT;
    if (der_reader_init(octets, length, false, &reader).kind)
        return reported;
    while (!der_is_finished(&reader)) {
        size_t count = 0;
        if (der_read_element(&reader, &element).kind || der_open(&reader, &element, &inside).kind ||
            der_read_tree(&inside, nodes, 512, &count).kind)
            return reported;
        pass(&reported, NULL, 0);
        for (const der_node *node = nodes; node < nodes + count; node++)
            pass(&reported, octets + node->contents_start, node->constructed ? 0 : node->end - node->contents_start);
    }
    return reported;
}

static bool read_key(der_reader *reader, totals *reported)
{
    der_reader key = DER_READER_INIT, identifier = DER_READER_INIT;
    der_element algorithm = DER_ELEMENT_INIT, month = DER_ELEMENT_INIT, own = DER_ELEMENT_INIT;
    if (der_enter(reader, DER_SEQUENCE, &key).kind || der_enter(&key, DER_SEQUENCE, &identifier).kind ||
        der_expect(&identifier, DER_OCTET_STRING, &algorithm).kind ||
        der_expect(&identifier, DER_OCTET_STRING, &month).kind || month.length != 1 || month.contents[0] > 11 ||
        der_finish(&identifier).kind || der_expect(&key, DER_OCTET_STRING, &own).kind || der_finish(&key).kind)
        return false;
    reported->elements++;
    reported->contents += algorithm.length + own.length;
    reported->octet_sum += month.contents[0];
    return true;
}

totals calls_keys(const uint8_t *octets, size_t length)
{
    totals reported = {0, 0, 0};
    der_reader reader = DER_READER_INIT;
    if (der_reader_init(octets, length, false, &reader).kind)
        return reported;
    while (!der_is_finished(&reader) && read_key(&reader, &reported))
        ;
    return reported;
}

static totals written(const der_writer *writer, totals reported)
{
    reported.contents = der_written(writer);
    return reported;
}

totals calls_headers(const wanted *all, size_t count, uint8_t *out, size_t space)
{
    totals reported = {0, 0, 0};
    der_writer writer = DER_WRITER_INIT;
    der_writer_init(out, space, &writer);
    for (const wanted *it = all; it < all + count; it++, reported.elements++) {
        der_tag tag = DER_CLASS_TAG((uint64_t)it->class * 64 + (it->constructed ? 32 : 0), it->number);
        if (der_write_header(&writer, tag, it->length).kind)
            return reported;
    }
    return written(&writer, reported);
}

static inline void set_octets(uint8_t *octets, uint64_t number)
{
    number = __builtin_bswap64(number);
    memcpy(octets, &number, 8);
}

totals calls_elements(const uint64_t *numbers, size_t count, uint8_t *out, size_t space)
{
    totals reported = {0, 0, 0};
    der_writer writer = DER_WRITER_INIT;
    der_writer_init(out, space, &writer);
    for (size_t i = 0; i < count; i++, reported.elements++) {
        uint8_t octets[8];
        set_octets(octets, numbers[i]);
        if (der_write_element(&writer, DER_OCTET_STRING, octets, 8).kind)
            return reported;
    }
    return written(&writer, reported);
}

static inline bool write_four(der_writer *writer, uint64_t number)
{
    uint8_t octets[8];
    set_octets(octets, number);
    for (int i = 0; i < 4; i++)
        if (der_write_element(writer, DER_OCTET_STRING, octets, 8).kind)
            return false;
    return true;
}

/* with the lengths computed first */
totals calls_sequences(const uint64_t *numbers, size_t count, uint8_t *out, size_t space)
{
    totals reported = {0, 0, 0};
    der_writer writer = DER_WRITER_INIT;
    der_writer_init(out, space, &writer);
    for (size_t i = 0; i < count; i++, reported.elements++) {
        uint32_t length = 0;
        if (der_element_length(DER_OCTET_STRING, 8, &length).kind ||
            der_write_header(&writer, DER_SEQUENCE, 4 * length).kind || !write_four(&writer, numbers[i]))
            return reported;
    }
    return written(&writer, reported);
}

/* with a begin and an end */
totals calls_parts(const uint64_t *numbers, size_t count, uint8_t *out, size_t space)
{
    totals reported = {0, 0, 0};
    der_writer writer = DER_WRITER_INIT;
    der_writer_init(out, space, &writer);
    for (size_t i = 0; i < count; i++, reported.elements++) {
        der_mark mark = DER_MARK_INIT;
        if (der_begin(&writer, DER_SEQUENCE, &mark).kind || !write_four(&writer, numbers[i]) ||
            der_end(&writer, &mark).kind)
            return reported;
    }
    return written(&writer, reported);
}

/* By hand. */

typedef struct {
    uint8_t first;
    size_t start, end;
} part;

static bool is_universal(uint8_t octet)
{
    return 0x300004DFC367EULL >> octet & 1;
}

static __attribute__((noinline, cold)) bool skip_number(const uint8_t *octets, size_t *at, size_t end)
{
    uint32_t number = 0;
    while (*at < end) {
        uint8_t octet = octets[(*at)++];
        if ((number == 0 && octet % 128 == 0) || number >= (uint32_t)1 << 25)
            return false;
        number = number << 7 | (octet & 0x7F);
        if (octet < 128)
            return number >= 31;
    }
    return false;
}

static __attribute__((noinline)) bool long_length(const uint8_t *octets, size_t *at, size_t end, uint8_t first,
                                                  size_t *length)
{
    size_t count = first & 0x7F, sum = 0;
    if (count < 1 || count > 4 || end - *at < count)
        return false;
    for (size_t i = 0; i < count; i++)
        sum = sum << 8 | octets[(*at)++];
    *length = sum;
    return sum >= (count == 1 ? 128 : (size_t)1 << 8 * (count - 1));
}

/* the element at a position, which must end at |end| or before it */
static inline bool part_at(const uint8_t *octets, size_t at, size_t end, part *it)
{
    if (at >= end)
        return false;
    uint8_t first = octets[at++];
    if (first < 64 ? !is_universal(first) : first % 32 == 31 && !skip_number(octets, &at, end))
        return false;
    if (at >= end)
        return false;
    uint8_t octet = octets[at++];
    size_t length = octet;
    if (octet >= 128 && !long_length(octets, &at, end, octet, &length))
        return false;
    if (length > end - at)
        return false;
    *it = (part){first, at, at + length};
    return true;
}

totals hand_walk(const uint8_t *octets, size_t length)
{
    totals reported = {0, 0, 0};
    part it;
    for (size_t at = 0; part_at(octets, at, length, &it); at = it.end)
        pass(&reported, octets + it.start, it.end - it.start);
    return reported;
}

static bool hand_part(const uint8_t *octets, size_t at, size_t end, int levels, totals *reported)
{
    part it;
    for (; at < end; at = it.end) {
        if (!part_at(octets, at, end, &it))
            return false;
        if (it.first & 0x20 && levels > 0) {
            pass(reported, NULL, 0);
            if (!hand_part(octets, it.start, it.end, levels - 1, reported))
                return false;
        } else {
            pass(reported, octets + it.start, it.end - it.start);
        }
    }
    return true;
}

totals hand_nested(const uint8_t *octets, size_t length)
{
    totals reported = {0, 0, 0};
    hand_part(octets, 0, length, LEVELS, &reported);
    return reported;
}

static inline bool tagged_at(const uint8_t *octets, uint8_t tag, size_t at, size_t end, part *it)
{
    return at < end && octets[at] == tag && part_at(octets, at, end, it);
}

totals hand_keys(const uint8_t *octets, size_t length)
{
    totals reported = {0, 0, 0};
    part key, identifier, algorithm, month, own;
    for (size_t at = 0; tagged_at(octets, 0x30, at, length, &key); at = key.end) {
        if (!tagged_at(octets, 0x30, key.start, key.end, &identifier) ||
            !tagged_at(octets, 0x04, identifier.start, identifier.end, &algorithm) ||
            !tagged_at(octets, 0x04, algorithm.end, identifier.end, &month) || month.end != identifier.end ||
            month.end - month.start != 1 || octets[month.start] > 11 ||
            !tagged_at(octets, 0x04, identifier.end, key.end, &own) || own.end != key.end)
            return reported;
        reported.elements++;
        reported.contents += algorithm.end - algorithm.start + own.end - own.start;
        reported.octet_sum += octets[month.start];
    }
    return reported;
}

static inline bool put_length(uint8_t *out, size_t *at, size_t space, uint32_t length)
{
    int count = length < 128 ? 0 : length < 256 ? 1 : length < 65536 ? 2 : length < 16777216 ? 3 : 4;
    if (space - *at < (size_t)count + 1)
        return false;
    out[(*at)++] = count ? (uint8_t)(128 + count) : (uint8_t)length;
    while (count-- > 0)
        out[(*at)++] = (uint8_t)(length >> 8 * count);
    return true;
}

static __attribute__((noinline, cold)) bool put_number(uint8_t *out, size_t *at, size_t space, uint32_t number)
{
    int more = 4;
    while (more > 0 && number >> 7 * more == 0)
        more--;
    if (space - *at < (size_t)more + 1)
        return false;
    for (; more > 0; more--)
        out[(*at)++] = (uint8_t)(128 | number >> 7 * more);
    out[(*at)++] = number & 0x7F;
    return true;
}

totals hand_headers(const wanted *all, size_t count, uint8_t *out, size_t space)
{
    totals reported = {0, 0, 0};
    size_t at = 0;
    for (const wanted *it = all; it < all + count; it++, reported.elements++) {
        if (at == space)
            return reported;
        uint8_t leading = (uint8_t)(it->class << 6 | (it->constructed ? 0x20 : 0));
        out[at++] = leading | (uint8_t)(it->number < 31 ? it->number : 31);
        if ((it->number >= 31 && !put_number(out, &at, space, it->number)) || !put_length(out, &at, space, it->length))
            return reported;
    }
    reported.contents = at;
    return reported;
}

static inline bool put_element(uint8_t *out, size_t *at, size_t space, uint64_t number)
{
    if (space - *at < 10)
        return false;
    out[*at] = 0x04;
    out[*at + 1] = 8;
    set_octets(out + *at + 2, number);
    *at += 10;
    return true;
}

totals hand_elements(const uint64_t *numbers, size_t count, uint8_t *out, size_t space)
{
    totals reported = {0, 0, 0};
    size_t at = 0;
    for (size_t i = 0; i < count; i++, reported.elements++)
        if (!put_element(out, &at, space, numbers[i]))
            return reported;
    reported.contents = at;
    return reported;
}

totals hand_sequences(const uint64_t *numbers, size_t count, uint8_t *out, size_t space)
{
    totals reported = {0, 0, 0};
    size_t at = 0;
    for (size_t i = 0; i < count; i++, reported.elements++) {
        if (at == space)
            return reported;
        out[at++] = 0x30;
        if (!put_length(out, &at, space, 40))
            return reported;
        for (int k = 0; k < 4; k++)
            if (!put_element(out, &at, space, numbers[i]))
                return reported;
    }
    reported.contents = at;
    return reported;
}
