/* An independent parser of one element under DER, written from X.690 alone: |head| is where its
 * contents begin. */
#include <string.h>
#include <yotremul/der.h>

typedef struct {
    der_error error;
    der_tag tag;
    uint32_t head, length;
} answer;

static answer refuse(uint8_t kind, uint32_t position)
{
    answer it = {{kind, true, 0, 0, position, 0, 0}, 0, 0, 0};
    return it;
}

static answer cut(uint64_t expected, uint32_t count, uint32_t position)
{
    answer it = refuse(DER_INCOMPLETE, position);
    it.error.first = (uint32_t)expected;
    it.error.second = count;
    if (expected > UINT32_MAX)
        it.error = (der_error){DER_OVERFLOW, false, 0, 0, 0, 0, 0};
    return it;
}

/* The element at |start| of a part that ends at |count|, under DER; if |segments|, an OCTET STRING may
 * be constructed. Positions are in octets from the start of the octets, as the library reports
 * them. */
static answer by_hand(const uint8_t *octets, uint32_t start, uint32_t count, bool segments)
{
    static const char universal[] = "\1\2\3\4\5\6\11\12\14\15\22\23\24\25\26\27\30\32\33\36\60\61";
    uint64_t number = 0, length = 0, least;
    uint32_t at = start + 1, k;
    if (count == start)
        return cut((uint64_t)count + 1, count, count);
    uint8_t first = octets[start];
    if (first < 64 && (first == 0 || !strchr(universal, first)) && !(segments && first == 0x24)) {
        answer it = refuse(first == 31 ? DER_TAG_NUMBER_INVALID : DER_TAG_UNKNOWN, at);
        it.error.first = first == 31 ? 0 : first;
        return it;
    }
    if (first % 32 == 31) {
        for (;;) {
            if (at == count)
                return cut((uint64_t)count + 1, count, count);
            number = number * 128 + octets[at] % 128;
            /* the smallest number that continues so, and the only one that ends so */
            if (octets[at] < 128 ? number < 31 || number > UINT32_MAX : number == 0 || number * 128 > UINT32_MAX)
                return refuse(DER_TAG_NUMBER_INVALID, at + 1);
            if (octets[at++] < 128)
                break;
        }
    }
    if (at == count)
        return cut((uint64_t)count + 1, count, count);
    answer wrong = refuse(DER_LENGTH, at + 1);
    wrong.error.actual = first;
    wrong.error.second = (uint32_t)number;
    k = octets[at++];
    if (k == 128)
        return refuse(DER_INDEFINITE_LENGTH, at);
    if (k > 132)
        return wrong;
    if (k < 128) {
        length = k;
    } else {
        k -= 128;
        least = k == 1 ? 128 : (uint64_t)1 << 8 * (k - 1);
        for (; k; k--) {
            if (at == count)
                return cut((uint64_t)count + 1, count, count);
            length = length * 256 + octets[at++];
        }
        wrong.error.position = at;
        if (length < least)
            return wrong;
    }
    if (at + length > count)
        return cut(at + length, count, at);
    answer it = {{0, false, 0, 0, 0, 0, 0}, first + 256 * number, at, (uint32_t)length};
    return it;
}
