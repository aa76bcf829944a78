/* Reads a slip from standard input and prints what it discloses, or its refusal: `show`, over the library. */
#include <stdio.h>

#include "liwharoko.h"

static void print_hex(const uint8_t *bytes, size_t length)
{
    for (size_t i = 0; i < length; i++)
        printf("%02x", bytes[i]);
}

static void print_pairs(size_t nodes, const uint16_t *types, const uint16_t *lengths, const uint8_t *values)
{
    for (size_t row = 0; row < nodes; row++) {
        if (types[row] >= LIWHAROKO_FIRST_TEXT) {
            printf("pair %u %u ", types[row], lengths[row]);
            if (lengths[row] == 0)
                putchar('-');
            print_hex(values, lengths[row]);
            putchar('\n');
        }
        values += lengths[row];
    }
}

int main(void)
{
    /* One byte more than a slip may have: a longer input is refused all the same. */
    static uint8_t slip[LIWHAROKO_MAX_BYTES + 1];
    static uint16_t types[LIWHAROKO_MAX_NODES], counts[LIWHAROKO_MAX_NODES], lengths[LIWHAROKO_MAX_NODES];
    static uint8_t values[LIWHAROKO_MAX_BYTES];
    size_t n = fread(slip, 1, sizeof slip, stdin);
    struct liwharoko_answer a = liwharoko_unpack(
        slip, n,
        types, LIWHAROKO_MAX_NODES,
        counts, LIWHAROKO_MAX_NODES,
        lengths, LIWHAROKO_MAX_NODES,
        values, sizeof values);
    if (a.number != LIWHAROKO_ACCEPTED) {
        printf("refused %zu %zu\n", a.number, a.place);
        return 0;
    }
    size_t nodes = slip[0] % 4 * 256u + slip[1];
    printf("slip %d %zu %zu\nroot ", LIWHAROKO_EDITION, nodes, a.blocks);
    print_hex(a.label, sizeof a.label);
    putchar('\n');
    print_pairs(nodes, types, lengths, values);
    return 0;
}
