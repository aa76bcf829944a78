/*
 * Slips of a library's deep store: check, pack, unpack, prune, join, look up, and compose titles.
 *
 * Link libliwharoko.a (`tools/proved liwharoko` makes it); it holds code for x86-64 Linux. Every function is proved to
 * meet the contract in crates/liwharoko/src/lib.rt, to stay inside what it is lent and to end, as long as the caller
 * keeps to this:
 *
 * - Each slice is two arguments: a pointer to the first element, then the number of elements (not bytes).
 * - A pointer is valid for that many elements, aligned for them, and not NULL, even where the number is 0.
 * - A buffer that is written overlaps no other argument. What is only read may overlap.
 * - The stack has 512 KiB left: liwharoko_join takes the most, some 270 KB as measured, and the others up to 190 KB.
 *
 * Nothing is allocated or kept between calls, so calls may run at the same time in several threads.
 * A refused call writes nothing. An accepted one writes exactly what it reports; the rest of each buffer stays.
 */
#ifndef LIWHAROKO_H
#define LIWHAROKO_H

#include <stddef.h>
#include <stdint.h>

#ifdef __cplusplus
extern "C" {
#endif

/* The limits of a slip and of a title: buffers of these sizes have room for every answer. */
enum {
    LIWHAROKO_EDITION = 1,
    LIWHAROKO_MAX_BYTES = 32768, /* a slip, and the values of its table */
    LIWHAROKO_MAX_NODES = 1023,  /* entries of a slip, rows of its table */
    LIWHAROKO_LABEL_BYTES = 32,
    LIWHAROKO_FIRST_TEXT = 2, /* the lowest type of a pair that is no salt */
    LIWHAROKO_MAX_TITLE_BYTES = 511
};

/* Why a call is refused. */
enum liwharoko_refusal {
    LIWHAROKO_ACCEPTED = 0,
    LIWHAROKO_TOO_LONG = 1,            /* slip over 32,768 bytes */
    LIWHAROKO_CUT_SHORT = 2,           /* bits end inside header or entry */
    LIWHAROKO_OTHER_EDITION = 3,       /* edition not 1 */
    LIWHAROKO_NO_NODES = 4,            /* node count 0 */
    LIWHAROKO_CHILDREN_MISSING = 5,    /* more children named than entries waiting */
    LIWHAROKO_TOO_HIGH = 6,            /* height over 16 */
    LIWHAROKO_SALT_BROKEN = 7,         /* salt rule broken */
    LIWHAROKO_NOT_COMPOSED = 8,        /* text value not composed */
    LIWHAROKO_NOT_ONE_TREE = 9,        /* not one tree with a root of type 0 */
    LIWHAROKO_BAD_PADDING = 10,        /* a padding bit set, or bytes left over */
    LIWHAROKO_NO_ROOM = 11,            /* output too short */
    LIWHAROKO_BAD_LIST = 12,           /* pruning list: not rising, out of range, or not an internal node */
    LIWHAROKO_ROOTS_DIFFER = 13,       /* root labels differ */
    LIWHAROKO_CLASHING = 14,           /* clash */
    LIWHAROKO_JOIN_TOO_LARGE = 15,     /* join over 1,023 nodes or 32,768 bytes */
    LIWHAROKO_BAD_TABLE = 16,          /* table not of the form */
    LIWHAROKO_TITLE_LONG = 17,         /* title over 511 bytes as given */
    LIWHAROKO_NOT_UTF8 = 18,           /* title not UTF-8 */
    LIWHAROKO_OUTSIDE_REPERTOIRE = 19, /* character outside the repertoire */
    LIWHAROKO_LOOSE_MARK = 20          /* mark without a letter that takes it */
};

/* What a call on slips answers. */
struct liwharoko_answer {
    size_t number; /* enum liwharoko_refusal; what follows is 0 where it does not apply */
    size_t place;  /* of a refusal: the entry for 2, 5 to 8 and a row's 16; the list's faulty index for 12; the first
                      slip's entry for 14 */
    size_t second; /* for 14 the second slip's entry */
    size_t side;   /* of a join that a slip's own refusal ends: 1 or 2 */
    size_t length; /* of an acceptance: the bytes of the slip written, or of the slip read (check, unpack) */
    size_t blocks; /* of an acceptance: the blocks that its labels take to hash */
    uint8_t label[LIWHAROKO_LABEL_BYTES]; /* of an acceptance: the root label */
};

/* What the composer answers. */
struct liwharoko_composed {
    size_t number; /* 0, 11 or 17 to 20 */
    size_t place;  /* the first byte of the bad character for 18 to 20, else 0 */
    size_t length; /* bytes written, or 0 */
};

/* What the lookup finds: a part of one of the two records' values areas. */
struct liwharoko_part {
    size_t holder; /* 1 or 2; 0 where neither has it, and then start and size are 0 */
    size_t start;  /* where the part starts in that record's values */
    size_t size;   /* its bytes */
};

/* Whether the bytes are a slip of one well-formed tree. */
struct liwharoko_answer liwharoko_check(const uint8_t *slip, size_t slip_length);

/*
 * Packs a table into out. A table has three columns with one row an entry (type, child count, length of the value)
 * and one area with the values end to end.
 */
struct liwharoko_answer liwharoko_pack(
    const uint16_t *types, size_t types_length,
    const uint16_t *counts, size_t counts_length,
    const uint16_t *lengths, size_t lengths_length,
    const uint8_t *values, size_t values_length,
    uint8_t *out, size_t out_length);

/*
 * Checks a slip and writes its table. The number of rows is the slip's node count: the low 10 bits of its first two
 * bytes, most significant first. The values take the sum of the lengths.
 */
struct liwharoko_answer liwharoko_unpack(
    const uint8_t *slip, size_t slip_length,
    uint16_t *types, size_t types_length,
    uint16_t *counts, size_t counts_length,
    uint16_t *lengths, size_t lengths_length,
    uint8_t *values, size_t values_length);

/* Prunes a slip at the internal nodes that the list names by entry numbers, strictly rising, and writes its slip. */
struct liwharoko_answer liwharoko_prune(
    const uint8_t *slip, size_t slip_length,
    const uint16_t *list, size_t list_length,
    uint8_t *out, size_t out_length);

/* Joins two slips of one tree and writes the slip of what both disclose together. */
struct liwharoko_answer liwharoko_join(
    const uint8_t *first, size_t first_length,
    const uint8_t *second, size_t second_length,
    uint8_t *out, size_t out_length);

/*
 * The value of the first row of a type in the first table, or else in the second. Type 0 is never found, and a table
 * that is not of the form (16) holds nothing.
 */
struct liwharoko_part liwharoko_find(
    uint16_t type,
    const uint16_t *types1, size_t types1_length,
    const uint16_t *counts1, size_t counts1_length,
    const uint16_t *lengths1, size_t lengths1_length,
    const uint8_t *values1, size_t values1_length,
    const uint16_t *types2, size_t types2_length,
    const uint16_t *counts2, size_t counts2_length,
    const uint16_t *lengths2, size_t lengths2_length,
    const uint8_t *values2, size_t values2_length);

/* Which of the two tables has it: 1, 2, or 0 where neither does. */
size_t liwharoko_holder(
    uint16_t type,
    const uint16_t *types1, size_t types1_length,
    const uint16_t *counts1, size_t counts1_length,
    const uint16_t *lengths1, size_t lengths1_length,
    const uint8_t *values1, size_t values1_length,
    const uint16_t *types2, size_t types2_length,
    const uint16_t *counts2, size_t counts2_length,
    const uint16_t *lengths2, size_t lengths2_length,
    const uint8_t *values2, size_t values2_length);

/* Composes a title in UTF-8 to NFC into out. */
struct liwharoko_composed liwharoko_compose(
    const uint8_t *title, size_t title_length,
    uint8_t *out, size_t out_length);

#ifdef __cplusplus
}
#endif

#endif
