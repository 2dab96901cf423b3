/* Group sheet engine: the operations for C.

   Every operation takes a sheet in lent bytes, writes its reply to a lent buffer and returns one
   64-bit number: the refusal (0 for success) times 4,294,967,296 plus a second number. On success
   the second number is how many bytes were written; the bytes after them keep what they had. On a
   refusal it is the record number, nothing is written, and no byte of the buffer changes.

   What is asked of the caller:
   - each pointer leads to as many bytes as the length after it says, and the bytes of the sheet and
     of the register don't change during the call;
   - the reply buffer shares no byte with the sheet or the register (these two may overlap);
   - (NULL, 0) is an empty buffer, for the sheet, the register and the reply; a null pointer comes
     with no other length;
   - 256 KiB of stack are free (the deepest call that was measured takes 96,136 bytes);
   - nothing else. Any content and any length has an answer. No call keeps anything for the next,
     so calls with different reply buffers may run at the same time.

   All fields, of sheets, registers and replies, are unsigned and have their low byte first. A record
   is a two-byte length L of all that follows it, a two-byte kind, and a body of L - 2 bytes: it
   takes L + 2 bytes in all.

   A sheet is of edition 1 or 2, as its head says. The edition sets how many groups there may be, how
   long labels are and which rows a register has; all else is the same in both. Write edition 1 where
   a sheet has at most 128 groups and labels of up to 16 bytes, since older readers read no other, and
   edition 2 elsewhere. Sheets and registers of one edition are converted to the other by the last four
   operations. */
#ifndef GROUP_SHEET_H
#define GROUP_SHEET_H

#include <stddef.h>
#include <stdint.h>

#ifdef __cplusplus
extern "C" {
#endif

/* Limits of a sheet and of a register. A name that ends in _1 or _2 is for sheets of that edition. */
enum {
    SHEET_EDITION_1 = 1,
    SHEET_EDITION_2 = 2,
    SHEET_MAX_GROUPS_1 = 128,
    SHEET_MAX_GROUPS_2 = 256,
    SHEET_MAX_NAMES = 128,
    SHEET_MAX_CLAIMS = 64,
    SHEET_MAX_LABEL_1 = 16,
    SHEET_MAX_LABEL_2 = 32,
    SHEET_MAX_LIST = 8,         /* names in one list of a claim of kind 5, 6 or 7 */
    SHEET_MAX_BOUND = 65534,    /* greatest lo, and greatest hi that is an end */
    SHEET_NO_UPPER_END = 65535, /* as hi, in a group and in a count claim */
    SHEET_MAX_BYTES_1 = 6924,   /* the longest sheet that can be read */
    SHEET_MAX_BYTES_2 = 10508,
    SHEET_MAX_ROWS = 2048,
    SHEET_ROW_BYTES_1 = 26,
    SHEET_ROW_BYTES_2 = 42
};

/* In a reply of sheet_ranges, for a greatest count that doesn't exist. */
#define SHEET_NO_GREATEST UINT32_C(4294967295)

/* Kinds of records. A sheet is one head, G groups, S names and Q claims (kinds 4 to 7 in any order),
   in this order, and no byte after them. Groups, names and claims are numbered from 1, each by
   themselves, and records from 1 with the head. A parent and the group of a name are numbers of
   groups; a claim has numbers of names, 1 to S.
   - Group 1 is the root and has parent 0; the parent of any other group is from 1 to its own number
     less one.
   - lo above hi can be read: no sets fit such a group, and such a count is denied.
   - A label is made of the bytes A to Z, 0 to 9 and hyphen. No two labels are equal; several names
     may mean one group.
   - The set of a name is its group's set, or the empty set where the group is 0. */
enum sheet_kind {
    SHEET_KIND_HEAD = 1,    /* L = 10: edition, groups G, names S, claims Q; two bytes each */
    SHEET_KIND_GROUP = 2,   /* L = 10: parent, lo, hi, mode; two bytes each */
    SHEET_KIND_NAME = 3,    /* L = 5 to 20, in edition 2 to 36: group (two bytes, 0: the empty set),
                               label of 1 to 16 bytes, in edition 2 to 32 */
    SHEET_KIND_COUNT = 4,   /* L = 8: name, lo, hi; two bytes each. The set has lo to hi members */
    SHEET_KIND_INSIDE = 5,  /* L = 6 + 2(m + n): m, n, m left names, n right names; two bytes each.
                               The union of the left sets is part of the union of the right sets */
    SHEET_KIND_APART = 6,   /* the same fields. The union of the left sets and the union of the right
                               sets share nobody */
    SHEET_KIND_PLACE = 7,   /* the same fields. Somebody can be in all left sets at once and in no
                               right set; to exclude nobody, give a name of the empty set on the
                               right, since no list has 0 names */
    SHEET_KIND_RANGE = 17,  /* reply, L = 18: least, greatest, first, count; four bytes each */
    SHEET_KIND_VERDICT = 18,/* reply, L = 4: verdict, two bytes */
    SHEET_KIND_SHOWN = 19,  /* reply, L = 12: first, count (four bytes each), mark (two bytes) */
    SHEET_KIND_RESULT = 20, /* reply, L = 6: group, rule; two bytes each */
    SHEET_KIND_ROW_1 = 33,  /* register, L = 24: member (four bytes), side (two bytes), 16 bytes of
                               membership */
    SHEET_KIND_ROW_2 = 34   /* register, L = 40: the same with 32 bytes of membership */
};

/* A group's mode is a sum of these, about its sons, the groups whose parent it is. Sets fit a sheet
   when every group is part of its parent, has lo to hi members and is as its mode says. */
enum sheet_mode {
    SHEET_DISJOINT = 1, /* no two sons share a member */
    SHEET_COVER = 2,    /* every member is in some son: without sons the group is empty */
    SHEET_SAME = 4      /* every son equals the group: to divide a group twice, give it two such sons
                           and divide each of them; with SHEET_DISJOINT over two or more sons, group
                           and sons are empty */
};

/* The side of a row's member: which ear. */
enum sheet_side {
    SHEET_LEFT = 1,
    SHEET_RIGHT = 2
};

/* Refusals, in checking order. The record number is the one in brackets. */
enum sheet_refusal {
    SHEET_OK = 0,
    SHEET_CUT = 1,               /* fewer than four bytes or than the length asks remain, or the
                                    length is below 2 [the record] */
    SHEET_WRONG_KIND = 2,        /* the kind is not one for this place [the record] */
    SHEET_WRONG_LENGTH = 3,      /* the length is not that kind's [the record]. Head, group: not 10.
                                    Name: not 5 to 20, in edition 2 not 5 to 36. Count: not 8.
                                    Kinds 5 to 7: odd, or not 10 to 38 */
    SHEET_FIELD_RANGE = 4,       /* a field outside its range [the record]. Head: edition not 1 or 2,
                                    G 0 or above this edition's, S or Q above the limit. Group: lo
                                    65,535, mode above 7. Name: a byte of the label. Count: lo
                                    65,535. Kinds 5 to 7: m or n not 1 to 8, or 6 + 2(m + n) not
                                    the length */
    SHEET_BAD_REFERENCE = 5,     /* a number not allowed there [the record]. Group: the parent. Name:
                                    a group above G. Kinds 4 to 7: a name that is 0 or above S */
    SHEET_LABEL_TWICE = 6,       /* a label was used before [the record] */
    SHEET_TRAILING = 7,          /* bytes follow the last record [G + S + Q + 2] */
    SHEET_MANY_GROUPS = 16,      /* more than 128 groups [0]; 16 and 17 towards edition 1 only */
    SHEET_LONG_LABEL = 17,       /* a label above 16 bytes [the record of the first such name] */
    SHEET_IMPOSSIBLE = 8,        /* no finite sets fit [0]; ranges and claim only */
    SHEET_NO_SUCH_CLAIM = 9,     /* the claim number is 0 or above Q [0]; claim only */
    SHEET_TOO_MANY_ROWS = 10,    /* bytes follow the 2,048th row [2049]; 10 to 13 and 15 where a
                                    register is handed in */
    SHEET_BAD_ROW = 11,          /* a row is cut, or its kind or length is not this edition's
                                    [the row] */
    SHEET_BAD_SIDE = 15,         /* a side other than 1 or 2 [the row] */
    SHEET_MEMBER_ORDER = 12,     /* a row's member is 0, or its member and side are below the
                                    row before [the row] */
    SHEET_BIT_ABOVE = 13,        /* a bit above G is set [the row] */
    SHEET_REPLY_SHORT = 14       /* the reply buffer is shorter than this reply [0] */
};

/* Rules of a register, as the reply of sheet_register names them. */
enum sheet_rule {
    SHEET_FITS = 0,
    SHEET_RULE_OUTSIDE_PARENT = 1, /* a member outside the parent */
    SHEET_RULE_NOT_SAME = 2,       /* the parent is 'same' and has a member the group lacks */
    SHEET_RULE_NOT_COVERED = 3,    /* 'cover' and a member in no son */
    SHEET_RULE_NOT_DISJOINT = 4,   /* 'disjoint' and a member in two sons */
    SHEET_RULE_BELOW_LO = 5,
    SHEET_RULE_ABOVE_HI = 6
};

/* Verdicts; of a claim of kind 7, no and yes. */
enum sheet_verdict {
    SHEET_DENIED = 0,
    SHEET_HOLDS = 1
};

/* Bytes of a reply. groups is the G of the sheet's head, rows how many the register has. A converted
   sheet has as many bytes as the sheet. */
#define SHEET_RANGES_REPLY(groups) ((size_t)20 * (groups))
#define SHEET_VERDICT_REPLY ((size_t)6)                               /* the verdict alone */
#define SHEET_SHOWN_REPLY(groups) ((size_t)6 + (size_t)14 * (groups)) /* a verdict with sets */
#define SHEET_REGISTER_REPLY ((size_t)8)
#define SHEET_ROWS_REPLY_1(rows) ((size_t)SHEET_ROW_BYTES_1 * (rows)) /* a register in edition 1, */
#define SHEET_ROWS_REPLY_2(rows) ((size_t)SHEET_ROW_BYTES_2 * (rows)) /* and in edition 2 */
/* Enough for every reply of sheet_ranges, sheet_claim and sheet_register, in both editions. */
#define SHEET_MAX_RANGES_REPLY SHEET_RANGES_REPLY(SHEET_MAX_GROUPS_2)
/* Enough for every reply, a converted register among them. */
#define SHEET_MAX_REPLY SHEET_ROWS_REPLY_2(SHEET_MAX_ROWS)

/* The two halves of what an operation returns. */
static inline uint32_t sheet_refusal_of(uint64_t returned) { return (uint32_t)(returned >> 32); }
static inline uint32_t sheet_second_of(uint64_t returned) { return (uint32_t)returned; }

/* Reading and writing fields. */
static inline uint32_t sheet_get16(const uint8_t *at)
{
    return (uint32_t)at[0] | (uint32_t)at[1] << 8;
}
static inline uint32_t sheet_get32(const uint8_t *at)
{
    return sheet_get16(at) | sheet_get16(at + 2) << 16;
}
static inline void sheet_put16(uint8_t *at, uint32_t value)
{
    at[0] = (uint8_t)value;
    at[1] = (uint8_t)(value >> 8);
}
static inline void sheet_put32(uint8_t *at, uint32_t value)
{
    sheet_put16(at, value);
    sheet_put16(at + 2, value >> 16);
}

/* The range of every group, and one arrangement of sets that fits.
   Refusals 1 to 8 and 14. Reply: G records of kind 17 (20 bytes each), the g-th for group g:
       at 4 least, at 8 greatest (SHEET_NO_GREATEST for none), at 12 first, at 16 count.
   In the arrangement group g has the members first, first + 1, .., first + count - 1. No sets that
   fit have fewer members in group 1 than the arrangement, and every member of every group of it is in
   group 1's run. No finite end, least or greatest, exceeds 127 x 65,534 = 8,322,818 in edition 1 and
   255 x 65,534 = 16,711,170 in edition 2: SHEET_MAX_BOUND for each group but one. Where every finite
   end is at most SHEET_MAX_BOUND, the ranges may be written into the sheet as lo and hi
   (SHEET_NO_UPPER_END where there is no greatest): the same sets fit it, and the reply is the same. */
uint64_t sheet_ranges(const uint8_t *sheet, size_t sheet_len,
                      uint8_t *reply, size_t reply_len);

/* The verdict on one claim, numbered from 1 in the order of the sheet.
   Refusals 1 to 9 and 14. Reply: one record of kind 18 (6 bytes), at 4 the verdict.
   - A claim of kind 4, 5 or 6 holds when all finite sets that fit the sheet do as it says. A denial
     shows sets that fit and break it.
   - A claim of kind 7 holds when some finite sets that fit have a member in every left set and in
     no right set; a name of the empty set is a no on the left and passed over on the right. A yes
     shows such sets, with that member as member 0: the mark is 1 in every left group and 0 in every
     right group.
   The other verdict is a reply by itself (SHEET_VERDICT_REPLY). Sets are shown by G more records
   (SHEET_SHOWN_REPLY), of kind 19 (14 bytes each, the first at 6):
       at 4 first (1 or more), at 8 count, at 12 mark.
   Group g is shown with the members first, .., first + count - 1, and with member 0 where mark
   is 1. Which such sets are shown is free. A verdict with sets that doesn't find room for all its
   records is refused by 14. */
uint64_t sheet_claim(const uint8_t *sheet, size_t sheet_len, uint32_t claim,
                     uint8_t *reply, size_t reply_len);

/* Whether the sets that a register lists fit the sheet.
   The sheet's edition decides which rows a register has: under edition 1 all are of kind 33
   (SHEET_ROW_BYTES_1 each, 16 bytes of membership), under edition 2 all are of kind 34
   (SHEET_ROW_BYTES_2 each, 32 bytes of membership), also where the sheet has few groups. In both:
       at 4 member (its number, 1 upward), at 8 side (enum sheet_side), at 10 membership.
   Group g is bit (g - 1) % 8 of membership byte (g - 1) / 8, bit 0 the lowest. Ears are counted: a
   member here is a number with a side, so a recipient with two implants is two members. Rows rise
   by number, then side. Equal pairs in neighbouring rows are one member, in the groups of either
   row; SHEET_MAX_ROWS and the row number of a refusal count rows.
   Refusals 1 to 7 and 10 to 15; a sheet that no sets fit is not refused here. Reply: one record of
   kind 20 (8 bytes): at 4 the lowest group with a broken rule, at 6 its first broken rule
   (enum sheet_rule); 0 and 0 when all fits. */
uint64_t sheet_register(const uint8_t *sheet, size_t sheet_len,
                        const uint8_t *reg, size_t reg_len,
                        uint8_t *reply, size_t reply_len);

/* The sheet in edition 1, and in edition 2.
   Refusals 1 to 7, 16 and 17 (towards edition 1 only) and 14; a sheet that no sets fit is not refused
   here. Reply: the sheet's own bytes, sheet_len of them, but for the edition in the head. A sheet that
   is in that edition already is copied. Under the converted sheet every operation answers the same (sets
   that a claim shows are free there too); converted back, the sheet has its first bytes again. */
uint64_t sheet_to_edition1(const uint8_t *sheet, size_t sheet_len,
                           uint8_t *reply, size_t reply_len);
uint64_t sheet_to_edition2(const uint8_t *sheet, size_t sheet_len,
                           uint8_t *reply, size_t reply_len);

/* A register in the rows of edition 1, and in those of edition 2.
   The sheet is the one that the register is for: its edition, not the wanted one, says which rows are
   handed in. Refusals 1 to 7, 16 and 17 (towards edition 1 only) and 10 to 15; no rule is asked.
   Reply: a row for each row (SHEET_ROWS_REPLY_1, SHEET_ROWS_REPLY_2), in their order, with the same
   member, side and groups: 16 membership bytes are left out or added as zeros, rows of one member are
   not joined, and rows in no group stay. Rows that are of that edition already are copied. The reply
   is a register for the converted sheet. */
uint64_t sheet_register_to_edition1(const uint8_t *sheet, size_t sheet_len,
                                    const uint8_t *reg, size_t reg_len,
                                    uint8_t *reply, size_t reply_len);
uint64_t sheet_register_to_edition2(const uint8_t *sheet, size_t sheet_len,
                                    const uint8_t *reg, size_t reg_len,
                                    uint8_t *reply, size_t reply_len);

#ifdef __cplusplus
}
#endif

#endif
