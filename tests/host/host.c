/* A small host: builds sheets and registers of both editions, calls every operation, prints what they say. */
#include <stdio.h>
#include <string.h>

#include "group_sheet.h"

struct bytes {
    uint8_t at[16384];
    size_t len;
};

static void begin(struct bytes *b, uint32_t length, uint32_t kind)
{
    sheet_put16(b->at + b->len, length);
    sheet_put16(b->at + b->len + 2, kind);
    b->len += 4;
}

static void word(struct bytes *b, uint32_t value)
{
    sheet_put16(b->at + b->len, value);
    b->len += 2;
}

/* Which edition to write: older readers read edition 1 and no other. */
static uint32_t edition_for(uint32_t groups, size_t longest_label)
{
    return groups <= SHEET_MAX_GROUPS_1 && longest_label <= SHEET_MAX_LABEL_1 ? SHEET_EDITION_1 : SHEET_EDITION_2;
}

static void head(struct bytes *b, uint32_t edition, uint32_t groups, uint32_t names, uint32_t claims)
{
    begin(b, 10, SHEET_KIND_HEAD);
    word(b, edition);
    word(b, groups);
    word(b, names);
    word(b, claims);
}

static void group(struct bytes *b, uint32_t parent, uint32_t lo, uint32_t hi, uint32_t mode)
{
    begin(b, 10, SHEET_KIND_GROUP);
    word(b, parent);
    word(b, lo);
    word(b, hi);
    word(b, mode);
}

static void name(struct bytes *b, uint32_t of, const char *label)
{
    size_t n = strlen(label);
    begin(b, (uint32_t)(4 + n), SHEET_KIND_NAME);
    word(b, of);
    memcpy(b->at + b->len, label, n);
    b->len += n;
}

static void count_claim(struct bytes *b, uint32_t of, uint32_t lo, uint32_t hi)
{
    begin(b, 8, SHEET_KIND_COUNT);
    word(b, of);
    word(b, lo);
    word(b, hi);
}

/* Inside, apart or place: m left names, n right names. */
static void list_claim(struct bytes *b, uint32_t kind, uint32_t m, const uint32_t *left, uint32_t n,
                       const uint32_t *right)
{
    begin(b, 6 + 2 * (m + n), kind);
    word(b, m);
    word(b, n);
    for (uint32_t i = 0; i < m; i++)
        word(b, left[i]);
    for (uint32_t i = 0; i < n; i++)
        word(b, right[i]);
}

static void pair_claim(struct bytes *b, uint32_t kind, uint32_t left, uint32_t right)
{
    list_claim(b, kind, 1, &left, 1, &right);
}

/* A row in no group, of the kind and size of an edition; returns where its membership begins. */
static uint8_t *empty_row(struct bytes *b, uint32_t kind, uint32_t size, uint32_t member, uint32_t side)
{
    uint8_t *at = b->at + b->len;
    memset(at, 0, size);
    sheet_put16(at, size - 2);
    sheet_put16(at + 2, kind);
    sheet_put32(at + 4, member);
    sheet_put16(at + 8, side);
    b->len += size;
    return at + 10;
}

/* A row of edition 1. groups: bit g - 1 for group g, for the first 32 groups. */
static void row(struct bytes *b, uint32_t member, uint32_t side, uint32_t groups)
{
    sheet_put32(empty_row(b, SHEET_KIND_ROW_1, SHEET_ROW_BYTES_1, member, side), groups);
}

/* A row of edition 2, in so many groups. */
static void row_2(struct bytes *b, uint32_t member, uint32_t side, size_t n, const uint32_t *groups)
{
    uint8_t *membership = empty_row(b, SHEET_KIND_ROW_2, SHEET_ROW_BYTES_2, member, side);
    for (size_t i = 0; i < n; i++)
        membership[(groups[i] - 1) / 8] |= (uint8_t)(1 << (groups[i] - 1) % 8);
}

/* The printed case of the paper. */
static void clinic(struct bytes *b)
{
    b->len = 0;
    head(b, edition_for(4, strlen("RIGHT")), 4, 4, 3);
    group(b, 0, 10, 12, SHEET_DISJOINT + SHEET_COVER);
    group(b, 1, 0, 5, 0);
    group(b, 1, 2, 6, 0);
    group(b, 2, 3, SHEET_NO_UPPER_END, 0);
    name(b, 1, "ALL");
    name(b, 2, "LEFT");
    name(b, 3, "RIGHT");
    name(b, 4, "NEW");
    count_claim(b, 2, 4, 5);
    pair_claim(b, SHEET_KIND_APART, 4, 3);
    pair_claim(b, SHEET_KIND_INSIDE, 2, 4);
}

/* A root of two members, covered by three sons of at most one each. */
static void three_sons(struct bytes *b)
{
    const uint32_t sons[] = {2, 3, 4}, nobody = 5;
    b->len = 0;
    head(b, SHEET_EDITION_1, 4, 5, 3);
    group(b, 0, 2, 2, SHEET_COVER);
    for (int i = 0; i < 3; i++)
        group(b, 1, 0, 1, 0);
    name(b, 1, "ALL");
    name(b, 2, "A");
    name(b, 3, "B");
    name(b, 4, "C");
    name(b, 0, "NOBODY");
    list_claim(b, SHEET_KIND_PLACE, 2, sons, 1, &nobody);
    list_claim(b, SHEET_KIND_PLACE, 3, sons, 1, &nobody);
    list_claim(b, SHEET_KIND_PLACE, 1, sons + 2, 2, sons);
}

/* A large centre: 199 clinics of 1 to 9 members each, which share nobody. */
static void large_centre(struct bytes *b)
{
    const char *north = "CENTRE-NORTH-REHABILITATION", *east = "CENTRE-NORTH-REHABILITATION-EAST";
    const uint32_t all = 1, two[] = {2, 3};
    b->len = 0;
    head(b, edition_for(200, strlen(east)), 200, 3, 4);
    group(b, 0, 0, SHEET_NO_UPPER_END, SHEET_DISJOINT + SHEET_COVER);
    for (int i = 2; i <= 200; i++)
        group(b, 1, 1, 9, 0);
    name(b, 1, "ALL");
    name(b, 129, north);
    name(b, 200, east);
    count_claim(b, 3, 1, 9);
    pair_claim(b, SHEET_KIND_APART, 2, 3);
    list_claim(b, SHEET_KIND_INSIDE, 1, &all, 2, two);
    pair_claim(b, SHEET_KIND_PLACE, 3, 2);
}

static void refused(const char *what, uint64_t got)
{
    printf("%s: refused %u %u\n", what, (unsigned)sheet_refusal_of(got), (unsigned)sheet_second_of(got));
}

static void show_range(const uint8_t *reply, size_t g)
{
    const uint8_t *range = reply + SHEET_RANGES_REPLY(g - 1);
    uint32_t greatest = sheet_get32(range + 8);
    printf("  group %u: %u to ", (unsigned)g, (unsigned)sheet_get32(range + 4));
    if (greatest == SHEET_NO_GREATEST)
        printf("any");
    else
        printf("%u", (unsigned)greatest);
    printf(" members, arranged from %u, %u of them\n", (unsigned)sheet_get32(range + 12),
           (unsigned)sheet_get32(range + 16));
}

/* Prints the ranges, of the first two groups alone where there are more than eight; how many groups there are. */
static size_t show_ranges(const char *what, const struct bytes *sheet, uint8_t *reply, size_t len)
{
    uint64_t got = sheet_ranges(sheet->at, sheet->len, reply, len);
    if (sheet_refusal_of(got) != SHEET_OK) {
        refused(what, got);
        return 0;
    }
    size_t groups = sheet_second_of(got) / SHEET_RANGES_REPLY(1);
    printf("%s: %u bytes\n", what, (unsigned)sheet_second_of(got));
    for (size_t g = 1; g <= groups && (groups <= 8 || g <= 2); g++)
        show_range(reply, g);
    return groups;
}

/* Whether the run in a record of kind 19, with its mark, has this member. */
static int shown(const uint8_t *record, uint32_t member)
{
    uint32_t first = sheet_get32(record + 4), count = sheet_get32(record + 8);
    if (member == 0)
        return sheet_get16(record + 12) == 1;
    return first <= member && member - first < count;
}

/* Prints the verdict; whether sets are shown with it. */
static int show_claim(const struct bytes *sheet, uint32_t claim, uint8_t *reply, size_t len)
{
    char what[32];
    uint64_t got = sheet_claim(sheet->at, sheet->len, claim, reply, len);
    snprintf(what, sizeof what, "claim %u", (unsigned)claim);
    if (sheet_refusal_of(got) != SHEET_OK) {
        refused(what, got);
        return 0;
    }
    printf("%s: %s, %u bytes\n", what, sheet_get16(reply + 4) == SHEET_HOLDS ? "holds" : "denied",
           (unsigned)sheet_second_of(got));
    return sheet_second_of(got) > SHEET_VERDICT_REPLY;
}

/* Claim 3 of the clinic. Which sets are shown is free, so say only what must be true of them:
   somebody is in LEFT (group 2) and not in NEW (group 4), and LEFT has 4 or 5. */
static void show_denial(const uint8_t *reply)
{
    const uint8_t *left = reply + SHEET_SHOWN_REPLY(1), *new = reply + SHEET_SHOWN_REPLY(3);
    uint32_t first = sheet_get32(left + 4), run = sheet_get32(left + 8);
    uint32_t size = run + sheet_get16(left + 12);
    int found = shown(left, 0) && !shown(new, 0);
    /* What a run has beyond another run begins or ends it. */
    if (run > 0)
        found |= !shown(new, first) || !shown(new, first + run - 1);
    printf("  somebody in LEFT and not in NEW: %s; LEFT has 4 or 5: %s\n", found ? "yes" : "no",
           size == 4 || size == 5 ? "yes" : "no");
}

/* The groups of member 0. */
static void show_member(const uint8_t *reply, size_t groups)
{
    printf("  member 0 is in groups");
    for (size_t g = 1; g <= groups; g++)
        if (shown(reply + SHEET_SHOWN_REPLY(g - 1), 0))
            printf(" %u", (unsigned)g);
    printf("\n");
}

static void show_register(const char *what, const struct bytes *sheet, const struct bytes *reg,
                          uint8_t *reply, size_t len)
{
    uint64_t got = sheet_register(sheet->at, sheet->len, reg->at, reg->len, reply, len);
    if (sheet_refusal_of(got) != SHEET_OK) {
        refused(what, got);
        return;
    }
    uint32_t g = sheet_get16(reply + 4), rule = sheet_get16(reply + 6);
    if (rule == SHEET_FITS)
        printf("%s: fits\n", what);
    else
        printf("%s: group %u breaks rule %u\n", what, (unsigned)g, (unsigned)rule);
}

/* The sheet's bounds replaced by the ranges of its reply. Not where a finite end is above SHEET_MAX_BOUND: it has no field. */
static int narrow(struct bytes *sheet, const uint8_t *reply, size_t groups)
{
    for (size_t g = 1; g <= groups; g++) {
        const uint8_t *range = reply + SHEET_RANGES_REPLY(g - 1);
        uint32_t least = sheet_get32(range + 4), greatest = sheet_get32(range + 8);
        if (least > SHEET_MAX_BOUND || (greatest > SHEET_MAX_BOUND && greatest != SHEET_NO_GREATEST))
            return 0;
        sheet_put16(sheet->at + 12 * g + 6, least);
        sheet_put16(sheet->at + 12 * g + 8, greatest == SHEET_NO_GREATEST ? SHEET_NO_UPPER_END : greatest);
    }
    return 1;
}

/* A sheet of edition 2 and registers for it, beside the clinic's. */
static void show_large_centre(uint8_t *reply, size_t len)
{
    static struct bytes centre, small, reg;
    large_centre(&centre);
    printf("large centre: edition %u, %u groups\n", (unsigned)sheet_get16(centre.at + 4), (unsigned)sheet_get16(centre.at + 6));
    if (show_ranges("large centre, ranges", &centre, reply, len) == 200) {
        show_range(reply, 129);
        show_range(reply, 200);
    }
    show_ranges("large centre, buffer of 3999", &centre, reply, SHEET_RANGES_REPLY(200) - 1);
    for (uint32_t c = 1; c <= 5; c++)
        if (show_claim(&centre, c, reply, len) && c == 4)
            show_member(reply, 200);
    show_claim(&centre, 4, reply, SHEET_SHOWN_REPLY(200) - 1);

    /* The left ears of 1 to 199, one in each clinic. */
    for (uint32_t m = 1; m <= 199; m++) {
        const uint32_t of[] = {1, m + 1};
        row_2(&reg, m, SHEET_LEFT, 2, of);
    }
    size_t fits = reg.len;
    show_register("large centre, an ear in each clinic", &centre, &reg, reply, len);
    reg.len = fits - SHEET_ROW_BYTES_2;
    show_register("large centre, nobody in the last clinic", &centre, &reg, reply, len);
    /* One ear on two rows: its clinic in one, the centre in the other. */
    const uint32_t all[] = {1}, east[] = {200}, shared[] = {1, 129, 200}, beyond[] = {1, 201};
    reg.len = fits;
    row_2(&reg, 200, SHEET_RIGHT, 1, east);
    show_register("large centre, rehabilitation's row of 200, right", &centre, &reg, reply, len);
    row_2(&reg, 200, SHEET_RIGHT, 1, all);
    show_register("large centre, surgery's row of 200, right, too", &centre, &reg, reply, len);
    reg.len = fits;
    row_2(&reg, 200, SHEET_RIGHT, 3, shared);
    show_register("large centre, an ear in clinics 129 and 200", &centre, &reg, reply, len);
    reg.len = fits;
    row_2(&reg, 200, SHEET_RIGHT, 2, beyond);
    show_register("large centre, an ear in group 201", &centre, &reg, reply, len);
    /* The sheet's edition decides which rows there are, however few groups it has. */
    reg.len = fits;
    row(&reg, 200, SHEET_RIGHT, 1 + 2);
    show_register("large centre, a row of edition 1", &centre, &reg, reply, len);
    clinic(&small);
    reg.len = 0;
    row_2(&reg, 1, SHEET_LEFT, 1, all);
    show_register("the clinic, a row of edition 2", &small, &reg, reply, len);
    sheet_put16(small.at + 4, SHEET_EDITION_2);
    show_register("the clinic in edition 2, a row of edition 2", &small, &reg, reply, len);
    show_ranges("the clinic in edition 2", &small, reply, len);

    sheet_put16(centre.at + 4, SHEET_EDITION_1);
    show_ranges("200 groups in edition 1", &centre, reply, len);
    sheet_put16(centre.at + 4, 3);
    show_ranges("edition 3", &centre, reply, len);
    small.len = 0;
    head(&small, SHEET_EDITION_1, 1, 1, 0);
    group(&small, 0, 0, 9, 0);
    name(&small, 1, "CENTRE-NORTH-WEST");
    show_ranges("a label of 17 bytes in edition 1", &small, reply, len);
    sheet_put16(small.at + 4, edition_for(1, strlen("CENTRE-NORTH-WEST")));
    show_ranges("a label of 17 bytes in edition 2", &small, reply, len);
}

/* Takes a converted sheet or register from the reply; whether there is one. */
static int take(const char *what, uint64_t got, const uint8_t *reply, struct bytes *to)
{
    if (sheet_refusal_of(got) != SHEET_OK) {
        refused(what, got);
        return 0;
    }
    to->len = sheet_second_of(got);
    memcpy(to->at, reply, to->len);
    printf("%s: %u bytes\n", what, (unsigned)to->len);
    return 1;
}

static const char *alike(const struct bytes *a, const struct bytes *b)
{
    return a->len == b->len && memcmp(a->at, b->at, a->len) == 0 ? "the same bytes" : "other bytes";
}

/* A sheet of edition 2 goes to a clinic whose program reads edition 1 alone, its register too, and both come back. */
static void show_old_clinic(uint8_t *reply, size_t len)
{
    static struct bytes sheet, reg, old_sheet, old_reg, back;
    clinic(&sheet);
    sheet_put16(sheet.at + 4, SHEET_EDITION_2);
    /* Five left ears and five right ones; the first left ear is on two rows, the last row is in no group. */
    const uint32_t left[] = {1, 2, 4}, right[] = {1, 3}, more[] = {2};
    row_2(&reg, 1, SHEET_LEFT, 1, more);
    for (uint32_t m = 1; m <= 5; m++) {
        row_2(&reg, m, SHEET_LEFT, 3, left);
        row_2(&reg, m, SHEET_RIGHT, 2, right);
    }
    row_2(&reg, 9, SHEET_LEFT, 0, NULL);
    show_register("the clinic's register", &sheet, &reg, reply, len);

    if (!take("the clinic's sheet to edition 1", sheet_to_edition1(sheet.at, sheet.len, reply, len), reply, &old_sheet) ||
        !take("its register to edition 1", sheet_register_to_edition1(sheet.at, sheet.len, reg.at, reg.len, reply, len), reply, &old_reg))
        return;
    printf("  edition %u, %u rows of kind %u\n", (unsigned)sheet_get16(old_sheet.at + 4), (unsigned)(old_reg.len / SHEET_ROW_BYTES_1),
           (unsigned)sheet_get16(old_reg.at + 2));
    show_ranges("the old clinic's ranges", &old_sheet, reply, len);
    show_claim(&old_sheet, 1, reply, len);
    show_register("the old clinic's check", &old_sheet, &old_reg, reply, len);

    if (take("back to edition 2", sheet_to_edition2(old_sheet.at, old_sheet.len, reply, len), reply, &back))
        printf("  %s\n", alike(&back, &sheet));
    if (take("the register back to edition 2",
             sheet_register_to_edition2(old_sheet.at, old_sheet.len, old_reg.at, old_reg.len, reply, len), reply, &back))
        printf("  %s\n", alike(&back, &reg));
    /* What is in the wanted edition already is copied. */
    if (take("once more to edition 1", sheet_to_edition1(old_sheet.at, old_sheet.len, reply, len), reply, &back))
        printf("  %s\n", alike(&back, &old_sheet));
    if (take("the register once more to edition 1",
             sheet_register_to_edition1(old_sheet.at, old_sheet.len, old_reg.at, old_reg.len, reply, len), reply, &back))
        printf("  %s\n", alike(&back, &old_reg));

    /* A register is read under its own sheet, and a reply that finds no room is refused. */
    refused("rows of edition 1 under the sheet of edition 2",
            sheet_register_to_edition1(sheet.at, sheet.len, old_reg.at, old_reg.len, reply, len));
    refused("the sheet, a byte short", sheet_to_edition1(sheet.at, sheet.len, reply, sheet.len - 1));
    refused("the register to edition 2, a byte short",
            sheet_register_to_edition2(old_sheet.at, old_sheet.len, old_reg.at, old_reg.len, reply, SHEET_ROWS_REPLY_2(12) - 1));
    take("the register to edition 1, room for it alone",
         sheet_register_to_edition1(sheet.at, sheet.len, reg.at, reg.len, reply, SHEET_ROWS_REPLY_1(12)), reply, &back);

    /* What edition 1 has no room for, towards it and towards edition 2; a register of such a sheet is not looked at. */
    large_centre(&sheet);
    refused("200 groups to edition 1", sheet_to_edition1(sheet.at, sheet.len, reply, len));
    refused("a register of 200 groups to edition 1", sheet_register_to_edition1(sheet.at, sheet.len, old_reg.at, 1, reply, len));
    take("200 groups to edition 2", sheet_to_edition2(sheet.at, sheet.len, reply, len), reply, &back);
    sheet.len = 0;
    head(&sheet, SHEET_EDITION_2, 1, 3, 0);
    group(&sheet, 0, 3, 2, 0); /* no sets fit: not asked here */
    name(&sheet, 1, "CENTRE-16-BYTES-");
    name(&sheet, 1, "CENTRE-NORTH-WEST");
    name(&sheet, 0, "CENTRE-NORTH-REHABILITATION-EAST");
    refused("a label of 17 bytes to edition 1", sheet_to_edition1(sheet.at, sheet.len, reply, len));
    refused("a register under it to edition 1", sheet_register_to_edition1(sheet.at, sheet.len, NULL, 0, reply, len));
    take("a label of 17 bytes to edition 2", sheet_to_edition2(sheet.at, sheet.len, reply, len), reply, &back);
    sheet.len = 0;
    head(&sheet, SHEET_EDITION_2, 1, 0, 0);
    group(&sheet, 0, 3, 2, 0);
    take("an impossible sheet to edition 1", sheet_to_edition1(sheet.at, sheet.len, reply, len), reply, &back);
    show_ranges("an impossible sheet in edition 1", &back, reply, len);
    take("no rows to edition 1", sheet_register_to_edition1(sheet.at, sheet.len, NULL, 0, NULL, 0), reply, &back);
}

int main(void)
{
    static struct bytes sheet, other, reg;
    static uint8_t reply[SHEET_MAX_REPLY], again[SHEET_MAX_RANGES_REPLY];

    clinic(&sheet);
    show_ranges("ranges", &sheet, reply, sizeof reply);
    show_ranges("ranges, buffer of 79", &sheet, reply, SHEET_RANGES_REPLY(4) - 1);
    for (uint32_t c = 0; c <= 4; c++)
        if (show_claim(&sheet, c, reply, sizeof reply))
            show_denial(reply);
    show_claim(&sheet, 1, reply, SHEET_VERDICT_REPLY);
    show_claim(&sheet, 3, reply, SHEET_VERDICT_REPLY);
    if (show_claim(&sheet, 3, reply, SHEET_SHOWN_REPLY(4)))
        show_denial(reply);

    /* Places: somebody in A and B, which leaves C for the root's other member; in all three; in C alone. */
    three_sons(&other);
    for (uint32_t c = 1; c <= 3; c++)
        if (show_claim(&other, c, reply, sizeof reply))
            show_member(reply, 4);
    show_claim(&other, 1, reply, SHEET_SHOWN_REPLY(4) - 1);
    show_claim(&other, 2, reply, SHEET_VERDICT_REPLY);
    show_claim(&other, 2, reply, SHEET_VERDICT_REPLY - 1);

    /* Ten ears of six recipients: the left ears of 1 to 4 in LEFT (of them 1 to 3 in NEW), all right ears in RIGHT, 5 and 6
       have no other. LEFT and RIGHT share nobody: both ears of 1 are two members. */
    for (uint32_t m = 1; m <= 6; m++) {
        if (m <= 4)
            row(&reg, m, SHEET_LEFT, m <= 3 ? 1 + 2 + 8 : 1 + 2);
        row(&reg, m, SHEET_RIGHT, 1 + 4);
    }
    show_register("register", &sheet, &reg, reply, sizeof reply);
    show_register("register, buffer of 7", &sheet, &reg, reply, SHEET_REGISTER_REPLY - 1);
    /* The left ear of 7 on two rows: rehabilitation knows NEW, surgery LEFT, of which NEW is a part. */
    row(&reg, 7, SHEET_LEFT, 8);
    show_register("register with rehabilitation's row of 7, left", &sheet, &reg, reply, sizeof reply);
    row(&reg, 7, SHEET_LEFT, 1 + 2);
    show_register("register with surgery's row of 7, left, too", &sheet, &reg, reply, sizeof reply);
    size_t fits = reg.len;
    row(&reg, 7, SHEET_LEFT, 1 + 4);
    show_register("register with 7, left, on a third row, in RIGHT", &sheet, &reg, reply, sizeof reply);
    /* The other ear is another member, and one more than RIGHT has room for. */
    reg.len = fits;
    row(&reg, 7, SHEET_RIGHT, 1 + 4);
    show_register("register with 7, right, in RIGHT", &sheet, &reg, reply, sizeof reply);
    size_t both = reg.len;
    row(&reg, 7, SHEET_LEFT, 1 + 2);
    show_register("register with 7, left, after 7, right", &sheet, &reg, reply, sizeof reply);
    reg.len = both;
    row(&reg, 6, SHEET_RIGHT, 1 + 4);
    show_register("register with 6 after 7", &sheet, &reg, reply, sizeof reply);
    reg.len = both;
    row(&reg, 8, SHEET_LEFT + SHEET_RIGHT, 1 + 2);
    show_register("register with both sides in one row", &sheet, &reg, reply, sizeof reply);
    /* A row without a side, as they were once. */
    reg.len = both;
    begin(&reg, 22, 32);
    memset(reg.at + reg.len, 0, 20);
    sheet_put32(reg.at + reg.len, 8);
    sheet_put32(reg.at + reg.len + 4, 1 + 2);
    reg.len += 20;
    show_register("register with a row of kind 32", &sheet, &reg, reply, sizeof reply);
    reg.len = 0;
    show_register("empty register", &sheet, &reg, reply, sizeof reply);

    /* A clinic that cannot be. */
    other.len = 0;
    head(&other, SHEET_EDITION_1, 3, 0, 0);
    group(&other, 0, 0, 3, SHEET_DISJOINT);
    group(&other, 1, 2, SHEET_NO_UPPER_END, 0);
    group(&other, 1, 2, SHEET_NO_UPPER_END, 0);
    show_ranges("impossible sheet", &other, reply, sizeof reply);
    sheet_put16(other.at + 12 + 8, 4);
    show_ranges("with one more", &other, reply, sizeof reply);

    /* The ranges as bounds: the same reply, byte for byte. */
    clinic(&other);
    uint64_t got = sheet_ranges(other.at, other.len, reply, sizeof reply);
    int done = narrow(&other, reply, 4);
    uint64_t once_more = sheet_ranges(other.at, other.len, again, sizeof again);
    int same = sheet_refusal_of(got) == SHEET_OK && got == once_more && memcmp(reply, again, sheet_second_of(got)) == 0;
    printf("ranges as bounds: %s, %s\n", !done ? "an end too large" : memcmp(other.at, sheet.at, sheet.len) != 0 ? "other bounds" : "the same bounds",
           same ? "the same reply" : "another reply");

    show_large_centre(reply, sizeof reply);
    show_old_clinic(reply, sizeof reply);

    refused("no bytes at all", sheet_ranges(NULL, 0, NULL, 0));
    refused("no bytes, a claim", sheet_claim(NULL, 0, 1, NULL, 0));
    refused("no bytes, a register", sheet_register(NULL, 0, NULL, 0, NULL, 0));
    refused("no bytes, to edition 1", sheet_to_edition1(NULL, 0, NULL, 0));
    refused("no bytes, to edition 2", sheet_to_edition2(NULL, 0, NULL, 0));
    refused("no bytes, a register to edition 1", sheet_register_to_edition1(NULL, 0, NULL, 0, NULL, 0));
    refused("no bytes, a register to edition 2", sheet_register_to_edition2(NULL, 0, NULL, 0, NULL, 0));
    return 0;
}
