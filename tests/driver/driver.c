/* Ranges, claims and registers over lines of text, for tests that are not in C or Rust.
   In:  r LEN SHEET | c LEN CLAIM SHEET | g LEN SHEET REGISTER   (LEN: of the reply buffer; bytes
        in hex, - for none)
   Out: REFUSAL SECOND REPLY   (the bytes that were written, - for none) */
#include <stdio.h>
#include <stdlib.h>
#include <string.h>

#include "group_sheet.h"

#define MOST 131072

static uint8_t *unhex(const char *text, size_t *len)
{
    size_t n = strcmp(text, "-") == 0 ? 0 : strlen(text) / 2;
    uint8_t *b = malloc(n + 1);
    unsigned x;
    for (size_t i = 0; i < n; i++) {
        if (sscanf(text + 2 * i, "%2x", &x) != 1)
            exit(2);
        b[i] = (uint8_t)x;
    }
    *len = n;
    return b;
}

int main(void)
{
    static char op[4], one[2 * MOST + 8], two[2 * MOST + 8];
    unsigned long len;
    while (scanf("%3s %lu", op, &len) == 2) {
        uint8_t *reply = malloc(len + 1), *a = NULL, *b = NULL;
        size_t al = 0, bl = 0;
        unsigned claim = 0;
        uint64_t got = 0;
        memset(reply, 0xa5, len + 1);
        if (*op == 'c' && scanf("%u", &claim) != 1)
            return 2;
        if (scanf("%262151s", one) != 1)
            return 2;
        a = unhex(one, &al);
        if (*op == 'g') {
            if (scanf("%262151s", two) != 1)
                return 2;
            b = unhex(two, &bl);
        }
        switch (*op) {
        case 'r': got = sheet_ranges(a, al, reply, len); break;
        case 'c': got = sheet_claim(a, al, claim, reply, len); break;
        case 'g': got = sheet_register(a, al, b, bl, reply, len); break;
        default: return 2;
        }
        size_t written = sheet_refusal_of(got) ? 0 : sheet_second_of(got);
        if (written > len || reply[len] != 0xa5)
            return 3;
        printf("%u %u ", (unsigned)sheet_refusal_of(got), (unsigned)sheet_second_of(got));
        for (size_t i = 0; i < written; i++)
            printf("%02x", reply[i]);
        printf(written ? "\n" : "-\n");
        fflush(stdout);
        free(reply);
        free(a);
        free(b);
    }
    return 0;
}
