/* How deep the stack goes in one call: a thread on a painted stack, and the lowest byte that the
   call changed.  stack SHEET PLACES OF-REGISTER ROWS  prints a line 'operation bytes' for each. The first claims
   of SHEET are of kinds 4, 5 and 6 and denied; the first claim of PLACES is of kind 7 and a yes; the register ROWS is
   full and fits the sheet OF-REGISTER, and both go to edition 2. With - for SHEET these two alone are measured. */
#define _GNU_SOURCE
#include <pthread.h>
#include <stdio.h>
#include <stdlib.h>
#include <string.h>
#include <sys/mman.h>

#include "group_sheet.h"

/* A stack of 32 times the limit, 256 KiB; buffers for the edition with the longer sheets, rows and replies. */
enum { STACK = 8 << 20, PAINT = 0xa7, MOST_SHEET = 16384, ROWS = 2048, MOST_ROW = 42 };

static uint8_t sheet[MOST_SHEET], places[MOST_SHEET], of_register[MOST_SHEET], rows[MOST_ROW * ROWS];
static uint8_t reply[SHEET_MAX_REPLY], *stack;
static size_t len, places_len, of_register_len, rows_len;
static int what;
static size_t used;

/* Paints all below this frame, makes the call, and looks how far down the paint is gone. */
static void *run(void *unused)
{
    uint8_t *here = (uint8_t *)__builtin_frame_address(0) - 512;
    (void)unused;
    for (uint8_t *p = stack; p < here; p++)
        *(volatile uint8_t *)p = PAINT;
    uint64_t got = 0;
    switch (what) {
    case 1: got = sheet_ranges(sheet, len, reply, sizeof reply); break;
    case 2: got = sheet_claim(sheet, len, 1, reply, sizeof reply); break;
    case 3: got = sheet_claim(sheet, len, 2, reply, sizeof reply); break;
    case 4: got = sheet_claim(sheet, len, 3, reply, sizeof reply); break;
    case 5: got = sheet_claim(places, places_len, 1, reply, sizeof reply); break;
    case 6: got = sheet_register(of_register, of_register_len, rows, rows_len, reply, sizeof reply); break;
    case 7: got = sheet_to_edition2(of_register, of_register_len, reply, sizeof reply); break;
    case 8: got = sheet_register_to_edition2(of_register, of_register_len, rows, rows_len, reply, sizeof reply); break;
    }
    int of_claim = what >= 2 && what <= 5;
    if (sheet_refusal_of(got) != 0 || (of_claim && sheet_second_of(got) == SHEET_VERDICT_REPLY) ||
        (what == 6 && sheet_get16(reply + 4) != 0)) {
        fprintf(stderr, "operation %d: refused %u, no sets, or a broken rule\n", what, (unsigned)sheet_refusal_of(got));
        exit(1);
    }
    uint8_t *p = stack;
    while (p < here && *p == PAINT)
        p++;
    used = (size_t)((uint8_t *)__builtin_frame_address(0) - p);
    return NULL;
}

static size_t load(const char *path, uint8_t *to, size_t most)
{
    FILE *f = fopen(path, "rb");
    if (!f)
        exit(2);
    size_t n = fread(to, 1, most, f);
    fclose(f);
    return n;
}

int main(int argc, char **argv)
{
    static const char *names[] = {"", "ranges", "claim (count)", "claim (inside)", "claim (apart)", "claim (place)", "register",
                                  "sheet to edition 2", "register to edition 2"};
    if (argc != 5)
        return 2;
    int all = strcmp(argv[1], "-") != 0;
    if (all) {
        len = load(argv[1], sheet, sizeof sheet);
        places_len = load(argv[2], places, sizeof places);
    }
    of_register_len = load(argv[3], of_register, sizeof of_register);
    rows_len = load(argv[4], rows, sizeof rows);
    if (rows_len != ROWS * (sheet_get16(rows) + 2))
        return 2;
    stack = mmap(NULL, STACK, PROT_READ | PROT_WRITE, MAP_PRIVATE | MAP_ANONYMOUS, -1, 0);
    if (stack == MAP_FAILED)
        return 2;
    for (what = all ? 1 : 6; what <= 8; what++) {
        pthread_attr_t attr;
        pthread_t thread;
        pthread_attr_init(&attr);
        if (pthread_attr_setstack(&attr, stack, STACK) || pthread_create(&thread, &attr, run, NULL))
            return 2;
        pthread_join(thread, NULL);
        printf("%s\t%zu\n", names[what], used);
    }
    return 0;
}
