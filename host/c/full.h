/*
 * A sheet as full as one may be, and every call of usm.h for it: for the programs that look at how the calls treat
 * memory. What the calls write is never written before.
 */

#include <stdlib.h>
#include <string.h>

#include "usm.h"

static size_t file_len, list_len, line_len, text_len;
static uint8_t holdings[USM_LEGS_BYTES], placement[USM_LEGS_BYTES], claims[USM_CLAIMS_BYTES];
static uint8_t cash_group[USM_LEGS_BYTES];
static uint8_t fills[USM_MOST_FILLS * USM_RECORD_BYTES];
static uint8_t roots[USM_MOST_ROOTS * USM_ROOT_BYTES];

/* What the calls write. */
static uint8_t *file, *moved, *result, *numbers, *list, *line, *text;
static uint8_t *read_holdings, *read_placement, *read_claims;
static uint32_t *strikes, *indices;
static int64_t *nets;
static uint64_t *answer, *origin;

/* Nothing has been written there. */
static void *fresh(size_t bytes)
{
    void *memory = malloc(bytes);
    if (memory == NULL)
        exit(2);
    return memory;
}

static void make_outputs(void)
{
    file = fresh(USM_LONGEST_FILE);
    moved = fresh(USM_LONGEST_FILE);
    result = fresh(USM_LEGS_BYTES);
    numbers = fresh(USM_MOST_FILLS);
    list = fresh(USM_LIST_BYTES);
    line = fresh(USM_LINE_BYTES);
    text = fresh(USM_TABLE_BYTES);
    read_holdings = fresh(USM_LEGS_BYTES);
    read_placement = fresh(USM_LEGS_BYTES);
    read_claims = fresh(USM_CLAIMS_BYTES);
    strikes = fresh(USM_MOST_LEGS * sizeof *strikes);
    indices = fresh(USM_MOST_FILLS * sizeof *indices);
    nets = fresh(USM_MOST_LEGS * sizeof *nets);
    answer = fresh(USM_ANSWER_NUMBERS * sizeof *answer);
    origin = fresh(USM_ORIGIN_NUMBERS * sizeof *origin);
}

static void put(uint8_t *record, size_t at, size_t bytes, uint64_t value)
{
    for (size_t i = 0; i < bytes; i++)
        record[at + i] = (uint8_t)(value >> (8 * i));
}

/* 32 groups of 8 legs, each short one mill below its long: at the top four pairs lose a mill a unit. */
static void make_tables(void)
{
    for (unsigned i = 0; i < USM_MOST_LEGS; i++) {
        uint8_t *record = placement + i * USM_RECORD_BYTES;
        put(record, USM_LEG_SIDE, 1, i % 2 == 0 ? USM_SHORT : USM_LONG);
        put(record, USM_LEG_TYPE, 1, USM_CALL);
        put(record, USM_LEG_STYLE, 1, USM_AMERICAN);
        put(record, USM_LEG_MARKET, 1, USM_LISTED);
        put(record, USM_LEG_UNIT_SIZE, 2, 100);
        put(record, USM_LEG_UNDERLYING, 4, 7);
        put(record, USM_LEG_STRIKE, 4, i % 8 + 1);
        put(record, USM_LEG_EXPIRY, 4, 20110521);
        put(record, USM_LEG_CONTRACTS, 4, 1);
        memcpy(holdings + i * USM_RECORD_BYTES, record, USM_RECORD_BYTES);
        put(record, USM_LEG_GROUP, 2, i / 8 + 1);
    }
    memcpy(cash_group, placement, sizeof placement);
    for (unsigned i = 0; i < USM_MOST_LEGS; i++) {
        uint8_t *record = cash_group + i * USM_RECORD_BYTES;
        put(record, USM_LEG_GROUP, 2, 1);
        put(record, USM_LEG_STYLE, 1, USM_EUROPEAN);
        put(record, USM_LEG_STRIKE, 4, i + 1);
        put(record, USM_LEG_SETTLEMENT, 1, USM_CASH);
    }
    for (unsigned i = 0; i < USM_MOST_FILLS; i++) {
        uint8_t *record = fills + i * USM_RECORD_BYTES;
        memcpy(record, holdings + i % USM_MOST_LEGS * USM_RECORD_BYTES, USM_RECORD_BYTES);
        put(record, USM_LEG_STRIKE, 4, i % 509 + 1);
        put(record, USM_FILL_ACTION, 1, i % 3 == 0 ? USM_CLOSE : USM_OPEN);
    }
    for (unsigned g = 1; g <= USM_MOST_CLAIMS; g++) {
        put(claims + (g - 1) * USM_RECORD_BYTES, USM_CLAIM_GROUP, 2, g);
        put(claims + (g - 1) * USM_RECORD_BYTES, USM_CLAIM_MARGIN, 8, 400);
    }
}

/* As many roots as there may be, of underlyings 1 to 256: the holdings are of one of them. */
static void make_roots(void)
{
    for (unsigned i = 0; i < USM_MOST_ROOTS; i++) {
        uint8_t *root = roots + i * USM_ROOT_BYTES;
        memcpy(root + USM_ROOT_NAME, "R     ", 6);
        put(root, USM_ROOT_NAME + 1, 1, 'A' + i / 16);
        put(root, USM_ROOT_NAME + 2, 1, 'A' + i % 16);
        put(root, USM_ROOT_STYLE, 1, USM_AMERICAN);
        put(root, USM_ROOT_MARKET, 1, USM_LISTED);
        put(root, USM_ROOT_UNIT_SIZE, 2, 100);
        put(root, USM_ROOT_UNDERLYING, 4, i + 1);
    }
}

static void check_table(void) { usm_check_table(USM_PLACEMENT, placement, sizeof placement, answer); }
static void margin(void) { usm_margin(placement, sizeof placement, 32, answer); }
static void cash(void) { usm_cash(cash_group, sizeof cash_group, 1, answer); }
static void margins(void) { usm_margins(placement, sizeof placement, 32, nets, 32, answer); }
static void worksheet(void)
{
    usm_worksheet(placement, sizeof placement, 1, strikes, USM_MOST_LEGS, nets, USM_MOST_LEGS, answer);
}
static void mark_paid(void) { usm_mark_paid(placement, sizeof placement, answer); }
static void check_sheet(void)
{
    usm_check_sheet(holdings, sizeof holdings, placement, sizeof placement, claims, sizeof claims, answer);
}
static void check_file(void) { usm_check_file(file, file_len, answer); }
static void read_file(void)
{
    usm_read_file(file, file_len, read_holdings, USM_LEGS_BYTES, read_placement, USM_LEGS_BYTES,
                  read_claims, USM_CLAIMS_BYTES, origin, answer);
}
static void write_file(void)
{
    usm_write_file(holdings, sizeof holdings, placement, sizeof placement, claims, sizeof claims,
                   USM_OLD_FORM, 0, file, USM_LONGEST_FILE, answer);
    file_len = (size_t)answer[1];
}
static void move_to_new(void) { usm_move_to_new(file, file_len, 7, moved, USM_LONGEST_FILE, answer); }
static void move_to_old(void) { usm_move_to_old(moved, file_len, file, USM_LONGEST_FILE, answer); }
static void play_fills(void)
{
    usm_play_fills(holdings, sizeof holdings, fills, sizeof fills, result, USM_LEGS_BYTES,
                   indices, USM_MOST_FILLS, numbers, USM_MOST_FILLS, answer);
}
static void salvage(void)
{
    usm_salvage(file, file_len, moved, USM_LONGEST_FILE, indices, USM_MOST_BLOCKS, numbers, USM_MOST_BLOCKS, answer);
}
static void export_list(void)
{
    usm_export(roots, sizeof roots, holdings, sizeof holdings, list, USM_LIST_BYTES, answer);
    list_len = (size_t)answer[1];
}
static void import_list(void)
{
    usm_import(roots, sizeof roots, list, list_len, result, USM_LEGS_BYTES, answer);
}
static void binary_margin(void) { usm_binary_margin(USM_SHORT, 250, 20110315, 20160620, 10, answer); }
static void binary_pair(void)
{
    usm_binary_pair(20110315, 7, 250, 20160620, 8, 1, 7, 250, 20160620, 10, answer);
}
static void file_line(void) { line_len = usm_file_line(file, file_len, line); }
static void file_table(void) { text_len = usm_file_table(file, file_len, text); }
