/*
 * Empty slices: every call with NULL and 0 in each place where a slice stands, alone and together with
 * others, answers just as with a valid address and 0. Compiled as C and as C++.
 */

#include <stdio.h>
#include <string.h>

#include "usm.h"

enum { UNWRITTEN = 0xA5 };

static int tried, wrong;

/* An address of an empty slice in one round, NULL in the other. */
static int with_null;
static uint8_t a_byte[1];
static uint32_t a_strike[1];
static int64_t a_net[1];

static uint8_t *none(void) { return with_null ? NULL : a_byte; }
static uint32_t *no_strikes(void) { return with_null ? NULL : a_strike; }
static int64_t *no_nets(void) { return with_null ? NULL : a_net; }

/* A vertical of one contract: long the 60 call, short the 50, in group 1. */
static uint8_t placement[2 * USM_RECORD_BYTES], holdings[2 * USM_RECORD_BYTES], claims[USM_RECORD_BYTES];

static void put(uint8_t *record, size_t at, size_t bytes, uint64_t value)
{
    for (size_t i = 0; i < bytes; i++)
        record[at + i] = (uint8_t)(value >> (8 * i));
}

static void leg(uint8_t *record, unsigned group, unsigned side, uint32_t strike)
{
    put(record, USM_LEG_GROUP, 2, group);
    put(record, USM_LEG_SIDE, 1, side);
    put(record, USM_LEG_TYPE, 1, USM_CALL);
    put(record, USM_LEG_STYLE, 1, USM_AMERICAN);
    put(record, USM_LEG_MARKET, 1, USM_LISTED);
    put(record, USM_LEG_UNIT_SIZE, 2, 100);
    put(record, USM_LEG_UNDERLYING, 4, 7);
    put(record, USM_LEG_STRIKE, 4, strike);
    put(record, USM_LEG_EXPIRY, 4, 20110521);
    put(record, USM_LEG_CONTRACTS, 4, 1);
}

/* What the round with an address found, in the order of the calls. */
static struct {
    uint64_t answer[USM_ANSWER_NUMBERS];
} found[256];

static void compare(const char *call, const uint64_t *answer)
{
    int at = tried++;
    if (at >= 256) {
        wrong++;
    } else if (!with_null) {
        memcpy(found[at].answer, answer, sizeof found[at].answer);
    } else if (memcmp(found[at].answer, answer, sizeof found[at].answer) != 0) {
        printf("%s: NULL and 0 is answered otherwise\n", call);
        wrong++;
    }
}

static void try_groups(void)
{
    uint64_t answer[USM_ANSWER_NUMBERS];
    uint32_t strikes[2];
    int64_t nets[2];
    for (uint64_t g = 0; g <= 33; g += 11) {
        usm_margin(none(), 0, g, answer);
        compare("usm_margin", answer);
        usm_cash(none(), 0, g, answer);
        compare("usm_cash", answer);
        usm_margins(none(), 0, g, no_nets(), 0, answer);
        compare("usm_margins", answer);
        usm_worksheet(none(), 0, g, no_strikes(), 0, no_nets(), 0, answer);
        compare("usm_worksheet", answer);
    }
    usm_margins(placement, sizeof placement, 0, no_nets(), 0, answer);
    compare("usm_margins", answer);
    usm_margins(placement, sizeof placement, 1, no_nets(), 0, answer);
    compare("usm_margins", answer);
    usm_worksheet(placement, sizeof placement, 1, no_strikes(), 0, no_nets(), 0, answer);
    compare("usm_worksheet", answer);
    usm_worksheet(placement, sizeof placement, 1, strikes, 2, no_nets(), 0, answer);
    compare("usm_worksheet", answer);
    usm_worksheet(placement, sizeof placement, 1, no_strikes(), 0, nets, 2, answer);
    compare("usm_worksheet", answer);
}

/* Fills over holdings, either of which may be none, and every choice of lists for the one fill. */
static void try_fills(void)
{
    uint64_t answer[USM_ANSWER_NUMBERS];
    uint8_t fill[USM_RECORD_BYTES], result[USM_LEGS_BYTES], numbers[1];
    uint32_t indices[1];
    memcpy(fill, holdings, sizeof fill);
    fill[USM_FILL_ACTION] = USM_CLOSE;
    for (int there = 0; there < 16; there++) {
        int held = there & 1, filled = there & 2, listed = there & 4, numbered = there & 8;
        usm_play_fills(held ? holdings : none(), held ? sizeof holdings : 0,
                       filled ? fill : none(), filled ? sizeof fill : 0, result, sizeof result,
                       listed ? indices : no_strikes(), listed ? 1 : 0,
                       numbered ? numbers : none(), numbered ? 1 : 0, answer);
        compare("usm_play_fills", answer);
    }
    usm_play_fills(none(), 0, none(), 0, none(), 0, no_strikes(), 0, none(), 0, answer);
    compare("usm_play_fills", answer);
}

/* Roots, list and holdings, each there or not, and either way round. */
static void try_lists(void)
{
    static const char line[] = "AAPL  110521C00060000 L 10\n";
    uint64_t answer[USM_ANSWER_NUMBERS];
    uint8_t roots[USM_ROOT_BYTES] = "AAPL  ", table[USM_RECORD_BYTES], list[USM_LIST_BYTES];
    put(roots, USM_ROOT_STYLE, 1, USM_AMERICAN);
    put(roots, USM_ROOT_MARKET, 1, USM_LISTED);
    put(roots, USM_ROOT_UNIT_SIZE, 2, 100);
    put(roots, USM_ROOT_UNDERLYING, 4, 7);
    for (int there = 0; there < 8; there++) {
        int rooted = there & 1, listed = there & 2, lent = there & 4;
        usm_import(rooted ? roots : none(), rooted ? sizeof roots : 0,
                   listed ? (const uint8_t *)line : none(), listed ? sizeof line - 1 : 0,
                   lent ? table : none(), lent ? sizeof table : 0, answer);
        compare("usm_import", answer);
        usm_export(rooted ? roots : none(), rooted ? sizeof roots : 0,
                   listed ? holdings : none(), listed ? sizeof holdings : 0,
                   lent ? list : none(), lent ? sizeof list : 0, answer);
        compare("usm_export", answer);
    }
}

/* The length and the address of a table that is there or is not. */
#define TABLE(there, table) (there) ? (table) : none(), (there) ? sizeof (table) : 0

/* Every choice of empty tables; and of each file that is made so, every choice of tables lent to read it. */
static void try_tables(int there)
{
    uint64_t answer[USM_ANSWER_NUMBERS], origin[USM_ORIGIN_NUMBERS];
    uint8_t file[3 * USM_BLOCK_BYTES], h[sizeof holdings], p[sizeof placement], c[sizeof claims];
    usm_check_sheet(TABLE(there & 1, holdings), TABLE(there & 2, placement), TABLE(there & 4, claims), answer);
    compare("usm_check_sheet", answer);
    usm_write_file(TABLE(there & 1, holdings), TABLE(there & 2, placement), TABLE(there & 4, claims),
                   USM_NEW_FORM, 7, none(), 0, answer);
    compare("usm_write_file", answer);
    usm_write_file(TABLE(there & 1, holdings), TABLE(there & 2, placement), TABLE(there & 4, claims),
                   USM_NEW_FORM, 7, file, sizeof file, answer);
    compare("usm_write_file", answer);
    size_t file_len = answer[0] == 0 ? (size_t)answer[1] : 0;
    for (int lent = 0; lent < 8; lent++) {
        usm_read_file(file_len ? file : none(), file_len, TABLE(lent & 1, h), TABLE(lent & 2, p),
                      TABLE(lent & 4, c), origin, answer);
        compare("usm_read_file", answer);
    }
    uint8_t sound[sizeof file], numbers[1];
    uint32_t indices[1];
    for (int lent = 0; lent < 8; lent++) {
        usm_salvage(file_len ? file : none(), file_len, TABLE(lent & 1, sound),
                    lent & 2 ? indices : no_strikes(), lent & 2 ? 1 : 0,
                    lent & 4 ? numbers : none(), lent & 4 ? 1 : 0, answer);
        compare("usm_salvage", answer);
    }
    usm_move_to_old(file_len ? file : none(), file_len, none(), 0, answer);
    compare("usm_move_to_old", answer);
    usm_move_to_new(file_len ? file : none(), file_len, 7, none(), 0, answer);
    compare("usm_move_to_new", answer);
}

static void try_all(void)
{
    uint64_t answer[USM_ANSWER_NUMBERS];
    tried = 0;
    usm_mark_paid(none(), 0, answer);
    compare("usm_mark_paid", answer);
    for (uint64_t kind = 0; kind <= 4; kind++) {
        usm_check_table(kind, none(), 0, answer);
        compare("usm_check_table", answer);
    }
    try_groups();
    try_fills();
    try_lists();
    for (int there = 0; there < 8; there++)
        try_tables(there);
    usm_check_file(none(), 0, answer);
    compare("usm_check_file", answer);
    uint8_t line[USM_LINE_BYTES];
    memset(line, UNWRITTEN, sizeof line);
    size_t line_len = usm_file_line(none(), 0, line);
    if (line_len != 13 || memcmp(line, "REFUSE 1 0 0\n", 13) != 0 || line[13] != UNWRITTEN)
        wrong++;
    uint8_t text[USM_TABLE_BYTES];
    memset(text, UNWRITTEN, sizeof text);
    size_t text_len = usm_file_table(none(), 0, text);
    if (text_len != 13 || memcmp(text, "REFUSE 1 0 0\n", 13) != 0 || text[13] != UNWRITTEN)
        wrong++;
}

int main(void)
{
    leg(placement, 1, USM_LONG, 60000);
    leg(placement + USM_RECORD_BYTES, 1, USM_SHORT, 50000);
    leg(holdings, 0, USM_LONG, 60000);
    leg(holdings + USM_RECORD_BYTES, 0, USM_SHORT, 50000);
    put(claims, USM_CLAIM_GROUP, 2, 1);
    put(claims, USM_CLAIM_MARGIN, 8, 1000000);
    for (with_null = 0; with_null <= 1; with_null++)
        try_all();
    printf("%d calls with empty slices, %d wrong\n", tried, wrong);
    return wrong != 0;
}
