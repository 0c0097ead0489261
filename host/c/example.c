/*
 * A member house's first sheet, from C: the iron condor of document 01's bench (P4) placed
 * as two groups, checked, written as a file, read back, played on by a day's fills, and
 * refused when a claim is a mill short. Each call of usm.h is made at least once.
 *
 *   cc -I ../include example.c ../../crates/usm_c/out/libusm_c.a -o example
 */

#include <inttypes.h>
#include <stdio.h>
#include <string.h>

#include "usm.h"

static void put(uint8_t *record, size_t at, size_t bytes, uint64_t value)
{
    for (size_t i = 0; i < bytes; i++)
        record[at + i] = (uint8_t)(value >> (8 * i));
}

/* One contract of unit 100 on underlying 7, expiring 2011-05-21. */
static void leg(uint8_t *record, unsigned group, unsigned side, unsigned type, uint32_t strike)
{
    memset(record, 0, USM_RECORD_BYTES);
    put(record, USM_LEG_GROUP, 2, group);
    put(record, USM_LEG_SIDE, 1, side);
    put(record, USM_LEG_TYPE, 1, type);
    put(record, USM_LEG_STYLE, 1, USM_AMERICAN);
    put(record, USM_LEG_MARKET, 1, USM_LISTED);
    put(record, USM_LEG_UNIT_SIZE, 2, 100);
    put(record, USM_LEG_UNDERLYING, 4, 7);
    put(record, USM_LEG_STRIKE, 4, strike);
    put(record, USM_LEG_EXPIRY, 4, 20110521);
    put(record, USM_LEG_CONTRACTS, 4, 1);
}

static void claim(uint8_t *record, unsigned group, uint64_t margin)
{
    memset(record, 0, USM_RECORD_BYTES);
    put(record, USM_CLAIM_GROUP, 2, group);
    put(record, USM_CLAIM_MARGIN, 8, margin);
}

/* Tells of a refusal, and is 0: what a step answers that it ends. */
static int refused(const char *call, const uint64_t *answer)
{
    printf("%s: refusal %" PRIu64 ", table %" PRIu64 ", place %" PRIu64 "\n",
           call, answer[0], answer[1], answer[2]);
    return 0;
}

static int accepted(const char *call, const uint64_t *answer)
{
    printf("%s: accepted, groups %" PRIu64 ", total %" PRIu64 " mills, work %" PRIu64 "\n", call, answer[1], answer[2],
           answer[3]);
    return 1;
}

/* A sheet of four legs in two groups. */
struct sheet {
    uint8_t holdings[4 * USM_RECORD_BYTES], placement[4 * USM_RECORD_BYTES];
    uint8_t claims[2 * USM_RECORD_BYTES];
};

static void place_iron_condor(struct sheet *sheet)
{
    static const struct { unsigned group, side, type; uint32_t strike; } legs[4] = {
        { 1, USM_LONG, USM_PUT, 50000 }, { 1, USM_SHORT, USM_PUT, 60000 },
        { 2, USM_SHORT, USM_CALL, 65000 }, { 2, USM_LONG, USM_CALL, 70000 },
    };
    for (size_t i = 0; i < 4; i++) {
        size_t at = i * USM_RECORD_BYTES;
        leg(sheet->holdings + at, 0, legs[i].side, legs[i].type, legs[i].strike);
        leg(sheet->placement + at, legs[i].group, legs[i].side, legs[i].type, legs[i].strike);
    }
}

/* A table by itself. */
static int print_records(uint64_t kind, const uint8_t *table, size_t table_len)
{
    uint64_t answer[USM_ANSWER_NUMBERS];
    if (usm_check_table(kind, table, table_len, answer))
        return refused("usm_check_table", answer);
    printf("table %" PRIu64 ": %" PRIu64 " records in range\n", kind, answer[1]);
    return 1;
}

/* The margin of one group. */
static int print_margin(const struct sheet *sheet, uint64_t g)
{
    uint64_t answer[USM_ANSWER_NUMBERS];
    if (usm_margin(sheet->placement, sizeof sheet->placement, g, answer))
        return refused("usm_margin", answer);
    printf("group %" PRIu64 " by itself: margin %" PRId64 "\n", g, (int64_t)answer[1]);
    return 1;
}

/* What a group of these legs requires in a cash account, once it is stated as cash. */
static int print_cash(void)
{
    uint8_t legs[2 * USM_RECORD_BYTES];
    uint64_t answer[USM_ANSWER_NUMBERS];
    leg(legs, 1, USM_LONG, USM_PUT, 50000);
    leg(legs + USM_RECORD_BYTES, 1, USM_SHORT, USM_PUT, 60000);
    if (!usm_cash(legs, sizeof legs, 1, answer))
        return 0;
    refused("usm_cash", answer);
    for (size_t i = 0; i < 2; i++) {
        legs[i * USM_RECORD_BYTES + USM_LEG_STYLE] = USM_EUROPEAN;
        legs[i * USM_RECORD_BYTES + USM_LEG_SETTLEMENT] = USM_CASH;
    }
    if (usm_cash(legs, sizeof legs, 1, answer))
        return refused("usm_cash", answer);
    printf("cash required %" PRId64 "\n", (int64_t)answer[1]);
    return 1;
}

/* The margins of both groups, and the claims made from them. */
static int claim_margins(struct sheet *sheet)
{
    int64_t margins[2];
    uint64_t answer[USM_ANSWER_NUMBERS];
    if (usm_margins(sheet->placement, sizeof sheet->placement, 2, margins, 2, answer))
        return refused("usm_margins", answer);
    for (unsigned g = 1; g <= 2; g++) {
        printf("group %u margin %" PRId64 "\n", g, margins[g - 1]);
        claim(sheet->claims + (g - 1) * USM_RECORD_BYTES, g, (uint64_t)margins[g - 1]);
    }
    return 1;
}

static int print_worksheet(const struct sheet *sheet, uint64_t g)
{
    uint32_t strikes[USM_MOST_LEGS];
    int64_t nets[USM_MOST_LEGS];
    uint64_t answer[USM_ANSWER_NUMBERS];
    if (usm_worksheet(sheet->placement, sizeof sheet->placement, g,
                      strikes, USM_MOST_LEGS, nets, USM_MOST_LEGS, answer))
        return refused("usm_worksheet", answer);
    for (uint64_t i = 0; i < answer[1]; i++)
        printf("strike %" PRIu32 " net %" PRId64 "\n", strikes[i], nets[i]);
    return 1;
}

/* The verdict on the three tables. */
static int check(const struct sheet *sheet)
{
    uint64_t answer[USM_ANSWER_NUMBERS];
    if (usm_check_sheet(sheet->holdings, sizeof sheet->holdings, sheet->placement, sizeof sheet->placement,
                        sheet->claims, sizeof sheet->claims, answer))
        return refused("usm_check_sheet", answer);
    return accepted("usm_check_sheet", answer);
}

/* The verdict on a file, as numbers, as the line the checker prints, and the table shown to a customer. */
static int check_file(const uint8_t *file, size_t file_len)
{
    uint64_t answer[USM_ANSWER_NUMBERS];
    if (usm_check_file(file, file_len, answer))
        return refused("usm_check_file", answer);
    accepted("usm_check_file", answer);
    uint8_t line[USM_LINE_BYTES];
    size_t line_len = usm_file_line(file, file_len, line);
    printf("file of %zu bytes: %.*s", file_len, (int)line_len, (const char *)line);
    uint8_t text[USM_TABLE_BYTES];
    size_t text_len = usm_file_table(file, file_len, text);
    printf("%.*s", (int)text_len, (const char *)text);
    return 1;
}

/* The file with the account's number in each block, and without it again. */
static int move_and_move_back(const uint8_t *file, size_t file_len)
{
    uint8_t moved[USM_LONGEST_FILE], back[USM_LONGEST_FILE];
    uint64_t answer[USM_ANSWER_NUMBERS];
    if (usm_move_to_new(file, file_len, 4711, moved, sizeof moved, answer))
        return refused("usm_move_to_new", answer);
    if (usm_move_to_old(moved, (size_t)answer[1], back, sizeof back, answer))
        return refused("usm_move_to_old", answer);
    int same = answer[1] == file_len && memcmp(file, back, file_len) == 0;
    printf("moved to the mark %.4s with account %u, and back: %s\n", (const char *)moved,
           (unsigned)(moved[USM_BLOCK_ACCOUNT] + 256 * moved[USM_BLOCK_ACCOUNT + 1]),
           same ? "the same" : "NOT the same");
    return same;
}

static int read_back(const struct sheet *sheet, const uint8_t *file, size_t file_len)
{
    struct sheet back;
    uint64_t answer[USM_ANSWER_NUMBERS], origin[USM_ORIGIN_NUMBERS];
    if (usm_read_file(file, file_len, back.holdings, sizeof back.holdings, back.placement, sizeof back.placement,
                      back.claims, sizeof back.claims, origin, answer))
        return refused("usm_read_file", answer);
    int same = memcmp(sheet, &back, sizeof back) == 0;
    printf("read back %" PRIu64 " + %" PRIu64 " + %" PRIu64 " records, %s; form %" PRIu64 ", account %" PRIu64 "\n",
           answer[1], answer[2], answer[3], same ? "the same" : "NOT the same",
           origin[USM_ORIGIN_FORM], origin[USM_ORIGIN_ACCOUNT]);
    return same;
}

/* The file of a sheet, and the way back. */
static int write_and_read_back(const struct sheet *sheet)
{
    uint8_t file[USM_LONGEST_FILE];
    uint64_t answer[USM_ANSWER_NUMBERS];
    if (usm_write_file(sheet->holdings, sizeof sheet->holdings, sheet->placement, sizeof sheet->placement,
                       sheet->claims, sizeof sheet->claims, USM_OLD_FORM, 0, file, sizeof file, answer))
        return refused("usm_write_file", answer);
    size_t file_len = (size_t)answer[1];
    return check_file(file, file_len) && move_and_move_back(file, file_len) && read_back(sheet, file, file_len);
}

/* A day's fills over the holdings: the short put is closed, a long call opened, and one fill refused. */
static int play_a_day(const struct sheet *sheet)
{
    uint8_t fills[3 * USM_RECORD_BYTES], result[USM_LEGS_BYTES], numbers[3];
    uint32_t indices[3];
    uint64_t answer[USM_ANSWER_NUMBERS];
    leg(fills, 0, USM_SHORT, USM_PUT, 60000);
    fills[USM_FILL_ACTION] = USM_CLOSE;
    leg(fills + USM_RECORD_BYTES, 0, USM_LONG, USM_PUT, 60000);
    fills[USM_RECORD_BYTES + USM_FILL_ACTION] = USM_CLOSE;
    leg(fills + 2 * USM_RECORD_BYTES, 0, USM_LONG, USM_CALL, 80000);
    fills[2 * USM_RECORD_BYTES + USM_FILL_ACTION] = USM_OPEN;
    if (usm_play_fills(sheet->holdings, sizeof sheet->holdings, fills, sizeof fills, result, sizeof result,
                       indices, 3, numbers, 3, answer))
        return refused("usm_play_fills", answer);
    printf("after the day %" PRIu64 " records, %" PRIu64 " fills refused\n", answer[1], answer[2]);
    for (uint64_t i = 0; i < answer[2]; i++)
        printf("fill %" PRIu32 ": refusal %u\n", indices[i], (unsigned)numbers[i]);
    return 1;
}

/* A long that no group takes needs the paid mark; a sheet from before the mark goes through the pass. */
static int mark_a_long(void)
{
    uint8_t held[USM_RECORD_BYTES], placed[USM_RECORD_BYTES];
    uint64_t answer[USM_ANSWER_NUMBERS];
    leg(held, 0, USM_LONG, USM_CALL, 80000);
    leg(placed, 0, USM_LONG, USM_CALL, 80000);
    if (!usm_check_sheet(held, sizeof held, placed, sizeof placed, NULL, 0, answer))
        return 0;
    refused("usm_check_sheet", answer);
    if (usm_mark_paid(placed, sizeof placed, answer))
        return refused("usm_mark_paid", answer);
    printf("%" PRIu64 " long marked as paid, byte %d is %u\n", answer[1], (int)USM_LEG_PAID, placed[USM_LEG_PAID]);
    if (usm_check_sheet(held, sizeof held, placed, sizeof placed, NULL, 0, answer))
        return refused("usm_check_sheet", answer);
    return accepted("usm_check_sheet", answer);
}

/* A member's list of symbols becomes holdings, and the same list again; a root that is not told is 24. */
static int import_a_list(void)
{
    static const char list[] = "AAPL  110521C00060000 L 10\nAAPL  110521C00050000 S 10\n";
    const size_t list_len = sizeof list - 1;
    uint8_t roots[USM_ROOT_BYTES] = "AAPL  ", holdings[2 * USM_RECORD_BYTES], back[USM_LIST_BYTES];
    uint64_t answer[USM_ANSWER_NUMBERS];
    put(roots, USM_ROOT_STYLE, 1, USM_AMERICAN);
    put(roots, USM_ROOT_MARKET, 1, USM_LISTED);
    put(roots, USM_ROOT_UNIT_SIZE, 2, 100);
    put(roots, USM_ROOT_SETTLEMENT, 1, USM_PHYSICAL);
    put(roots, USM_ROOT_UNDERLYING, 4, 7);
    if (usm_import(roots, sizeof roots, (const uint8_t *)list, list_len, holdings, sizeof holdings, answer))
        return refused("usm_import", answer);
    printf("a list of %" PRIu64 " holdings", answer[1]);
    if (usm_export(roots, sizeof roots, holdings, sizeof holdings, back, sizeof back, answer))
        return refused("usm_export", answer);
    if (answer[1] != list_len || memcmp(back, list, list_len) != 0)
        return 0;
    printf(", and the same list again\n");
    roots[0] = 'B';
    if (!usm_import(roots, sizeof roots, (const uint8_t *)list, list_len, holdings, sizeof holdings, answer))
        return 0;
    refused("usm_import", answer);
    return 1;
}

/* One byte of the second of three blocks is changed on its way: the other two are saved, and it is listed. */
static int salvage_a_file(const struct sheet *sheet)
{
    uint8_t file[3 * USM_BLOCK_BYTES], sound[3 * USM_BLOCK_BYTES], numbers[3];
    uint32_t indices[3];
    uint64_t answer[USM_ANSWER_NUMBERS];
    if (usm_write_file(sheet->holdings, sizeof sheet->holdings, sheet->placement, sizeof sheet->placement,
                       sheet->claims, sizeof sheet->claims, USM_OLD_FORM, 0, file, sizeof file, answer))
        return refused("usm_write_file", answer);
    file[USM_BLOCK_BYTES + USM_BLOCK_RECORDS]++;
    if (usm_salvage(file, sizeof file, sound, sizeof sound, indices, 3, numbers, 3, answer))
        return refused("usm_salvage", answer);
    printf("salvaged a file of %" PRIu64 " bytes\n", answer[1]);
    for (uint64_t i = 0; i < answer[2]; i++)
        printf("block %" PRIu32 " dropped: %u\n", indices[i], (unsigned)numbers[i]);
    if (!usm_salvage(file + USM_BLOCK_BYTES, USM_BLOCK_BYTES, sound, sizeof sound, indices, 3, numbers, 3, answer))
        return 0;
    refused("usm_salvage", answer);
    return 1;
}

/* Credit event binaries: ten written, eight bought and paid for in full beside them, and some that expired. */
static int print_binaries(void)
{
    const uint64_t valuation = 20110315, reference = 7, spread = 250, expiry = 20160620;
    uint64_t answer[USM_ANSWER_NUMBERS];
    if (usm_binary_margin(USM_SHORT, spread, valuation, expiry, 10, answer))
        return refused("usm_binary_margin", answer);
    printf("ten binaries short: margin %" PRId64 "\n", (int64_t)answer[1]);
    if (usm_binary_pair(valuation, reference, spread, expiry, 8, 1, reference, spread, expiry, 10, answer))
        return refused("usm_binary_pair", answer);
    printf("with eight long beside them: margin %" PRId64 "\n", (int64_t)answer[1]);
    if (!usm_binary_margin(USM_LONG, spread, valuation, valuation - 1, 10, answer))
        return 0;
    refused("usm_binary_margin", answer);
    return 1;
}

/* An empty table is NULL and 0. */
static int write_nothing(void)
{
    uint8_t file[USM_BLOCK_BYTES];
    uint64_t answer[USM_ANSWER_NUMBERS];
    if (usm_write_file(NULL, 0, NULL, 0, NULL, 0, USM_OLD_FORM, 0, file, sizeof file, answer))
        return refused("usm_write_file", answer);
    return 1;
}

int main(void)
{
    struct sheet sheet;
    place_iron_condor(&sheet);
    if (!print_records(USM_HOLDINGS, sheet.holdings, sizeof sheet.holdings) ||
        !print_records(USM_PLACEMENT, sheet.placement, sizeof sheet.placement) ||
        !claim_margins(&sheet) || !print_margin(&sheet, 2) || !print_cash() || !print_worksheet(&sheet, 1) ||
        !check(&sheet) || !write_and_read_back(&sheet) || !play_a_day(&sheet) || !mark_a_long() ||
        !import_a_list() || !salvage_a_file(&sheet) || !print_binaries())
        return 1;

    /* There is no group 3 (6), a claim one mill short is 16, and three empty tables make no file. */
    claim(sheet.claims + USM_RECORD_BYTES, 2, 499999);
    return print_margin(&sheet, 3) || check(&sheet) || write_nothing();
}
