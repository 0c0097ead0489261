/*
 * Universal spread margin and the placement sheet: the C interface of libusm_c.a, for x86-64 and the
 * System V calling convention.
 *
 * The layouts of records, blocks and files, and the rules of a spread and of a sheet, stand in
 * ../../docs/RULES.md (docs/RULES.md of the repository). In short:
 *
 *   holdings   0 to 256 leg records of 32 bytes, group 0
 *   placement  0 to 256 leg records of 32 bytes, group 0 (not placed) or 1 to 32
 *   claims     0 to 32 claim records of 32 bytes
 *   fills      0 to 1,024 leg records of 32 bytes, group 0, with an action
 *   roots      1 to 256 roots of 16 bytes: what the roots of option symbols stand for
 *   list       0 to 256 lines of 26 to 31 bytes: option symbols with side and contracts
 *   file       1 to 39 blocks of 512 bytes, of the old form or of the new one, which has the
 *              number of the account in each block
 *
 * All numbers in records and blocks are little-endian. Amounts are mills (1/1000 dollar).
 *
 * RULES FOR EVERY CALL
 *
 *   Pointers    Slices pass as a pointer and a length. With length 0 the pointer is not looked
 *               at, and may be NULL: an empty table, or no room, is NULL and 0, or what an empty
 *               std::vector hands out. With any other length it points to so many entries,
 *               aligned as the type asks. `answer`, `origin`, `line` and `text` are never NULL.
 *               Buffers lent for writing may overlap neither each other nor an input nor `answer`.
 *   Inputs      There is no other condition. Any bytes, any lengths, any numbers are
 *               answered.
 *   answer      Exactly four numbers, always written in full:
 *                 success  { 0, ... }  the results, as told at each call
 *                 refusal  { number, table, place, 0 }, number 1 to 25 but 18, which
 *                          is only listed
 *               The first of them is returned, too, 0 or the refusal's number, so that
 *               `if (usm_check_file(..))` is taken on a refusal. The two calls that print return
 *               a length.
 *               table: 0 none, 1 holdings, 2 placement, 3 claims, 4 fills, 5 roots, 6 list.
 *   Buffers     On a refusal nothing lent is written but `answer`, and the `line` and `text` of
 *               the two calls that print. On success what lies past the output stays as it was.
 *   Threads     No call keeps any state: the library has no variables, takes no memory and
 *               sets no errno. Calls may be made from any number of threads at once, with
 *               shared inputs, as long as each has an `answer` and buffers of its own.
 *   Stack       A call needs less than USM_STACK_BYTES of stack, whatever it is given; the only
 *               recursion is a call for each digit of a printed number. (usm_file_table takes under two
 *               thirds of it, usm_check_file, usm_file_line and usm_salvage some six tenths,
 *               usm_check_sheet and the two moves three tenths, usm_play_fills and the others less than a
 *               seventh.)
 *
 * What each call answers and leaves in what it is lent is proved; how pointers, threads and the
 * stack behave is tested, in C and in C++, on each build of the library.
 *
 * REFUSALS by number, with table and place (blocks, records, roots and lines count from 0, groups from
 * 1). 1 to 16 are looked for in this order, but by usm_import and usm_export, 20 after 3 in each block, 21
 * after 13; 17, 19 and 22 to 24 as told at each call.
 *
 *    1  a table not whole records or over its limit; a file empty, not whole
 *       blocks or over 39; nothing to write; a list of more
 *       than 256 lines                                            0, 0
 *    2  a block's check A or B differs; or nothing is kept        0, block;
 *       by usm_salvage                                            or 0, 0
 *    3  any other fault of a block's form; or kept records        0, block;
 *       over a table's limit, or a move from the wrong form       or 0, 0
 *    4  a field out of range                                      table, record;
 *                                                                 or 6, line; of a binary
 *                                                                 option 0, 0 or 0, 1
 *    5  a claim not for group (record + 1); or a placed record
 *       with a group above the number of claims                   3 or 2, record
 *    6  the group has no leg, or is not 1 to 32                   2, group
 *    7  underlyings differ                                        2, record
 *    8  styles differ                                             2, record
 *    9  markets differ                                            2, record
 *   10  a series (type, strike, expiry and unit size) is both
 *       long and short                                            2, record
 *   11  long and short call units are unequal                     2, group
 *   12  long and short put units are unequal                      2, group
 *   13  a short outlives a long                                   2, record
 *   14  contracts of a line and side differ between holdings
 *       and placement                                             1 or 2, record
 *   15  a short, or a long without the paid mark, is not placed   2, record
 *   16  a claim is not its group's margin                         3, group
 *   17  no room in a lent buffer                                  see each call
 *   18  a fill closes more contracts than are held                listed only
 *   19  more than 100,000 contracts of a line and side, or a      1, record;
 *       fill of a 257th line and side                             or listed
 *   20  a block's account is zero or not the first block's;       0, block;
 *       after 3 in each block; or a zero account supplied         or 0, 0
 *   21  the group is not fit for a cash account, after 13; of
 *       usm_cash only                                             2, group
 *   22  a line of a list is malformed or has no newline           6, line
 *   23  the table of roots has a wrong size; or a root is ill     5, 0;
 *       formed, out of range or repeats an earlier one            or 5, root
 *   24  a line's root, or a record's terms, are not in the        6, line;
 *       table of roots                                            or 1, record
 *   25  an expiry before the valuation date, after 4; of          0, 0; or 0, 1
 *       usm_binary_margin and usm_binary_pair only                for the short
 */

#ifndef USM_H
#define USM_H

#include <stddef.h>
#include <stdint.h>

#ifdef __cplusplus
extern "C" {
#endif

/* The version of the whole: the library, `sheet --version`, the pkg-config file and the package. */
#define USM_VERSION "0.16.0"

/* Sizes and limits. */
enum {
    USM_ANSWER_NUMBERS = 4,
    USM_RECORD_BYTES = 32,
    USM_BLOCK_BYTES = 512,
    USM_RECORDS_IN_BLOCK = 15,
    USM_MOST_BLOCKS = 39,
    USM_MOST_LEGS = 256,
    USM_MOST_CLAIMS = 32,
    USM_MOST_FILLS = 1024,
    USM_ROOT_BYTES = 16,
    USM_MOST_ROOTS = 256,
    USM_LEGS_BYTES = 8192,     /* the longest holdings or placement table */
    USM_CLAIMS_BYTES = 1024,   /* the longest claims table */
    USM_LONGEST_FILE = 19968,
    USM_LIST_BYTES = 7936,     /* the longest list that usm_export makes: 256 lines of 31 bytes */
    USM_LINE_BYTES = 64,
    USM_TABLE_BYTES = 8704,    /* no table is longer than 8,608 */
    USM_STACK_BYTES = 65536
};

/* The numbers of the tables, as `kind` in (1 to 3) and as `table` out. */
enum { USM_HOLDINGS = 1, USM_PLACEMENT = 2, USM_CLAIMS = 3, USM_FILLS = 4, USM_ROOTS = 5, USM_LIST = 6 };

/* The refusals, answer[0]; 0 is success. */
enum {
    USM_WRONG_SIZE = 1,
    USM_CHECKS_DIFFER = 2,
    USM_BLOCK_OUT_OF_FORM = 3,
    USM_FIELD_OUT_OF_RANGE = 4,
    USM_GROUPS_MISNUMBERED = 5,
    USM_NO_LEG = 6,
    USM_UNDERLYINGS_DIFFER = 7,
    USM_STYLES_DIFFER = 8,
    USM_MARKETS_DIFFER = 9,
    USM_SERIES_LONG_AND_SHORT = 10,
    USM_CALL_UNITS_UNEQUAL = 11,
    USM_PUT_UNITS_UNEQUAL = 12,
    USM_SHORT_OUTLIVES_LONG = 13,
    USM_CONTRACTS_DIFFER = 14,
    USM_NOT_PLACED = 15,
    USM_CLAIM_NOT_MARGIN = 16,
    USM_NO_ROOM = 17,
    USM_MORE_CLOSED_THAN_HELD = 18,
    USM_TOO_MUCH_HELD = 19,
    USM_WRONG_ACCOUNT = 20,
    USM_NOT_FIT_FOR_CASH = 21,
    USM_LINE_MALFORMED = 22,
    USM_ROOTS_ILL_FORMED = 23,
    USM_NOT_IN_ROOTS = 24,
    USM_EXPIRY_BEFORE_VALUATION = 25
};

/* The forms of a file. */
enum { USM_OLD_FORM = 1, USM_NEW_FORM = 2 };

/* The two words of `origin`: form and account. */
enum { USM_ORIGIN_FORM = 0, USM_ORIGIN_ACCOUNT = 1, USM_ORIGIN_NUMBERS = 2 };

/* Where the fields of a leg record begin; each ends where the next begins, the filler with the record. */
enum {
    USM_LEG_GROUP = 0,         /* 2 bytes: 0 to 32; in holdings 0 only */
    USM_LEG_SIDE = 2,          /* 1 byte: USM_LONG, USM_SHORT */
    USM_LEG_TYPE = 3,          /* 1 byte: USM_CALL, USM_PUT */
    USM_LEG_STYLE = 4,         /* 1 byte: USM_AMERICAN, USM_EUROPEAN */
    USM_LEG_MARKET = 5,        /* 1 byte: USM_LISTED, USM_OTC */
    USM_LEG_UNIT_SIZE = 6,     /* 2 bytes: 1 to 1,000 */
    USM_LEG_UNDERLYING = 8,    /* 4 bytes: 1 to 4,294,967,295 */
    USM_LEG_STRIKE = 12,       /* 4 bytes: 1 to 99,999,999 mills for one unit */
    USM_LEG_EXPIRY = 16,       /* 4 bytes: YYYYMMDD, a real date, 20000101 to 20991231 */
    USM_LEG_CONTRACTS = 20,    /* 4 bytes: 1 to 100,000 */
    USM_LEG_SETTLEMENT = 24,   /* 1 byte: USM_NOT_STATED, USM_CASH, USM_PHYSICAL */
    USM_LEG_PAID = 25,         /* 1 byte: the paid mark, 0 or 1; an unplaced long needs 1 */
    USM_LEG_FILLER = 26        /* 6 bytes: zero */
};

/* A fill is a leg record of the holdings, without a paid mark, in which one byte of the filler is the action. */
enum {
    USM_FILL_ACTION = 26       /* 1 byte: USM_OPEN, USM_CLOSE */
};

enum { USM_LONG = 1, USM_SHORT = 2 };
enum { USM_CALL = 1, USM_PUT = 2 };
enum { USM_AMERICAN = 1, USM_EUROPEAN = 2 };
enum { USM_LISTED = 1, USM_OTC = 2 };
enum { USM_NOT_STATED = 0, USM_CASH = 1, USM_PHYSICAL = 2 };
enum { USM_OPEN = 1, USM_CLOSE = 2 };

/* Where the fields of a root begin; each ends where the next begins, the last with the root. */
enum {
    USM_ROOT_NAME = 0,         /* 6 bytes: 1 to 6 of A-Z and 0-9, a letter first, padded right with blanks */
    USM_ROOT_STYLE = 6,        /* 1 byte: as of a leg, and so the other terms */
    USM_ROOT_MARKET = 7,       /* 1 byte */
    USM_ROOT_UNIT_SIZE = 8,    /* 2 bytes */
    USM_ROOT_SETTLEMENT = 10,  /* 1 byte */
    USM_ROOT_FILLER = 11,      /* 1 byte: zero */
    USM_ROOT_UNDERLYING = 12   /* 4 bytes */
};

/* Where the fields of a claim record begin; all other bytes are zero. */
enum {
    USM_CLAIM_GROUP = 0,       /* 2 bytes: 1 to 32 */
    USM_CLAIM_MARGIN = 8       /* 8 bytes: 0 to USM_GREATEST_AMOUNT mills */
};

/* No net, no margin and no accepted total passes this many mills. */
#define USM_GREATEST_AMOUNT INT64_C(2560000000000000000)

/* Where the parts of a block begin; all other bytes are zero. */
enum {
    USM_BLOCK_MARK = 0,        /* 4 bytes: "USM1" in the old form, "USM2" in the new */
    USM_BLOCK_KIND = 4,        /* 1 byte: the table's number */
    USM_BLOCK_COUNT = 5,       /* 1 byte: records in the block, 1 to 15 */
    USM_BLOCK_NUMBER = 6,      /* 2 bytes: from 0 */
    USM_BLOCK_BLOCKS = 8,      /* 2 bytes: blocks in the file */
    USM_BLOCK_RECORDS = 16,    /* 15 places of 32 bytes */
    USM_BLOCK_ACCOUNT = 496,   /* 8 bytes: in the new form the account, not zero and the same in all blocks */
    USM_BLOCK_CHECK_A = 508,   /* 2 bytes: the sum of bytes 0 to 507, modulo 65,536 */
    USM_BLOCK_CHECK_B = 510    /* 2 bytes: the sum of (508 - i) times byte i, modulo 65,536 */
};

/*
 * Looks at one table: its size (1), then its fields (4).
 *   success  { 0, records, 0, 0 }
 * A kind other than 1, 2 or 3 is refusal 1, table 0, place 0.
 */
uint64_t usm_check_table(uint64_t kind, const uint8_t *table, size_t table_len, uint64_t *answer);

/*
 * The margin of group g of a placement: the greatest of 0 and the losses at the strikes found in the
 * group. A European long box, which loses nowhere, needs half of units times the difference of its two
 * strikes, a half mill rounded up: all legs European, one expiry, and the same number of units long in
 * calls at the lower strike, short in calls at the higher, long in puts at the higher and short in puts
 * at the lower, records of one kind added together, with no leg of any other kind.
 *   success  { 0, margin, 0, 0 }
 *   refusals 1; 4 over the whole table; 6 to 13, table 2. The place of 6, 11 and 12 is g as given;
 *            that of 7, 8, 9, 10 and 13 the lowest record such that the group's legs up to and with
 *            it already break the condition. g may be any number; 0 and those above 32 are 6.
 */
uint64_t usm_margin(const uint8_t *placement, size_t placement_len, uint64_t g, uint64_t *answer);

/*
 * The cash that group g of a placement requires in a cash account: the greatest of 0 and the losses at
 * the strikes found in the group, also of a European long box, which so requires none.
 *   success  { 0, mills, 0, 0 }
 *   refusals as usm_margin; then 21, table 2, place g, unless all legs are European, all are stated as
 *            USM_CASH, and all have one expiry.
 */
uint64_t usm_cash(const uint8_t *placement, size_t placement_len, uint64_t g, uint64_t *answer);

/*
 * The margins of groups 1 to n: that of group g goes to out[g - 1].
 *   success  { 0, n, 0, 0 }; out[n] and beyond stay
 *   refusals 1; 4 over the whole table; then, groups ascending from 1 to n, the first of
 *            6 to 13 (so an n above 32 ends with 6, table 2, place 33 at the latest);
 *            then 17, table 0, place n, if out has fewer than n entries.
 */
uint64_t usm_margins(const uint8_t *placement, size_t placement_len, uint64_t n,
                     int64_t *out, size_t out_len, uint64_t *answer);

/*
 * The worksheet of group g: its distinct strikes, ascending, from strikes[0], and the net
 * at each from nets[0], of a European long box too.
 *   success  { 0, how many, 0, 0 }; entries beyond stay in both slices
 *   refusals as usm_margin; then 17, table 0, place the strikes needed, if either slice
 *            has fewer entries. 256 entries are always enough.
 */
uint64_t usm_worksheet(const uint8_t *placement, size_t placement_len, uint64_t g,
                       uint32_t *strikes, size_t strikes_len,
                       int64_t *nets, size_t nets_len, uint64_t *answer);

/*
 * The margin of a position in a credit event binary option (CBOE circular RG11-039): contracts times a
 * percentage of the 1,000 dollar settlement, of the table for longs or of that for shorts, which
 * docs/RULES.md has in full, by the swap spread and by the time from the valuation date to expiry.
 *   side       USM_LONG, USM_SHORT
 *   spread     the credit default swap spread in basis points, 0 to 100,000; 100, 300, 500 and 700 are in
 *              the higher row
 *   valuation  YYYYMMDD, a real date, 20000101 to 20991231
 *   expiry     the same; up to 1, 3 and 7 years on, to the same month and day, a missing 29 February
 *              being the 28th
 *   contracts  1 to 100,000
 *   success  { 0, mills, 0, 0 }, at most 30,000,000,000
 *   refusals 4, table 0, place 0, for any of the five; then 25, table 0, place 0, for an expiry before the
 *            valuation date. An option that expires on it is answered.
 */
uint64_t usm_binary_margin(uint64_t side, uint64_t spread, uint64_t valuation, uint64_t expiry,
                           uint64_t contracts, uint64_t *answer);

/*
 * The margin of a long and a short position together. Where both are on the same reference obligation, any
 * number, and the long is paid in full (long_paid is 1) and does not expire before the short, the smaller
 * count of contracts is matched and needs nothing; what is left of the larger keeps its percentage. Where
 * any of this does not hold, both keep their full percentage. Each position has its own spread and expiry.
 *   success  { 0, mills, 0, 0 }, at most 45,000,000,000
 *   refusals 4, table 0, place 0, for a field of the long, a long_paid other than 0 or 1, or the valuation
 *            date; 4, table 0, place 1, for a field of the short; then 25, table 0, place 0 for the long's
 *            expiry, then place 1 for the short's.
 */
uint64_t usm_binary_pair(uint64_t valuation, uint64_t long_reference, uint64_t long_spread,
                         uint64_t long_expiry, uint64_t long_contracts, uint64_t long_paid,
                         uint64_t short_reference, uint64_t short_spread, uint64_t short_expiry,
                         uint64_t short_contracts, uint64_t *answer);

/*
 * Sets the paid mark on every unplaced long of a placement, where it stands. Sheets from before the mark
 * was asked for go through this pass; a sheet that keeps every other rule is accepted after it.
 *   success  { 0, marks set, 0, 0 }: those that were not set before; all other bytes stay
 *   refusals 1; 4 over the whole table; then nothing is changed.
 */
uint64_t usm_mark_paid(uint8_t *placement, size_t placement_len, uint64_t *answer);

/*
 * The verdict on a sheet given as three tables.
 *   success  { 0, groups, total margin, work }: the sheet is accepted. The work is how many intrinsic
 *            values were worked out: for each group its legs times its distinct strikes, added over
 *            the groups, and at most 65,536. A refused sheet has 0 there, as every refusal has.
 *   refusals 1 for any of the three tables; 4 by table (holdings, placement, claims), then
 *            record; 5, claims first; 6 to 13, groups ascending; 14; 15; 16.
 * Three empty tables are accepted with no group.
 */
uint64_t usm_check_sheet(const uint8_t *holdings, size_t holdings_len,
                         const uint8_t *placement, size_t placement_len,
                         const uint8_t *claims, size_t claims_len, uint64_t *answer);

/*
 * The verdict on a sheet file of either form.
 *   success  { 0, groups, total margin, work }: the sheet is accepted; the work as usm_check_sheet
 *   refusals 1 about the file; 2, 3 and 20 in each block, in this order, blocks in file order;
 *            then 4 to 16 as usm_check_sheet. A block of another form than the first is 3.
 */
uint64_t usm_check_file(const uint8_t *file, size_t file_len, uint64_t *answer);

/*
 * Takes a sheet file of either form apart: each kind's records go to its lent table from byte 0,
 * and to origin, which is never NULL and has USM_ORIGIN_NUMBERS entries, the form (USM_OLD_FORM or
 * USM_NEW_FORM) and the account, which is 0 in the old form.
 *   success  { 0, holdings records, placement records, claims records }; bytes past the
 *            records stay
 *   refusals 1 about the file; 2, 3 and 20; 4 by table, then record; then 17 at the first
 *            table (1, 2 or 3) that is too short, place the bytes it needs.
 * The lent tables may have any length; USM_LEGS_BYTES, USM_LEGS_BYTES and USM_CLAIMS_BYTES
 * are always enough.
 */
uint64_t usm_read_file(const uint8_t *file, size_t file_len,
                       uint8_t *holdings, size_t holdings_len,
                       uint8_t *placement, size_t placement_len,
                       uint8_t *claims, size_t claims_len, uint64_t *origin, uint64_t *answer);

/*
 * Writes three tables as a sheet file of this form and account to out. In the old form the account
 * is not looked at.
 *   success  { 0, bytes of the file, 0, 0 }; bytes past the file stay
 *   refusals 1 for any of the tables, if all three are empty, or for a form other than 1 or 2;
 *            20, table 0, place 0, for the account 0 in the new form; 4 by table, then record;
 *            17, table 0, place the bytes needed. USM_LONGEST_FILE is always enough.
 * Tables that no check would accept are written all the same.
 */
uint64_t usm_write_file(const uint8_t *holdings, size_t holdings_len,
                        const uint8_t *placement, size_t placement_len,
                        const uint8_t *claims, size_t claims_len, uint64_t form, uint64_t account,
                        uint8_t *out, size_t out_len, uint64_t *answer);

/*
 * Moves a sheet file of the old form to the new one, with this account in each block; all else stays.
 * Moved back it is the same file.
 *   success  { 0, bytes of the file, 0, 0 }; bytes past the file stay
 *   refusals 1 about the file; 20, table 0, place 0, for the account 0; then all that usm_read_file
 *            says of the file (2, 3, 20; 4); 3, table 0, place 0, for a file of the new form; 17,
 *            table 0, place the bytes needed, which are as many as the file has.
 */
uint64_t usm_move_to_new(const uint8_t *file, size_t file_len, uint64_t account,
                         uint8_t *out, size_t out_len, uint64_t *answer);

/*
 * Moves a sheet file of the new form to the old one, which has no account. Moved again to the new
 * form, with the same account, it is the same file.
 *   success  { 0, bytes of the file, 0, 0 }; bytes past the file stay
 *   refusals as usm_move_to_new, without 20 for a supplied number; 3, table 0, place 0, is for a file of
 *            the old form.
 */
uint64_t usm_move_to_old(const uint8_t *file, size_t file_len, uint8_t *out, size_t out_len, uint64_t *answer);

/*
 * Salvages a damaged file of 1 to USM_LONGEST_FILE bytes. Each piece of USM_BLOCK_BYTES is judged by itself,
 * whatever it says of its number and of how many blocks there are, and wherever it stands. The first that is
 * kept gives form and account. The records of the kept blocks, joined by kind in file order, go to out as a
 * sound file. Of each piece that is dropped the index, from 0, goes to indices[0] and following, in file
 * order, and the number to numbers[0] and following: 1 for a last piece of fewer bytes; else the first that
 * applies of 2 for its checks, 3 for its form, 4 for a field, and 20 for the account 0 in the new form, or for
 * another form or account than the first kept block's. An undamaged file comes out the same, and nothing is
 * listed.
 *   success  { 0, bytes of the file, entries of the list, 0 }; what lies past the file and past the
 *            entries stays
 *   refusals 1 for no byte or too many; 2, table 0, place 0, if nothing is kept; 3, table 0, place 0, if
 *            the kept records of a table are over its limit; 17, table 0, place the bytes needed, if out
 *            is shorter; 17, table 0, place the entries needed, if either list has fewer.
 *            USM_LONGEST_FILE bytes and USM_MOST_BLOCKS entries are always enough.
 * usm_read_file takes the file that comes out; whether its sheet is accepted is for usm_check_file to say.
 */
uint64_t usm_salvage(const uint8_t *bytes, size_t bytes_len,
                     uint8_t *out, size_t out_len,
                     uint32_t *indices, size_t indices_len,
                     uint8_t *numbers, size_t numbers_len, uint64_t *answer);

/*
 * Plays the day's fills over yesterday's holdings, in order, as a ledger from line and side to contracts
 * would: an open adds to the lot of the fill's side, a close takes from it. A line and side stands in one
 * record: repeats in the starting table are first added into the first such record. A new one goes to the
 * end; one at zero leaves, those behind move up, and its room is used again. The holdings that come out go
 * to result from byte 0, with paid mark and filler zero. A refused fill changes nothing and play goes on; the indices of
 * those that are refused go to indices[0] and following, in order, and their numbers to numbers[0] and
 * following: 4 for a field or an action out of range; 18 for a close of more than is held; 19 for the
 * 257th line and side, or more than 100,000 contracts of one.
 *   success  { 0, records of the result, refused fills, 0 }; what lies past the records and past the
 *            refused fills stays
 *   refusals 1 for either table; 4, table 1, at a record of the starting table; 19, table 1, at the
 *            first record that takes a line and side past 100,000 contracts; 17, table 1, place
 *            USM_LEGS_BYTES, if result is shorter than that; 17, table 4, place the number of fills, if
 *            either list has fewer entries. All of them come before any fill is played.
 * Result and lists may overlap neither the holdings nor the fills nor each other.
 */
uint64_t usm_play_fills(const uint8_t *holdings, size_t holdings_len,
                        const uint8_t *fills, size_t fills_len,
                        uint8_t *result, size_t result_len,
                        uint32_t *indices, size_t indices_len,
                        uint8_t *numbers, size_t numbers_len, uint64_t *answer);

/*
 * Makes a member's list of option symbols into holdings: a record for each line, in their order, with
 * paid mark 0, from byte 0. A line is "AAPL  110521C00060000 L 10" and a newline: the root, padded to 6
 * characters with blanks; YYMMDD, of 2000 to 2099; C or P; the strike in mills as 8 digits; blank; L or S;
 * blank; the contracts as 1 to 6 digits, the first not 0. Style, market, unit size, settlement and
 * underlying are those of the line's root. No two roots are the same, and no two have these five the same.
 *   success  { 0, records, 0, 0 }; bytes past the records stay. An empty list makes none
 *   refusals 23, table 5, place the first bad root, or 0 for a table that is not 1 to 256 whole roots;
 *            then, lines in order, 22, 4 (no real date, a strike of 0, more than 100,000 contracts) and
 *            24, each with table 6 and the line; 1, table 0, place 0, for more than 256 lines; 17,
 *            table 1, place the bytes needed. USM_LEGS_BYTES are always enough.
 */
uint64_t usm_import(const uint8_t *roots, size_t roots_len, const uint8_t *list, size_t list_len,
                    uint8_t *holdings, size_t holdings_len, uint64_t *answer);

/*
 * Makes holdings into a list of option symbols, the reverse of usm_import: a line for each record, in
 * their order, from byte 0. Imported again, with the same roots, it is the same holdings.
 *   success  { 0, bytes of the list, 0, 0 }; bytes past the list stay
 *   refusals 23 as usm_import; 1 for the holdings; then, records in order, 4, also for paid mark 1, and 24
 *            for terms that no root has, each with table 1 and the record; 17, table 6, place the bytes
 *            needed. USM_LIST_BYTES are always enough.
 */
uint64_t usm_export(const uint8_t *roots, size_t roots_len, const uint8_t *holdings, size_t holdings_len,
                    uint8_t *list, size_t list_len, uint64_t *answer);

/*
 * The line that usm_check prints for this file, "ACCEPT groups total\n" or
 * "REFUSE number table place\n", in line[0] and following, without a closing zero byte.
 *   returns  its length, newline included; bytes past it stay
 * `line` has USM_LINE_BYTES bytes.
 */
size_t usm_file_line(const uint8_t *file, size_t file_len, uint8_t *line);

/*
 * The table that usm_table prints for this file, in text[0] and following, without a closing zero
 * byte: for each group of an accepted sheet "GROUP group margin\n", then "strike net\n" for each
 * distinct strike, ascending; of a refused one "REFUSE number table place\n" and nothing else.
 *   returns  its length, newlines included, 0 for an accepted sheet without groups; bytes past it stay
 * `text` has USM_TABLE_BYTES bytes.
 */
size_t usm_file_table(const uint8_t *file, size_t file_len, uint8_t *text);

#ifdef __cplusplus
}
#endif

#endif
