/*
 * Every call, with memory to write to that was never written: nothing there is read before it is
 * written, and what a call says it wrote is written. Only a memory checker, as valgrind, shows the one and the other.
 */

#include <stdio.h>

#include "full.h"

static size_t looked;

/* Branches on every byte, which a checker tells of where one was not written. */
static void look(const void *memory, size_t bytes)
{
    const uint8_t *byte = memory;
    for (size_t i = 0; i < bytes; i++)
        if (byte[i] != 0)
            looked++;
}

/* Makes a call that is answered. */
static void ask(void (*call)(void))
{
    call();
    if (answer[0] != 0)
        exit(1);
    look(answer, USM_ANSWER_NUMBERS * sizeof *answer);
}

static void look_at_list(size_t entries)
{
    look(indices, entries * sizeof *indices);
    look(numbers, entries);
}

static void look_at_files(void)
{
    ask(write_file);
    look(file, file_len);
    ask(move_to_new);
    look(moved, file_len);
    ask(move_to_old);
    ask(read_file);
    look(read_holdings, answer[1] * USM_RECORD_BYTES);
    look(read_placement, answer[2] * USM_RECORD_BYTES);
    look(read_claims, answer[3] * USM_RECORD_BYTES);
    look(origin, USM_ORIGIN_NUMBERS * sizeof *origin);
    file_line();
    look(line, line_len);
    file_table();
    look(text, text_len);
}

static void look_at_groups(void)
{
    ask(margins);
    look(nets, answer[1] * sizeof *nets);
    ask(worksheet);
    look(strikes, answer[1] * sizeof *strikes);
    look(nets, answer[1] * sizeof *nets);
}

/* A file with its second block damaged: the rest is kept. */
static void look_at_salvage(void)
{
    file[USM_BLOCK_BYTES + 20] ^= 1;
    ask(salvage);
    look(moved, answer[1]);
    look_at_list(answer[2]);
    file[USM_BLOCK_BYTES + 20] ^= 1;
}

static void look_at_holdings(void)
{
    ask(play_fills);
    look(result, answer[1] * USM_RECORD_BYTES);
    look_at_list(answer[2]);
    ask(export_list);
    look(list, list_len);
    ask(import_list);
    look(result, answer[1] * USM_RECORD_BYTES);
}

static void look_at_answers(void)
{
    static void (*const calls[])(void) = {
        check_table, margin, cash, mark_paid, check_sheet, check_file, binary_margin, binary_pair,
    };
    for (size_t i = 0; i < sizeof calls / sizeof *calls; i++) {
        answer = fresh(USM_ANSWER_NUMBERS * sizeof *answer);
        ask(calls[i]);
    }
}

int main(void)
{
    make_tables();
    make_roots();
    make_outputs();
    look_at_files();
    look_at_answers();
    look_at_groups();
    make_outputs();
    write_file();
    look_at_salvage();
    make_outputs();
    look_at_holdings();
    puts(looked > 0 ? "all that was written was looked at" : "nothing was written");
    return 0;
}
