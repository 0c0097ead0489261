/*
 * How much stack the calls need: each is made on a stack of its own that was painted before, for the
 * longest file there is. Prints the bytes that the neediest call used.
 */

#define _POSIX_C_SOURCE 200809L /* for pthread_attr_setstack */

#include <pthread.h>
#include <stdio.h>
#include <string.h>

#include "full.h"

enum { STACK = 4 * USM_STACK_BYTES, PAINT = 0xA5 };

static _Alignas(4096) uint8_t stack[STACK];
static void nothing(void) { answer[0] = 0; }

static void (*call)(void);

static void *run(void *unused)
{
    call();
    return unused;
}

/* The bytes of the painted stack that a thread used for this call, its own share included. */
static size_t used(void (*of)(void))
{
    pthread_attr_t attributes;
    pthread_t thread;
    memset(stack, PAINT, sizeof stack);
    call = of;
    answer[0] = 99;
    if (pthread_attr_init(&attributes) || pthread_attr_setstack(&attributes, stack, sizeof stack) ||
        pthread_create(&thread, &attributes, run, NULL) || pthread_join(thread, NULL))
        return sizeof stack;
    size_t free_bytes = 0;
    while (free_bytes < sizeof stack && stack[free_bytes] == PAINT)
        free_bytes++;
    return sizeof stack - free_bytes;
}

int main(void)
{
    static void (*const calls[])(void) = {
        check_table, margin, cash, margins, worksheet, mark_paid, check_sheet, check_file, read_file, write_file,
        move_to_new, move_to_old, play_fills, export_list, import_list, salvage, binary_margin, binary_pair,
    };
    make_tables();
    make_roots();
    make_outputs();
    write_file();
    size_t share = used(nothing), most = used(file_line), shown = used(file_table);
    most = shown > most ? shown : most;
    for (size_t i = 0; i < sizeof calls / sizeof *calls; i++) {
        size_t bytes = used(calls[i]);
        if (answer[0] != 0)
            return 1;
        most = bytes > most ? bytes : most;
    }
    if (most < share || memcmp(line, "ACCEPT 32 12800\n", 16) != 0 ||
        memcmp(text, "GROUP 1 400\n1 0\n", 16) != 0)
        return 1;
    printf("%zu\n", most - share);
    return 0;
}
