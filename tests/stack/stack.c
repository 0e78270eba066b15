/* How much stack each call takes: every call runs on a painted stack of its own, and the paint that is left is counted. */
#include <stdint.h>
#include <stdio.h>
#include <stdlib.h>
#include <string.h>
#include <ucontext.h>

#include "bank.h"

enum { SIZE = 65536, PAINT = 0xa5, CALLS = 300000 };
enum { A_SLOT = 4 + 2 * 16 + 14 + 17 * 16 }; /* board 0's first volatile slot, in a bank of 16 pages (docs/FORMAT.md) */

static uint8_t stack[SIZE] __attribute__((aligned(64)));
static ucontext_t back, there;
static uint8_t *bank;
static uint8_t old[BANK_OLDER_LENGTH(8, 16)];
static uint8_t cells[2 * BANK_MOST_CELLS], out[BANK_MOST_CELLS];
static size_t len, old_len, cell_count;
static int kind;
static uint32_t arg[4];
static uint64_t answer;

static void call(void) {
    switch (kind) {
    case 0: answer = bank_make(bank, len, arg[0], arg[1]); break;
    case 1: answer = bank_read(bank, len, arg[0], arg[1], arg[2]); break;
    case 2: answer = bank_write(bank, len, arg[0], arg[1], arg[2], arg[3]); break;
    case 3: answer = bank_checkpoint(bank, len, arg[0]); break;
    case 4: answer = bank_fuse(bank, len, arg[0], arg[1]); break;
    case 5: answer = bank_restart(bank, len, arg[0]); break;
    case 6: answer = bank_convert(old, old_len, bank, len); break;
    case 7: answer = bank_shelf(bank, len, arg[0], cells, 2 * cell_count, out, cell_count); break;
    case 8: answer = bank_adopt(bank, len); break;
    case 9: answer = bank_compare_logs(bank, len, arg[0], arg[1]); break;
    case 10: answer = bank_clean(bank, len); break;
    default: answer = 0; break; /* nothing: what the measuring itself takes */
    }
}

/* Bytes of the painted stack that the call wrote. */
static size_t used(void) {
    memset(stack, PAINT, SIZE);
    getcontext(&there);
    there.uc_stack.ss_sp = stack;
    there.uc_stack.ss_size = SIZE;
    there.uc_link = &back;
    makecontext(&there, call, 0);
    swapcontext(&back, &there);
    size_t left = 0;
    while (left < SIZE && stack[left] == PAINT) left++;
    return SIZE - left;
}

static uint64_t seed = 88172645463325252u;

static uint32_t below(uint32_t n) {
    seed ^= seed << 13;
    seed ^= seed >> 7;
    seed ^= seed << 17;
    return (uint32_t)((seed >> 11) % n);
}

int main(int count, char **files) {
    static const char *names[] = {"bank_make",    "bank_read",  "bank_write", "bank_checkpoint",   "bank_fuse", "bank_restart",
                                  "bank_convert", "bank_shelf", "bank_adopt", "bank_compare_logs", "bank_clean"};
    enum { KINDS = sizeof names / sizeof *names };
    size_t most[KINDS] = {0};
    len = BANK_LENGTH(8, 16);
    bank = malloc(len);
    kind = KINDS;
    size_t none = used();
    kind = 0, arg[0] = 8, arg[1] = 16;
    most[0] = used();
    kind = 8; /* a fresh bank passes */
    most[8] = used();
    if (bank_code(answer) != BANK_DONE) {
        fprintf(stderr, "stack: a fresh bank isn't adopted\n");
        return 1;
    }
    kind = 10, bank[A_SLOT] = 1; /* something to zero */
    most[10] = used();
    if (bank_code(answer) != BANK_DONE || bank[A_SLOT] != 0) {
        fprintf(stderr, "stack: a slot isn't cleaned\n");
        return 1;
    }
    for (int i = 0; i < CALLS; i++) {
        uint32_t k = below(16);
        kind = k < 4 ? 1 : k < 6 ? 7 : k < 12 ? 2 : k == 12 ? 3 : k == 13 || (k == 14 && below(4) == 0) ? 4 : 5;
        arg[0] = below(8), arg[1] = kind != 4 ? below(3) : k == 13 ? 1 + below(40) : 0, arg[2] = below(16), arg[3] = below(256);
        cell_count = 1 + below(BANK_MOST_CELLS);
        for (size_t c = 0; c < cell_count; c++) cells[2 * c] = (uint8_t)below(3), cells[2 * c + 1] = (uint8_t)below(16);
        size_t n = used();
        if (n > most[kind]) most[kind] = n;
        if (i % 16 == 0) { /* any code, of an adoption mostly 1 */
            arg[1] = below(8);
            for (kind = 8; kind <= 10; kind++) {
                n = used();
                if (n > most[kind]) most[kind] = n;
            }
        }
    }
    FILE *file = count == 2 ? fopen(files[1], "rb") : NULL;
    if (file == NULL) {
        fprintf(stderr, "stack: name a bank of the older form\n");
        return 1;
    }
    old_len = fread(old, 1, sizeof old, file);
    fclose(file);
    kind = 6, len = BANK_LENGTH(old[2], old[3]);
    most[kind] = used();
    if (bank_code(answer) != BANK_DONE) {
        fprintf(stderr, "stack: %s can't be converted\n", files[1]);
        return 1;
    }
    for (int k = 0; k < KINDS; k++) printf("%-17s %5zu bytes of stack\n", names[k], most[k] - none);
    free(bank);
    return 0;
}
