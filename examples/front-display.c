/* A front display shows a shelf of 32 numbers, prices and stock of four drawers. One drawer's board has no power: while nobody holds its page the display
 * keeps what it showed; later, when the display holds a copy, another board gets the page from there. */
#include "bank.h"
#include <stdio.h>
#include <stdlib.h>
#include <string.h>

enum { DISPLAY, DARK_DRAWER = 2, OTHER_DRAWER = 4, BOARDS = 5 }; /* boards 1 to 4 are drawers */
enum { PAGES = 5, PLACES = 4, CELLS = 32 };    /* page d belongs to board d; drawer d has 4 places */

static uint8_t bank[BANK_LENGTH(BOARDS, PAGES)];
static const size_t len = sizeof bank;

static void expect(const char *what, uint64_t is, uint64_t should) {
    if (is != should) {
        fprintf(stderr, "%s is %llu and should be %llu\n", what, (unsigned long long)is, (unsigned long long)should);
        exit(1);
    }
}

/* Place i of drawer d has its price at offset i and its stock at offset PLACES + i. */
static uint32_t price(uint32_t d, uint32_t i) { return 100 + 10 * d + i; }
static uint32_t stock(uint32_t d, uint32_t i) { return 8 * d + i; }

static void fill(uint32_t d) {
    for (uint32_t i = 0; i < PLACES; i++) {
        expect("the code of a price's write", bank_code(bank_write(bank, len, d, d, i, price(d, i))), BANK_DONE);
        expect("the code of a stock's write", bank_code(bank_write(bank, len, d, d, PLACES + i, stock(d, i))), BANK_DONE);
    }
}

/* What the display asks for, row by row: the price, then the stock, of every place. */
static void ask(uint8_t cells[2 * CELLS]) {
    uint8_t *next = cells;
    for (uint32_t d = 1; d < BOARDS; d++) {
        for (uint32_t i = 0; i < PLACES; i++) {
            *next++ = (uint8_t)d, *next++ = (uint8_t)i;
            *next++ = (uint8_t)d, *next++ = (uint8_t)(PLACES + i);
        }
    }
}

static void print(const uint8_t shown[CELLS]) {
    for (uint32_t d = 1; d < BOARDS; d++) {
        printf("  drawer %u:", d);
        for (uint32_t i = 0; i < PLACES; i++) {
            printf(" %3u (%2u left)", shown[8 * (d - 1) + 2 * i], shown[8 * (d - 1) + 2 * i + 1]);
        }
        printf("\n");
    }
}

static void expect_shelf(const uint8_t shown[CELLS]) {
    for (uint32_t d = 1; d < BOARDS; d++) {
        for (uint32_t i = 0; i < PLACES; i++) {
            expect("a price", shown[8 * (d - 1) + 2 * i], price(d, i));
            expect("a stock", shown[8 * (d - 1) + 2 * i + 1], stock(d, i));
        }
    }
}

int main(void) {
    uint8_t cells[2 * CELLS], shown[CELLS], blank[CELLS];
    ask(cells);
    memset(shown, 0, sizeof shown);
    memcpy(blank, shown, sizeof shown);
    expect("the code of the make", bank_code(bank_make(bank, len, BOARDS, PAGES)), BANK_DONE);
    for (uint32_t d = 1; d < BOARDS; d++) {
        fill(d);
    }
    expect("the code of the checkpoint", bank_code(bank_checkpoint(bank, len, DARK_DRAWER)), BANK_DONE);

    expect("the code of a power loss", bank_code(bank_fuse(bank, len, DARK_DRAWER, 0)), BANK_DONE);
    uint64_t answer = bank_shelf(bank, len, DISPLAY, cells, sizeof cells, shown, sizeof shown);
    expect("the code of a glance at a drawer without power", bank_code(answer), BANK_OWNER_NOT_UP);
    expect("the board to restart", bank_who(answer), DARK_DRAWER);
    expect("what became of the display", (uint64_t)memcmp(shown, blank, sizeof shown), 0);
    printf("Drawer %u has no power: code %u, board %u. The display stays as it was, and no page was fetched.\n", DARK_DRAWER,
           bank_code(answer), bank_who(answer));

    expect("the code of the restart", bank_code(bank_restart(bank, len, DARK_DRAWER)), BANK_DONE);
    answer = bank_shelf(bank, len, DISPLAY, cells, sizeof cells, shown, sizeof shown);
    expect("the code of the glance", bank_code(answer), BANK_DONE);
    printf("It is back. %d cells of %d pages in one call, %u stores:\n", CELLS, BOARDS - 1, bank_stores(answer));
    print(shown);
    expect_shelf(shown);

    answer = bank_shelf(bank, len, DISPLAY, cells, sizeof cells, shown, sizeof shown);
    expect("the code of the next glance", bank_code(answer), BANK_DONE);
    expect("its stores", bank_stores(answer), 0);
    printf("The next glance finds all pages here: no store.\n");

    expect("the code of a second power loss", bank_code(bank_fuse(bank, len, DARK_DRAWER, 0)), BANK_DONE);
    memset(shown, 0, sizeof shown);
    answer = bank_shelf(bank, len, OTHER_DRAWER, cells, sizeof cells, shown, sizeof shown);
    expect("the code of another board's glance", bank_code(answer), BANK_DONE);
    expect_shelf(shown);
    printf("Drawer %u has no power again. Drawer %u asks for the same shelf and gets it, %u stores: the display gives the page of which it holds a copy.\n",
           DARK_DRAWER, OTHER_DRAWER, bank_stores(answer));
    answer = bank_write(bank, len, OTHER_DRAWER, DARK_DRAWER, 0, 1);
    expect("the code of a write without the owner", bank_code(answer), BANK_OWNER_NOT_UP);
    expect("the board that a write waits for", bank_who(answer), DARK_DRAWER);
    printf("It can't write there: code %u, board %u.\n", bank_code(answer), bank_who(answer));
    return 0;
}
