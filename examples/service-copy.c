/* Service copies the areas of two drawers to a laptop and compares them byte by byte. Both drawers say the same, but in one area a firmware from before
 * bank_clean left records that no longer count, and the copies differ. After bank_clean they are equal, and today's calls leave nothing behind. */
#include "bank.h"
#include <stdio.h>
#include <stdlib.h>
#include <string.h>

enum { MAIN_CABINET, DRAWER, OTHER_DRAWER, BOARDS }; /* boards 0 to 2 */
enum { PRICES, PAGES, PRICE_AT = 0 };                /* page 0, at first the main cabinet's */

/* Where things stand, as docs/FORMAT.md draws it. */
enum { BLOCKS_AT = 4 + 2 * PAGES, BLOCK = 2328 + 51 * PAGES, SELECTOR_AT = 1, AREAS_AT = 782 + 17 * PAGES, AREA = 773 + 17 * PAGES };
enum { SLOTS_AT = 5 + 17 * PAGES, SLOT = 24 }; /* in an area, behind its access number, its count and its pages */

static uint8_t bank[BANK_LENGTH(BOARDS, PAGES)], before[sizeof bank];
static const size_t len = sizeof bank;
static uint8_t laptop[BOARDS][AREA];

static void expect(const char *what, uint64_t is, uint64_t should) {
    if (is != should) {
        fprintf(stderr, "%s is %llu and should be %llu\n", what, (unsigned long long)is, (unsigned long long)should);
        exit(1);
    }
}

/* The area that a restart of the board would begin from. */
static void copy_area(uint32_t board) {
    const uint8_t *block = bank + BLOCKS_AT + BLOCK * board;
    memcpy(laptop[board], block + AREAS_AT + AREA * block[SELECTOR_AT], AREA);
}

/* The first byte in which the areas of both drawers differ; AREA if there is none. */
static size_t first_difference(void) {
    copy_area(DRAWER);
    copy_area(OTHER_DRAWER);
    size_t at = 0;
    while (at < AREA && laptop[DRAWER][at] == laptop[OTHER_DRAWER][at]) at++;
    return at;
}

static void write_price(uint32_t board, uint32_t price) {
    expect("the code of a write", bank_code(bank_write(bank, len, board, PRICES, PRICE_AT, price)), BANK_DONE);
}

static void read_price(uint32_t board, uint32_t price) {
    uint64_t answer = bank_read(bank, len, board, PRICES, PRICE_AT);
    expect("the code of a read", bank_code(answer), BANK_DONE);
    expect("the price", bank_value(answer), price);
}

/* Two, one for each area. */
static void checkpoints(uint32_t board) {
    for (int i = 0; i < 2; i++) expect("the code of a checkpoint", bank_code(bank_checkpoint(bank, len, board)), BANK_DONE);
}

int main(int count, char **names) {
    expect("the number of files named", (uint64_t)count - 1, 1);
    FILE *file = fopen(names[1], "rb");
    if (file == NULL) {
        perror(names[1]);
        return 1;
    }
    expect("the bank's length", fread(bank, 1, len, file), len);
    fclose(file);

    /* As the former firmware left it: one drawer had a log of two records, the other none, and both were checkpointed twice. */
    size_t at = first_difference();
    expect("whether the first difference is in a slot", at >= SLOTS_AT && at < AREA, 1);
    printf("Both drawers made 2 accesses, hold the same price and have no record. ");
    printf("But byte %zu of their areas differs, in slot %zu.\n", at, (at - SLOTS_AT) / SLOT);
    expect("the code of a read", bank_code(bank_read(bank, len, DRAWER, PRICES, PRICE_AT)), BANK_MALFORMED);
    printf("A read answers code %u: slots without a record must be zero.\n", BANK_MALFORMED);

    expect("the answer of a cleaning", bank_clean(bank, len), 0);
    expect("the first difference", first_difference(), AREA);
    printf("After bank_clean the two areas are equal, byte by byte.\n");
    memcpy(before, bank, len);
    expect("the answer of a second cleaning", bank_clean(bank, len), 0);
    expect("what it changed", (uint64_t)memcmp(before, bank, len), 0);

    /* The same once more, with today's calls. */
    read_price(DRAWER, 130);
    read_price(OTHER_DRAWER, 130);
    write_price(DRAWER, 140);
    write_price(MAIN_CABINET, 150);
    read_price(DRAWER, 150);
    read_price(OTHER_DRAWER, 150);
    read_price(OTHER_DRAWER, 150); /* as many accesses as the other */
    checkpoints(DRAWER);
    checkpoints(OTHER_DRAWER);
    expect("the first difference", first_difference(), AREA);
    printf("The bank goes on: two new prices, two checkpoints of each drawer. The areas are equal again, with nothing to clean.\n");

    /* Nothing else is mended. */
    bank[0] = 0;
    expect("the code of a cleaning of damaged bytes", bank_code(bank_clean(bank, len)), BANK_MALFORMED);
    return 0;
}
