/* A price display has read its own page all day and runs into code 4: its bank, of the older form, is converted, and it reads on. Before that the older
 * firmware had to empty the logs. */
#include "bank.h"
#include <stdio.h>
#include <stdlib.h>
#include <string.h>

enum { DISPLAY = 1, PRICES = 1, PRICE_AT = 0, BOARDS_AT = 2, PAGES_AT = 3, AN_HOUR = 3600 };

static void expect(const char *what, uint64_t is, uint64_t should) {
    if (is != should) {
        fprintf(stderr, "%s is %llu and should be %llu\n", what, (unsigned long long)is, (unsigned long long)should);
        exit(1);
    }
}

/* The bytes of a file, as many as there are, at most `most`. */
static size_t load(const char *name, uint8_t *bytes, size_t most) {
    FILE *file = fopen(name, "rb");
    size_t n = file == NULL ? 0 : fread(bytes, 1, most, file);
    if (file == NULL || ferror(file) != 0) {
        perror(name);
        exit(1);
    }
    fclose(file);
    return n;
}

int main(int count, char **names) {
    static uint8_t old[BANK_OLDER_LENGTH(BANK_MOST_BOARDS, BANK_MOST_PAGES)], before[sizeof old];
    static uint8_t bank[BANK_LENGTH(BANK_MOST_BOARDS, BANK_MOST_PAGES)], untouched[sizeof bank];
    expect("the number of files named", (uint64_t)count - 1, 2);

    size_t old_len = load(names[2], old, sizeof old);
    uint32_t boards = old[BOARDS_AT], pages = old[PAGES_AT];
    size_t len = BANK_LENGTH(boards, pages);
    printf("A bank of %u boards and %u pages, %zu bytes: it has the older form.\n", boards, pages, old_len);
    expect("its length", old_len, BANK_OLDER_LENGTH(boards, pages));
    expect("the code of a read of it", bank_code(bank_read(old, old_len, DISPLAY, PRICES, PRICE_AT)), BANK_MALFORMED);
    expect("the code of a conversion with records", bank_code(bank_convert(old, old_len, bank, len)), BANK_HAS_RECORDS);
    expect("what was written", (uint64_t)memcmp(bank, untouched, sizeof bank), 0);
    printf("Code %u: it has log records, which name no board. Nothing is written. The older firmware goes on and checkpoints board 0 twice.\n",
           BANK_HAS_RECORDS);

    expect("the length then", load(names[1], old, sizeof old), old_len);
    memcpy(before, old, sizeof old);
    expect("the code of a conversion into too few bytes", bank_code(bank_convert(old, old_len, bank, len - 1)), BANK_MALFORMED);
    expect("the code of the conversion", bank_code(bank_convert(old, old_len, bank, len)), BANK_DONE);
    expect("what became of the old bytes", (uint64_t)memcmp(old, before, sizeof old), 0);
    printf("Now it is converted and has %zu bytes. The old bytes are as they were.\n", len);

    for (int second = 0; second < AN_HOUR; second++) {
        uint64_t answer = bank_read(bank, len, DISPLAY, PRICES, PRICE_AT);
        expect("the code of a read", bank_code(answer), BANK_DONE);
        expect("the price", bank_value(answer), 120);
    }
    printf("The display, which had made 65,535 accesses since its last checkpoint, reads its price, 120, for another hour.\n");
    return 0;
}
