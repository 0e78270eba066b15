/* A log that was damaged, and what bank_compare_logs says of it. A drawer took two pages from the main cabinet. In the copy of the bank that a technician
 * brought, one byte of the drawer's log is another. The bank is still well formed: no other call tells before the drawer loses its power, and then its replay
 * stops. */
#include "bank.h"
#include <stdio.h>
#include <stdlib.h>
#include <string.h>

enum { MAIN_CABINET, DRAWER, BOARDS };           /* boards 0 and 1 */
enum { PRICES, STOCK, SPECIALS, UNUSED, PAGES }; /* pages 0 and 2 are the main cabinet's, 1 and 3 the drawer's */

static uint8_t bank[BANK_LENGTH(BOARDS, PAGES)], brought[BANK_LENGTH(BOARDS, PAGES)];
static const size_t len = sizeof bank;

static void expect(const char *what, uint64_t is, uint64_t should) {
    if (is != should) {
        fprintf(stderr, "%s is %llu and should be %llu\n", what, (unsigned long long)is, (unsigned long long)should);
        exit(1);
    }
}

/* What a technician wants to read. */
static void report(const char *which, uint64_t answer) {
    if (bank_value(answer) == 0)
        printf("%s: the two logs agree.\n", which);
    else
        printf("%s: got %u of board %u, of those from the other board, has no shown of its page at that place.\n", which, bank_value(answer), bank_who(answer));
}

int main(int count, char **names) {
    expect("the number of files named", (uint64_t)count - 1, 1);
    expect("the code of a make", bank_code(bank_make(bank, len, BOARDS, PAGES)), BANK_DONE);

    /* The drawer reads a price and a special, and gives its stock, with which its log is stored. */
    expect("the code of a read", bank_code(bank_read(bank, len, DRAWER, PRICES, 0)), BANK_DONE);
    expect("the code of a read", bank_code(bank_read(bank, len, DRAWER, SPECIALS, 0)), BANK_DONE);
    expect("the code of a read", bank_code(bank_read(bank, len, MAIN_CABINET, STOCK, 0)), BANK_DONE);
    uint64_t answer = bank_compare_logs(bank, len, MAIN_CABINET, DRAWER);
    expect("the answer of two logs that agree", answer, 0);
    report("The bank as it was", answer);

    /* The copy: the same calls, and then one byte of it was changed. */
    FILE *file = fopen(names[1], "rb");
    if (file == NULL) {
        perror(names[1]);
        return 1;
    }
    expect("the bank's length", fread(brought, 1, len, file), len);
    fclose(file);
    size_t at = 0;
    while (at < len && brought[at] == bank[at]) at++;
    expect("whether a byte differs", at < len, 1);
    expect("the bytes that differ behind the first", (uint64_t)memcmp(brought + at + 1, bank + at + 1, len - at - 1), 0);
    printf("The copy differs in byte %zu: %u in place of %u. ", at, brought[at], bank[at]);
    expect("the code of a read of the copy", bank_code(bank_read(brought, len, MAIN_CABINET, PRICES, 0)), BANK_DONE);
    printf("A read is done there all the same.\n");
    answer = bank_compare_logs(brought, len, DRAWER, MAIN_CABINET);
    expect("the code", bank_code(answer), BANK_DONE);
    expect("the place", bank_value(answer), 2);
    expect("the taker", bank_who(answer), DRAWER);
    report("The copy", answer);

    /* Why it matters: the drawer's log no longer tells what it did. */
    expect("the code of a power loss", bank_code(bank_fuse(brought, len, DRAWER, 0)), BANK_DONE);
    expect("the code of a restart", bank_code(bank_restart(brought, len, DRAWER)), BANK_DONE);
    expect("the code of the first repeat", bank_code(bank_read(brought, len, DRAWER, PRICES, 0)), BANK_DONE);
    expect("the code of the second repeat", bank_code(bank_read(brought, len, DRAWER, SPECIALS, 0)), BANK_REPLAY_DIFFERS);
    printf("If the drawer loses its power there, its replay stops at the second access, code %u.\n", BANK_REPLAY_DIFFERS);

    /* A place alone is no damage: after a checkpoint the main cabinet's log begins anew, and the drawer's doesn't. */
    expect("the code of a checkpoint", bank_code(bank_checkpoint(bank, len, MAIN_CABINET)), BANK_DONE);
    answer = bank_compare_logs(bank, len, MAIN_CABINET, DRAWER);
    expect("the place after a checkpoint", bank_value(answer), 1);
    report("The bank as it was, after a checkpoint of board 0", answer);

    expect("the code of one board named twice", bank_code(bank_compare_logs(bank, len, DRAWER, DRAWER)), BANK_SAME_BOARD);
    return 0;
}
