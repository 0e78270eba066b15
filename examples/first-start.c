/* The first start after an update from the earlier firmware, whose log records named no board. bank_adopt says whether the new firmware may go on with the
 * bank, before any other call, and then bank_clean zeroes what that firmware left in slots; where it may not, the machine goes back to that firmware. */
#include "bank.h"
#include <stdio.h>
#include <stdlib.h>
#include <string.h>

enum { DISPLAY = 1, DRAWER, BOARDS };     /* board 0 has nothing to do here */
enum { PRICES = 2, PAGES, PRICE_AT = 0 }; /* page 2 is the drawer's */

/* What outlives the power: the bank, and beside it the firmware's own mark that it took the bank over. */
static struct {
    uint8_t adopted;
    uint8_t bank[BANK_LENGTH(BOARDS, PAGES)];
} memory;
static const size_t len = sizeof memory.bank;

enum next { GO_ON, BACK_TO_EARLIER_FIRMWARE, BRING_BACK_A_COPY };

/* What every start of the new firmware does first. The mark is stored before the first other call: from then on the log gets records that name boards, and
 * bank_adopt would refuse them. A power loss before the mark does no harm: bank_adopt writes nothing, and both may be called again. */
static enum next start(void) {
    if (memory.adopted) return GO_ON;
    switch (bank_code(bank_adopt(memory.bank, len))) {
    case BANK_DONE:
        if (bank_code(bank_clean(memory.bank, len)) != BANK_DONE) return BRING_BACK_A_COPY;
        memory.adopted = 1;
        return GO_ON;
    case BANK_HAS_RECORDS:
        return BACK_TO_EARLIER_FIRMWARE;
    default:
        return BRING_BACK_A_COPY;
    }
}

static void expect(const char *what, uint64_t is, uint64_t should) {
    if (is != should) {
        fprintf(stderr, "%s is %llu and should be %llu\n", what, (unsigned long long)is, (unsigned long long)should);
        exit(1);
    }
}

/* The bank as the earlier firmware left it. */
static void load(const char *name) {
    FILE *file = fopen(name, "rb");
    if (file == NULL) {
        perror(name);
        exit(1);
    }
    expect("the bank's length", fread(memory.bank, 1, len, file), len);
    fclose(file);
    memory.adopted = 0;
}

static uint64_t read_price(uint8_t *bank) { return bank_read(bank, len, DISPLAY, PRICES, PRICE_AT); }

int main(int count, char **names) {
    static uint8_t copy[sizeof memory.bank];
    expect("the number of files named", (uint64_t)count - 1, 2);

    load(names[2]);
    memcpy(copy, memory.bank, len);
    expect("what to do with records", start(), BACK_TO_EARLIER_FIRMWARE);
    expect("what became of the bank", (uint64_t)memcmp(copy, memory.bank, len), 0);
    printf("The bank has records of the earlier form: code %u. The earlier firmware goes on, with its bank as it was.\n", BANK_HAS_RECORDS);
    /* Only bank_adopt can tell: to other calls the zero byte of such a record may name board 0. */
    expect("the code of a read that nobody should make", bank_code(read_price(copy)), BANK_DONE);
    printf("A read would have been done, on a log that says the price came from board 0. It came from board %d.\n", DRAWER);

    load(names[1]);
    printf("The earlier firmware checkpoints boards %d and %d twice each. ", DISPLAY, DRAWER);
    /* The logs are empty, but the drawer's first area still has its two records, past the count. */
    expect("the code of an adoption", bank_code(bank_adopt(memory.bank, len)), BANK_DONE);
    expect("the code of a read before bank_clean", bank_code(read_price(memory.bank)), BANK_MALFORMED);
    expect("what to do after the checkpoints", start(), GO_ON);
    printf("Then code %u: bank_clean zeroes what the logs left, and the new firmware goes on.\n", BANK_DONE);
    uint64_t answer = read_price(memory.bank);
    expect("the code of a read", bank_code(answer), BANK_DONE);
    expect("the price", bank_value(answer), 130);
    expect("the code of a write", bank_code(bank_write(memory.bank, len, DRAWER, PRICES, PRICE_AT, 140)), BANK_DONE);
    expect("the new price", bank_value(read_price(memory.bank)), 140);
    printf("The display reads 130 and, when the drawer has changed it, 140.\n");
    expect("what the next start does", start(), GO_ON);
    expect("a second adoption, of records that name boards", bank_code(bank_adopt(memory.bank, len)), BANK_MALFORMED);
    printf("At the next start the mark says that the bank was taken over. A second bank_adopt would answer %u.\n", BANK_MALFORMED);

    load(names[1]);
    memory.bank[0] = 0;
    expect("what to do with damaged bytes", start(), BRING_BACK_A_COPY);
    printf("Damaged bytes: code %u. Bring back a good copy.\n", BANK_MALFORMED);
    return 0;
}
