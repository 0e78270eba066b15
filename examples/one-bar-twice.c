/* One chocolate bar is bought twice: live, and once more from the log after a power loss. Credit and stock must tell of one sale. */
#include "bank.h"
#include <stdio.h>
#include <stdlib.h>

enum { COINS, SHELF, BOARDS };       /* board 0 takes the coins, board 1 moves the bars */
enum { CREDIT, STOCK, PAGES };       /* page 0 is board 0's at first, page 1 board 1's */
enum { PRICE = 120, COUNTED_AT = 0 }; /* both numbers stand at offset 0 of their page */

static uint8_t *bank;
static const size_t len = BANK_LENGTH(BOARDS, PAGES);

/* What a call gave, or the end of this program if it was refused. */
static uint32_t done(const char *what, uint64_t answer) {
    if (bank_code(answer) != BANK_DONE) {
        fprintf(stderr, "%s: code %u, board %u\n", what, bank_code(answer), bank_who(answer));
        exit(1);
    }
    return bank_value(answer);
}

static uint32_t read_on(uint32_t board, uint32_t page) { return done("read", bank_read(bank, len, board, page, COUNTED_AT)); }

static void write_on(uint32_t board, uint32_t page, uint32_t value) {
    done("write", bank_write(bank, len, board, page, COUNTED_AT, value));
}

struct sale {
    uint32_t credit, stock; /* as the shelf's board read them */
};

/* The shelf's board sells a bar. It doesn't know whether it does so for the first time. */
static struct sale sell(const char *when) {
    struct sale sale;
    sale.credit = read_on(SHELF, CREDIT);
    write_on(SHELF, CREDIT, sale.credit - PRICE);
    sale.stock = read_on(SHELF, STOCK);
    write_on(SHELF, STOCK, sale.stock - 1);
    printf("%s: credit %u, price %u, %u left; stock %u, %u left\n", when, sale.credit, PRICE, sale.credit - PRICE, sale.stock, sale.stock - 1);
    return sale;
}

static void expect(const char *what, uint32_t is, uint32_t should) {
    if (is != should) {
        fprintf(stderr, "%s is %u and should be %u\n", what, is, should);
        exit(1);
    }
}

int main(void) {
    bank = malloc(len);
    if (bank == NULL) {
        fprintf(stderr, "no memory\n");
        return 1;
    }
    done("make", bank_make(bank, len, BOARDS, PAGES));
    write_on(COINS, CREDIT, 200);
    write_on(SHELF, STOCK, 5);
    done("checkpoint", bank_checkpoint(bank, len, SHELF));
    printf("A bank of %d boards and %d pages, %zu bytes. A customer puts in 200, the shelf holds 5 bars.\n", BOARDS, PAGES, len);

    struct sale live = sell("Live        ");
    expect("credit on the coins' board", read_on(COINS, CREDIT), 80);
    expect("stock on the coins' board", read_on(COINS, STOCK), 4);
    printf("The coins' board reads credit 80 and stock 4, and gives change.\n");

    done("fuse", bank_fuse(bank, len, SHELF, 0));
    uint32_t from = done("restart", bank_restart(bank, len, SHELF));
    printf("The shelf's board loses its power. It starts again after its access %u and repeats what it did.\n", from);
    expect("the access number of the checkpoint", from, 1);

    struct sale again = sell("From the log");
    expect("the repeated credit", again.credit, live.credit);
    expect("the repeated stock", again.stock, live.stock);

    for (uint32_t board = 0; board < BOARDS; board++) {
        expect("credit at the end", read_on(board, CREDIT), 80);
        expect("stock at the end", read_on(board, STOCK), 4);
    }
    printf("Both boards read credit 80 and stock 4: one bar was sold, not two.\n");
    free(bank);
    return 0;
}
