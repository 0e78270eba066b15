/* The bank of a vending machine, for C and C++: boards that share pages of memory and come back after a power loss.
 *
 * A bank is one buffer of BANK_LENGTH(boards, pages) bytes, of any alignment. bank_make fills it, and bank_convert does from a bank
 * of the older form, of BANK_OLDER_LENGTH(boards, pages) bytes, which to the other calls is no bank; these work on a bank in place.
 * A bank of the earlier form, as long as today's, goes through bank_adopt once, before any other call. Every bank that a firmware without
 * bank_clean wrote, also one just adopted, goes through bank_clean once: the other calls want zero in all slots that hold no record.
 * Every call may be given any bytes and any numbers: what it can't use it refuses, and then it changes nothing.
 *
 * The caller promises two things. The pointer is valid for `len` bytes, to read and, where it isn't const, to write. Nobody else
 * touches these bytes until the call is back: no second thread, no interrupt, no DMA, and of several buffers none reaches into another.
 *
 * Link with libbank.a. It allocates nothing and keeps nothing between calls. */
#ifndef BANK_H
#define BANK_H

#include <stddef.h>
#include <stdint.h>

#ifdef __cplusplus
extern "C" {
#endif

enum {
    BANK_MOST_BOARDS = 8,      /* boards are 0 to boards - 1 */
    BANK_MOST_PAGES = 16,      /* pages are 0 to pages - 1 */
    BANK_PAGE_BYTES = 16,      /* offsets are 0 to 15 */
    BANK_LONGEST_FUSE = 65534, /* fuses are 1 to 65,534 stores; 0 takes the power now */
    BANK_MOST_CELLS = 32,      /* bank_shelf reads at most so many */
    BANK_LOG_RECORDS = 32      /* a board's log holds so many */
};

/* How many bytes a bank has: 2,385 for one board and one page, 25,188 at most. */
#define BANK_LENGTH(boards, pages) (4 + 2 * (size_t)(pages) + (size_t)(boards) * (2328 + 51 * (size_t)(pages)))

/* How many bytes a bank of the older form has, in which a board could make 65,535 accesses between two records: 2,191 to 23,636.
 * Its bytes 2 and 3 are its numbers of boards and pages, as in today's form. */
#define BANK_OLDER_LENGTH(boards, pages) (4 + 2 * (size_t)(pages) + (size_t)(boards) * (2134 + 51 * (size_t)(pages)))

/* What a call says. Under 1 to 7 and from 10 on nothing was done, except that an access which ended a replay keeps that end. */
enum bank_codes {
    BANK_DONE = 0,           /* Done. */
    BANK_MALFORMED = 1,      /* The bytes are no bank, or bank_make was given a wrong length. Sell nothing from it: bring back a good copy, or make a
                                new bank. If it has the older length, convert it. If the firmware was just updated, ask bank_adopt (from the earlier
                                form alone) and then call bank_clean: a bank of the earlier form with records may get 1 from the other calls, and
                                one with leftovers in its slots does. From bank_adopt: no bank of that form. From bank_clean: leftovers aren't all
                                that is wrong. From bank_convert: the new buffer has not BANK_LENGTH of the old bank's boards and pages, or the old
                                bytes are no bank of the older form. */
    BANK_OUT_OF_RANGE = 2,   /* A number is too large, or a size is 0. The caller is wrong: mend it. */
    BANK_WRONG_STATE = 3,    /* Board `who` is down: restart it. Or it is not down and needs no restart. Or it replays: no checkpoint until that is over. */
    BANK_COUNTERS_FULL = 4,  /* Board `who` made 4,294,967,295 accesses: its access number is used up, make a new bank. (In a bank that was made by
                                hand only the count since its last record may be used up: a checkpoint helps then.) */
    BANK_REPLAY_DIFFERS = 5, /* Board `who` replays, and this access isn't the one that its log goes on with: repeat its accesses exactly, in their order. */
    BANK_OWNER_NOT_UP = 6,   /* A page that the board lacks and nobody can give, of several such the lowest, belongs to board `who`, which is down or
                                replays: restart it, let it repeat its accesses, then try again. For a read nobody holds a copy either; a write needs
                                the owner in any case. */
    BANK_LOG_FULL = 7,       /* The log of board `who` has no room: checkpoint that board, then try again. It may be the reader or writer, the owner of a
                                page, or a board that holds a copy and would give it or lose it. */
    BANK_POWER_LOST = 8,     /* The fuse of board `who` blew in this call. It is down; what was stored before stands, this call was not finished:
                                restart it. */
    BANK_WRONG_CELLS = 10,   /* bank_shelf was given no cell, more than 32, half of one, or not one byte of `out` for each. The caller is wrong: mend it. */
    BANK_HAS_RECORDS = 11,   /* From bank_adopt and bank_convert: a log of the bank holds records, which name no board. Go back to the firmware that wrote
                                it, restart each board that is down, let every replay end; then, with no access in between, checkpoint each board
                                that has records twice (once leaves them in its other area), and come again. */
    BANK_SAME_BOARD = 12     /* bank_compare_logs was given one board twice. The caller is wrong: name two. */
};

/* Every call answers one number with four fields. The stores of all calls since bank_make add up to no more than the larger of pages + 2 and boards + 1
 * for each access, checkpoint and restart that answered 0 or 8, a bank_shelf counted once for each different page that it names (docs/WEAR.md). */
static inline uint32_t bank_code(uint64_t answer) { return (uint32_t)(answer & 255); }           /* one of bank_codes */
static inline uint32_t bank_who(uint64_t answer) { return (uint32_t)(answer >> 8 & 255); }       /* the board of codes 3 to 8, the taker of a comparison, else 0 */
static inline uint32_t bank_stores(uint64_t answer) { return (uint32_t)(answer >> 16 & 65535); } /* stores to stable memory in this call, under every code */
static inline uint32_t bank_value(uint64_t answer) { return (uint32_t)(answer >> 32); }          /* under code 0 of a read, a restart or a comparison, else 0 */

/* Makes a fresh bank: all boards up, page p owned by board p mod boards, all bytes of all pages 0. */
uint64_t bank_make(uint8_t *bank, size_t len, uint32_t boards, uint32_t pages);

/* A board reads a byte of a page (the value), or writes one. It fetches the page where it must: from its owner or, for a read while the owner is down or
 * replays, from the lowest-numbered board that holds a copy. */
uint64_t bank_read(uint8_t *bank, size_t len, uint32_t board, uint32_t page, uint32_t offset);
uint64_t bank_write(uint8_t *bank, size_t len, uint32_t board, uint32_t page, uint32_t offset, uint32_t value);

/* A board reads up to BANK_MOST_CELLS bytes, of any pages, as one access. `cells` has two bytes for each, its page and its offset; its byte goes to the
 * same place of `out`, so out_len is cells_len / 2. The board fetches the pages that it lacks, all or none. A cell may be asked for twice. The value is 0.
 * Under every code but 0 `out` is as it was. A board that replays repeats the call with the same cells in the same order. */
uint64_t bank_shelf(uint8_t *bank, size_t len, uint32_t board, const uint8_t *cells, size_t cells_len, uint8_t *out, size_t out_len);

/* Stores what a board holds in the other one of its two areas, with zero in all slots there, and empties its log: a restart begins here. */
uint64_t bank_checkpoint(uint8_t *bank, size_t len, uint32_t board);

/* Takes a board's power, also while it replays. With stores 0 the power is gone now, without a store: code 0, not 8. Call it so when a board
 * has lost its power; until then bank_restart answers 3. What the board held is gone, its checkpoint and its stored log stay. With 1 to
 * BANK_LONGEST_FUSE the power goes right after the board's `stores`-th next store, and the call that makes that store answers 8. A second
 * fuse takes the place of the first; only a power loss takes a fuse away. Code 3: the board is down already, there is nothing to do. */
uint64_t bank_fuse(uint8_t *bank, size_t len, uint32_t board, uint32_t stores);

/* Power is back. The value is the board's access number at its checkpoint: the board now repeats, from the next access on, what it
 * did after that, and gets the same bytes from its log. Where the log ends it goes on live. */
uint64_t bank_restart(uint8_t *bank, size_t len, uint32_t board);

/* Writes a bank of the older form anew, in today's: the same boards, pages and numbers, and zero in the slots of the logs, which are empty,
 * whatever the old slots hold.
 * `old` is only read; `new_bank` has BANK_LENGTH of its boards and pages, and every byte of it is written. From then on the new bank answers
 * every call as the old one, were its slots zero too, would have until that one's first code 4; where that one had made 65,535 accesses
 * since a record, the new one goes on. Under codes 1 and 11 nothing is written, and 1 comes first. */
uint64_t bank_convert(const uint8_t *old, size_t old_len, uint8_t *new_bank, size_t new_len);

/* Whether a bank of the earlier form (today's bytes, but byte 3 of a record is 0 where it now names a board, and slots without a record may hold
 * anything) can go on. Code 0: every log is empty, and after bank_clean it is a bank of today; until then the other calls answer 1 if a slot
 * holds something. Code 1: no bank of that form. Code 11: it has records. The bank is only read.
 * Call it once, at the first start after the update and before any other call: a 0 in byte 3 names board 0, so the other calls may take a bank
 * of the earlier form for their own, records and all, unless a log of board 0 has a record; then they answer 1. A bank of today gets 0
 * here while its logs are empty, else 1 or 11. */
uint64_t bank_adopt(const uint8_t *bank, size_t len);

/* Zeroes every slot that holds no record, in place: in the volatile log and in both areas of every board, where earlier firmware left what it no
 * longer needed. Code 0: the bank is one of today, for all other calls; no record and no other byte changed, a clean bank stays as it is, and
 * value, `who` and stores are 0. Code 1: leftovers aren't all that is wrong, and nothing is written. Call it once after an update: today's
 * calls leave nothing to clean. It takes a zero byte 3 of a record for board 0, so ask bank_adopt first where the bank may be of the earlier form. */
uint64_t bank_clean(uint8_t *bank, size_t len);

/* Holds the stored logs of two boards, in any states and named in either order, against each other; the bank is only read. Where one board gave
 * pages to the other, the i-th got of the taker that names the giver must have the page of the i-th shown of the giver that names the taker.
 * The value is the first i, from 1, whose page differs or that has no shown, and `who` is the taker; what the lower board gave comes first.
 * Value 0: there is none (a taker may be board 0, so look at the value). A shown without a got is no fault, nor is a got that isn't stored yet.
 *
 * A place means damage only of two boards that since bank_make neither lost their power nor were checkpointed (the end of a replay is a checkpoint
 * too), and made no call that answered 8: such boards never yield one, so copy the bank, take the machine out of service and look at that record
 * (./show names it). Of other boards it may mean no more than that the one log begins later than the other, or that a call or a log was cut off before a
 * got was stored. Of a bank that was converted or adopted nothing is promised. */
uint64_t bank_compare_logs(const uint8_t *bank, size_t len, uint32_t board, uint32_t other);

#ifdef __cplusplus
}
#endif

#endif
