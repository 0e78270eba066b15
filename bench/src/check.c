/* Whether bytes are a well-formed bank: a yardstick for the archive's accept. Written by hand from document 01 ("Bytes of a bank"), with the widths of F-2,
 * the board that F-6 names in a record and the zero slots of F-8, and docs/FORMAT.md, without sight of either engine's check. C11 with a pragma of
 * gcc's and its vectors, of the 16 bytes that every x86-64 has, as quick as that goes. The documents' own words stand in quotation marks. */
#include <stddef.h>
#include <stdint.h>
#include <string.h>

enum { U8 = 1, U16 = 2, U32 = 4, BITS_OF_A_BYTE = 8 };

enum { MOST_BOARDS = 8, MOST_PAGES = 16, PAGE_BYTES = 16, LOG_SLOTS = 32, AREAS = 2 };

enum { FIRST_BYTE = 66, SECOND_BYTE = 75 };
enum { UP = 0, DOWN = 1, REPLAYING = 2 }; /* Document 01 says dark for down. */
enum { NONE = 0, COPY = 1, OWN = 2 };
enum { BLOWN = 0, NO_FUSE = 65535 };

/* Two bytes side by side, as one number. */
#define PAIR(first, second) ((first) | (second) << BITS_OF_A_BYTE)
enum { GOT_COPY = PAIR('G', 'C'), GOT_OWN = PAIR('G', 'O'), SHOWN = PAIR('S', 'H'), DROPPED = PAIR('D', 'R') };
enum { TOP_BIT = 128, TOP_BITS = PAIR(TOP_BIT, TOP_BIT) };

/* Where a field starts: where the one before it does, and that one's width. */
enum { HEAD_FIRST = 0, HEAD_SECOND = HEAD_FIRST + U8, HEAD_BOARDS = HEAD_SECOND + U8, HEAD_PAGES = HEAD_BOARDS + U8, HEAD_BYTES = HEAD_PAGES + U8 };
enum { ENTRY_OWNER = 0, ENTRY_COPIES = ENTRY_OWNER + U8, ENTRY_BYTES = ENTRY_COPIES + U8 };
enum { FRAME_RIGHT = 0, FRAME_PAGE = FRAME_RIGHT + U8, FRAME_BYTES = FRAME_PAGE + PAGE_BYTES };
enum {
    SLOT_MARK = 0,
    SLOT_PAGE = SLOT_MARK + U16,
    SLOT_BOARD = SLOT_PAGE + U8,
    SLOT_COUNT = SLOT_BOARD + U8,
    SLOT_CONTENT = SLOT_COUNT + U32,
    SLOT_BYTES = SLOT_CONTENT + PAGE_BYTES,
    LOG_BYTES = LOG_SLOTS * SLOT_BYTES
};
/* Behind an area's frames stand its slots; behind a block's the volatile slots and both areas. */
enum { AREA_NUMBER = 0, AREA_STORED = AREA_NUMBER + U32, AREA_FRAMES = AREA_STORED + U8 };
enum {
    BLOCK_STATE = 0,
    BLOCK_SELECTOR = BLOCK_STATE + U8,
    BLOCK_FUSE = BLOCK_SELECTOR + U8,
    BLOCK_NUMBER = BLOCK_FUSE + U16,
    BLOCK_SINCE = BLOCK_NUMBER + U32,
    BLOCK_PLACE = BLOCK_SINCE + U32,
    BLOCK_VOLATILE = BLOCK_PLACE + U8,
    BLOCK_FRAMES = BLOCK_VOLATILE + U8
};

/* Lengths, by that of a list of frames. */
#define AREA_BYTES(frames) (AREA_FRAMES + (frames) + LOG_BYTES)
#define BLOCK_BYTES(frames) (BLOCK_FRAMES + (frames) + LOG_BYTES + AREAS * AREA_BYTES(frames))
#define BANK_BYTES(boards, pages) (HEAD_BYTES + ENTRY_BYTES * (pages) + (boards) * BLOCK_BYTES(FRAME_BYTES * (pages)))

_Static_assert(BLOCK_BYTES(0) == 2328 && BLOCK_BYTES(FRAME_BYTES) == 2328 + 51, "F-2: a block has 2328 + 51P bytes");
_Static_assert(BANK_BYTES(1, 1) == 2385, "F-2: a bank of N 1, P 1 has 2,385");
_Static_assert(PAGE_BYTES == 2 * sizeof(uint64_t), "a page is two words");

enum { VECTOR = 16 };
typedef uint64_t two_words __attribute__((vector_size(VECTOR)));

_Static_assert(SLOT_BYTES >= sizeof(two_words), "a slot has a vector's bytes");

/* Page by page the right that the directory gives each board, and the boards that some copy-set names. */
struct directory {
    uint8_t rights[MOST_PAGES * MOST_BOARDS];
    unsigned holders;
};

/* A down board's rights. */
static const uint8_t no_rights[MOST_PAGES * MOST_BOARDS];

static uint16_t two_bytes(const uint8_t *at) {
    return (uint16_t)(at[0] | at[U8] << BITS_OF_A_BYTE);
}

/* These two are only held against zero, so the machine's order of bytes is as good as any. */
static uint32_t four_bytes(const uint8_t *at) {
    uint32_t word;
    memcpy(&word, at, sizeof word);
    return word;
}

static uint64_t eight_bytes(const uint8_t *at) {
    uint64_t word;
    memcpy(&word, at, sizeof word);
    return word;
}

static int zero_page(const uint8_t *page) {
    return (eight_bytes(page) | eight_bytes(page + sizeof(uint64_t))) == 0;
}

/* "A frame is a right (0 none, 1 copy, 2 own) and 16 page bytes, all zero under right 0." Not as one expression, for which gcc takes more instructions. */
static int frame_fits(const uint8_t *frame) {
    if (frame[FRAME_RIGHT] == NONE) {
        if (!zero_page(frame + FRAME_PAGE)) return 0;
    } else if (frame[FRAME_RIGHT] > OWN) {
        return 0;
    }
    return 1;
}

/* A replaying board may hold any right. Its working frame of a page and those of its areas stand equally far into their lists: one loop takes all three. */
static int any_frames_fit(const uint8_t *working, const uint8_t *first, const uint8_t *second, size_t frames) {
    for (size_t at = 0; at < frames; at += FRAME_BYTES) {
        if (!frame_fits(working + at)) return 0;
        if (!frame_fits(first + at)) return 0;
        if (!frame_fits(second + at)) return 0;
    }
    return 1;
}

/* The same where the rights are known: "an up board's rights agree with the directory", a down board has none. */
static int known_frames_fit(const uint8_t *working, const uint8_t *first, const uint8_t *second, size_t frames, const uint8_t *rights) {
    for (size_t at = 0, of_page = 0; at < frames; at += FRAME_BYTES, of_page += MOST_BOARDS) {
        if (working[at + FRAME_RIGHT] != rights[of_page]) return 0;
        if (rights[of_page] == NONE) {
            if (!zero_page(working + at + FRAME_PAGE)) return 0;
        }
        if (!frame_fits(first + at)) return 0;
        if (!frame_fits(second + at)) return 0;
    }
    return 1;
}

/* "The 16 bytes are the page for got, else zero." */
static int content_fits(const uint8_t *slot) {
    switch (two_bytes(slot + SLOT_MARK)) {
    case GOT_COPY:
    case GOT_OWN:
        return 1;
    case SHOWN:
    case DROPPED:
        return zero_page(slot + SLOT_CONTENT);
    default:
        return 0;
    }
}

/* A record's page and the board that it names, as one number. The result has a byte's top bit if the page isn't below P, the board isn't below N or is the
 * log's own: a byte from 128 up has it, one from its limit up gets it when the room is added, the own board, 0 after the XOR, when 1 is taken off. */
static unsigned misnamed(unsigned named, unsigned room, unsigned own) {
    return named | (named + room) | ((named ^ own) - PAIR(0, 1));
}

/* Four to a turn, and what they name judged behind the last, is quicker where logs are full; the first line spares empty ones a call. */
static int records_fit(const uint8_t *slot, size_t count, unsigned room, unsigned own) {
    if (count == 0) return 1;
    unsigned faults = 0;
    const uint8_t *end = slot + count * SLOT_BYTES;
#pragma GCC unroll 4
    for (; slot != end; slot += SLOT_BYTES) {
        faults |= misnamed(two_bytes(slot + SLOT_PAGE), room, own);
        if (!content_fits(slot)) return 0;
    }
    return (faults & TOP_BITS) == 0;
}

static two_words sixteen_bytes(const uint8_t *at) {
    two_words words;
    memcpy(&words, at, sizeof words);
    return words;
}

/* The same from a multiple of 16, which never spans two lines of the cache. */
static two_words aligned_bytes(const uint8_t *at) {
    return sixteen_bytes(__builtin_assume_aligned(at, VECTOR));
}

/* All bytes of a log's slots at or past its count, ORed into 16: the first 16 and the last, wherever they stand, and the aligned ones between, of which the
 * four of a turn don't wait for each other. */
static two_words past_count(const uint8_t *slots, size_t count) {
    const uint8_t *start = slots + count * SLOT_BYTES, *end = slots + LOG_BYTES;
    two_words first = {0}, second = {0}, third = {0}, fourth = {0};
    if (start == end) return first;
    first = sixteen_bytes(start);
    second = sixteen_bytes(end - VECTOR);
    const uint8_t *at = start + (-(uintptr_t)start & (VECTOR - 1));
    for (; end - at >= 4 * VECTOR; at += 4 * VECTOR) {
        first |= aligned_bytes(at);
        second |= aligned_bytes(at + VECTOR);
        third |= aligned_bytes(at + 2 * VECTOR);
        fourth |= aligned_bytes(at + 3 * VECTOR);
    }
    for (; end - at >= VECTOR; at += VECTOR) first |= aligned_bytes(at);
    return first | second | third | fourth;
}

static int block_fits(const uint8_t *block, size_t board, uint8_t boards, uint8_t pages, const struct directory *directory) {
    size_t frames = (size_t)pages * FRAME_BYTES;
    const uint8_t *working = block + BLOCK_FRAMES;
    const uint8_t *first = working + frames + LOG_BYTES;
    const uint8_t *second = first + AREA_BYTES(frames);

    /* "stored plus volatile at most 32 for the selected area, stored at most 32 in either" */
    unsigned selector = block[BLOCK_SELECTOR], volatile_count = block[BLOCK_VOLATILE];
    unsigned first_stored = first[AREA_STORED], second_stored = second[AREA_STORED];
    if (selector >= AREAS || first_stored > LOG_SLOTS || second_stored > LOG_SLOTS) return 0;
    unsigned stored = selector == 0 ? first_stored : second_stored;
    if (stored + volatile_count > LOG_SLOTS) return 0;

    unsigned fuse = two_bytes(block + BLOCK_FUSE), place = block[BLOCK_PLACE];
    unsigned holds_copies = directory->holders >> board & 1;
    const uint8_t *rights = NULL;
    switch (block[BLOCK_STATE]) {
    case UP:
        if (fuse == BLOWN || place != 0) return 0;
        rights = directory->rights + board;
        break;
    case DOWN: /* "a dark board has access number, since, volatile count and frames zero and no fuse", "a board not up is in no copy-set" */
        if (fuse != NO_FUSE || place != 0 || volatile_count != 0 || holds_copies) return 0;
        if ((four_bytes(block + BLOCK_NUMBER) | four_bytes(block + BLOCK_SINCE)) != 0) return 0;
        rights = no_rights;
        break;
    case REPLAYING: /* "place 0 unless replaying, and then below the selected stored count; a replaying board has no volatile record" */
        if (fuse == BLOWN || place >= stored || volatile_count != 0 || holds_copies) return 0;
        break;
    default:
        return 0;
    }

    first += AREA_FRAMES;
    second += AREA_FRAMES;
    if (rights == NULL) {
        if (!any_frames_fit(working, first, second, frames)) return 0;
    } else {
        if (!known_frames_fit(working, first, second, frames, rights)) return 0;
    }
    const uint8_t *volatile_slots = working + frames, *first_slots = first + frames, *second_slots = second + frames;
    /* "every slot at or past a count to be zero" */
    two_words past = past_count(volatile_slots, volatile_count) | past_count(first_slots, first_stored) | past_count(second_slots, second_stored);
    if ((past[0] | past[1]) != 0) return 0;
    /* What a byte at its limit lacks to its top bit, and the log's own board where a record would name it. */
    unsigned room = PAIR(TOP_BIT - pages, TOP_BIT - boards), own = PAIR(0, (unsigned)board);
    return records_fit(volatile_slots, volatile_count, room, own) && records_fit(first_slots, first_stored, room, own) &&
           records_fit(second_slots, second_stored, room, own);
}

/* "no copy-set bit at or past N", "The owner's bit is 0." On the way it notes what the blocks are held against. */
static int directory_fits(const uint8_t *entry, uint8_t boards, uint8_t pages, struct directory *directory) {
    directory->holders = 0;
    for (size_t page = 0; page < pages; page++, entry += ENTRY_BYTES) {
        unsigned owner = entry[ENTRY_OWNER], copies = entry[ENTRY_COPIES];
        if (owner >= boards) return 0;
        uint8_t *rights = directory->rights + page * MOST_BOARDS;
        memset(rights, NONE, MOST_BOARDS);
        rights[owner] = OWN;
        if (copies == 0) continue;
        if (copies >> boards != 0 || (copies >> owner & 1) != 0) return 0;
        for (size_t board = 0; board < boards; board++) {
            if (copies >> board & 1) rights[board] = COPY;
        }
        directory->holders |= copies;
    }
    return 1;
}

/* 1 if the bytes are a well-formed bank, else 0. They may be any bytes, of any length. */
int check_bank(const uint8_t *bank, size_t len) {
    if (len < HEAD_BYTES || bank[HEAD_FIRST] != FIRST_BYTE || bank[HEAD_SECOND] != SECOND_BYTE) return 0;
    uint8_t boards = bank[HEAD_BOARDS], pages = bank[HEAD_PAGES];
    if (boards < 1 || boards > MOST_BOARDS || pages < 1 || pages > MOST_PAGES) return 0;
    if (len != BANK_BYTES((size_t)boards, (size_t)pages)) return 0;

    struct directory directory;
    if (!directory_fits(bank + HEAD_BYTES, boards, pages, &directory)) return 0;
    const uint8_t *block = bank + HEAD_BYTES + (size_t)pages * ENTRY_BYTES;
    size_t block_bytes = BLOCK_BYTES((size_t)pages * FRAME_BYTES);
    for (size_t board = 0; board < boards; board++, block += block_bytes) {
        if (!block_fits(block, board, boards, pages, &directory)) return 0;
    }
    return 1;
}
