/*
 * vcm.h - version controlled memory: the Rollback Chip of Fujimoto, Tsai and Gopalakrishnan (1988).
 *
 * A store is memory of 16 x L bytes in L lines of 16 bytes. MARK opens a new mark frame, ROLLBACK drops the newest frames and brings
 * back what was there before, ADVANCE folds the oldest frames into the archive. Nothing is copied at a mark, and a rollback
 * clears no written bit, but for the sweep that comes with one in 256.
 *
 * Link with libvcm.a (x86-64 Linux), which `tools/library` writes to target/staticlib and `tools/install PREFIX` puts where pkg-config
 * finds it. It calls memcpy and memset alone, allocates nothing and keeps nothing between calls: all that a store is lies in its state
 * and in the six pieces of memory that the caller lends.
 *
 *     static VCM_BLOCK(64, 16, 32) block;                                     memory for 64 lines, 16 frames and 32 pages
 *
 *     vcm_state state = vcm_blank();
 *     vcm_memory memory = vcm_parts(&block, sizeof block, 64, 16, 32);
 *     uint32_t refusal = vcm_reset(&state, &memory, 64, 16, 32);              0, and the store is open
 *
 * Every exported function is proved: it ends, it stays inside the lent memory, it is refused exactly for the reasons below (but 13 on
 * storage that CHECK rejects), and a refused call leaves state and lent memory untouched. It asks nothing of the state and of what the
 * lent memory holds. What a caller owes is C's own:
 *   - each pointer is aligned for its type and points to as many elements as its length says; it is never NULL, also for length 0, but
 *     for an empty list of vcm_write_block;
 *   - the elements, and the state, have been given some value, whatever it is: memory fresh from malloc has none, calloc's has;
 *   - the state, the six pieces, LINE's bytes and the two lists of a block of writes do not overlap;
 *   - no other thread touches them during a call.
 */
#ifndef VCM_H
#define VCM_H

#include <stddef.h>
#include <stdint.h>

/* CHANGELOG.md says what each version brought. */
#define VCM_VERSION "0.5.0"

/* A program does not compile where a struct has another size than in libvcm.a. C99 has no assertion for that, but there too an array of
 * negative size is an error. */
#if defined(__cplusplus)
#define VCM_HAS_SIZE(type, bytes) static_assert(sizeof(type) == (bytes), #type " has another size in libvcm.a")
#elif defined(__STDC_VERSION__) && __STDC_VERSION__ >= 201112L
#define VCM_HAS_SIZE(type, bytes) _Static_assert(sizeof(type) == (bytes), #type " has another size in libvcm.a")
#else
#define VCM_HAS_SIZE(type, bytes) typedef char vcm_size_of_##type[sizeof(type) == (bytes) ? 1 : -1]
#endif

/* Has the compiler warn of a call whose result nobody looks at, where it can. */
#if (defined(__cplusplus) && __cplusplus >= 201703L) || (defined(__STDC_VERSION__) && __STDC_VERSION__ >= 202311L)
#define VCM_MUST_CHECK [[nodiscard]]
#elif defined(__GNUC__)
#define VCM_MUST_CHECK __attribute__((warn_unused_result))
#else
#define VCM_MUST_CHECK
#endif

#ifdef __cplusplus
extern "C" {
#endif

/* ---- Settings ---------------------------------------------------------------------------------------------------------------------
 *
 *   lines   L: lines of 16 bytes. A multiple of 8 from 8 to 4,096.
 *   frames  F: mark frames, used in a circle. A multiple of 16 from 16 to 256.
 *   pages   P: data pages of 128 bytes. 1 to 4,096. A page holds 8 neighbouring lines of one frame.
 */

/* ---- Refusals ---------------------------------------------------------------------------------------------------------------------
 *
 * A call gives 0, or the first of these that holds. (1, 2 and 3 belong to the session runner.) The Rust crate has the same names.
 */
#define VCM_OK 0
#define VCM_REFUSAL_SETTINGS 4  /* L, F or P is outside its limits (vcm_reset, vcm_sizes) */
#define VCM_REFUSAL_STATE 5     /* the state given holds settings outside their limits, or a CMF or OMF outside 0 to F - 1 */
#define VCM_REFUSAL_MEMORY 6    /* a lent piece is shorter than vcm_sizes says */
#define VCM_REFUSAL_WIDTH 7     /* the width is not 1, 2 or 4 */
#define VCM_REFUSAL_ALIGNMENT 8 /* the address is not a multiple of the width */
#define VCM_REFUSAL_RANGE 9     /* the address plus the width passes 16 x L, or the line number is not below L */
#define VCM_REFUSAL_VALUE 10    /* the value needs more bytes than the width */
#define VCM_REFUSAL_MARKS 11    /* k is 0 or more than the marked states, which are one less than the live frames */
#define VCM_REFUSAL_FRAMES 12   /* MARK finds all F frames live */
#define VCM_REFUSAL_PAGES 13    /* WRITE's page in the current frame is not needed yet, and P pages are needed already */
#define VCM_REFUSAL_ANSWERS 14  /* the answer list is shorter than the write list (vcm_write_block, tested after 6) */

/* The names of before, for programs that use them. */
#define VCM_LIMITS VCM_REFUSAL_SETTINGS
#define VCM_BAD_STATE VCM_REFUSAL_STATE
#define VCM_LENT_SHORT VCM_REFUSAL_MEMORY
#define VCM_WIDTH VCM_REFUSAL_WIDTH
#define VCM_ALIGNMENT VCM_REFUSAL_ALIGNMENT
#define VCM_OUTSIDE VCM_REFUSAL_RANGE
#define VCM_VALUE VCM_REFUSAL_VALUE
#define VCM_MARKS VCM_REFUSAL_MARKS
#define VCM_FRAMES_FULL VCM_REFUSAL_FRAMES
#define VCM_PAGES_FULL VCM_REFUSAL_PAGES

/* What a number means, and what helps, in plain words: of 0, of each refusal, 1 to 3 among them, and "unknown" of any other number. Never
 * NULL. */
static inline const char *vcm_refusal_text(uint32_t refusal);

/* ---- Structs ----------------------------------------------------------------------------------------------------------------------
 *
 * No field is a bool or an enum: any bytes are a state. Treat the fields of a state as the library's own; they are listed so that a state
 * can be saved and looked at.
 */

/* The cache: 16 sets of two ways. The entry of a set's way is 2 x set + way. Size 752, alignment 4. */
typedef struct vcm_cache {
    uint32_t held[32];    /*   0: the line that the entry holds */
    uint16_t origins[32]; /* 128: the frame of the line's most recent version, or 65535 for the archive */
    uint8_t valid[32];    /* 192: 1 for a valid entry */
    uint8_t bytes[512];   /* 224: 16 for each entry */
    uint8_t last[16];     /* 736: for each set, the way used last */
} vcm_cache;

/* The settings and the registers of a store. The pool's pages are used in a circle: the needed ones lie next to each other, those of older
 * frames first. Size 32, alignment 4. */
typedef struct vcm_registers {
    uint32_t lines;  /*  0: L, or 0 in the blank state */
    uint32_t frames; /*  4: F */
    uint32_t pages;  /*  8: P */
    uint32_t cmf;    /* 12: the current frame */
    uint32_t omf;    /* 16: the oldest frame */
    uint32_t tag;    /* 20: the tag of the written bits set now */
    uint32_t first;  /* 24: the page where the needed ones start */
    uint32_t used;   /* 28: how many are needed from there on, round the pool */
} vcm_registers;

/* The state of a store. Size 784, alignment 4. */
typedef struct vcm_state {
    vcm_registers registers; /*  0 */
    vcm_cache cache;         /* 32 */
} vcm_state;

/* One WRITE of a block of writes. Size 12, alignment 4. */
typedef struct vcm_item {
    uint32_t width;   /* 0 */
    uint32_t address; /* 4 */
    uint32_t value;   /* 8 */
} vcm_item;

/* What a store needs of each lent piece, in BYTES. Refused, every size is 0. Size 56, alignment 8. */
typedef struct vcm_need {
    uint32_t refusal; /*  0 */
    size_t archive;   /*  8: uint8_t,  16 x L */
    size_t pool;      /* 16: uint8_t,  128 x P */
    size_t groups;    /* 24: uint32_t, L x F / 4 */
    size_t table;     /* 32: uint16_t, L x F / 4 */
    size_t owners;    /* 40: uint32_t, 4 x (P + L): the pages' owners, behind them a flag for each line */
    size_t history;   /* 48: uint16_t, 512 */
} vcm_need;

/* Where a line read was found. VCM_EMPTY: nowhere, no surviving write has touched the line, and the value is 0, in the cache or not; VCM_ARCHIVE
 * is for lines that ADVANCE has collected. */
#define VCM_ARCHIVE 0
#define VCM_FRAME 1
#define VCM_CACHE 2
#define VCM_EMPTY 3

/* READ's answer. Refused, the value is 0 and the origin VCM_ARCHIVE. Size 16, alignment 4. */
typedef struct vcm_reading {
    uint32_t refusal;    /*  0 */
    uint32_t value;      /*  4 */
    uint32_t origin;     /*  8: VCM_ARCHIVE, VCM_FRAME, VCM_CACHE or VCM_EMPTY */
    uint32_t marks_back; /* 12: for VCM_FRAME how many marks back the frame lies, 0 for the current one; else 0 */
} vcm_reading;

/* COUNTS' answer. Refused, both are 0. Size 12, alignment 4. */
typedef struct vcm_counted {
    uint32_t refusal; /* 0 */
    uint32_t live;    /* 4: live frames */
    uint32_t pages;   /* 8: pages needed */
} vcm_counted;

/* CHECK's answer. Refused, it is no. Size 8, alignment 4. */
typedef struct vcm_verdict {
    uint32_t refusal; /* 0 */
    uint32_t yes;     /* 4: 1 for yes, 0 for no */
} vcm_verdict;

VCM_HAS_SIZE(size_t, 8);
VCM_HAS_SIZE(vcm_cache, 752);
VCM_HAS_SIZE(vcm_registers, 32);
VCM_HAS_SIZE(vcm_state, 784);
VCM_HAS_SIZE(vcm_item, 12);
VCM_HAS_SIZE(vcm_need, 56);
VCM_HAS_SIZE(vcm_reading, 16);
VCM_HAS_SIZE(vcm_counted, 12);
VCM_HAS_SIZE(vcm_verdict, 8);

/* ---- Lent memory ------------------------------------------------------------------------------------------------------------------
 *
 * Every call is lent all six pieces, each as a pointer and its length in ELEMENTS: the bytes of vcm_sizes over the size of an element. A
 * longer piece is fine, and what lies past the need is never touched. They may lie anywhere; in one block they are had by vcm_parts.
 */
typedef struct vcm_memory {
    uint8_t *archive;
    size_t archive_len;
    uint8_t *pool;
    size_t pool_len;
    uint32_t *groups;
    size_t groups_len;
    uint16_t *table;
    size_t table_len;
    uint32_t *owners;
    size_t owners_len;
    uint16_t *history;
    size_t history_len;
} vcm_memory;

/* The bytes of each piece, as vcm_sizes says them, for settings within their limits. Constants where the settings are. */
#define VCM_ARCHIVE_BYTES(L) ((size_t)16 * (size_t)(L))
#define VCM_POOL_BYTES(P) ((size_t)128 * (size_t)(P))
#define VCM_GROUPS_BYTES(L, F) ((size_t)(L) * (size_t)(F) / 4)
#define VCM_TABLE_BYTES(L, F) ((size_t)(L) * (size_t)(F) / 4)
#define VCM_OWNERS_BYTES(L, P) ((size_t)4 * ((size_t)(P) + (size_t)(L)))
#define VCM_HISTORY_BYTES ((size_t)512)

/* Whether the settings are within their limits: 1 or 0. */
#define VCM_SETTINGS_FIT(L, F, P)                                                                                      \
    ((size_t)(L) >= 8 && (size_t)(L) <= 4096 && (size_t)(L) % 8 == 0 && (size_t)(F) >= 16 && (size_t)(F) <= 256 &&     \
     (size_t)(F) % 16 == 0 && (size_t)(P) >= 1 && (size_t)(P) <= 4096)

/* The bytes of all six pieces together, or 0 for settings outside their limits. Every piece is a multiple of 4 bytes, so that one lies
 * behind the other without a gap, in the order of vcm_memory. */
#define VCM_BLOCK_BYTES(L, F, P)                                                                                       \
    (VCM_SETTINGS_FIT(L, F, P) ? VCM_ARCHIVE_BYTES(L) + VCM_POOL_BYTES(P) + VCM_GROUPS_BYTES(L, F) +                   \
                                     VCM_TABLE_BYTES(L, F) + VCM_OWNERS_BYTES(L, P) + VCM_HISTORY_BYTES                \
                               : (size_t)0)

/* How a block is to be aligned. calloc's memory is, and an array of uint32_t; an array of char need not be. */
#define VCM_BLOCK_ALIGN 4

/* The type of a block of just these bytes, for memory that is declared:
 *
 *     static VCM_BLOCK(64, 16, 32) block;
 *
 * Settings outside their limits do not compile. Each piece is an array of its own type, so that a program may look at it as such; in an
 * array of uint32_t (block[VCM_BLOCK_BYTES(64, 16, 32) / 4], which serves as well) C lets it look by memcpy alone. */
#define VCM_BLOCK(L, F, P)                                                                                             \
    struct {                                                                                                           \
        uint8_t archive[VCM_ARCHIVE_BYTES(L)];                                                                         \
        uint8_t pool[VCM_POOL_BYTES(P)];                                                                               \
        uint32_t groups[VCM_GROUPS_BYTES(L, F) / 4];                                                                   \
        uint16_t table[VCM_TABLE_BYTES(L, F) / 2];                                                                     \
        uint32_t owners[VCM_OWNERS_BYTES(L, P) / 4];                                                                   \
        uint16_t history[VCM_SETTINGS_FIT(L, F, P) ? 256 : -1];                                                        \
    }

/* VCM_BLOCK_BYTES by a call, for settings that are known when the program runs: what to ask calloc for, or 0. */
static inline size_t vcm_block_bytes(uint32_t lines, uint32_t frames, uint32_t pages);

/* The six pieces in a block of so many bytes, one behind the other from its start on, each of exactly its need. Where the settings are
 * outside their limits or the block is NULL, not aligned or too short, all six have length 0, so that the vcm_reset which follows is
 * refused with 4 or 6: nothing is to be tested in between. */
static inline vcm_memory vcm_parts(void *block, size_t bytes, uint32_t lines, uint32_t frames, uint32_t pages);

/* ---- Calls ------------------------------------------------------------------------------------------------------------------------
 *
 * A store is started by vcm_reset on any state and any lent contents, say vcm_blank(). Each later call gets the state and the lent memory
 * just as the call before it, refused or not, left them. The calls that give a uint32_t give their refusal or 0. Those that change
 * the store, and READ and LINE, whose answer is worth nothing where they are refused, have the compiler warn of a result not looked at.
 */

/* The sizing call: the exact need of each piece. Refused: 4. */
vcm_need vcm_sizes(uint32_t lines, uint32_t frames, uint32_t pages);

/* The blank state, with L = 0. Every call but RESET refuses it with 5. */
vcm_state vcm_blank(void);

/* RESET: archive all zero, one live frame, no written bits, all pages free, every line empty, cache empty. Refused: 4, 6. */
VCM_MUST_CHECK static inline uint32_t vcm_reset(vcm_state *state, const vcm_memory *memory, uint32_t lines, uint32_t frames,
                                                uint32_t pages);

/* WRITE: width 1, 2 or 4 bytes, most significant byte first, to the current frame. Refused: 5, 6, 7, 8, 9, 10, 13. */
VCM_MUST_CHECK static inline uint32_t vcm_write(vcm_state *state, const vcm_memory *memory, uint32_t width,
                                                uint32_t address, uint32_t value);

/* A block of writes: the items in order, each just as a vcm_write of its own. answers[i] becomes the refusal of items[i] or 0: 7, 8, 9, 10 or
 * 13, where 13 is decided anew for each. A refused item changes nothing and the later ones are still tried, so that 0 says that all were
 * tried; whether each was accepted is for the answers to say. Answers past the last item stay as they are. Refused as a whole, nothing is
 * written and the answers stay. The lengths are of items and of answers; an empty list may be NULL. Refused: 5, 6, 14. */
VCM_MUST_CHECK static inline uint32_t vcm_write_block(vcm_state *state, const vcm_memory *memory, const vcm_item *items,
                                                      size_t items_len, uint32_t *answers, size_t answers_len);

/* READ: the value and its origin. The state's cache has the line afterwards. Refused: 5, 6, 7, 8, 9. */
VCM_MUST_CHECK static inline vcm_reading vcm_read(vcm_state *state, const vcm_memory *memory, uint32_t width, uint32_t address);

/* LINE: copies the 16 bytes of the line's most recent version; refused, they stay as they are. Changes nothing else, the cache included.
 * Refused: 5, 6, 9. */
VCM_MUST_CHECK static inline uint32_t vcm_line(const vcm_state *state, const vcm_memory *memory, uint32_t line, uint8_t bytes[16]);

/* LINE's companion: its refusal or 0, and no bytes. */
static inline uint32_t vcm_line_refusal(const vcm_state *state, const vcm_memory *memory, uint32_t line);

/* MARK: opens the next frame, without written bits. Refused: 5, 6, 12. */
VCM_MUST_CHECK static inline uint32_t vcm_mark(vcm_state *state, const vcm_memory *memory);

/* ROLLBACK: drops the k newest frames. The restored mark is used up. Refused: 5, 6, 11. */
VCM_MUST_CHECK static inline uint32_t vcm_rollback(vcm_state *state, const vcm_memory *memory, uint32_t k);

/* ADVANCE: folds the k oldest frames into the archive, newest version of each line winning, and frees them. Refused: 5, 6, 11. */
VCM_MUST_CHECK static inline uint32_t vcm_advance(vcm_state *state, const vcm_memory *memory, uint32_t k);

/* COUNTS: live frames, and pages needed. A page of a live frame is needed if a line in it was written there. Refused: 5, 6. */
static inline vcm_counted vcm_counts(const vcm_state *state, const vcm_memory *memory);

/* CHECK: yes exactly if state and lent memory are well-formed, as all storage reached from RESET is. On storage that CHECK rejects an
 * accepted call other than RESET and CHECK ends safely and its outcome is free, and so is whether WRITE gives 13. Refused: 5, 6. */
static inline vcm_verdict vcm_check(const vcm_state *state, const vcm_memory *memory);

/* ---- Snapshots --------------------------------------------------------------------------------------------------------------------
 *
 * A snapshot of a store is its state and all six pieces, each up to its need, as they are between two calls: copied whole, say by memcpy
 * the vcm_state and the first VCM_BLOCK_BYTES of a block. None of them can be left out, and nothing else is to be kept. No address is
 * among the bytes, so that they may be put back elsewhere; numbers lie in the machine's order. The registers tell the settings.
 *
 * After a snapshot is put back CHECK is to be asked. If it says yes the store can be used, and where the bytes are those taken it
 * answers as it did then. If it says no, or is refused with 5, they are not: every call is still safe there, but of what an accepted
 * one answers nothing is promised, RESET and CHECK apart. (6: less memory is lent than this store needs.) A yes is no proof that no byte
 * was changed, for other bytes may be a well-formed store too, another archive for one: keep a checksum where that is to be told.
 */

/* ---- What the library exports -----------------------------------------------------------------------------------------------------
 *
 * The functions above hand the state and the memory to these in their parts, where they lie: the registers as the array of their eight
 * numbers, the arrays of the cache that a call looks at, and each lent piece as its pointer and length, const where the call does not write
 * it. RESET and CHECK take the state by value. Those that give a uint32_t give the refusal or 0; refused, the registers stay as they are. A
 * language without C's headers declares these.
 */

/* The state after RESET, and its refusal or 0. Refused, the state is the one given. Size 788, alignment 4. */
typedef struct vcm_outcome {
    vcm_state state;  /*   0 */
    uint32_t refusal; /* 784 */
} vcm_outcome;

VCM_HAS_SIZE(vcm_outcome, 788);

vcm_outcome vcm_raw_reset(vcm_state state, uint8_t *archive, size_t archive_len, const uint8_t *pool, size_t pool_len,
                          uint32_t *groups, size_t groups_len, const uint16_t *table, size_t table_len, uint32_t *owners,
                          size_t owners_len, uint16_t *history, size_t history_len, uint32_t lines, uint32_t frames,
                          uint32_t pages);
uint32_t vcm_raw_write(uint32_t registers[8], uint32_t held[32], uint16_t origins[32], uint8_t valid[32], uint8_t bytes[512],
                       uint8_t last[16], const uint8_t *archive, size_t archive_len, uint8_t *pool, size_t pool_len,
                       uint32_t *groups, size_t groups_len, uint16_t *table, size_t table_len, uint32_t *owners, size_t owners_len,
                       const uint16_t *history, size_t history_len, uint32_t width, uint32_t address, uint32_t value);
/* The items as numbers: width, address and value of one after the other. items_len is three times their count; one or two numbers left
 * over at the end are no item. */
uint32_t vcm_raw_write_block(uint32_t registers[8], uint32_t held[32], uint16_t origins[32], uint8_t valid[32], uint8_t bytes[512],
                             uint8_t last[16], const uint8_t *archive, size_t archive_len, uint8_t *pool, size_t pool_len,
                             uint32_t *groups, size_t groups_len, uint16_t *table, size_t table_len, uint32_t *owners,
                             size_t owners_len, const uint16_t *history, size_t history_len, const uint32_t *items,
                             size_t items_len, uint32_t *answers, size_t answers_len);
vcm_reading vcm_raw_read(const uint32_t registers[8], uint32_t held[32], uint16_t origins[32], uint8_t valid[32], uint8_t bytes[512],
                         uint8_t last[16], const uint8_t *archive, size_t archive_len, const uint8_t *pool, size_t pool_len,
                         const uint32_t *groups, size_t groups_len, const uint16_t *table, size_t table_len, const uint32_t *owners,
                         size_t owners_len, const uint16_t *history, size_t history_len, uint32_t width, uint32_t address);
uint32_t vcm_raw_line(const uint32_t registers[8], const uint8_t *archive, size_t archive_len, const uint8_t *pool, size_t pool_len,
                      const uint32_t *groups, size_t groups_len, const uint16_t *table, size_t table_len, const uint32_t *owners,
                      size_t owners_len, const uint16_t *history, size_t history_len, uint32_t line, uint8_t bytes[16]);
uint32_t vcm_raw_line_refusal(const uint32_t registers[8], const uint8_t *archive, size_t archive_len, const uint8_t *pool,
                              size_t pool_len, const uint32_t *groups, size_t groups_len, const uint16_t *table, size_t table_len,
                              const uint32_t *owners, size_t owners_len, const uint16_t *history, size_t history_len,
                              uint32_t line);
uint32_t vcm_raw_mark(uint32_t registers[8], const uint8_t *archive, size_t archive_len, const uint8_t *pool, size_t pool_len,
                      const uint32_t *groups, size_t groups_len, const uint16_t *table, size_t table_len, const uint32_t *owners,
                      size_t owners_len, const uint16_t *history, size_t history_len);
uint32_t vcm_raw_rollback(uint32_t registers[8], const uint16_t origins[32], uint8_t valid[32], const uint8_t *archive,
                          size_t archive_len, const uint8_t *pool, size_t pool_len, uint32_t *groups, size_t groups_len,
                          const uint16_t *table, size_t table_len, const uint32_t *owners, size_t owners_len, uint16_t *history,
                          size_t history_len, uint32_t k);
uint32_t vcm_raw_advance(uint32_t registers[8], uint16_t origins[32], uint8_t *archive, size_t archive_len, const uint8_t *pool,
                         size_t pool_len, uint32_t *groups, size_t groups_len, const uint16_t *table, size_t table_len,
                         uint32_t *owners, size_t owners_len, uint16_t *history, size_t history_len, uint32_t k);
vcm_counted vcm_raw_counts(const uint32_t registers[8], const uint8_t *archive, size_t archive_len, const uint8_t *pool,
                           size_t pool_len, const uint32_t *groups, size_t groups_len, const uint16_t *table, size_t table_len,
                           const uint32_t *owners, size_t owners_len, const uint16_t *history, size_t history_len);
vcm_verdict vcm_raw_check(vcm_state state, const uint8_t *archive, size_t archive_len, const uint8_t *pool, size_t pool_len,
                          const uint32_t *groups, size_t groups_len, const uint16_t *table, size_t table_len,
                          const uint32_t *owners, size_t owners_len, const uint16_t *history, size_t history_len);

/* ---- The inline functions ------------------------------------------------------------------------------------------------------- */

/* The twelve arguments by which a memory is lent. */
#define VCM_LENT(m)                                                                                                    \
    (m)->archive, (m)->archive_len, (m)->pool, (m)->pool_len, (m)->groups, (m)->groups_len, (m)->table,                \
        (m)->table_len, (m)->owners, (m)->owners_len, (m)->history, (m)->history_len

/* The cache's five arrays. */
#define VCM_CACHE_OF(s) (s)->cache.held, (s)->cache.origins, (s)->cache.valid, (s)->cache.bytes, (s)->cache.last

/* The registers as the array that the library is lent, for a call that may write them and for one that only reads them. They are eight
 * uint32_t without a gap, by their size, and so an array of numbers: each is looked at as what it is, a uint32_t, which C's aliasing rule
 * allows. */
static inline uint32_t *vcm_lent_registers(vcm_state *state) {
    return (uint32_t *)(void *)&state->registers;
}

static inline const uint32_t *vcm_shown_registers(const vcm_state *state) {
    return (const uint32_t *)(const void *)&state->registers;
}

static inline const char *vcm_refusal_text(uint32_t refusal) {
    switch (refusal) {
    case VCM_OK:
        return "accepted";
    case 1:
        return "the line has more than 80 bytes: put one record on a line";
    case 2:
        return "the line is no record: a word and its numbers, with one tab between";
    case 3:
        return "the record comes before the first accepted reset: reset first";
    case VCM_REFUSAL_SETTINGS:
        return "L, F or P is outside its limits: L is a multiple of 8 from 8 to 4096, F a multiple of 16 from 16 to 256, P 1 to 4096";
    case VCM_REFUSAL_STATE:
        return "the state holds no store, its settings, CMF or OMF being outside their limits: reset it first";
    case VCM_REFUSAL_MEMORY:
        return "a lent piece of memory is shorter than the sizing call says: lend more, or reset with smaller settings";
    case VCM_REFUSAL_WIDTH:
        return "the width is not 1, 2 or 4 bytes: use one of these";
    case VCM_REFUSAL_ALIGNMENT:
        return "the address is not a multiple of the width: use one that is, or a smaller width";
    case VCM_REFUSAL_RANGE:
        return "the address or the line lies past the end: there are L lines, 16 x L bytes";
    case VCM_REFUSAL_VALUE:
        return "the value needs more bytes than the width: write it with a greater width";
    case VCM_REFUSAL_MARKS:
        return "k is 0 or more than the marks there are, which are one less than the live frames: ask COUNTS";
    case VCM_REFUSAL_FRAMES:
        return "no frame is left: advance, or roll back";
    case VCM_REFUSAL_PAGES:
        return "no page is left: advance, or roll back";
    case VCM_REFUSAL_ANSWERS:
        return "the answer list is shorter than the write list: lend an answer for each write";
    default:
        return "unknown";
    }
}

static inline size_t vcm_block_bytes(uint32_t lines, uint32_t frames, uint32_t pages) {
    vcm_need need = vcm_sizes(lines, frames, pages);
    return need.archive + need.pool + need.groups + need.table + need.owners + need.history;
}

static inline vcm_memory vcm_parts(void *block, size_t bytes, uint32_t lines, uint32_t frames, uint32_t pages) {
    static uint32_t nothing[1]; /* where pieces lie that have no block: aligned, and not NULL */
    vcm_need need = vcm_sizes(lines, frames, pages);
    uint8_t *at = (uint8_t *)block;
    vcm_memory memory;
    if (block == NULL || (uintptr_t)block % VCM_BLOCK_ALIGN != 0 || bytes < vcm_block_bytes(lines, frames, pages)) {
        need.archive = need.pool = need.groups = need.table = need.owners = need.history = 0;
        at = (uint8_t *)nothing;
    }
    memory.archive = at;
    memory.archive_len = need.archive;
    at += need.archive;
    memory.pool = at;
    memory.pool_len = need.pool;
    at += need.pool;
    memory.groups = (uint32_t *)(void *)at;
    memory.groups_len = need.groups / sizeof *memory.groups;
    at += need.groups;
    memory.table = (uint16_t *)(void *)at;
    memory.table_len = need.table / sizeof *memory.table;
    at += need.table;
    memory.owners = (uint32_t *)(void *)at;
    memory.owners_len = need.owners / sizeof *memory.owners;
    at += need.owners;
    memory.history = (uint16_t *)(void *)at;
    memory.history_len = need.history / sizeof *memory.history;
    return memory;
}

static inline uint32_t vcm_reset(vcm_state *state, const vcm_memory *memory, uint32_t lines, uint32_t frames, uint32_t pages) {
    vcm_outcome r = vcm_raw_reset(*state, VCM_LENT(memory), lines, frames, pages);
    *state = r.state;
    return r.refusal;
}

static inline uint32_t vcm_write(vcm_state *state, const vcm_memory *memory, uint32_t width, uint32_t address, uint32_t value) {
    return vcm_raw_write(vcm_lent_registers(state), VCM_CACHE_OF(state), VCM_LENT(memory), width, address, value);
}

/* An item is three uint32_t without a gap, by its size, so that a list of them is a list of numbers: each is looked at as what it is, a
 * uint32_t, which C's aliasing rule allows. */
static inline uint32_t vcm_write_block(vcm_state *state, const vcm_memory *memory, const vcm_item *items, size_t items_len,
                                       uint32_t *answers, size_t answers_len) {
    uint32_t nothing = 0; /* where an empty list lies: aligned, and not NULL */
    const uint32_t *numbers = items_len == 0 ? &nothing : (const uint32_t *)(const void *)items;
    return vcm_raw_write_block(vcm_lent_registers(state), VCM_CACHE_OF(state), VCM_LENT(memory), numbers, 3 * items_len,
                               answers_len == 0 ? &nothing : answers, answers_len);
}

static inline vcm_reading vcm_read(vcm_state *state, const vcm_memory *memory, uint32_t width, uint32_t address) {
    return vcm_raw_read(vcm_shown_registers(state), VCM_CACHE_OF(state), VCM_LENT(memory), width, address);
}

static inline uint32_t vcm_line(const vcm_state *state, const vcm_memory *memory, uint32_t line, uint8_t bytes[16]) {
    return vcm_raw_line(vcm_shown_registers(state), VCM_LENT(memory), line, bytes);
}

static inline uint32_t vcm_line_refusal(const vcm_state *state, const vcm_memory *memory, uint32_t line) {
    return vcm_raw_line_refusal(vcm_shown_registers(state), VCM_LENT(memory), line);
}

static inline uint32_t vcm_mark(vcm_state *state, const vcm_memory *memory) {
    return vcm_raw_mark(vcm_lent_registers(state), VCM_LENT(memory));
}

static inline uint32_t vcm_rollback(vcm_state *state, const vcm_memory *memory, uint32_t k) {
    return vcm_raw_rollback(vcm_lent_registers(state), state->cache.origins, state->cache.valid, VCM_LENT(memory), k);
}

static inline uint32_t vcm_advance(vcm_state *state, const vcm_memory *memory, uint32_t k) {
    return vcm_raw_advance(vcm_lent_registers(state), state->cache.origins, VCM_LENT(memory), k);
}

static inline vcm_counted vcm_counts(const vcm_state *state, const vcm_memory *memory) {
    return vcm_raw_counts(vcm_shown_registers(state), VCM_LENT(memory));
}

static inline vcm_verdict vcm_check(const vcm_state *state, const vcm_memory *memory) {
    return vcm_raw_check(*state, VCM_LENT(memory));
}

#ifdef __cplusplus
}
#endif

#endif
