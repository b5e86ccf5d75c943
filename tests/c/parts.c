/*
 * vcm_parts: where the pieces lie, what it does with a block that will not do, and that a store in a block of just its need works and
 * touches nothing else.
 */
#include "expect.h"

enum { ROOM = 1200000, AROUND = 64 };

/* Bytes behind one another without a gap, from the block's start to the need's end: so no two overlap and none lies outside. */
static void lie_in_order(const vcm_memory *m, const void *block, const vcm_need *need) {
    const uint8_t *start = (const uint8_t *)block;
    expect((const uint8_t *)m->archive == start);
    expect((const uint8_t *)m->pool == start + need->archive);
    expect((const uint8_t *)m->groups == start + need->archive + need->pool);
    expect((const uint8_t *)m->table == start + need->archive + need->pool + need->groups);
    expect((const uint8_t *)m->owners == start + need->archive + need->pool + need->groups + need->table);
    expect((const uint8_t *)m->history == start + need->archive + need->pool + need->groups + need->table + need->owners);
    expect(m->archive_len * sizeof *m->archive == need->archive);
    expect(m->pool_len * sizeof *m->pool == need->pool);
    expect(m->groups_len * sizeof *m->groups == need->groups);
    expect(m->table_len * sizeof *m->table == need->table);
    expect(m->owners_len * sizeof *m->owners == need->owners);
    expect(m->history_len * sizeof *m->history == need->history);
    expect((uintptr_t)m->groups % 4 == 0 && (uintptr_t)m->owners % 4 == 0);
    expect((uintptr_t)m->table % 2 == 0 && (uintptr_t)m->history % 2 == 0);
}

/* Lengths of 0, but pointers that a call may be given. */
static void lends_nothing(const vcm_memory *m) {
    expect(m->archive_len == 0 && m->pool_len == 0 && m->groups_len == 0);
    expect(m->table_len == 0 && m->owners_len == 0 && m->history_len == 0);
    expect(m->archive != NULL && m->pool != NULL && m->groups != NULL);
    expect(m->table != NULL && m->owners != NULL && m->history != NULL);
    expect((uintptr_t)m->groups % 4 == 0 && (uintptr_t)m->owners % 4 == 0);
    expect((uintptr_t)m->table % 2 == 0 && (uintptr_t)m->history % 2 == 0);
}

static void refuses(void *block, size_t bytes, uint32_t l, uint32_t f, uint32_t p, uint32_t refusal) {
    vcm_state state = vcm_blank();
    vcm_memory memory = vcm_parts(block, bytes, l, f, p);
    lends_nothing(&memory);
    expect(vcm_reset(&state, &memory, l, f, p) == refusal);
}

/* A block of just the need, in the middle of other bytes, whatever they hold: the store works there, and those stay. */
static void works(uint8_t *room, uint32_t l, uint32_t f, uint32_t p, uint8_t fill) {
    size_t bytes = vcm_block_bytes(l, f, p);
    void *block = room + AROUND;
    memset(room, fill, bytes + 2 * AROUND);
    vcm_state state = vcm_blank();
    vcm_memory memory = vcm_parts(block, bytes, l, f, p);
    expect(vcm_reset(&state, &memory, l, f, p) == VCM_OK);
    expect(vcm_write(&state, &memory, 4, 16 * l - 4, 305419896) == VCM_OK);
    expect(vcm_mark(&state, &memory) == VCM_OK);
    /* the same page of the new frame needs a second one */
    uint32_t second = p == 1 ? VCM_REFUSAL_PAGES : VCM_OK;
    expect(vcm_write(&state, &memory, 2, 16 * l - 4, 7) == second);
    vcm_reading reading = vcm_read(&state, &memory, 4, 16 * l - 4);
    expect(reading.refusal == VCM_OK && reading.value == (p == 1 ? 305419896u : 0x75678u));
    expect(vcm_rollback(&state, &memory, 1) == VCM_OK);
    reading = vcm_read(&state, &memory, 4, 16 * l - 4);
    expect(reading.refusal == VCM_OK && reading.value == 305419896);
    expect(vcm_mark(&state, &memory) == VCM_OK);
    expect(vcm_advance(&state, &memory, 1) == VCM_OK);
    vcm_counted counts = vcm_counts(&state, &memory);
    expect(counts.refusal == VCM_OK && counts.live == 1 && counts.pages == 0);
    vcm_verdict verdict = vcm_check(&state, &memory);
    expect(verdict.refusal == VCM_OK && verdict.yes == 1);
    for (size_t i = 0; i < AROUND; i++) {
        expect(room[i] == fill && room[AROUND + bytes + i] == fill);
    }
}

/* The members of a block's type are the pieces. */
static void is_typed(void) {
    static VCM_BLOCK(72, 48, 33) block;
    vcm_memory memory = vcm_parts(&block, sizeof block, 72, 48, 33);
    expect(memory.archive == block.archive && memory.archive_len == sizeof block.archive);
    expect(memory.pool == block.pool && memory.pool_len == sizeof block.pool);
    expect(memory.groups == block.groups && memory.groups_len == sizeof block.groups / 4);
    expect(memory.table == block.table && memory.table_len == sizeof block.table / 2);
    expect(memory.owners == block.owners && memory.owners_len == sizeof block.owners / 4);
    expect(memory.history == block.history && memory.history_len == sizeof block.history / 2);
    vcm_state state = vcm_blank();
    expect(vcm_reset(&state, &memory, 72, 48, 33) == VCM_OK);
    /* settings that fit in: longer pieces than the need are fine. Larger ones are refused. */
    expect(vcm_reset(&state, &memory, 64, 16, 1) == VCM_OK);
    expect(vcm_reset(&state, &memory, 80, 48, 33) == VCM_REFUSAL_MEMORY);
    expect(vcm_reset(&state, &memory, 72, 64, 33) == VCM_REFUSAL_MEMORY);
    expect(vcm_reset(&state, &memory, 72, 48, 34) == VCM_REFUSAL_MEMORY);
    /* an array of words serves as well */
    static uint32_t words[VCM_BLOCK_BYTES(64, 16, 32) / 4];
    memory = vcm_parts(words, sizeof words, 64, 16, 32);
    expect(vcm_reset(&state, &memory, 64, 16, 32) == VCM_OK);
}

int main(void) {
    static const uint32_t pages[] = {1, 2, 3, 5, 31, 256, 4095, 4096};
    unsigned long parted = 0;
    uint8_t *room = (uint8_t *)calloc(ROOM, 1);
    expect(room != NULL);
    for (uint32_t l = 8; l <= 4096; l += 8) {
        for (uint32_t f = 16; f <= 256; f += 16) {
            for (size_t i = 0; i < sizeof pages / sizeof *pages; i++) {
                uint32_t p = pages[i];
                vcm_need need = vcm_sizes(l, f, p);
                size_t bytes = vcm_block_bytes(l, f, p);
                expect(bytes <= ROOM);
                vcm_memory memory = vcm_parts(room, bytes, l, f, p);
                lie_in_order(&memory, room, &need);
                memory = vcm_parts(room, ROOM, l, f, p);
                lie_in_order(&memory, room, &need);
                memory = vcm_parts(room, bytes - 1, l, f, p);
                lends_nothing(&memory);
                parted++;
            }
        }
    }
    size_t need = vcm_block_bytes(64, 16, 32);
    refuses(room, need - 1, 64, 16, 32, VCM_REFUSAL_MEMORY);
    refuses(room, 0, 64, 16, 32, VCM_REFUSAL_MEMORY);
    refuses(NULL, need, 64, 16, 32, VCM_REFUSAL_MEMORY);
    refuses(NULL, 0, 64, 16, 32, VCM_REFUSAL_MEMORY);
    for (size_t off = 1; off < VCM_BLOCK_ALIGN; off++) {
        refuses(room + off, need, 64, 16, 32, VCM_REFUSAL_MEMORY);
    }
    refuses(room, ROOM, 65, 16, 32, VCM_REFUSAL_SETTINGS);
    refuses(room, ROOM, 64, 17, 32, VCM_REFUSAL_SETTINGS);
    refuses(room, ROOM, 64, 16, 0, VCM_REFUSAL_SETTINGS);
    refuses(NULL, 0, 0, 0, 0, VCM_REFUSAL_SETTINGS);
    works(room, 8, 16, 1, 0);
    works(room, 8, 16, 1, 0xff);
    works(room, 64, 16, 32, 0x5a);
    works(room, 72, 48, 33, 0xff);
    works(room, 4096, 256, 4096, 0xff);
    is_typed();
    free(room);
    printf("parts: %lu settings parted\n", parted);
    return 0;
}
