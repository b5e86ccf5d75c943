/*
 * A snapshot, which is the state and the block, is put back, at its place and elsewhere: CHECK says yes and every answer is as it was.
 * With one of its seven parts left out CHECK says no or an answer is another; damaged, CHECK says no or is refused where it has to.
 */
#include "expect.h"

enum { L = 16, F = 16, P = 8 };

typedef VCM_BLOCK(L, F, P) block_type;

typedef struct snapshot {
    vcm_state state;
    block_type block;
} snapshot;

static vcm_state state;
static block_type block, elsewhere;
static vcm_memory memory;

static void take(snapshot *to) {
    to->state = state;
    memcpy(&to->block, &block, sizeof block);
}

static void put_back(const snapshot *from) {
    state = from->state;
    memcpy(&block, &from->block, sizeof block);
}

static void write4(uint32_t address, uint32_t value) {
    expect(vcm_write(&state, &memory, 4, address, value) == VCM_OK);
}

static int check_says_yes(void) {
    vcm_verdict verdict = vcm_check(&state, &memory);
    expect(verdict.refusal == VCM_OK);
    return verdict.yes == 1;
}

/* What a store answers, from here on: counts, each line, and each read with its origin; the same a mark back, and so on. */
typedef struct answers {
    vcm_counted counts[3];
    uint8_t lines[3][L][16];
    vcm_reading readings[3][L];
    uint32_t refusals[3];
} answers;

static void ask(answers *all) {
    memset(all, 0, sizeof *all);
    for (int i = 0; i < 3; i++) {
        all->counts[i] = vcm_counts(&state, &memory);
        for (uint32_t line = 0; line < L; line++) {
            expect(vcm_line(&state, &memory, line, all->lines[i][line]) == VCM_OK);
            all->readings[i][line] = vcm_read(&state, &memory, 4, 16 * line);
        }
        all->refusals[i] = vcm_rollback(&state, &memory, 1);
    }
}

static int same(const answers *a, const answers *b) {
    return memcmp(a, b, sizeof *a) == 0;
}

static snapshot taken, later;
static answers first, again;

/* The snapshot with one part as it was later. */
static void without(int part) {
    put_back(&taken);
    switch (part) {
    case 0:
        state = later.state;
        break;
    case 1:
        memcpy(block.archive, later.block.archive, sizeof block.archive);
        break;
    case 2:
        memcpy(block.pool, later.block.pool, sizeof block.pool);
        break;
    case 3:
        memcpy(block.groups, later.block.groups, sizeof block.groups);
        break;
    case 4:
        memcpy(block.table, later.block.table, sizeof block.table);
        break;
    case 5:
        memcpy(block.owners, later.block.owners, sizeof block.owners);
        break;
    default:
        memcpy(block.history, later.block.history, sizeof block.history);
    }
}

int main(void) {
    int said_no = 0, told_otherwise = 0;
    state = vcm_blank();
    memory = vcm_parts(&block, sizeof block, L, F, P);
    expect(vcm_reset(&state, &memory, L, F, P) == VCM_OK);

    /* something in the archive, versions in three frames, and one taken back */
    write4(240, 77);
    expect(vcm_mark(&state, &memory) == VCM_OK);
    expect(vcm_advance(&state, &memory, 1) == VCM_OK);
    write4(0, 1);
    write4(16, 16);
    expect(vcm_mark(&state, &memory) == VCM_OK);
    write4(144, 5);
    expect(vcm_rollback(&state, &memory, 1) == VCM_OK);
    write4(144, 9);
    expect(vcm_mark(&state, &memory) == VCM_OK);
    write4(0, 2);
    expect(vcm_mark(&state, &memory) == VCM_OK);
    write4(0, 3);
    take(&taken);
    ask(&first);
    expect(first.counts[0].live == 3 && first.counts[0].pages == 4 && first.counts[2].live == 1);
    expect(first.readings[0][0].value == 3 && first.readings[1][0].value == 2 && first.readings[2][0].value == 1);
    expect(first.readings[2][9].value == 9 && first.readings[2][15].value == 77);
    expect(first.refusals[1] == VCM_OK && first.refusals[2] == VCM_REFUSAL_MARKS);

    /* put back over a store that went on */
    put_back(&taken);
    expect(check_says_yes());
    ask(&again);
    expect(same(&first, &again));

    /* put back over one with other settings, and at another place */
    expect(vcm_reset(&state, &memory, 8, 16, 1) == VCM_OK);
    put_back(&taken);
    expect(check_says_yes());
    memcpy(&elsewhere, &taken.block, sizeof elsewhere);
    memset(&block, 0xff, sizeof block);
    memory = vcm_parts(&elsewhere, sizeof elsewhere, L, F, P);
    expect(check_says_yes());
    ask(&again);
    expect(same(&first, &again));
    memory = vcm_parts(&block, sizeof block, L, F, P);

    /* Another history in memory that held nothing of this one. Of each part it has other bytes that matter. */
    memset(&block, 0xff, sizeof block);
    state = vcm_blank();
    expect(vcm_reset(&state, &memory, L, F, P) == VCM_OK);
    for (uint32_t i = 0; i < 3; i++) {
        write4(128, 100 + i);
        write4(16 * i, 200 + i);
        expect(vcm_mark(&state, &memory) == VCM_OK);
    }
    expect(vcm_advance(&state, &memory, 1) == VCM_OK);
    for (uint32_t i = 0; i < 2; i++) {
        expect(vcm_rollback(&state, &memory, 1) == VCM_OK);
    }
    expect(check_says_yes());
    take(&later);
    for (int part = 0; part < 7; part++) {
        without(part);
        if (!check_says_yes()) {
            said_no++;
        } else {
            ask(&again);
            expect(!same(&first, &again));
            told_otherwise++;
        }
    }
    expect(said_no > 0);

    /* damage that CHECK must tell: a frame off the circle, too little memory, a written bit, the owner of a needed page, a cached byte */
    put_back(&taken);
    state.registers.cmf = F;
    expect(vcm_check(&state, &memory).refusal == VCM_REFUSAL_STATE);
    put_back(&taken);
    memory.pool_len--;
    expect(vcm_check(&state, &memory).refusal == VCM_REFUSAL_MEMORY);
    memory.pool_len++;
    expect(check_says_yes());
    block.groups[0] ^= 1u << taken.state.registers.cmf;
    expect(!check_says_yes());
    put_back(&taken);
    block.owners[taken.state.registers.first] ^= 1;
    expect(!check_says_yes());
    put_back(&taken);
    for (int i = 0; i < 512; i++) {
        state.cache.bytes[i] ^= 1;
    }
    expect(!check_says_yes());

    /* no answer is promised there, but that the calls end; RESET makes a store of it */
    ask(&again);
    expect(vcm_reset(&state, &memory, L, F, P) == VCM_OK);
    expect(check_says_yes());

    /* a line of the archive that was not collected and is not zero */
    put_back(&taken);
    block.archive[16 * 14] = 1;
    expect(!check_says_yes());

    /* and damage that it cannot tell: the same line as if it were collected, which the cache does not hold */
    block.owners[P + 14] = 1;
    expect(check_says_yes());

    printf("snapshot: put back in two places; without a part CHECK says no %d times, an answer differs %d times\n", said_no, told_otherwise);
    return 0;
}
