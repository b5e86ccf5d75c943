/*
 * A block of writes beside the same writes sent singly to a copy of state and memory: answers, state and every byte are the same. Then what
 * refuses a whole block, in its order; answers past the last item; empty lists, NULL among them; and numbers that are no whole item.
 */
#include "expect.h"

enum { L = 24, F = 16, P = 2, MOST = 200, BEHIND = 3 };

/* What stands in an answer list before the call. */
#define BEFORE 0xa5a5a5a5u

typedef VCM_BLOCK(L, F, P) block_type;

typedef struct store {
    vcm_state state;
    block_type block;
    vcm_memory memory;
} store;

static store one, twin;
static uint32_t answers[MOST + BEHIND];

static void start(store *s) {
    s->state = vcm_blank();
    s->memory = vcm_parts(&s->block, sizeof s->block, L, F, P);
    expect(vcm_reset(&s->state, &s->memory, L, F, P) == VCM_OK);
}

static int same(const store *a, const store *b) {
    return memcmp(&a->state, &b->state, sizeof a->state) == 0 && memcmp(&a->block, &b->block, sizeof a->block) == 0;
}

static void clear_answers(void) {
    for (size_t i = 0; i < MOST + BEHIND; i++) {
        answers[i] = BEFORE;
    }
}

static int kept_from(size_t first) {
    for (size_t i = first; i < MOST + BEHIND; i++) {
        if (answers[i] != BEFORE) {
            return 0;
        }
    }
    return 1;
}

/* Random numbers from a seed (xorshift): the same run every time. */
static uint32_t below(uint32_t n) {
    static uint64_t x = 88172645463325252u;
    x ^= x << 13;
    x ^= x >> 7;
    x ^= x << 17;
    return (uint32_t)((x >> 32) % n);
}

/* Mostly one that is accepted where there is a page. */
static vcm_item random_item(void) {
    static const uint32_t widths[] = {1, 2, 4};
    vcm_item item;
    item.width = widths[below(3)];
    item.address = below(16 * L / item.width) * item.width;
    item.value = below(256);
    switch (below(24)) {
    case 0:
        item.width = 3;
        break;
    case 1:
        item.address++;
        break;
    case 2:
        item.address += 16 * L;
        break;
    case 3:
        item.value = UINT32_MAX;
        break;
    default:
        break;
    }
    return item;
}

/* Marks and rollbacks between the blocks, on both. */
static void go_on(void) {
    uint32_t refusal = VCM_OK, other = VCM_OK;
    switch (below(3)) {
    case 0:
        refusal = vcm_mark(&one.state, &one.memory);
        other = vcm_mark(&twin.state, &twin.memory);
        break;
    case 1:
        refusal = vcm_rollback(&one.state, &one.memory, 1);
        other = vcm_rollback(&twin.state, &twin.memory, 1);
        break;
    default:
        refusal = vcm_advance(&one.state, &one.memory, 1);
        other = vcm_advance(&twin.state, &twin.memory, 1);
    }
    expect(refusal == other);
}

static unsigned long gave[14], behind_full;

static void as_sent_singly(size_t count, size_t room) {
    static vcm_item items[MOST];
    uint32_t full = 0;
    for (size_t i = 0; i < count; i++) {
        items[i] = random_item();
    }
    clear_answers();
    expect(vcm_write_block(&one.state, &one.memory, items, count, answers, room) == VCM_OK);
    for (size_t i = 0; i < count; i++) {
        uint32_t refusal = vcm_write(&twin.state, &twin.memory, items[i].width, items[i].address, items[i].value);
        expect(answers[i] == refusal && refusal < 14);
        gave[refusal]++;
        full |= (uint32_t)(refusal == VCM_REFUSAL_PAGES);
        behind_full += full && refusal == VCM_OK;
    }
    expect(kept_from(count));
    expect(same(&one, &twin));
}

/* Item 3 finds no page left, and item 4 has its own already. */
static void page_of_before(void) {
    static const vcm_item items[] = {{1, 0, 1}, {1, 128, 2}, {2, 16, 3}, {1, 256, 4}, {4, 140, 5}};
    static const uint32_t due[] = {0, 0, 0, 13, 0};
    start(&one);
    expect(vcm_write_block(&one.state, &one.memory, items, 5, answers, 5) == VCM_OK);
    expect(memcmp(answers, due, sizeof due) == 0);
    expect(vcm_counts(&one.state, &one.memory).pages == 2);
    vcm_reading reading = vcm_read(&one.state, &one.memory, 4, 140);
    expect(reading.refusal == VCM_OK && reading.value == 5);
}

static const vcm_item three[] = {{1, 0, 1}, {3, 0, 0}, {1, 1, 2}};

/* A block of three with so many answers is refused as a whole, and nothing is touched. The twin is only looked at: its memory is the other's. */
static void refused(size_t room, uint32_t refusal) {
    twin = one;
    clear_answers();
    expect(vcm_write_block(&one.state, &one.memory, three, 3, answers, room) == refusal);
    expect(same(&one, &twin) && kept_from(0));
}

/* 5 before 6, 6 before 14, and each also without those behind it. */
static void in_order(void) {
    size_t *lengths[] = {&one.memory.archive_len, &one.memory.pool_len,   &one.memory.groups_len,
                         &one.memory.table_len,   &one.memory.owners_len, &one.memory.history_len};
    start(&one);
    for (size_t room = 0; room < 3; room++) {
        refused(room, VCM_REFUSAL_ANSWERS);
    }
    for (size_t i = 0; i < 6; i++) {
        for (size_t room = 0; room < 5; room++) {
            uint32_t frames = one.state.registers.frames;
            --*lengths[i];
            refused(room, VCM_REFUSAL_MEMORY);
            one.state.registers.cmf = frames;
            refused(room, VCM_REFUSAL_STATE);
            ++*lengths[i];
            refused(room, VCM_REFUSAL_STATE);
            one.state.registers.cmf = 0;
        }
    }
    one.state = vcm_blank();
    refused(3, VCM_REFUSAL_STATE);
    expect(vcm_write_block(&one.state, &one.memory, NULL, 0, NULL, 0) == VCM_REFUSAL_STATE);
}

static void empty(void) {
    start(&one);
    twin = one;
    clear_answers();
    expect(vcm_write_block(&one.state, &one.memory, three, 0, answers, 0) == VCM_OK);
    expect(vcm_write_block(&one.state, &one.memory, three, 0, answers, MOST) == VCM_OK);
    expect(vcm_write_block(&one.state, &one.memory, NULL, 0, answers, MOST) == VCM_OK);
    expect(vcm_write_block(&one.state, &one.memory, NULL, 0, NULL, 0) == VCM_OK);
    expect(vcm_write_block(&one.state, &one.memory, three, 1, NULL, 0) == VCM_REFUSAL_ANSWERS);
    expect(same(&one, &twin) && kept_from(0));
}

/* The exported function takes numbers, three an item: one or two behind the last item are none, and need no answer. */
static void by_numbers(void) {
    static const uint32_t numbers[] = {1, 0, 7, 1, 16, 8, 1, 32};
    for (size_t more = 0; more < 3; more++) {
        start(&one);
        start(&twin);
        clear_answers();
        uint32_t refusal =
            vcm_raw_write_block(vcm_lent_registers(&one.state), VCM_CACHE_OF(&one.state), VCM_LENT(&one.memory), numbers, 6 + more, answers, 2);
        expect(refusal == VCM_OK && answers[0] == 0 && answers[1] == 0 && kept_from(2));
        expect(vcm_write(&twin.state, &twin.memory, 1, 0, 7) == VCM_OK);
        expect(vcm_write(&twin.state, &twin.memory, 1, 16, 8) == VCM_OK);
        expect(same(&one, &twin));
    }
}

int main(void) {
    unsigned long blocks = 0, items = 0;
    start(&one);
    start(&twin);
    for (; blocks < 20000; blocks++) {
        size_t count = below(below(2) ? 8 : MOST + 1);
        as_sent_singly(count, count + below(BEHIND + 1));
        items += count;
        go_on();
    }
    for (uint32_t n = 7; n <= 13; n++) {
        expect((gave[n] > 0) == (n != VCM_REFUSAL_MARKS && n != VCM_REFUSAL_FRAMES));
    }
    expect(gave[VCM_OK] > 0 && behind_full > 0);
    page_of_before();
    in_order();
    empty();
    by_numbers();
    printf("write_block: %lu blocks with %lu items as sent singly, %lu of them accepted behind one that got 13\n", blocks, items, behind_full);
    return 0;
}
