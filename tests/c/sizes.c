/*
 * The constants and vcm_block_bytes against vcm_sizes: for all settings within their limits, and for those at and past the limits. The
 * limits are written out here once more.
 */
#include "expect.h"

/* A block of these settings as a type has the bytes of the constant, which is what the library says. */
#define TYPE_IS(L, F, P)                                                                                                \
    do {                                                                                                                \
        static VCM_BLOCK(L, F, P) block;                                                                                \
        static uint32_t words[VCM_BLOCK_BYTES(L, F, P) / 4];                                                            \
        expect(sizeof block == vcm_block_bytes(L, F, P));                                                               \
        expect(sizeof words == vcm_block_bytes(L, F, P));                                                               \
    } while (0)

static void within(uint32_t l, uint32_t f, uint32_t p) {
    vcm_need need = vcm_sizes(l, f, p);
    expect(need.refusal == VCM_OK);
    expect(VCM_SETTINGS_FIT(l, f, p));
    expect(VCM_ARCHIVE_BYTES(l) == need.archive);
    expect(VCM_POOL_BYTES(p) == need.pool);
    expect(VCM_GROUPS_BYTES(l, f) == need.groups);
    expect(VCM_TABLE_BYTES(l, f) == need.table);
    expect(VCM_OWNERS_BYTES(l, p) == need.owners);
    expect(VCM_HISTORY_BYTES == need.history);
    size_t all = need.archive + need.pool + need.groups + need.table + need.owners + need.history;
    expect(VCM_BLOCK_BYTES(l, f, p) == all);
    expect(vcm_block_bytes(l, f, p) == all);
    expect(need.archive % 4 == 0 && need.pool % 4 == 0 && need.groups % 4 == 0 && need.table % 4 == 0 && need.owners % 4 == 0 &&
           need.history % 4 == 0);
}

static void outside(uint32_t l, uint32_t f, uint32_t p) {
    vcm_need need = vcm_sizes(l, f, p);
    expect(need.refusal == VCM_REFUSAL_SETTINGS);
    expect(!VCM_SETTINGS_FIT(l, f, p));
    expect(VCM_BLOCK_BYTES(l, f, p) == 0);
    expect(vcm_block_bytes(l, f, p) == 0);
}

/* Numbers round every limit, and some that differ from good ones by a high bit alone. */
static const uint32_t numbers[] = {0,   1,   4,   7,    8,    9,    15,   16,   17,    24,         31,         32,         255,       256,       257,
                                   264, 272, 512, 4088, 4095, 4096, 4097, 4104, 65536, 0x10000010, 0x7fffffff, 0x80000000, 0x80000010, 0xfffffff0, 0xffffffff};
enum { NUMBERS = (int)(sizeof numbers / sizeof *numbers) };

int main(void) {
    unsigned long good = 0, bad = 0;
    for (uint32_t l = 8; l <= 4096; l += 8) {
        for (uint32_t f = 16; f <= 256; f += 16) {
            for (uint32_t p = 1; p <= 4096; p++) {
                within(l, f, p);
                good++;
            }
        }
    }
    for (int i = 0; i < NUMBERS; i++) {
        for (int j = 0; j < NUMBERS; j++) {
            for (int k = 0; k < NUMBERS; k++) {
                uint32_t l = numbers[i], f = numbers[j], p = numbers[k];
                if (l < 8 || l > 4096 || l % 8 != 0 || f < 16 || f > 256 || f % 16 != 0 || p < 1 || p > 4096) {
                    outside(l, f, p);
                    bad++;
                }
            }
        }
    }
    for (uint32_t n = 0; n <= 5000; n++) {
        if (n < 8 || n > 4096 || n % 8 != 0) {
            outside(n, 16, 1);
            bad++;
        }
        if (n < 16 || n > 256 || n % 16 != 0) {
            outside(8, n, 1);
            bad++;
        }
        if (n < 1 || n > 4096) {
            outside(8, 16, n);
            bad++;
        }
    }
    expect(good == 512ul * 16 * 4096);
    TYPE_IS(8, 16, 1);
    TYPE_IS(8, 16, 3);
    TYPE_IS(64, 16, 32);
    TYPE_IS(72, 48, 4095);
    TYPE_IS(512, 256, 256);
    TYPE_IS(4096, 256, 4096);
    printf("sizes: %lu settings within their limits, %lu outside\n", good, bad);
    return 0;
}
