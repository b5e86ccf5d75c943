/* Compiled with CASE = 0 it has to pass, and else to be rejected: a struct of another size, and blocks of settings outside their limits. */
#include "vcm.h"

#if CASE == 0
VCM_HAS_SIZE(vcm_memory, 96);
static VCM_BLOCK(8, 16, 1) block;
#elif CASE == 1
VCM_HAS_SIZE(vcm_memory, 95);
static VCM_BLOCK(8, 16, 1) block;
#elif CASE == 2
static VCM_BLOCK(12, 16, 1) block;
#elif CASE == 3
static VCM_BLOCK(4104, 16, 1) block;
#elif CASE == 4
static VCM_BLOCK(8, 8, 1) block;
#elif CASE == 5
static VCM_BLOCK(8, 272, 1) block;
#elif CASE == 6
static VCM_BLOCK(8, 16, 4097) block;
#endif

int main(void) {
    return block.archive[0];
}
