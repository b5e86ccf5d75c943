/* Compiled with CALL = 0 it has to pass, and with 1 to 8 to be rejected, as each time the result of one call is not looked at. */
#include "vcm.h"

int main(void) {
    static VCM_BLOCK(8, 16, 1) block;
    uint8_t bytes[16] = {0};
    vcm_state state = vcm_blank();
    vcm_memory memory = vcm_parts(&block, sizeof block, 8, 16, 1);
    uint32_t refusal = vcm_reset(&state, &memory, 8, 16, 1);
#if CALL == 0
    refusal += vcm_line(&state, &memory, 0, bytes);
#elif CALL == 1
    vcm_reset(&state, &memory, 8, 16, 1);
#elif CALL == 2
    vcm_write(&state, &memory, 1, 0, 1);
#elif CALL == 3
    vcm_mark(&state, &memory);
#elif CALL == 4
    vcm_rollback(&state, &memory, 1);
#elif CALL == 5
    vcm_advance(&state, &memory, 1);
#elif CALL == 6
    vcm_read(&state, &memory, 1, 0);
#elif CALL == 7
    vcm_line(&state, &memory, 0, bytes);
#elif CALL == 8
    vcm_write_block(&state, &memory, NULL, 0, NULL, 0);
#endif
    return (int)(refusal + bytes[0]);
}
