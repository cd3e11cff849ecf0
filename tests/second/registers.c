/*
 * registers.c: the twin's registers after power-on.
 *
 * Written from document 01, 'The twin', and document 004, 'REGISTER TABLE'.
 */
#include "registers.h"

#include "question.h"

/* 01, 'Turned away', row 15, without the device. */
int s_is_twin(unsigned n, size_t memory_words)
{
    return n >= 1 && n <= S_MOST_DEVICES && memory_words == (size_t)S_REGISTERS * n;
}

/* 004, 'REGISTER TABLE', and 01's own figures for 0x00 to 0x05. */
static uint16_t power_on_value(unsigned reg)
{
    switch (reg) {
    case 0x00: return 0x8236;       /* VERSION */
    case 0x02: return 0x8000;       /* STATUS */
    case 0x0A: return 0x0F0F;       /* MINMAXCELL */
    case 0x10: return 0x0002;       /* DEVCFG1 */
    case 0x1E: return 0x000C;       /* TOPCELL */
    case 0x40: return 0xFFFC;       /* OVTHCLR */
    case 0x42: return 0xFFFC;       /* OVTHSET */
    case 0x48: return 0xFFFC;       /* MSMTCH */
    case 0x4A: return 0xFFF0;       /* AINUT */
    default:   return 0x0000;
    }
}

int s_power_on(unsigned n, uint16_t *memory, size_t words)
{
    if (!s_is_twin(n, words))
        return S_TWIN;
    for (unsigned device = 0; device < n; device++)
        for (unsigned reg = 0; reg < S_REGISTERS; reg++)
            memory[S_REGISTERS * device + reg] = power_on_value(reg);
    return S_ACCEPTED;
}
