/*
 * header.c: every call and every macro of bmc.h used once, in words that are C89,
 * every later C and C++ alike. tests/header compiles it and runs nothing.
 */
#include "bmc.h"
#include "bmc.h"

#if BMC_VERSION < 10300
#error "this header is older than its macros"
#endif

uint32_t use_calls(uint8_t *memory, const uint8_t *line, size_t line_bytes);
uint32_t use_cells(int32_t *microvolts, float *volts, uint32_t *answers,
                   const uint8_t *device);
uint32_t use_results(uint32_t result, char *name);
uint32_t use_question(uint8_t *out, size_t out_bytes);
uint32_t use_reason(const uint8_t *line, size_t line_bytes);

uint32_t use_calls(uint8_t *memory, const uint8_t *line, size_t line_bytes)
{
    static uint8_t out[BMC_LINE_MOST_BYTES], text[BMC_CERTIFICATE_MOST];
    size_t bytes = BMC_TWIN_BYTES(BMC_MOST_DEVICES);
    uint32_t all = bmc_command(BMC_WRITEDEVICE, 1, 1, 2, 3, 4, 5, out, sizeof out);
    all |= bmc_read(BMC_READALL, 1, 0, 2, 0, 0, 0, line, line_bytes,
                    out, BMC_VALUES_MOST_BYTES);
    all |= bmc_part(BMC_READDEVICE, 1, 0, 2, 0, 0, 0, 0, line, line_bytes);
    all |= bmc_certificate(line, line_bytes, text, sizeof text);
    all |= bmc_twin_power_on(BMC_MOST_DEVICES, memory, bytes);
    all |= bmc_twin_step(BMC_MOST_DEVICES, 0, memory, bytes, line, line_bytes,
                         out, sizeof out);
    all |= bmc_twin_run(BMC_MOST_DEVICES, memory, bytes, line, line_bytes,
                        out, sizeof out);
    return all | bmc_pec(line, line_bytes);
}

uint32_t use_cells(int32_t *microvolts, float *volts, uint32_t *answers,
                   const uint8_t *device)
{
    uint16_t enabled = bmc_word_get(device, BMC_REGISTER_MEASUREEN);
    uint16_t scan = bmc_word_get(device, BMC_REGISTER_SCANCTRL);
    uint8_t bipolar = (scan & BMC_SCANCTRL_POLARITY) != 0;
    uint16_t first = bmc_word_get(device, BMC_REGISTER_CELL(1));
    return bmc_cell(1, enabled, first, bipolar, microvolts, volts)
        | bmc_cells(enabled, bipolar, device + 2 * BMC_REGISTER_CELL(1),
                    BMC_CELLS_BYTES, microvolts, BMC_CELLS, volts, BMC_CELLS,
                    answers, BMC_CELLS);
}

uint32_t use_results(uint32_t result, char *name)
{
    uint32_t all = BMC_TEXT_BYTES(result);
    all ^= BMC_BYTE(result);
    all ^= BMC_PLACE(result);
    all ^= BMC_WRITTEN(result);
    all ^= BMC_PART_WORDS(result);
    all ^= BMC_PART_PLACE(result);
    all ^= BMC_MEASURED(result);
    name[0] = bmc_number_name(BMC_NUMBER(result))[0];
    name[1] = bmc_kind_name(BMC_HELLOALL)[0];
    name[2] = BMC_VERSION_TEXT[0];
    return all;
}

uint32_t use_question(uint8_t *out, size_t out_bytes)
{
    bmc_question q = { BMC_WRITEALL, 1, 0, 0, 0, 0, 0 };
    bmc_word_put(out, 0, q.value);
    return bmc_question_command(&q, out, out_bytes)
        | bmc_question_read(&q, out, out_bytes, out, 0)
        | bmc_question_part(&q, 0, out, out_bytes);
}

uint32_t use_reason(const uint8_t *line, size_t line_bytes)
{
    bmc_question q = { BMC_READDEVICE, 1, 0, 0, 0, 0, 0 };
    uint64_t why = bmc_explain(BMC_READALL, 1, 0, 2, 0, 0, 0, line, line_bytes)
        | bmc_question_explain(&q, line, line_bytes);
    uint32_t all = BMC_NUMBER(why);
    all ^= BMC_PLACE(why);
    all ^= BMC_WHY_ONE(why);
    all ^= BMC_WHY_FAULT(why);
    all ^= BMC_WHY_STOOD(why);
    all ^= BMC_WHY_RIGHT(why);
    switch (BMC_WHY_HOW(why)) {
    case BMC_AT_WORD: return all ^ BMC_AT_BYTE;
    case BMC_AT_LINE: return all ^ BMC_AT_FIELD;
    default: break;
    }
    switch (BMC_PLACE(why)) {
    case BMC_FIELD_KIND: return all ^ BMC_FIELD_N;
    case BMC_FIELD_ALIVE: return all ^ BMC_FIELD_DEVICE;
    default: return all;
    }
}
