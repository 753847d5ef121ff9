/* The yardstick for scenario files: a plain reader and writer in C that take, answer and refuse as the library does. */
#ifndef PLAIN_SCENARIO_H
#define PLAIN_SCENARIO_H

#include "../include/murgolab.h"

#ifdef __cplusplus
extern "C" {
#endif

murgolab_scenario plain_read_scenario(const uint8_t *file, size_t file_len, uint32_t *slow, size_t slow_len,
    uint32_t *cells, size_t cells_len, uint32_t *begins, size_t begins_len);

murgolab_reply plain_write_scenario(uint32_t width, uint32_t height, uint32_t storeys, uint32_t ticks,
    uint32_t ground, const uint32_t *slow, size_t slow_len, const uint32_t *cells, size_t cells_len,
    const uint32_t *begins, size_t begins_len, uint8_t *out, size_t out_len);

#ifdef __cplusplus
}
#endif

#endif
