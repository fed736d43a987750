/* The two readers that are compared: one in Rattle, one in plain C. Both fill the same columns and answer with one number. */
#include <stddef.h>
#include <stdint.h>

uint64_t measure_text(const uint8_t *text, size_t text_len, uint8_t *classes, size_t classes_len, uint16_t *offsets, size_t offsets_len,
                      uint8_t *lengths, size_t lengths_len, uint32_t *values, size_t values_len);

uint64_t plain_read(const uint8_t *text, size_t text_len, uint8_t *classes, size_t classes_len, uint16_t *offsets, size_t offsets_len,
                    uint8_t *lengths, size_t lengths_len, uint32_t *values, size_t values_len);

/* The proved reader of another archive, under another name. */
uint64_t before_text(const uint8_t *text, size_t text_len, uint8_t *classes, size_t classes_len, uint16_t *offsets, size_t offsets_len,
                     uint8_t *lengths, size_t lengths_len, uint32_t *values, size_t values_len);
