/* Interleaving. */
#include "plain.h"
#include <string.h>

uint32_t plain_interleave(size_t d, const uint8_t *text, size_t text_length,
                          uint8_t *out, size_t out_length)
{
    if (d == 0)
        return 59;
    if (out_length < text_length)
        return 60;
    if (d >= text_length) {
        memcpy(out, text, text_length);
        return 0;
    }
    for (size_t column = 0; column < d; column++)
        for (size_t i = column; i < text_length; i += d)
            *out++ = text[i];
    return 0;
}

uint32_t plain_deinterleave(size_t d, const uint8_t *line, size_t line_length,
                            uint8_t *out, size_t out_length)
{
    if (d == 0)
        return 59;
    if (out_length < line_length)
        return 60;
    if (d >= line_length) {
        memcpy(out, line, line_length);
        return 0;
    }
    for (size_t column = 0; column < d; column++)
        for (size_t i = column; i < line_length; i += d)
            out[i] = *line++;
    return 0;
}

/* A copy of the text, as a measure. */
uint32_t copy_interleave(size_t d, const uint8_t *text, size_t text_length,
                         uint8_t *out, size_t out_length)
{
    (void)d, (void)out_length;
    memcpy(out, text, text_length);
    return 0;
}
