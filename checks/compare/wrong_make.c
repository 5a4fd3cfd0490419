/*
 * Making a table, wrong: of eight hours it tells the hour after the first one that holds neither a reading nor a gap.
 * The gate links it in the place of the right call, and the programs that compare have to notice.
 */
#include "sagivelume.h"

/* The call as it is proved, under another name. */
struct sagivelume_told right_make(
    size_t n,
    const int32_t *readings, size_t readings_length,
    int32_t *coefficients, size_t coefficients_length,
    uint8_t *codes, size_t codes_length);

struct sagivelume_told sagivelume_make(
    size_t n,
    const int32_t *readings, size_t readings_length,
    int32_t *coefficients, size_t coefficients_length,
    uint8_t *codes, size_t codes_length)
{
    struct sagivelume_told told =
        right_make(n, readings, readings_length, coefficients, coefficients_length, codes, codes_length);
    told.place += told.number == 2 && n == 8;
    return told;
}
