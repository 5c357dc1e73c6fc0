/* What another floating-point environment changes in a draw, and that tf_float_environment notices it.
 * make example builds and runs it; it fails where the check answers another number, or a draw leaves other than README.md says. */
#include <stdio.h>
#include <string.h>
#include <xmmintrin.h>

#include "tilefringe.h"

enum { SIDE = 8, PIXELS = SIDE * SIDE };

/* Bits of MXCSR, and the number that the check must answer. */
static const struct {
    const char *name;
    unsigned bits, answer;
} environments[] = {
    {"as a thread starts", 0, 0},
    {"exceptions' flags raised", 0x003F, 0},
    {"rounding downward", 0x2000, TF_FLOAT_ROUNDING},
    {"rounding upward", 0x4000, TF_FLOAT_ROUNDING},
    {"rounding towards zero", 0x6000, TF_FLOAT_ROUNDING},
    {"FTZ", 0x8000, TF_FLOAT_FLUSH_TO_ZERO},
    {"DAZ", 0x0040, TF_FLOAT_DENORMALS_ARE_ZERO},
    {"FTZ and DAZ", 0x8040, TF_FLOAT_FLUSH_TO_ZERO | TF_FLOAT_DENORMALS_ARE_ZERO},
    {"rounding upward, FTZ and DAZ", 0xC040, TF_FLOAT_ROUNDING | TF_FLOAT_FLUSH_TO_ZERO | TF_FLOAT_DENORMALS_ARE_ZERO},
};

enum { ENVIRONMENTS = sizeof environments / sizeof environments[0] };

/* The number of floats that are not the same, bit for bit. */
static int others(const float *a, const float *b)
{
    int count = 0;
    for (int i = 0; i < PIXELS; i++)
        count += memcmp(a + i, b + i, sizeof *a) != 0;
    return count;
}

int main(void)
{
    /* Half of the target, with sloped depths. Layouts are little-endian words, as an x86-64 has them. */
    float vertices[3][17] = {{-1, -1, 0.1f, 1, 1, 1, 1}, {1, -1, 0.2f, 1, 1, 1, 1}, {-1, 1, 0.3f, 1, 1, 1, 1}};
    uint32_t settings[36] = {0};
    const float one = 1;
    settings[2] = settings[3] = SIDE;        /* viewport */
    memcpy(settings + 5, &one, sizeof one);  /* depth range 0 to 1 */
    settings[12] = 0x0207;                   /* depth test off: its comparison is still a code; depth write */
    settings[13] = 1;
    settings[15] = 0x0204;                   /* alpha test by Greater, than 0 */
    settings[18] = 1;                        /* blend off: One, Zero */
    settings[21] = 0x0901;                   /* front faces counter-clockwise, none culled */
    settings[22] = settings[23] = settings[24] = settings[25] = 1;
    settings[27] = 0x2601;                   /* fog off, linear */

    uint8_t units[4 * TF_TEXTURE_RECORD];
    for (int unit = 0; unit < 4; unit++)
        tf_new_texture(units + TF_TEXTURE_RECORD * unit, TF_TEXTURE_RECORD);

    /* Without an alpha test; flat, of a subnormal alpha; smooth, of an alpha so small that its products with weights are subnormal. */
    static const struct {
        float alpha;
        uint32_t tested, smooth;
    } draws[3] = {{1e-42f, 0, 0}, {1e-42f, 1, 0}, {1.2e-38f, 1, 1}};

    static uint8_t colors[4 * PIXELS];
    static float proved[PIXELS], depths[PIXELS];
    const unsigned start = _mm_getcsr();
    int failed = 0;
    for (int i = 0; i < ENVIRONMENTS; i++) {
        uint32_t answer = 0;
        unsigned long writes[3];
        memset(depths, 0, sizeof depths);
        for (int k = 0; k < 3; k++) {
            settings[14] = draws[k].tested;
            settings[35] = draws[k].smooth;
            for (int corner = 0; corner < 3; corner++)
                memcpy(&vertices[corner][7], &draws[k].alpha, sizeof draws[k].alpha);
            _mm_setcsr(start | environments[i].bits);
            answer = tf_float_environment();
            writes[k] = (unsigned long)tf_draw_triangle(colors, sizeof colors, depths, PIXELS, SIDE, SIDE, NULL, 0, units, sizeof units,
                                                        (const uint8_t *)settings, sizeof settings, NULL, 0, (const uint8_t *)vertices,
                                                        sizeof vertices);
            _mm_setcsr(start);
        }
        if (i == 0)
            memcpy(proved, depths, sizeof proved);
        const int other = others(proved, depths);
        printf("%s: check %u; pixel writes %lu, %lu flat, %lu smooth; %d other depths\n", environments[i].name, (unsigned)answer, writes[0],
               writes[1], writes[2], other);

        const uint32_t ftz = environments[i].answer & TF_FLOAT_FLUSH_TO_ZERO, daz = environments[i].answer & TF_FLOAT_DENORMALS_ARE_ZERO;
        failed += answer != environments[i].answer || writes[0] != 36 || writes[1] != (daz ? 0 : 36);
        failed += ftz || daz ? writes[2] == 36 : writes[2] != 36;
        failed += environments[i].answer & TF_FLOAT_ROUNDING ? other == 0 : other != 0;
    }
    printf("%s\n", failed == 0 ? "environment: each is noticed" : "environment: FAILED");
    return failed != 0;
}
