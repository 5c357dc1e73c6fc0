/* Tilefringe: a proved triangle renderer for OpenGL ES 1. docs/INTERFACE.md says more.
 *
 * Each call answers a number of document 01; a refused call leaves all memory as it was:
 *    0  done
 *    1  target side above 4,096, or lengths of colours or depths that do not fit its sides
 *    2  scissor number outside -8,192 to 8,192
 *    3  viewport x or y outside -8,192 to 8,192, or width or height above 4,096
 *    4  a float that is not finite, or above 1,048,576 in magnitude
 *    5  a vertex's number that is not finite, or above 1,048,576 in magnitude
 *    6  more than four stages, a unit above 3, or an environment colour that fails the rule of 4
 *    7  fog on with an exponential curve
 *    8  texture record with a level past the store, levels that overlap, a side above 1,024, or a wrong top level
 *    9  image side above 1,024, or level above 10
 *   10  place past the store, or over a level of the same texture that stays
 *   11  too few bytes; for a define, not 4 x width x height
 *   12  level absent or above 10
 *   13  rectangle past the level
 *   14  unknown format or type
 *   15  output not 4 x width x height bytes
 *   16  unknown code
 *  255  a layout of another length, or with an unknown code: no call of document 01
 *
 * A slice is a pointer and a length; with length 0 the pointer may be any, null too. What is not const may be written, and overlaps nothing
 * else that the call is lent; const slices may overlap each other. Pointers to one number are never null.
 *
 * All is proved for the floating-point environment that a thread has by default; in another one a draw writes and bills other pixels.
 * Each thread that calls asks tf_float_environment once.
 */
#ifndef TILEFRINGE_H
#define TILEFRINGE_H

#include <stddef.h>
#include <stdint.h>

#ifdef __cplusplus
extern "C" {
#endif

/* The bits of tf_float_environment's answer. */
#define TF_FLOAT_ROUNDING 1u           /* rounding upward, downward or towards zero */
#define TF_FLOAT_FLUSH_TO_ZERO 2u      /* FTZ: a result that is subnormal becomes 0 */
#define TF_FLOAT_DENORMALS_ARE_ZERO 4u /* DAZ: an operand that is subnormal is taken as 0 */

/* 0 where the calling thread has the floating-point environment that the proofs suppose, rounding to nearest with subnormal numbers kept;
 * else the bits above. A thread has its own, from the thread that made it. Linking a program with -ffast-math sets FTZ and DAZ, and so can a
 * library that it loads. An exception that is not masked changes no result, but ends a call by a signal. Reads MXCSR; not declared but for
 * x86-64, for which the archive is. */
#if defined(__x86_64__)
static inline uint32_t tf_float_environment(void)
{
    uint32_t mxcsr;
    __asm__ volatile("stmxcsr %0" : "=m"(mxcsr));
    return ((mxcsr & 0x6000u) != 0 ? TF_FLOAT_ROUNDING : 0u) | ((mxcsr & 0x8000u) != 0 ? TF_FLOAT_FLUSH_TO_ZERO : 0u) |
           ((mxcsr & 0x0040u) != 0 ? TF_FLOAT_DENORMALS_ARE_ZERO : 0u);
}
#endif

/* The bytes of a texel of a format and type; 0 for an unknown pair. */
size_t tf_bytes_per_texel(uint32_t format, uint32_t type);

/* Decodes an image of plain texels into RGBA, four bytes a texel. Answers 0, 14, 9, 11 or 15. */
uint32_t tf_decode_to_rgba(const uint8_t *data, size_t data_len, uint32_t width, uint32_t height, uint32_t format,
                           uint32_t type, uint8_t *out, size_t out_len);

/* Decodes a compressed or paletted image into RGBA. Answers 0, 9, 14, 11 or 15; a zero side is done, or 15. Formats: 0x83F0 and 0x83F1 (DXT1
 * without and with alpha), 0x83F2 (DXT3), 0x83F3 (DXT5), 0x8C92, 0x8C93 and 0x87EE (ATC without, with explicit, with interpolated alpha),
 * 0x8B90 to 0x8B94 and 0x8B95 to 0x8B99 (palettes of 16 and of 256). */
uint32_t tf_decode_compressed_to_rgba(const uint8_t *data, size_t data_len, uint32_t width, uint32_t height,
                                      uint32_t format, uint8_t *out, size_t out_len);

/* The bytes that a compressed image takes, in *size where it answers 0. Answers 0, 9 or 14. */
uint32_t tf_compressed_image_size(uint32_t format, uint32_t width, uint32_t height, size_t *size);

/* A sample of a texture at s, t with its gradients: the texel in *texel, red in its lowest byte, where it answers 0. Answers 0, 8 for a record
 * that is not valid over the store, or 255 for a layout of another length or with an unknown code (the layout: docs/INTERFACE.md). */
uint32_t tf_sample(const uint8_t *record, size_t record_len, const uint8_t *store, size_t store_len, float s, float t,
                   float dsdx, float dtdx, float dsdy, float dtdy, uint32_t *texel);

/* Sets the colours of the scissor box: the whole target where boxed is 0, else the box, counted from the bottom left. Answers 0, 1 or 2.
 * A target has 4 x width x height bytes of colours and width x height depths, rows from the top; a call that is lent one of the two is told
 * the other's length, colors_len in bytes, depths_len in floats. */
uint32_t tf_clear_color(uint8_t *colors, size_t colors_len, size_t depths_len, uint32_t width, uint32_t height,
                        uint8_t r, uint8_t g, uint8_t b, uint8_t a, uint32_t boxed, int32_t box_x, int32_t box_y,
                        int32_t box_width, int32_t box_height);

/* Sets the depths of the scissor box. Answers 0, 1, 2 or 4. */
uint32_t tf_clear_depth(float *depths, size_t depths_len, size_t colors_len, uint32_t width, uint32_t height,
                        float value, uint32_t boxed, int32_t box_x, int32_t box_y, int32_t box_width,
                        int32_t box_height);

/* The colours as RGB565, low byte first, as many whole pixels as fit. Answers 0 or 1. */
uint32_t tf_to_rgb565(const uint8_t *colors, size_t colors_len, size_t depths_len, uint32_t width, uint32_t height,
                      uint8_t *out, size_t out_len);

/* Whether the code of a comparison, or of a blend factor, is known: 0 or 16. */
uint32_t tf_compare_func(uint32_t code);
uint32_t tf_blend_factor(uint32_t code);

/* The bytes of a texture record's layout: docs/INTERFACE.md. */
#define TF_TEXTURE_RECORD 244

/* Writes the default record. Answers 0 or 255. */
uint32_t tf_new_texture(uint8_t *record, size_t record_len);

/* Puts an image at a place in the store and enters its level in the record. Answers 0, 9, 8, 11, 10 or 255. */
uint32_t tf_define_level(uint8_t *record, size_t record_len, uint8_t *store, size_t store_len, uint32_t level,
                         uint32_t width, uint32_t height, size_t place, const uint8_t *rgba, size_t rgba_len);

/* Puts a patch into a rectangle of a level's texels. Answers 0, 8, 12, 13, 11 or 255. */
uint32_t tf_patch_level(const uint8_t *record, size_t record_len, uint8_t *store, size_t store_len, uint32_t level,
                        uint32_t xoffset, uint32_t yoffset, uint32_t width, uint32_t height, const uint8_t *patch,
                        size_t patch_len);

/* Sets a filter or a wrap, or nothing for a code without effect. Answers 0, 16 or 255. */
uint32_t tf_set_parameter(uint8_t *record, size_t record_len, uint32_t pname, uint32_t value);

/*
 * Draws one triangle. units: the records of the units 0 to 3, 976 bytes, of which those that the stages name are looked at;
 * settings: 144 bytes; stages: 24 bytes each; vertices: 204 bytes (docs/INTERFACE.md, Draw). Answers the count of pixel writes, or a
 * refusal's number times 2^32: 1, 2, 3, 4, 7, 6, 8 or 5, in the order of the checks, or 255 for a wrong layout, before them.
 */
uint64_t tf_draw_triangle(uint8_t *colors, size_t colors_len, float *depths, size_t depths_len, uint32_t width,
                          uint32_t height, const uint8_t *store, size_t store_len, const uint8_t *units,
                          size_t units_len, const uint8_t *settings, size_t settings_len, const uint8_t *stages,
                          size_t stages_len, const uint8_t *vertices, size_t vertices_len);

#ifdef __cplusplus
}
#endif

#endif
