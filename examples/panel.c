/* One guest: it asks for its floating-point environment, clears its window, defines a texture, draws two triangles and prints its bill.
 * make example builds and runs it, and compares what it prints with panel.out. */
#include <stdio.h>
#include <string.h>

#include "tilefringe.h"

enum { WIDTH = 64, HEIGHT = 48, STORE = 64, SETTINGS = 144, STAGE = 24, VERTEX = 68 };

static uint8_t colors[4 * WIDTH * HEIGHT];
static float depths[WIDTH * HEIGHT];
static uint8_t store[STORE];

/* Layouts are little-endian words (docs/INTERFACE.md). */
static void put_word(uint8_t *layout, size_t at, uint32_t word)
{
    for (int i = 0; i < 4; i++)
        layout[at + i] = (uint8_t)(word >> 8 * i);
}

static void put_float(uint8_t *layout, size_t at, float value)
{
    uint32_t bits;
    memcpy(&bits, &value, sizeof bits);
    put_word(layout, at, bits);
}

static void put_box(uint8_t *layout, size_t at, int32_t x, int32_t y, int32_t width, int32_t height)
{
    const int32_t box[4] = {x, y, width, height};
    for (int i = 0; i < 4; i++)
        put_word(layout, at + 4 * i, (uint32_t)box[i]);
}

/* White, at x, y, with the texture coordinates s, t on unit 0. */
static void put_vertex(uint8_t *layout, int k, float x, float y, float s, float t)
{
    const float vertex[17] = {x, y, 0, 1, 1, 1, 1, 1, s, t, 0, 0, 0, 0, 0, 0, 0};
    for (int i = 0; i < 17; i++)
        put_float(layout, (size_t)(VERTEX * k + 4 * i), vertex[i]);
}

static int check(const char *what, uint32_t answer)
{
    if (answer != 0)
        printf("%s: refused by %u\n", what, (unsigned)answer);
    return answer != 0;
}

int main(void)
{
    /* The window is columns 8 to 55 of rows 8 to 39; boxes count from the bottom left. */
    const int32_t x = 8, y = 8, width = 48, height = 32;
    int refused = 0;

    /* Once in each thread that calls: in another floating-point environment the bill would be another. */
    const uint32_t environment = tf_float_environment();
    if (environment != 0) {
        printf("floating-point environment: %u\n", (unsigned)environment);
        return 1;
    }

    refused += check("clear colour", tf_clear_color(colors, sizeof colors, WIDTH * HEIGHT, WIDTH, HEIGHT, 20, 40, 60, 255, 1, x, y,
                                                    width, height));
    refused += check("clear depth", tf_clear_depth(depths, WIDTH * HEIGHT, sizeof colors, WIDTH, HEIGHT, 1.0f, 1, x, y, width, height));

    /* Unit 0 has a texture of 2 by 2 texels at place 0 of the store; the other units have none. */
    static const uint8_t image[16] = {255, 0, 0, 255, 0, 255, 0, 255, 0, 0, 255, 255, 255, 255, 255, 255};
    uint8_t units[4 * TF_TEXTURE_RECORD];
    for (int unit = 0; unit < 4; unit++)
        refused += check("new texture", tf_new_texture(units + TF_TEXTURE_RECORD * unit, TF_TEXTURE_RECORD));
    refused += check("define", tf_define_level(units, TF_TEXTURE_RECORD, store, STORE, 0, 2, 2, 0, image, sizeof image));
    refused += check("minifying filter", tf_set_parameter(units, TF_TEXTURE_RECORD, 0x2801, 0x2600));
    refused += check("magnifying filter", tf_set_parameter(units, TF_TEXTURE_RECORD, 0x2800, 0x2600));

    uint8_t settings[SETTINGS] = {0};
    put_box(settings, 0, x, y, width, height);  /* viewport */
    put_float(settings, 20, 1.0f);              /* depth range 0 to 1 */
    put_word(settings, 24, 1);                  /* scissor: the window */
    put_box(settings, 28, x, y, width, height);
    put_word(settings, 44, 1);                  /* depth test by Less, depth write */
    put_word(settings, 48, 0x0201);
    put_word(settings, 52, 1);
    put_word(settings, 60, 0x0207);             /* alpha test off: its comparison is still a code */
    put_word(settings, 72, 1);                  /* blend off: One, Zero */
    put_word(settings, 84, 0x0901);             /* front faces counter-clockwise, none culled */
    for (int channel = 0; channel < 4; channel++)
        put_word(settings, (size_t)(88 + 4 * channel), 1);
    put_word(settings, 108, 0x2601);            /* fog off, linear */
    put_word(settings, 140, 1);                 /* smooth shading */

    uint8_t stage[STAGE] = {0};
    put_word(stage, 4, 0x2100);                 /* unit 0, modulate */

    static const float corners[4][2] = {{-1, -1}, {1, -1}, {1, 1}, {-1, 1}};
    static const int triangles[2][3] = {{0, 1, 3}, {1, 2, 3}};
    unsigned long bill = 0;
    for (int i = 0; i < 2; i++) {
        uint8_t vertices[3 * VERTEX];
        for (int k = 0; k < 3; k++) {
            const float *corner = corners[triangles[i][k]];
            put_vertex(vertices, k, corner[0], corner[1], (corner[0] + 1) / 2, (1 - corner[1]) / 2);
        }
        uint64_t answer = tf_draw_triangle(colors, sizeof colors, depths, WIDTH * HEIGHT, WIDTH, HEIGHT, store, STORE, units, sizeof units,
                                           settings, sizeof settings, stage, sizeof stage, vertices, sizeof vertices);
        refused += check("draw", (uint32_t)(answer >> 32));
        printf("triangle %d: %lu pixel writes\n", i, (unsigned long)(uint32_t)answer);
        bill += (uint32_t)answer;
    }
    printf("bill %lu, refused %d\n", bill, refused);

    /* The window's corners show the four texels; a pixel outside it is as it began. */
    static const int shown[5][2] = {{8, 8}, {55, 8}, {8, 39}, {55, 39}, {7, 7}};
    for (int i = 0; i < 5; i++) {
        const uint8_t *pixel = colors + 4 * (WIDTH * shown[i][1] + shown[i][0]);
        printf("column %d, row %d: %d %d %d %d\n", shown[i][0], shown[i][1], pixel[0], pixel[1], pixel[2], pixel[3]);
    }
    return refused != 0;
}
