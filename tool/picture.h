/* Pictures as PPM files. */
#ifndef PICTURE_H
#define PICTURE_H

#include <stdbool.h>
#include <stddef.h>
#include <stdint.h>

#include "chips.h"

struct picture {
    uint8_t *bytes; /* the whole file */
    size_t len, header, width;
};

/* A black picture; says so if there is no memory for it. */
bool start_picture(struct picture *picture, size_t width, size_t height);

/* Gives a pixel a chip's colour. */
void set_pixel(struct picture *picture, size_t x, size_t y, const struct chip *chip,
               const uint8_t *codes);

#endif
