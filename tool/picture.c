#include "picture.h"

#include <stdio.h>
#include <stdlib.h>
#include <string.h>

#include "files.h"
#include "print.h"

bool start_picture(struct picture *picture, size_t width, size_t height)
{
    char header[64];
    picture->header =
        (size_t)snprintf(header, sizeof header, "P6\n%zu %zu\n255\n", width, height);
    picture->width = width;
    picture->len = picture->header + COMPONENTS * width * height;
    picture->bytes = calloc(picture->len, 1);
    if (picture->bytes == NULL) {
        complain("the picture");
        return false;
    }
    memcpy(picture->bytes, header, picture->header);
    return true;
}

void set_pixel(struct picture *picture, size_t x, size_t y, const struct chip *chip,
               const uint8_t *codes)
{
    uint8_t *pixel = picture->bytes + picture->header + COMPONENTS * (y * picture->width + x);
    for (size_t i = 0; i < COMPONENTS; i++)
        pixel[i] = scaled(chip, codes[i]);
}
