#ifndef WINDOW_H
#define WINDOW_H

#include "bits.h"
#include <pixel.h>

#define WINDOW_VISIBLE BIT(0)
#define WINDOW_RESIZABLE BIT(1)
#define WINDOW_MODAL BIT(2)
#define WINDOW_DEFAULT (WINDOW_VISIBLE | WINDOW_RESIZABLE)

#define WINDOW_WIDTH 640
#define WINDOW_HEIGHT 480

struct window {
    unsigned int flags;
    int width, height;
    pixel background;
};

void window_open(struct window *window, int width, int height);
int window_is_modal(const struct window *window);

#endif
