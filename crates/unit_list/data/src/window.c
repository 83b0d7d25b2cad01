#include "window.h"
#include "minmax.h"

void window_open(struct window *window, int width, int height)
{
    window->flags = WINDOW_DEFAULT;
    window->width = MAX(width, 1);
    window->height = MAX(height, 1);
    window->background = WHITE;
    if (window->width > WINDOW_WIDTH || window->height > WINDOW_HEIGHT)
        CLEAR_FLAG(window->flags, WINDOW_RESIZABLE);
}

int window_is_modal(const struct window *window)
{
    return HAS_FLAG(window->flags, WINDOW_MODAL) && HAS_FLAG(window->flags, WINDOW_VISIBLE);
}
