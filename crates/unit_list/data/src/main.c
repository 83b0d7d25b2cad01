#include "window.h"
#include "log.h"
#include "minmax.h"

static const char version[] = "project " STRING_OF(VERSION_MAJOR) "." STRING_OF(VERSION_MINOR);

int main(int argc, char **argv)
{
    struct window window;
    int width = argc > 1 ? text_length(argv[1]) : WINDOW_WIDTH;

    TRACE(main);
    window_open(&window, CLAMP(width, 1, WINDOW_WIDTH), WINDOW_HEIGHT);
    if (HAS_FLAG(window.flags, WINDOW_MODAL))
        LOG(LOG_WARNING, "modal: %d", window_is_modal(&window));
    LOG(LOG_NOTE, version, VERSION);
#if VERSION >= VERSION_NUMBER(2, 0)
    return 0;
#else
    return 1;
#endif
}
