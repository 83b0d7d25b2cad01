#include "config.h"

#if defined(_WIN32)
#  define PATH_SEPARATOR '\\'
#  include <windows.h>
#elif defined(__unix__) || defined(__APPLE__)
#  define PATH_SEPARATOR '/'
#else
#  define PATH_SEPARATOR '/'
#  if !HAVE_WIDE_PIXELS && LOG_LEVEL
#    define PORT "plain"
#  else
#    define PORT "wide"
#  endif
#endif

#ifdef PORT
const char *port_name(void) { return PORT; }
#endif

const char *port_file(const char *path)
{
    const char *file = path;
    for (; *path; path++)
        if (*path == PATH_SEPARATOR)
            file = path + 1;
    return file;
}
