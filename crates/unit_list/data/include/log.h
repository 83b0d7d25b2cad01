#ifndef LOG_H
#define LOG_H

#include "config.h"
#include "text.h"

struct log_entry {
    const char *text;
    int first;
    int second;
};

void log_put(int level, const char *where, const struct log_entry *entry);

#define LOG_ERROR 0
#define LOG_WARNING 1
#define LOG_NOTE 2
#define LOG_DETAIL 3

#if HAVE_VARIADIC_MACROS
#define LOG(level, ...) do { const struct log_entry entry = { __VA_ARGS__ }; if ((level) <= LOG_LEVEL) log_put(level, HERE, &entry); } while (0)
#endif

#if LOG_LEVEL >= LOG_DETAIL
#define TRACE(name) LOG(LOG_DETAIL, "trace " STRING(name))
#else
#define TRACE(name)
#endif

#endif
