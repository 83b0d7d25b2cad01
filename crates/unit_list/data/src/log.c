#include "log.h"

static int counts[LOG_DETAIL + 1];

void log_put(int level, const char *where, const struct log_entry *entry)
{
    TRACE(log_put);
    counts[level]++;
    (void)where;
    (void)entry;
}

int log_errors(void)
{
    LOG(LOG_NOTE, "errors %d, warnings %d", counts[LOG_ERROR], counts[LOG_WARNING]);
    LOG(LOG_ERROR, "done");
    return counts[LOG_ERROR];
}
