/* Compares what programs do before and behind `apply`. */
#include "behaviour.h"

#include <stdio.h>
#include <string.h>

#include "call.h"
#include "ends.h"
#include "folder.h"
#include "totals.h"

enum { NEW_ORDERS = 2, OLD_ORDERS = 4096 };

static void run(const char *project, const char *unit, size_t order, struct end *end)
{
    static struct input input;
    input.word_count = 5;
    snprintf(input.words[0], MOST_NAME, "run");
    snprintf(input.words[1], MOST_NAME, "%s", project);
    snprintf(input.words[2], MOST_NAME, "%s", unit);
    snprintf(input.words[3], MOST_NAME, "--order=%zu", order);
    snprintf(input.words[4], MOST_NAME, "--steps=3000");
    call(&input, NOTHING_REFUSED, end);
}

static int ends_with(const struct text *text, const char *words)
{
    size_t length = strlen(words);
    return text->length >= length && memcmp(text->bytes + text->length - length, words, length) == 0;
}

/* Whether a run tells nothing of the program: it was refused, or took all its steps. */
static int is_open(const struct end *end) { return end->status != 0 || ends_with(&end->output, "[steps]\n"); }

static int is_undefined(const struct end *end)
{
    static const char MARK[] = "[undefined ";
    const char *last = end->output.bytes;
    for (const char *at = last; (at = memchr(at, '[', (size_t)(end->output.bytes + end->output.length - at))) != NULL; at++)
        last = at;
    return strncmp(last, MARK, strlen(MARK)) == 0;
}

/* Looks for an order under which the old program, which stands in the folder, does what the new one did. */
static void look_for(const char *project, const char *unit, size_t new_order, const struct end *new_end)
{
    static struct end end;
    for (size_t order = 0; order < OLD_ORDERS; order++) {
        run(project, unit, order, &end);
        if (is_open(&end) || is_undefined(&end)) {
            tally("behaviour undefined or open");
            return;
        }
        if (is_same(&end.output, &new_end->output)) {
            tally("behaviour kept");
            return;
        }
    }
    fault("behind apply, under order %zu the program of %s puts %s", new_order, unit, shown(&new_end->output));
}

void check_behaviour(const char *project, const char *unit, const struct files *before)
{
    static struct end ends[NEW_ORDERS];
    for (size_t order = 0; order < NEW_ORDERS; order++)
        run(project, unit, order, &ends[order]);
    write_files(before);
    for (size_t order = 0; order < NEW_ORDERS; order++)
        if (!is_open(&ends[order]))
            look_for(project, unit, order, &ends[order]);
}
