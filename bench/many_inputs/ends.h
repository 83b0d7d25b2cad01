/* Looks at how a call ended. */
#ifndef ENDS_H
#define ENDS_H

#include "call.h"
#include "inputs.h"

void compile_forms(void);

/* Reports what isn't documented of an end, of the files before it and of those that stand there now. */
void check_end(const struct input *input, struct refusal refused, const struct end *end, const struct files *before, const struct files *now);

int is_command(const struct input *input, const char *command);
int is_same(const struct text *one, const struct text *other);

/* The first bytes of a text, for a report of a fault. */
const char *shown(const struct text *text);

#endif
