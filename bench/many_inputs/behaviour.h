/* What programs do before and behind `apply`. */
#ifndef BEHAVIOUR_H
#define BEHAVIOUR_H

#include "inputs.h"

/*
 * Runs the program of a unit as it stands in the folder, and then as it was, and reports where it does something under some order of
 * evaluation that the old one does under none of many, though that one isn't undefined under any of them. The old files stand there then.
 */
void check_behaviour(const char *project, const char *unit, const struct files *before);

#endif
