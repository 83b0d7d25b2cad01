/* The folder in which the program is called. */
#ifndef FOLDER_H
#define FOLDER_H

#include "inputs.h"

/* Goes to a folder, in which a folder d.h and a file large.h that is too large stand from then on. */
void enter_folder(const char *name);

void write_files(const struct files *files);
void remove_files(const struct files *files);

/* Reads the files of the same names as those before. */
void read_files(const struct files *before, struct files *now);

/* Removes what doesn't belong in the folder, where nothing but the files does, and reports it if there are files. */
void clean_folder(const struct files *files);

const struct file *find_file(const struct files *files, const char *name, size_t length);

#endif
