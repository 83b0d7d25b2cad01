/* The inputs of many_inputs.c: files and words, each made from a number and the texts of the corpus alone. */
#ifndef INPUTS_H
#define INPUTS_H

#include <stddef.h>
#include <stdint.h>

enum { MOST_FILES = 24, MOST_WORDS = 8, MOST_NAME = 32 };

/* Bytes that grow at their end. */
struct text {
    char *bytes;
    size_t length, room;
};

struct file {
    char name[MOST_NAME];
    struct text text;
};

/* Files that stand in one folder. */
struct files {
    struct file each[MOST_FILES];
    size_t count;
};

/* What the program finds in its folder, the name of a unit that it finds there, and the words behind its name, which may be known to be good. */
struct input {
    struct files files;
    char unit[MOST_NAME];
    char words[MOST_WORDS][MOST_NAME];
    size_t word_count;
    int has_good_words;
};

/* A chain of numbers that looks like chance, and is the same each time. */
struct chance {
    uint64_t state;
};

size_t below(struct chance *chance, size_t bound);
int one_in(struct chance *chance, size_t bound);

void add_bytes(struct text *to, const char *bytes, size_t length);
void add(struct text *to, const char *words);
void add_number(struct text *to, size_t number);
struct text *new_file(struct files *files, const char *name);

/* Adds the files a.c, b.c and h.h of a small project with macros, most of which have no mistake. */
void make_program(struct chance *chance, struct files *files);

/* Reads the texts that are changed: each folder below this one holds a project. */
void read_corpus(const char *folder);

void make_input(uint64_t number, struct input *input);

#endif
