/* Makes the inputs of many_inputs.c: random bytes, pieces of C, changed texts of the corpus, and programs of program_maker.c. */
#include "inputs.h"

#include <dirent.h>
#include <stdio.h>
#include <stdlib.h>
#include <string.h>

enum { MOST_PROJECTS = 8, MOST_PATH = 4096 };

#define COUNT_OF(array) (sizeof(array) / sizeof((array)[0]))

static struct files projects[MOST_PROJECTS];
static size_t project_count;

static const char *const PIECES[] = {
    "#define M(x) ((x)+(x))\n", "#define N 3\n", "#define E\n", "#undef N\n", "#if N\n", "#endif\n", "#else\n", "#elif 1\n",
    "#include \"h.h\"\n", "M(", ")", "(", "{", "}", ";", ",", "#", "##",
    "\\\n", "/*", "*/", "//", "\"", "'", "?\?/", "N", "M(N)", "int ", "struct s { int a; };\n", "return ", "sizeof ", "0x", "1u", "'a'",
    "case ", "static ", "enum { ", "?", ":", "=", "\xff", "\r\n", "\t",
    "int main(void) { return N; }\n", "#define J(x, y) x ## y\n", "#define S(x) #x\n", "#include \"a.c\"\n", "#pragma once\n", "#error\n",
    "__LINE__", "__VA_ARGS__", "\n", "\n", "...", "#include \"large.h\"\n", "#include \"d.h\"\n",
};

/* SplitMix64. */
static uint64_t next(struct chance *chance)
{
    uint64_t mixed = chance->state += 0x9e3779b97f4a7c15;
    mixed = (mixed ^ mixed >> 30) * 0xbf58476d1ce4e5b9;
    mixed = (mixed ^ mixed >> 27) * 0x94d049bb133111eb;
    return mixed ^ mixed >> 31;
}

size_t below(struct chance *chance, size_t bound) { return next(chance) % bound; }
int one_in(struct chance *chance, size_t bound) { return below(chance, bound) == 0; }

static void reserve(struct text *text, size_t room)
{
    if (room <= text->room)
        return;
    text->room = room + room / 2 + 256;
    text->bytes = realloc(text->bytes, text->room);
    if (text->bytes == NULL)
        abort();
}

void add_bytes(struct text *to, const char *bytes, size_t length)
{
    if (length == 0)
        return;
    reserve(to, to->length + length);
    memcpy(to->bytes + to->length, bytes, length);
    to->length += length;
}

void add(struct text *to, const char *words) { add_bytes(to, words, strlen(words)); }

void add_number(struct text *to, size_t number)
{
    char digits[24];
    add_bytes(to, digits, (size_t)snprintf(digits, sizeof digits, "%zu", number));
}

struct text *new_file(struct files *files, const char *name)
{
    struct file *file = &files->each[files->count++];
    if (snprintf(file->name, sizeof file->name, "%s", name) >= MOST_NAME)
        abort();
    file->text.length = 0;
    return &file->text;
}

/* Puts other bytes in place of those from `first` to `second`. */
static void replace(struct text *text, size_t first, size_t second, const char *bytes, size_t length)
{
    size_t tail = text->length - second;
    reserve(text, first + length + tail + 1);
    memmove(text->bytes + first + length, text->bytes + second, tail);
    memcpy(text->bytes + first, bytes, length);
    text->length = first + length + tail;
}

static int is_between(char byte, char first, char last) { return byte >= first && byte <= last; }

static int is_of_word(char byte)
{
    return is_between(byte, 'a', 'z') || is_between(byte, 'A', 'Z') || is_between(byte, '0', '9') || byte == '_';
}

/* Where a word, or a byte that is in no word, begins and ends in a text that isn't empty. */
static void find_word(struct chance *chance, const struct text *text, size_t *first, size_t *second)
{
    size_t at = below(chance, text->length);
    *first = at;
    *second = at + 1;
    if (!is_of_word(text->bytes[at]))
        return;
    while (*first > 0 && is_of_word(text->bytes[*first - 1]))
        --*first;
    while (*second < text->length && is_of_word(text->bytes[*second]))
        ++*second;
}

/* Puts a word of a text in place of one of another text, or of the same. */
static void change_word(struct chance *chance, struct text *text, const struct text *other)
{
    char word[64];
    size_t first, second, from, to;
    if (text->length == 0 || other->length == 0)
        return;
    find_word(chance, text, &first, &second);
    find_word(chance, other, &from, &to);
    size_t length = to - from < sizeof word ? to - from : sizeof word;
    memcpy(word, other->bytes + from, length);
    replace(text, first, one_in(chance, 4) ? first : second, word, length);
}

/* Puts some bytes of a text, or of a piece, in place of some of another. */
static void change_bytes(struct chance *chance, struct text *text, const struct text *other)
{
    static const size_t LENGTHS[] = { 0, 1, 10, 200 };
    char bytes[200];
    size_t first = below(chance, text->length + 1);
    size_t second = first + LENGTHS[below(chance, COUNT_OF(LENGTHS))];
    second = second < text->length ? second : text->length;
    const char *piece = PIECES[below(chance, COUNT_OF(PIECES))];
    size_t length = strlen(piece);
    if (one_in(chance, 2)) {
        size_t from = below(chance, other->length + 1);
        length = other->length - from;
        length = length < sizeof bytes ? length : LENGTHS[1 + below(chance, COUNT_OF(LENGTHS) - 1)];
        piece = other->bytes + from;
    }
    memcpy(bytes, piece, length);
    replace(text, first, second, bytes, length);
}

/* Makes one change to a text. */
static void change(struct chance *chance, struct text *text, const struct text *other)
{
    size_t at = below(chance, text->length + 1);
    char byte = (char)below(chance, 256);
    switch (below(chance, 8)) {
    case 0: text->length = at; break;
    case 1: replace(text, at, at < text->length ? at + 1 : at, &byte, 1); break;
    case 2: case 3: change_bytes(chance, text, other); break;
    default: change_word(chance, text, other); break;
    }
}

static void change_some(struct chance *chance, struct files *files)
{
    for (size_t left = 1 + below(chance, 3); left > 0; left--) {
        struct text *text = &files->each[below(chance, files->count)].text;
        change(chance, text, &files->each[below(chance, files->count)].text);
    }
}

static void put_random_bytes(struct chance *chance, struct text *to)
{
    for (size_t left = below(chance, 200); left > 0; left--) {
        char byte = (char)below(chance, one_in(chance, 4) ? 256 : 128);
        add_bytes(to, &byte, 1);
    }
}

static void put_pieces(struct chance *chance, struct text *to)
{
    for (size_t left = below(chance, 60); left > 0; left--)
        add(to, PIECES[below(chance, COUNT_OF(PIECES))]);
}

static void make_parts(struct chance *chance, struct files *files, void (*make)(struct chance *, struct text *))
{
    make(chance, new_file(files, "a.c"));
    make(chance, new_file(files, "b.c"));
    make(chance, new_file(files, "h.h"));
}

static void repeat(struct text *to, const char *words, size_t times)
{
    for (; times > 0; times--)
        add(to, words);
}

/* Definitions of which each stands for the one before it, twice or with an argument. */
static void put_chain(struct chance *chance, struct text *to)
{
    static const char *const BODIES[] = { "(x) N", " (N", " N", "(x) x N" };
    static const char *const ENDS[] = { "(x)", " + 1)", "", "((x))" };
    size_t kind = below(chance, COUNT_OF(BODIES)), length = 1 + below(chance, 40);
    add(to, kind % 3 == 0 ? "#define N0(x) +x\n" : "#define N0 1\n");
    for (size_t number = 1; number <= length; number++) {
        add(to, "#define N");
        add_number(to, number);
        add(to, BODIES[kind]);
        add_number(to, number - 1);
        add(to, ENDS[kind]);
        if (number < 12 && one_in(chance, 3)) {
            add(to, " + N");
            add_number(to, number - 1);
            add(to, kind % 3 == 0 ? "(1)" : "");
        }
        add(to, "\n");
    }
    add(to, "int a = N");
    add_number(to, length);
    add(to, kind % 3 == 0 ? "(2);\n" : ";\n");
}

/* Something within itself, or behind itself, very often. */
static void put_repeated(struct chance *chance, struct text *to)
{
    static const char *const STARTS[] = {
        "int a = ", "int a = 1", "int ", "int f(void) { return 0; ", "", "#define F(x) (x)\nint a = ", "int f(int a) { return ",
        "char *s = \"\"", "#define F(x) #x\nchar *a = ", "#define F(x, y) x ## y\nint a = ",
    };
    static const char *const PARTS[] = { "(", " + 1", "*", "{", "#if 1\n", "F(", "-", " \"a\"", "F(", "F(1, " };
    static const char *const MIDDLES[] = { "1", "", "p", "", "int a;\n", "1", "a", "", "", "" };
    static const char *const CLOSES[] = { ")", "", "", "}", "#endif\n", ")", "", "", ")", ")" };
    static const char *const ENDS[] = { ";\n", ";\n", ";\n", "}\n", "", ";\n", "; }\n", ";\n", ";\n", ";\n" };
    size_t kind = below(chance, COUNT_OF(PARTS)), times = below(chance, one_in(chance, 4) ? 700 : 60);
    add(to, STARTS[kind]);
    repeat(to, PARTS[kind], times);
    add(to, MIDDLES[kind]);
    repeat(to, CLOSES[kind], times);
    add(to, ENDS[kind]);
}

static void copy_project(struct chance *chance, struct files *files)
{
    const struct files *project = &projects[below(chance, project_count)];
    for (size_t number = 0; number < project->count; number++) {
        const struct file *file = &project->each[number];
        add_bytes(new_file(files, file->name), file->text.bytes, file->text.length);
    }
}

/* A unit of a project: the name of a file that ends in .c, or some other name. */
static const char *unit_of(struct chance *chance, const struct files *files)
{
    for (size_t tries = 0; tries < 20; tries++) {
        const char *name = files->each[below(chance, files->count)].name;
        if (name[strlen(name) - 1] == 'c' && strcmp(name, "b.c") != 0)
            return name;
    }
    return "b.c";
}

static void put_unit(struct chance *chance, struct text *to, const char *name)
{
    static const char *const MORE[] = {
        "", "", ", \"define\": [\"D=3\"]", ", \"define\": [\"D\", \"MA=1\"]", ", \"define\": [\"BIG=(1+2)\"]", ", \"include\": []",
        ", \"include\": [\"d.h\", \"no\"]", ", \"define\": [\"=\"]",
    };
    add(to, "{\"file\": \"");
    add(to, name);
    add(to, "\", \"include\": [\".\"]");
    add(to, MORE[below(chance, COUNT_OF(MORE) - 1 + one_in(chance, 4))]);
    add(to, "}");
}

/* The manifest m.json, good or bad, of one or two units. */
static void put_manifest(struct chance *chance, struct files *files, const char *unit)
{
    struct text *text = new_file(files, "m.json");
    add(text, "{\"units\": [");
    put_unit(chance, text, unit);
    if (one_in(chance, 2)) {
        add(text, ", ");
        put_unit(chance, text, unit_of(chance, files));
    }
    add(text, one_in(chance, 50) ? "], \"more\": 1}" : "]}\n");
    if (one_in(chance, 10))
        change(chance, text, text);
}

static void add_word(struct input *input, const char *word)
{
    if (input->word_count < MOST_WORDS)
        snprintf(input->words[input->word_count++], MOST_NAME, "%s", word);
}

static void put_random_words(struct chance *chance, struct input *input)
{
    static const char *const WORDS[] = {
        "plan", "apply", "expand", "run", "gen", "a.c", "m.json", "h.h", "--json", "--order", "--order=1", "--steps=100", "--input", "--",
        "--help", "-h", "3", "18446744073709551616",
        "", "\xc3\xa9", "\xff", "no.c", "../a.c", "d.h", "large.h", "-", "--json=1", "--input=b.c", "0", "./a.c", "a.c/", "--version",
        "help", "--orders", "00000000000000000001", "1e3",
    };
    for (size_t left = below(chance, 7); left > 0; left--)
        add_word(input, WORDS[below(chance, COUNT_OF(WORDS))]);
}

static void put_run_words(struct chance *chance, struct input *input)
{
    static const char *const ORDERS[] = { "0", "1", "2", "3", "7", "18446744073709551615" };
    if (one_in(chance, 2)) {
        add_word(input, "--order");
        add_word(input, ORDERS[below(chance, COUNT_OF(ORDERS))]);
    }
    add_word(input, one_in(chance, 4) ? "--steps=37" : "--steps=2000");
    if (one_in(chance, 4))
        add_word(input, "--input=h.h");
}

static void put_words(struct chance *chance, struct input *input, const char *unit)
{
    static const char *const COMMANDS[] = { "apply", "apply", "apply", "plan", "expand", "expand", "run", "run" };
    const char *command = COMMANDS[below(chance, COUNT_OF(COMMANDS))];
    input->has_good_words = 1;
    add_word(input, command);
    if (one_in(chance, 3))
        add_word(input, "m.json");
    else
        add_word(input, unit);
    if (command[0] == 'e' || command[0] == 'r')
        add_word(input, one_in(chance, 30) ? "no.c" : unit);
    if (command[0] == 'r')
        put_run_words(chance, input);
    else if (command[0] != 'e' && one_in(chance, 6))
        add_word(input, "--json");
}

static void make_files(struct chance *chance, struct files *files)
{
    size_t kind = below(chance, 100);
    if (kind < 4)
        make_parts(chance, files, put_random_bytes);
    else if (kind < 10)
        make_parts(chance, files, put_pieces);
    else if (kind < 11)
        make_parts(chance, files, put_chain);
    else if (kind < 12)
        make_parts(chance, files, put_repeated);
    else if (kind < 18 && project_count > 0)
        copy_project(chance, files);
    else
        make_program(chance, files);
    if (kind >= 11 && one_in(chance, 3))
        change_some(chance, files);
}

void make_input(uint64_t number, struct input *input)
{
    struct chance chance = { number * 0x2545f4914f6cdd1d };
    input->files.count = 0;
    input->word_count = 0;
    input->has_good_words = 0;
    make_files(&chance, &input->files);
    const char *unit = unit_of(&chance, &input->files);
    snprintf(input->unit, sizeof input->unit, "%s", unit);
    put_manifest(&chance, &input->files, unit);
    if (one_in(&chance, 20))
        put_random_words(&chance, input);
    else if (one_in(&chance, 1000))
        add_word(input, "gen"), add_word(input, "7");
    else
        put_words(&chance, input, unit);
}

/* The path of a file or a folder in a folder. */
static void join(char path[MOST_PATH], const char *folder, const char *name)
{
    if (snprintf(path, MOST_PATH, "%s/%s", folder, name) >= MOST_PATH)
        abort();
}

static void read_file(const char *folder, const char *name, struct text *to)
{
    char path[MOST_PATH], bytes[4096];
    size_t length;
    join(path, folder, name);
    FILE *file = fopen(path, "rb");
    if (file == NULL)
        abort();
    while ((length = fread(bytes, 1, sizeof bytes, file)) > 0)
        add_bytes(to, bytes, length);
    fclose(file);
}

static int compare_entries(const struct dirent **one, const struct dirent **other) { return strcmp((*one)->d_name, (*other)->d_name); }
static int is_shown(const struct dirent *entry) { return entry->d_name[0] != '.'; }

/* The entries of a folder in the order of their names. */
static size_t entries_of(const char *folder, struct dirent ***entries)
{
    int count = scandir(folder, entries, is_shown, compare_entries);
    if (count < 0)
        abort();
    return (size_t)count;
}

static void read_project(const char *folder, struct files *project)
{
    struct dirent **entries;
    size_t count = entries_of(folder, &entries);
    for (size_t number = 0; number < count; number++) {
        if (project->count < MOST_FILES - 1)
            read_file(folder, entries[number]->d_name, new_file(project, entries[number]->d_name));
        free(entries[number]);
    }
    free(entries);
}

void read_corpus(const char *folder)
{
    struct dirent **entries;
    size_t count = entries_of(folder, &entries);
    for (size_t number = 0; number < count; number++) {
        char path[MOST_PATH];
        join(path, folder, entries[number]->d_name);
        if (project_count < MOST_PROJECTS)
            read_project(path, &projects[project_count++]);
        free(entries[number]);
    }
    free(entries);
}
