/* The documented ends: what is put at each status, and what may have changed. */
#define _GNU_SOURCE
#include "ends.h"

#include <regex.h>
#include <stdio.h>
#include <stdlib.h>
#include <string.h>

#include "folder.h"
#include "totals.h"

/* The forms of what is put, and of the lines of a report. A key of a manifest is put as it is, with any newline in it. */
#define NAME "[A-Za-z0-9_+./<>-]*"
#define WORD "[A-Za-z_][A-Za-z0-9_]*"
#define NUMBER "[0-9]+"

enum form { USAGE, MANIFEST, REFUSED, LIMIT, READ_FAULT, WRITE_FAULT, REWRITTEN, KEPT, COUNTS, JSON, RAN, GENERATED, FORM_COUNT };

static const char *const PATTERNS[FORM_COUNT] = {
    [USAGE] = "^usage: demacro [^\n]*\n$",
    [MANIFEST] = "^manifest (M[1-8]) .*\n$",
    [REFUSED] = "^" NAME ":" NUMBER ":" NUMBER ": refusal (" NUMBER ") [A-Za-z]+( C" NUMBER ")?\n$",
    [LIMIT] = "^limit (L" NUMBER ") [^\n]*\n$",
    [READ_FAULT] = "^read fault (d[.]h)\n$",
    [WRITE_FAULT] = "^write fault (" NAME ")\n$",
    [REWRITTEN] = "^rewritten (" NAME "):(" NUMBER ") " WORD " (function|enumerator|constant)$",
    [KEPT] = "^kept " NAME ":" NUMBER " " WORD " rule (" NUMBER " [A-Z][a-z]+) " NAME ":" NUMBER ":" NUMBER "$",
    [COUNTS] = "^rewritten (" NUMBER ") kept (" NUMBER ")$",
    [JSON] = "^[{]\"definitions\":.*,\"kept\":(" NUMBER "),\"rewritten\":(" NUMBER ")[}]\n$",
    [RAN] = "\\[(exit|steps|undefined [a-z]+)( " NUMBER "| " NAME ":" NUMBER ":" NUMBER ")?\\]\n$",
    [GENERATED] = "^definitions " NUMBER " rewritten (" NUMBER ") kept (" NUMBER ") bytes " NUMBER " " NUMBER "\n$",
};

/* The form that belongs to a status from 1 to 6. */
static const enum form FORM_OF_STATUS[] = { USAGE, USAGE, MANIFEST, REFUSED, LIMIT, READ_FAULT, WRITE_FAULT };

static regex_t forms[FORM_COUNT];

void compile_forms(void)
{
    for (size_t form = 0; form < FORM_COUNT; form++)
        need(regcomp(&forms[form], PATTERNS[form], REG_EXTENDED) == 0, PATTERNS[form]);
}

enum { MOST_PARTS = 4 };

/* The parts of a line that its form names. */
struct parts {
    const char *bytes;
    regmatch_t each[MOST_PARTS];
};

static int has_form(enum form form, const char *bytes, size_t length, struct parts *parts)
{
    parts->bytes = bytes;
    parts->each[0] = (regmatch_t) { 0, (regoff_t)length };
    return regexec(&forms[form], bytes, MOST_PARTS, parts->each, REG_STARTEND) == 0;
}

static int length_of(const struct parts *parts, size_t part) { return (int)(parts->each[part].rm_eo - parts->each[part].rm_so); }
static const char *part_of(const struct parts *parts, size_t part) { return parts->bytes + parts->each[part].rm_so; }
static size_t number_of(const struct parts *parts, size_t part) { return strtoul(part_of(parts, part), NULL, 10); }

const char *shown(const struct text *text)
{
    static char line[200];
    size_t length = 0;
    for (size_t at = 0; at < text->length && length + 5 < sizeof line; at++) {
        unsigned char byte = (unsigned char)text->bytes[at];
        length += (size_t)sprintf(line + length, byte >= 32 && byte < 127 ? "%c" : "\\x%02x", byte);
    }
    line[length] = '\0';
    return line;
}

static const char *line_end(const char *at, const char *end)
{
    const char *newline = memchr(at, '\n', (size_t)(end - at));
    return newline != NULL ? newline : end;
}

/* Where a line of a text begins; lines are counted from 1. */
static const char *line_of(const struct text *text, size_t line)
{
    const char *at = text->bytes, *end = at + text->length;
    for (; line > 1 && at < end; line--) {
        at = line_end(at, end);
        at += at < end;
    }
    return at;
}

static int is_line_same(const struct text *before, const struct text *now, size_t line)
{
    const char *one = line_of(before, line), *other = line_of(now, line);
    size_t length = (size_t)(line_end(one, before->bytes + before->length) - one);
    size_t other_length = (size_t)(line_end(other, now->bytes + now->length) - other);
    return length == other_length && memcmp(one, other, length) == 0;
}

static size_t lines_in(const struct text *text)
{
    size_t count = 0;
    for (size_t at = 0; at < text->length; at++)
        count += text->bytes[at] == '\n';
    return count;
}

int is_same(const struct text *one, const struct text *other)
{
    return one->length == other->length && (one->length == 0 || memcmp(one->bytes, other->bytes, one->length) == 0);
}

/* How many lines of the files are other ones now; a file with more lines or fewer is a fault. */
static size_t changed_lines(const struct files *before, const struct files *now)
{
    size_t changed = 0;
    for (size_t number = 0; number < before->count; number++) {
        const struct text *old = &before->each[number].text, *new = &now->each[number].text;
        size_t lines = lines_in(old);
        if (is_same(old, new))
            continue;
        if (lines_in(new) != lines)
            fault("%s has other lines", before->each[number].name);
        for (size_t line = 1; line <= lines + 1; line++)
            changed += !is_line_same(old, new, line);
    }
    return changed;
}

/* What a report says, as far as it is compared with the files. */
struct report {
    size_t rewritten, kept;
};

/* Looks at a line of a report; where the files were written, one that was rewritten isn't as it was. */
static void check_report_line(const char *line, size_t length, struct report *report, const struct files *before, const struct files *now)
{
    struct parts parts;
    if (has_form(KEPT, line, length, &parts)) {
        report->kept++;
        tally("kept %.*s", length_of(&parts, 1), part_of(&parts, 1));
    } else if (has_form(REWRITTEN, line, length, &parts)) {
        report->rewritten++;
        tally("rewritten %.*s", length_of(&parts, 3), part_of(&parts, 3));
        const struct file *old = find_file(before, part_of(&parts, 1), (size_t)length_of(&parts, 1));
        if (old == NULL)
            fault("no file of %.*s", (int)length, line);
        else if (now != NULL && is_line_same(&old->text, &now->each[old - before->each].text, number_of(&parts, 2)))
            fault("nothing changed at %.*s", (int)length, line);
    } else {
        fault("the report has %.*s", length < 200 ? (int)length : 200, line);
    }
}

/* Looks at the lines of a report before its last one, which has the counts. */
static struct report check_lines(const struct text *output, const struct files *before, const struct files *now)
{
    struct report report = { 0, 0 };
    struct parts parts;
    const char *line = output->bytes, *end = line + output->length;
    const char *next = output->length > 0 ? line_end(line, end) : end;
    while (next < end && next + 1 < end) {
        check_report_line(line, (size_t)(next - line), &report, before, now);
        line = next + 1;
        next = line_end(line, end);
    }
    if (next == end || !has_form(COUNTS, line, (size_t)(next - line), &parts))
        fault("the report ends with %s", shown(output));
    else if (number_of(&parts, 1) != report.rewritten || number_of(&parts, 2) != report.kept)
        fault("the report counts other lines");
    return report;
}

static struct report check_json(const struct text *output)
{
    struct report report = { 0, 0 };
    struct parts parts;
    if (output->length > 0 && has_form(JSON, output->bytes, output->length, &parts))
        report = (struct report) { number_of(&parts, 2), number_of(&parts, 1) };
    else
        fault("the report is %s", shown(output));
    return report;
}

static int has_word(const struct input *input, const char *word)
{
    for (size_t number = 0; number < input->word_count; number++)
        if (strcmp(input->words[number], word) == 0)
            return 1;
    return 0;
}

/* The command, which an option doesn't precede. */
static const char *command_of(const struct input *input) { return input->word_count > 0 ? input->words[0] : ""; }
int is_command(const struct input *input, const char *command) { return strcmp(command_of(input), command) == 0; }

/* What an end is counted under: the words of a call that ends with 1 name no command. */
static const char *counted_as(const struct input *input, int status)
{
    static const char *const COMMANDS[] = { "plan", "apply", "expand", "run", "gen" };
    if (status == 1)
        return "words";
    for (size_t number = 0; number < sizeof COMMANDS / sizeof COMMANDS[0]; number++)
        if (is_command(input, COMMANDS[number]))
            return COMMANDS[number];
    return "other";
}

/* Looks at a report, and at the lines that changed: each definition that was rewritten has changed its first and its last, or one. */
static void check_report(const struct input *input, const struct text *output, const struct files *before, const struct files *now)
{
    int is_applied = is_command(input, "apply");
    int is_json = has_word(input, "--json");
    struct report report = is_json ? check_json(output) : check_lines(output, before, is_applied ? now : NULL);
    size_t changed = changed_lines(before, now);
    if (changed > 2 * report.rewritten || (is_applied && report.rewritten > 0 && changed == 0))
        fault("%zu lines changed, and %zu definitions were rewritten", changed, report.rewritten);
}

static void check_form(enum form form, const struct text *output, const char *what)
{
    struct parts parts;
    if (output->length > 0 && has_form(form, output->bytes, output->length, &parts))
        tally("%s %.*s", what, parts.each[1].rm_so < 0 ? 0 : length_of(&parts, 1), part_of(&parts, parts.each[1].rm_so < 0 ? 0 : 1));
    else
        fault("%s put %s", what, shown(output));
}

/* Looks at what a call put that ended with 0. */
static void check_done(const struct input *input, const struct text *output, const struct files *before, const struct files *now)
{
    if (is_command(input, "plan") || is_command(input, "apply"))
        check_report(input, output, before, now);
    else if (is_command(input, "run"))
        check_form(RAN, output, "run");
    else if (is_command(input, "gen"))
        check_form(GENERATED, output, "gen, rewritten");
    else if (!is_command(input, "expand"))
        fault("status 0 put %s", shown(output));
    else if (output->length > 0 && output->bytes[output->length - 1] != '\n')
        fault("the last line of the tokens has no end");
}

/* Files change by `apply` alone, where all was written, or at a fault before the file that it names. */
static void check_files(const struct input *input, const struct end *end, const struct files *before, const struct files *now)
{
    struct parts parts;
    int is_applied = is_command(input, "apply");
    int stopped = is_applied && end->status == 6 && end->output.length > 0 && has_form(WRITE_FAULT, end->output.bytes, end->output.length, &parts);
    for (size_t number = 0; number < before->count; number++) {
        const struct file *file = &before->each[number];
        int may_change = is_applied && (end->status == 0 || end->status == 7);
        if (stopped)
            may_change = strncmp(file->name, part_of(&parts, 1), (size_t)length_of(&parts, 1)) < 0;
        if (!may_change && !is_same(&file->text, &now->each[number].text))
            fault("%s changed at status %d", file->name, end->status);
    }
}

/* Statuses that tell of a refused call come only where one was refused. */
static void check_cause(int status, struct refusal refused)
{
    if (status == 8 && refused.request < 0)
        fault("memory ran out");
    if ((status == 6 || status == 7) && refused.file_size < 0)
        fault("status %d, and no write was refused", status);
}

/* Whether what a call put was cut where its file could grow no further; the status names an earlier fault then. */
static int is_cut(struct refusal refused, const struct text *output)
{
    return refused.file_size >= 0 && output->length == (size_t)refused.file_size;
}

void check_end(const struct input *input, struct refusal refused, const struct end *end, const struct files *before, const struct files *now)
{
    static const char *const WHAT[] = { "done", "usage", "manifest", "refusal", "limit", "read fault", "write fault" };
    tally("%s status %d", counted_as(input, end->status), end->status);
    if (end->status < 0 || end->status > 8 || (end->status == 1 && input->has_good_words))
        fault("it ended with %d", end->status);
    else if (end->status == 0)
        check_done(input, &end->output, before, now);
    else if (end->status <= 6 && !is_cut(refused, &end->output))
        check_form(FORM_OF_STATUS[end->status], &end->output, WHAT[end->status]);
    else if (end->status == 8 && end->output.length > 0)
        fault("status 8 put %s", shown(&end->output));
    if (end->kept_blocks != 0)
        fault("%ld blocks of memory weren't given back", end->kept_blocks);
    check_files(input, end, before, now);
    check_cause(end->status, refused);
}
