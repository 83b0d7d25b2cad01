/*
 * Calls the program's main with very many small inputs in few processes, and reports each end that isn't documented.
 *
 * usage: many_inputs FOLDER CORPUS FIRST COUNT     tries COUNT inputs from number FIRST on, in FOLDER, which is empty
 *        many_inputs FOLDER CORPUS NUMBER          writes the files of an input into FOLDER, and puts its words
 *
 * many_inputs.py compiles, links and starts it. A child process tries some hundred inputs, so that one that crashes loses few.
 */
#define _GNU_SOURCE
#include <signal.h>
#include <stdio.h>
#include <stdlib.h>
#include <string.h>
#include <sys/wait.h>
#include <unistd.h>

#include "behaviour.h"
#include "call.h"
#include "ends.h"
#include "folder.h"
#include "inputs.h"
#include "totals.h"

enum { BATCH = 400 };

/* Calls the program over the files that stand there, and looks at its end and at what stands there now. */
static void call_and_check(const struct input *input, struct refusal refused, struct end *end, const struct files *before, struct files *now)
{
    call(input, refused, end);
    read_files(before, now);
    clean_folder(before);
    check_end(input, refused, end, before, now);
}

static void set_words(struct input *input, const char *command, const char *project, const char *unit)
{
    snprintf(input->words[0], MOST_NAME, "%s", command);
    snprintf(input->words[1], MOST_NAME, "%s", project);
    snprintf(input->words[2], MOST_NAME, "%s", unit != NULL ? unit : "");
    input->word_count = unit != NULL ? 3 : 2;
    input->has_good_words = 1;
}

/* Behind `apply` the project is read within the limits, its unit has tokens, and for some inputs the unit's program does nothing new. */
static void try_again(const struct input *input, const struct files *written)
{
    static struct input again;
    static struct files now;
    static struct end end;
    const char *project = input->words[input->words[1][0] == '-' ? 2 : 1];
    int is_manifest = strcmp(project, "m.json") == 0;
    const char *unit = is_manifest ? input->unit : project;
    set_words(&again, "plan", project, NULL);
    call_and_check(&again, NOTHING_REFUSED, &end, written, &now);
    if (end.status != 0)
        fault("behind apply, plan ends with %d", end.status);
    set_words(&again, "expand", project, unit);
    call_and_check(&again, NOTHING_REFUSED, &end, written, &now);
    if (end.status != 0 && !(end.status == 2 && is_manifest))
        fault("behind apply, expand ends with %d", end.status);
    if (totals->number % 4 == 0)
        check_behaviour(project, unit, &input->files);
}

/* The end of `plan` with the other words of `apply`, which has to be that of `apply`. */
static void foresee(const struct input *input, struct end *end)
{
    static struct input planned;
    static struct files now;
    memcpy(planned.words, input->words, sizeof planned.words);
    planned.word_count = input->word_count;
    planned.has_good_words = input->has_good_words;
    snprintf(planned.words[0], MOST_NAME, "plan");
    call_and_check(&planned, NOTHING_REFUSED, end, &input->files, &now);
}

static void check_foreseen(const struct end *foreseen, const struct end *end)
{
    if (foreseen->status != end->status || !is_same(&foreseen->output, &end->output))
        fault("plan ends with %d, apply with %d and %s", foreseen->status, end->status, shown(&end->output));
}

/* For some inputs, a call for memory or a write that is refused. */
static struct refusal refusal_of(uint64_t number, const struct input *input)
{
    struct chance chance = { number };
    struct refusal refused = NOTHING_REFUSED;
    if (number % 16 == 5)
        refused.request = (long)below(&chance, (size_t)4 << below(&chance, 14));
    if (number % 16 == 6 && is_command(input, "apply"))
        refused.file_size = 64 + (long)below(&chance, 3000);
    return refused;
}

static void try_input(uint64_t number)
{
    static struct input input;
    static struct files now;
    static struct end end, foreseen;
    make_input(number, &input);
    write_files(&input.files);
    struct refusal refused = refusal_of(number, &input);
    int is_refused = refused.request >= 0 || refused.file_size >= 0;
    int is_foreseen = number % 8 == 3 && is_command(&input, "apply");
    if (is_foreseen)
        foresee(&input, &foreseen);
    tally("inputs");
    call_and_check(&input, refused, &end, &input.files, &now);
    if (is_foreseen)
        check_foreseen(&foreseen, &end);
    if (is_command(&input, "apply") && end.status == 0 && !is_refused)
        try_again(&input, &now);
    remove_files(&input.files);
}

static void try_batch(uint64_t first, uint64_t count)
{
    clean_folder(NULL);
    for (uint64_t number = first; number < first + count; number++) {
        totals->number = number;
        try_input(number);
    }
    totals->number = first + count;
    _exit(0);
}

/* Tries a batch in a child, and gives the number of the input behind the last one that was tried. */
static uint64_t run_batch(uint64_t first, uint64_t count)
{
    int status;
    totals->number = first;
    pid_t child = fork();
    need(child >= 0, "fork");
    if (child == 0)
        try_batch(first, count);
    need(waitpid(child, &status, 0) == child, "waitpid");
    if (totals->number == first + count)
        return first + count;
    if (WIFEXITED(status) && WEXITSTATUS(status) == LOST)
        _exit(LOST);
    if (WIFSIGNALED(status) && (WTERMSIG(status) == SIGALRM || WTERMSIG(status) == SIGPROF))
        fault("it didn't end in %d seconds of the processor, or in %d", PROCESSOR_SECONDS, SECONDS);
    else
        fault("the process ended by %s %d", WIFSIGNALED(status) ? "signal" : "status", WIFSIGNALED(status) ? WTERMSIG(status) : WEXITSTATUS(status));
    return totals->number + 1;
}

static void show_input(uint64_t number)
{
    static struct input input;
    make_input(number, &input);
    write_files(&input.files);
    for (size_t at = 0; at < input.word_count; at++)
        report("word %s\n", input.words[at]);
    struct refusal refused = refusal_of(number, &input);
    report("refused request %ld, file size %ld\n", refused.request, refused.file_size);
}

int main(int count, char **words)
{
    if (count != 4 && count != 5) {
        fputs("usage: many_inputs FOLDER CORPUS FIRST COUNT | many_inputs FOLDER CORPUS NUMBER\n", stderr);
        return 2;
    }
    read_corpus(words[2]);
    begin_totals();
    enter_folder(words[1]);
    uint64_t first = strtoull(words[3], NULL, 10);
    if (count == 4) {
        show_input(first);
        return 0;
    }
    compile_forms();
    signal(SIGXFSZ, SIG_IGN);
    for (uint64_t number = first, end = first + strtoull(words[4], NULL, 10); number < end;)
        number = run_batch(number, end - number < BATCH ? end - number : BATCH);
    put_totals();
    return 0;
}
