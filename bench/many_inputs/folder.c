/* Writes, reads and cleans the folder in which the program is called. */
#include "folder.h"

#include <dirent.h>
#include <errno.h>
#include <fcntl.h>
#include <string.h>
#include <sys/stat.h>
#include <unistd.h>

#include "call.h"
#include "totals.h"

enum { LARGE = 1048577 };

const struct file *find_file(const struct files *files, const char *name, size_t length)
{
    for (size_t number = 0; number < files->count; number++) {
        const struct file *file = &files->each[number];
        if (strlen(file->name) == length && memcmp(file->name, name, length) == 0)
            return file;
    }
    return NULL;
}

static void write_file(const struct file *file)
{
    int to = open(file->name, O_WRONLY | O_CREAT | O_TRUNC, 0644);
    need(to >= 0, file->name);
    need(write(to, file->text.bytes, file->text.length) == (ssize_t)file->text.length, file->name);
    close(to);
}

void write_files(const struct files *files)
{
    for (size_t number = 0; number < files->count; number++)
        write_file(&files->each[number]);
}

static int stands_always(const char *name) { return strcmp(name, "d.h") == 0 || strcmp(name, "large.h") == 0; }

void enter_folder(const char *name)
{
    need(chdir(name) == 0, name);
    int large = open("large.h", O_WRONLY | O_CREAT, 0644);
    need(large >= 0 && ftruncate(large, LARGE) == 0 && close(large) == 0, "large.h");
    need(mkdir("d.h", 0755) == 0 || errno == EEXIST, "d.h");
}

void clean_folder(const struct files *files)
{
    struct dirent *entry;
    DIR *folder = opendir(".");
    need(folder != NULL, "opendir");
    while ((entry = readdir(folder)) != NULL) {
        const char *name = entry->d_name;
        if (strcmp(name, ".") == 0 || strcmp(name, "..") == 0 || stands_always(name))
            continue;
        if (files != NULL && find_file(files, name, strlen(name)) != NULL)
            continue;
        if (files != NULL)
            fault("the folder has %s", name);
        unlink(name);
    }
    closedir(folder);
}

void read_files(const struct files *before, struct files *now)
{
    now->count = 0;
    for (size_t number = 0; number < before->count; number++) {
        const char *name = before->each[number].name;
        struct text *text = new_file(now, name);
        int from = open(name, O_RDONLY);
        if (from < 0) {
            fault("%s is gone", name);
            continue;
        }
        read_whole(from, text);
        close(from);
    }
}

void remove_files(const struct files *files)
{
    for (size_t number = 0; number < files->count; number++)
        unlink(files->each[number].name);
}
