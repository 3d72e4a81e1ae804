#include "outputs.h"

#include "print.h"

#include <errno.h>
#include <fcntl.h>
#include <signal.h>
#include <stdio.h>
#include <stdlib.h>
#include <string.h>
#include <unistd.h>

// ---- where it goes

// The length of the folder of a path, its last / included; 0 where it has none.
static size_t folder_length(const char *path) {
    const char *slash = strrchr(path, '/');
    return slash ? (size_t)(slash - path) + 1 : 0;
}

// A path of the first bytes of one, and another behind them.
static char *joined(const char *path, size_t length, const char *behind) {
    char *made = (char *)room_for(length + strlen(behind));
    memcpy(made, path, length);
    memcpy(made + length, behind, strlen(behind) + 1);
    return made;
}

// The path that a link leads to.
static char *followed(const char *link) {
    char target[4096];
    ssize_t length = readlink(link, target, sizeof target - 1);
    if (length < 0) fail_by_system("'%s' cannot be followed", link);
    target[length] = 0;
    return joined(link, target[0] == '/' ? 0 : folder_length(link), target);
}

static void judge_folder(const char *path) {
    char *folder = joined(path, folder_length(path), ".");
    struct stat known;
    if (stat(folder, &known) < 0 || !S_ISDIR(known.st_mode)) fail("no folder '%.*s'", (int)strlen(folder) - 2, folder);
    free(folder);
}

// Follows the links behind a name. Answers whether there is a file at their end.
static bool follow(const char *name, struct output *output) {
    // as many as the system itself follows
    const int most_links = 40;
    output->path = joined(name, 0, name);
    int failed = lstat(output->path, &output->old);
    for (int links = 0; !failed && S_ISLNK(output->old.st_mode); links++) {
        if (links == most_links) fail("'%s' has too many links behind it", name);
        char *next = followed(output->path);
        free(output->path);
        output->path = next;
        failed = lstat(output->path, &output->old);
    }
    if (failed && errno != ENOENT && errno != ENOTDIR) fail_by_system("'%s' cannot be written", name);
    return !failed;
}

struct output output_of(const char *name) {
    struct output output = {0};
    if (is_standard(name)) return output;
    if (!*name) fail("the output has an empty name");
    output.is_there = follow(name, &output);
    if (!output.is_there) judge_folder(output.path);
    else if (S_ISDIR(output.old.st_mode)) fail("'%s' is a folder", name);
    else if (!S_ISREG(output.old.st_mode)) fail("'%s' is no regular file", name);
    else if (access(output.path, W_OK) < 0) fail_by_system("'%s' cannot be written", name);
    return output;
}

bool is_that_file(const struct output *output, const char *name) {
    struct stat known;
    if (!output->path || !output->is_there || is_standard(name) || stat(name, &known) < 0) return false;
    return known.st_dev == output->old.st_dev && known.st_ino == output->old.st_ino;
}

// ---- writing

static bool write_all(int file, struct bytes bytes) {
    for (size_t done = 0; done < bytes.length;) {
        ssize_t put = write(file, bytes.at + done, bytes.length - done);
        if (put < 0 && errno == EINTR) continue;
        if (put <= 0) return false;
        done += (size_t)put;
    }
    return true;
}

// The file that is written beside an output, while there is one.
static char *volatile beside;

static void remove_beside(void) {
    if (beside) unlink(beside);
}

static const int ENDING[] = {SIGINT, SIGTERM, SIGHUP};
#define ENDINGS (sizeof ENDING / sizeof ENDING[0])

static void end_by_signal(int number) {
    remove_beside();
    signal(number, SIG_DFL);
    raise(number);
}

static void watch_signals(void) {
    for (size_t i = 0; i < ENDINGS; i++)
        // one that is ignored, as by nohup, stays so
        if (signal(ENDING[i], end_by_signal) == SIG_IGN) signal(ENDING[i], SIG_IGN);
    // past a limit on the length of files, a write fails as on a full disk
    signal(SIGXFSZ, SIG_IGN);
}

static void block_signals(int how) {
    sigset_t set;
    sigemptyset(&set);
    for (size_t i = 0; i < ENDINGS; i++) sigaddset(&set, ENDING[i]);
    sigprocmask(how, &set, NULL);
}

// Makes the file beside an output. No signal comes between the file and the name by which it is removed.
static int make_beside(const char *path) {
    watch_signals();
    char *name = joined(path, folder_length(path), ".hbc.XXXXXX");
    block_signals(SIG_BLOCK);
    int file = mkstemp(name);
    if (file >= 0) beside = name;
    block_signals(SIG_UNBLOCK);
    if (file < 0) fail_by_system("nothing can be written beside '%s'", path);
    return file;
}

static void fail_beside(const char *path) {
    int why = errno;
    remove_beside();
    errno = why;
    fail_by_system("'%s' cannot be written", path);
}

// A name that is lost with the machine's power would leave the old file: the folder is synced too, where it can be.
static void sync_folder(const char *path) {
    char *folder = joined(path, folder_length(path), ".");
    int file = open(folder, O_RDONLY);
    if (file >= 0) {
        fsync(file);
        close(file);
    }
    free(folder);
}

// The mode that a new file gets.
static mode_t new_mode(void) {
    mode_t mask = umask(0);
    umask(mask);
    return 0666 & ~mask;
}

// The new file gets the mode of the old one, and its owner where the system lets it. Bits that lend the owner's rights go with the owner.
static bool take_after(int file, const struct output *output) {
    if (!output->is_there) return fchmod(file, new_mode()) == 0;
    bool has_owner = fchown(file, output->old.st_uid, output->old.st_gid) == 0;
    return fchmod(file, output->old.st_mode & (has_owner ? 07777 : 0777)) == 0;
}

static bool fill_beside(int file, struct bytes bytes, const struct output *output) {
    return write_all(file, bytes) && take_after(file, output) && fsync(file) == 0 && close(file) == 0;
}

void write_output(struct output output, struct bytes bytes) {
    if (!output.path) {
        if (!write_all(STDOUT_FILENO, bytes)) fail_by_system("standard output cannot be written");
        return;
    }
    int file = make_beside(output.path);
    if (!fill_beside(file, bytes, &output) || rename(beside, output.path) < 0) fail_beside(output.path);
    char *name = beside;
    beside = NULL;
    free(name);
    sync_folder(output.path);
}
