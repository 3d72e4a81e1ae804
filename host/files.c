#include "files.h"

#include "print.h"

#include <errno.h>
#include <fcntl.h>
#include <stdlib.h>
#include <string.h>
#include <sys/stat.h>
#include <unistd.h>

void hold_standard_streams(void) {
    // a file that is opened gets the lowest number that is free
    for (int file = STDIN_FILENO; file <= STDERR_FILENO; file++)
        if (fcntl(file, F_GETFD) < 0) open("/dev/null", file == STDIN_FILENO ? O_WRONLY : O_RDONLY);
}

uint8_t *room_for(size_t length) {
    uint8_t *at = malloc(length + 1);
    if (!at) fail("no memory for %zu bytes", length);
    return at;
}

uint32_t *words_for(size_t count) { return (uint32_t *)(void *)room_for(count * sizeof(uint32_t)); }

bool is_standard(const char *name) { return strcmp(name, "-") == 0; }

const char *input_name(const char *name) { return is_standard(name) ? "standard input" : name; }

static int open_input(const char *name) {
    static bool is_input_taken;
    if (is_standard(name)) {
        if (is_input_taken) fail("'-' stands for standard input, which is read only once");
        is_input_taken = true;
        return STDIN_FILENO;
    }
    struct stat known;
    if (stat(name, &known) < 0) {
        if (errno == ENOENT) fail("no file '%s'", name);
        fail_by_system("'%s' cannot be read", name);
    }
    if (S_ISDIR(known.st_mode)) fail("'%s' is a folder", name);
    int file = open(name, O_RDONLY);
    if (file < 0) fail_by_system("'%s' cannot be read", name);
    return file;
}

// Reads up to `length` bytes, fewer only at the file's end.
static size_t fill(int file, const char *name, uint8_t *at, size_t length) {
    size_t done = 0;
    while (done < length) {
        ssize_t got = read(file, at + done, length - done);
        if (got < 0 && errno == EINTR) continue;
        if (got < 0) fail_by_system("'%s' cannot be read", name);
        if (got == 0) break;
        done += (size_t)got;
    }
    return done;
}

struct bytes read_file(const char *name, size_t most) {
    int file = open_input(name);
    size_t room = 0, next = 65536;
    struct bytes all = {NULL, 0};
    // the room grows as the file turns out to be longer: what is read need not have a length
    while (all.length == room && room <= most) {
        room = next <= most ? next : most + 1;
        next *= 2;
        uint8_t *grown = realloc(all.at, room);
        if (!grown) fail("no memory for '%s'", name);
        all.at = grown;
        all.length += fill(file, name, all.at + all.length, room - all.length);
    }
    if (file != STDIN_FILENO) close(file);
    uint8_t *fitting = realloc(all.at, all.length + 1);
    return (struct bytes){fitting ? fitting : all.at, all.length};
}

struct bytes read_value(const char *name) {
    struct bytes value = read_file(name, VALUE_MOST);
    if (value.length > VALUE_MOST) fail("'%s' has over %zu bytes", name, VALUE_MOST);
    return value;
}
