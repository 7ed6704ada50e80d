/* Whole files: read at once, and written whole or not at all. */
#include "cggtts.h"

#include <errno.h>
#include <fcntl.h>
#include <libgen.h>
#include <signal.h>
#include <stdio.h>
#include <stdlib.h>
#include <string.h>
#include <sys/stat.h>
#include <unistd.h>

/* No file of blocks or lines is as long; a device that never ends is. */
static const size_t MOST = (size_t)1 << 30;

void free_bytes(struct bytes *bytes)
{
    free(bytes->at);
    memset(bytes, 0, sizeof *bytes);
}

/* Makes room for so many bytes more. */
static int grow(struct bytes *bytes, size_t more)
{
    if (more > MOST - bytes->length) {
        errno = EFBIG;
        return -1;
    }
    size_t room = bytes->room < 16384 ? 16384 : bytes->room;
    while (room - bytes->length < more) {
        room *= 2;
    }
    if (room != bytes->room) {
        uint8_t *at = realloc(bytes->at, room);
        if (at == NULL) {
            return -1;
        }
        bytes->at = at;
        bytes->room = room;
    }
    return 0;
}

int append_bytes(struct bytes *bytes, const void *more, size_t length)
{
    if (grow(bytes, length) != 0) {
        complain_of_error("output", errno);
        return FAILED;
    }
    memcpy(bytes->at + bytes->length, more, length);
    bytes->length += length;
    return ACCEPTED;
}

static int read_all(int file, struct bytes *bytes)
{
    for (;;) {
        if (grow(bytes, 4096) != 0) {
            return -1;
        }
        ssize_t got = read(file, bytes->at + bytes->length, bytes->room - bytes->length);
        if (got < 0 && errno != EINTR) {
            return -1;
        }
        if (got == 0) {
            return 0;
        }
        bytes->length += got > 0 ? (size_t)got : 0;
    }
}

int read_file(const char *name, struct bytes *bytes)
{
    static int input_read;
    int standard = strcmp(name, "-") == 0;
    memset(bytes, 0, sizeof *bytes);
    if (standard && input_read) {
        complain(name, "standard input can be read only once");
        return FAILED;
    }
    input_read |= standard;
    int file = standard ? STDIN_FILENO : open(name, O_RDONLY | O_CLOEXEC);
    int failed = file < 0 || read_all(file, bytes) != 0;
    int error = errno;
    if (file >= 0 && close(file) != 0 && !failed) {
        failed = 1;
        error = errno;
    }
    if (failed) {
        complain_of_error(name, error);
        free_bytes(bytes);
        return FAILED;
    }
    return ACCEPTED;
}

/* Whether it may be a text for hireblock: a value is set, and there is no byte of 0. */
int looks_like_text(const struct bytes *bytes)
{
    return bytes->length > 0 && memchr(bytes->at, 0, bytes->length) == NULL
        && memchr(bytes->at, '=', bytes->length) != NULL;
}

/* What is known of a file that is read, by its name or as standard input. Answers whether it stands. */
static int input_stands(const char *name, struct stat *state)
{
    return (strcmp(name, "-") == 0 ? fstat(STDIN_FILENO, state) : stat(name, state)) == 0;
}

/* Whether two are one file. Devices and pipes do not count: what is written to them takes nothing from what is read. */
static int one_file(const struct stat *one, const struct stat *other)
{
    return S_ISREG(one->st_mode) && one->st_dev == other->st_dev && one->st_ino == other->st_ino;
}

/* Whether a file to be written is one that is read. */
int is_input(const char *output, const char *input)
{
    struct stat out, in;
    return strcmp(output, "-") != 0 && stat(output, &out) == 0 && input_stands(input, &in) && one_file(&out, &in);
}

/* Whether a file that is read is the one that standard output goes to. */
int is_standard_output(const char *name)
{
    struct stat in, out;
    return input_stands(name, &in) && fstat(STDOUT_FILENO, &out) == 0 && one_file(&out, &in);
}

/* Whether a file that is read has no byte. */
int is_empty(const char *name)
{
    struct stat in;
    return input_stands(name, &in) && in.st_size == 0;
}

static int write_all(int file, const struct bytes *bytes)
{
    size_t done = 0;
    while (done < bytes->length) {
        ssize_t put = write(file, bytes->at + done, bytes->length - done);
        if (put < 0 && errno != EINTR) {
            return -1;
        }
        done += put > 0 ? (size_t)put : 0;
    }
    return 0;
}

/* What was written goes to the disk now. Some file systems, and what is no file, have no such call. */
static int flush_to_disk(int file)
{
    int answer = fsync(file);
    return answer != 0 && (errno == EINVAL || errno == ENOTSUP) ? 0 : answer;
}

/* Writes all of it, flushes it to the disk and closes the file, whatever happens. */
static int write_and_close(int file, const struct bytes *bytes)
{
    if (write_all(file, bytes) != 0 || flush_to_disk(file) != 0) {
        int error = errno;
        close(file);
        errno = error;
        return -1;
    }
    return close(file);
}

/* A file's name goes to the disk with its folder. One that may not be read can't be flushed; the name is right even so. */
static int flush_folder(const char *name)
{
    char *copy = strdup(name);
    int folder = copy == NULL ? -1 : open(dirname(copy), O_RDONLY | O_DIRECTORY | O_CLOEXEC);
    free(copy);
    if (folder < 0) {
        return errno == EACCES ? 0 : -1;
    }
    int answer = flush_to_disk(folder), error = errno;
    close(folder);
    errno = error;
    return answer;
}

/* Writes beside the file and then puts it in its place, with the mode that the file had. */
static int replace(const char *name, const char *beside, const struct stat *old, const struct bytes *bytes)
{
    int file = open(beside, O_WRONLY | O_CREAT | O_EXCL | O_CLOEXEC, 0666);
    if (file < 0) {
        return -1;
    }
    if (old != NULL) {
        /* a mode that can't be kept is no reason to write nothing */
        (void)fchmod(file, old->st_mode & 07777);
    }
    if (write_and_close(file, bytes) != 0 || rename(beside, name) != 0) {
        int error = errno;
        unlink(beside);
        errno = error;
        return -1;
    }
    return flush_folder(name);
}

/* The same, with every signal that can be kept back kept back until the file beside has gone. */
static int replace_undisturbed(const char *name, const char *beside, const struct stat *old, const struct bytes *bytes)
{
    sigset_t all, before;
    sigfillset(&all);
    sigprocmask(SIG_BLOCK, &all, &before);
    int answer = replace(name, beside, old, bytes);
    int error = errno;
    sigprocmask(SIG_SETMASK, &before, NULL);
    errno = error;
    return answer;
}

/* What the file at its own place is called: a link that leads to it stays. The caller frees it. */
static char *own_place(const char *name, int stands)
{
    struct stat link;
    if (!stands && lstat(name, &link) == 0) {
        errno = ENOENT; /* a link that leads nowhere */
        return NULL;
    }
    return stands ? realpath(name, NULL) : strdup(name);
}

/* A device or a pipe can't be put in place, so it is written to. */
static int write_whole(const char *name, const struct bytes *bytes)
{
    struct stat old;
    int stands = stat(name, &old) == 0;
    if (stands && !S_ISREG(old.st_mode)) {
        int file = open(name, O_WRONLY | O_TRUNC | O_CLOEXEC);
        return file < 0 ? -1 : write_and_close(file, bytes);
    }
    char *place = own_place(name, stands);
    size_t room = place != NULL ? strlen(place) + 32 : 0;
    char *beside = place != NULL ? malloc(room) : NULL;
    int answer = -1;
    if (beside != NULL) {
        snprintf(beside, room, "%s.%ld.part", place, (long)getpid());
        answer = replace_undisturbed(place, beside, stands ? &old : NULL, bytes);
    }
    int error = errno;
    free(beside);
    free(place);
    errno = error;
    return answer;
}

int write_file(const char *name, const struct bytes *bytes)
{
    if (strcmp(name, "-") == 0) {
        print_bytes(bytes->at, bytes->length);
        return flush_output();
    }
    if (write_whole(name, bytes) != 0) {
        complain_of_error(name, errno);
        return FAILED;
    }
    return ACCEPTED;
}
