/*
 * Preloaded under a program (LD_PRELOAD), notes each pread, pwrite, fdatasync and fsync of one file: that
 * which FILE_CALLS_PATH names when the program starts, whatever descriptor the call is made on. Calls on
 * other files are made and not noted.
 *
 * Behind each call a note of it is added to the file FILE_CALLS_LOG by one write: five numbers of 8 bytes,
 * of this machine's byte order, and behind those of a pwrite the bytes that were to be written. The numbers
 * are the kind of the call, as below; its offset and its length, 0 of a sync; its answer, or the errno
 * below zero; and 1 where the answer was made here, else 0.
 *
 * FILE_CALLS_FAULT, where it is there, has three or four decimal numbers: the kind of a call, its number
 * among those of its kind, counted from 1, an errno, and another one. That call is not made, and fails with
 * the errno. Where this is 0 it is made with half of its bytes, and answers so many; one of a single byte
 * is made as it is. Where the fourth number is there and not 0, the next call of that kind fails with it.
 *
 * It takes what it was told out of the environment, so that what the program starts runs without it.
 *
 * It prints nothing, and ends the program with status 125 where it cannot note.
 */
#define _GNU_SOURCE
#include <errno.h>
#include <fcntl.h>
#include <inttypes.h>
#include <stdio.h>
#include <stdlib.h>
#include <sys/stat.h>
#include <sys/syscall.h>
#include <sys/uio.h>
#include <unistd.h>

enum { CANNOT_NOTE = 125 };
enum kind { PREAD = 1, PWRITE, FDATASYNC, FSYNC };

struct note {
    uint64_t kind;
    int64_t offset;
    uint64_t length;
    int64_t answer;
    uint64_t is_made_here;
};

static int log_file = -1;
static struct stat watched;
static uint64_t fault_kind;
static uint64_t fault_number;
static int fault_error;
static int next_error;
static uint64_t calls_of_kind;

static const char *told(const char *name)
{
    const char *text = getenv(name);
    if (text == NULL)
        _exit(CANNOT_NOTE);
    return text;
}

__attribute__((constructor)) static void begin(void)
{
    if (stat(told("FILE_CALLS_PATH"), &watched) != 0)
        _exit(CANNOT_NOTE);
    log_file = open(told("FILE_CALLS_LOG"), O_WRONLY | O_CREAT | O_APPEND | O_CLOEXEC, 0600);
    if (log_file < 0)
        _exit(CANNOT_NOTE);
    const char *fault = getenv("FILE_CALLS_FAULT");
    const char *form = "%" SCNu64 " %" SCNu64 " %d %d";
    if (fault != NULL && sscanf(fault, form, &fault_kind, &fault_number, &fault_error, &next_error) < 3)
        _exit(CANNOT_NOTE);
    unsetenv("LD_PRELOAD");
    unsetenv("FILE_CALLS_PATH");
    unsetenv("FILE_CALLS_LOG");
    unsetenv("FILE_CALLS_FAULT");
}

static int is_watched(int file)
{
    struct stat found;
    if (log_file < 0 || fstat(file, &found) != 0)
        return 0;
    return found.st_dev == watched.st_dev && found.st_ino == watched.st_ino;
}

static void add_note(struct note note, void *bytes)
{
    size_t count = note.kind == PWRITE ? note.length : 0;
    struct iovec parts[2] = {{&note, sizeof note}, {bytes, count}};
    if (writev(log_file, parts, 2) != (ssize_t)(sizeof note + count))
        _exit(CANNOT_NOTE);
}

/* Counts a call. Answers the errno with which it fails, -1 where it is to be short, or 0. */
static int fault_of(enum kind kind)
{
    if (kind != fault_kind)
        return 0;
    calls_of_kind++;
    if (calls_of_kind == fault_number)
        return fault_error == 0 ? -1 : fault_error;
    return calls_of_kind == fault_number + 1 ? next_error : 0;
}

/* Makes the call by this number of the system, unless it is to fail, and notes it. */
static ssize_t noted(enum kind kind, long number, int file, void *bytes, size_t length, off64_t offset)
{
    if (!is_watched(file))
        return syscall(number, file, bytes, length, offset);
    int fault = fault_of(kind);
    size_t count = fault < 0 && length > 1 ? length / 2 : length;
    ssize_t answer = -fault;
    if (fault <= 0)
        answer = syscall(number, file, bytes, count, offset);
    if (fault <= 0 && answer < 0)
        answer = -errno;
    add_note((struct note){kind, offset, length, answer, fault != 0}, bytes);
    if (answer >= 0)
        return answer;
    errno = (int)-answer;
    return -1;
}

ssize_t pread64(int file, void *bytes, size_t length, off64_t offset)
{
    return noted(PREAD, SYS_pread64, file, bytes, length, offset);
}

ssize_t pwrite64(int file, const void *bytes, size_t length, off64_t offset)
{
    return noted(PWRITE, SYS_pwrite64, file, (void *)bytes, length, offset);
}

ssize_t pread(int file, void *bytes, size_t length, off_t offset)
{
    return pread64(file, bytes, length, offset);
}

ssize_t pwrite(int file, const void *bytes, size_t length, off_t offset)
{
    return pwrite64(file, bytes, length, offset);
}

int fdatasync(int file)
{
    return (int)noted(FDATASYNC, SYS_fdatasync, file, NULL, 0, 0);
}

int fsync(int file)
{
    return (int)noted(FSYNC, SYS_fsync, file, NULL, 0, 0);
}
