// What wasi-libc asks of a system, over the calls of liblog, as functions that are linked with it: so the module imports liblog
// alone. Output and errors are `print`, the time is `now` in milliseconds from build's --epoch on, random bytes are `random`, a wait
// for a time is `sleep_until`, and exit is `exit`. There are no files, no standard input and no environment.
#include <string.h>
#include <wasi/api.h>

#include "net/sockets.h"
#include "threads.h"

#pragma weak socket_close
#pragma weak socket_write
#pragma weak socket_read
#pragma weak socket_stat
#pragma weak socket_set_flags

#define SYSTEM(call) __imported_wasi_snapshot_preview1_##call

enum { LONGEST_PRINT = 60000, GATHERED = 1024, NANOS_OF_MILLI = 1000000 };
static const int64_t EPOCH = LIBLOG_EPOCH * 1000;

static int is_standard(int32_t file) {
    return file >= 0 && file <= 2;
}

static void print(const uint8_t *bytes, size_t count) {
    for (size_t at = 0; at < count; at += LONGEST_PRINT)
        liblog_print(bytes + at, count - at < LONGEST_PRINT ? count - at : LONGEST_PRINT);
}

// A line comes in pieces, and is one event.
int32_t SYSTEM(fd_write)(int32_t file, int32_t pieces, int32_t count, int32_t written) {
    const __wasi_ciovec_t *piece = (const __wasi_ciovec_t *)pieces;
    uint8_t gathered[GATHERED];
    size_t held = 0, all = 0;
    if (file != 1 && file != 2)
        return socket_write != NULL ? socket_write(file, piece, count, (size_t *)written) : __WASI_ERRNO_BADF;
    for (int32_t i = 0; i < count; i++) {
        size_t length = piece[i].buf_len;
        all += length;
        if (length > sizeof gathered - held) {
            print(gathered, held);
            held = 0;
        }
        if (length > sizeof gathered) {
            print(piece[i].buf, length);
        } else {
            memcpy(gathered + held, piece[i].buf, length);
            held += length;
        }
    }
    print(gathered, held);
    *(size_t *)written = all;
    return 0;
}

// Nothing is ever typed.
int32_t SYSTEM(fd_read)(int32_t file, int32_t pieces, int32_t count, int32_t read) {
    *(size_t *)read = 0;
    if (file == 0)
        return 0;
    return socket_read != NULL ? socket_read(file, (const __wasi_iovec_t *)pieces, count, (size_t *)read) : __WASI_ERRNO_BADF;
}

int32_t SYSTEM(fd_close)(int32_t file) {
    if (is_standard(file))
        return 0;
    return socket_close != NULL ? socket_close(file) : __WASI_ERRNO_BADF;
}

int32_t SYSTEM(fd_seek)(int32_t file, int64_t offset, int32_t whence, int32_t place) {
    (void)offset, (void)whence, (void)place;
    return is_standard(file) ? __WASI_ERRNO_SPIPE : __WASI_ERRNO_BADF;
}

// As of a terminal, which has no place to seek: then lines are written as they end.
int32_t SYSTEM(fd_fdstat_get)(int32_t file, int32_t stat) {
    if (!is_standard(file))
        return socket_stat != NULL ? socket_stat(file, (__wasi_fdstat_t *)stat) : __WASI_ERRNO_BADF;
    *(__wasi_fdstat_t *)stat = (__wasi_fdstat_t){
        .fs_filetype = __WASI_FILETYPE_CHARACTER_DEVICE,
        .fs_rights_base = __WASI_RIGHTS_FD_READ | __WASI_RIGHTS_FD_WRITE | __WASI_RIGHTS_POLL_FD_READWRITE,
    };
    return 0;
}

int32_t SYSTEM(fd_filestat_get)(int32_t file, int32_t stat) {
    if (!is_standard(file))
        return __WASI_ERRNO_BADF;
    *(__wasi_filestat_t *)stat = (__wasi_filestat_t){.filetype = __WASI_FILETYPE_CHARACTER_DEVICE, .nlink = 1};
    return 0;
}

int32_t SYSTEM(fd_fdstat_set_flags)(int32_t file, int32_t flags) {
    if (is_standard(file))
        return 0;
    return socket_set_flags != NULL ? socket_set_flags(file, flags) : __WASI_ERRNO_BADF;
}

int32_t SYSTEM(fd_prestat_get)(int32_t file, int32_t stat) {
    (void)file, (void)stat;
    return __WASI_ERRNO_BADF;
}

// ---- Time ----

int32_t SYSTEM(clock_time_get)(int32_t clock, int64_t precision, int32_t time) {
    // A steady clock has the date too: libraries take a second of 0 for none.
    int is_dated = clock == __WASI_CLOCKID_REALTIME || clock == __WASI_CLOCKID_MONOTONIC;
    (void)precision;
    *(int64_t *)time = (liblog_now() + (is_dated ? EPOCH : 0)) * NANOS_OF_MILLI;
    return 0;
}

int32_t SYSTEM(clock_res_get)(int32_t clock, int32_t resolution) {
    (void)clock;
    *(int64_t *)resolution = NANOS_OF_MILLI;
    return 0;
}

// A wait for a time and nothing else: nanosleep, usleep and sleep are that.
int32_t SYSTEM(poll_oneoff)(int32_t waits, int32_t events, int32_t count, int32_t happened) {
    const __wasi_subscription_t *wait = (const __wasi_subscription_t *)waits;
    const __wasi_subscription_clock_t *clock = &wait->u.u.clock;
    if (count != 1 || wait->u.tag != __WASI_EVENTTYPE_CLOCK)
        return __WASI_ERRNO_NOSYS;
    int64_t time = (int64_t)(clock->timeout / NANOS_OF_MILLI) + (clock->timeout % NANOS_OF_MILLI != 0);
    liblog_sleep_until(clock->flags & __WASI_SUBCLOCKFLAGS_SUBSCRIPTION_CLOCK_ABSTIME ? time - EPOCH : liblog_now() + time);
    *(__wasi_event_t *)events = (__wasi_event_t){.userdata = wait->userdata, .type = __WASI_EVENTTYPE_CLOCK};
    *(size_t *)happened = 1;
    return 0;
}

int32_t SYSTEM(sched_yield)(void) {
    liblog_yield();
    return 0;
}

// ---- The rest that is there ----

int32_t SYSTEM(random_get)(int32_t place, int32_t count) {
    uint8_t *bytes = (uint8_t *)place;
    for (uint32_t left = count, next; left > 0; left -= next, bytes += next) {
        next = left < LONGEST_PRINT ? left : LONGEST_PRINT;
        liblog_random(bytes, next);
    }
    return 0;
}

_Noreturn void SYSTEM(proc_exit)(int32_t code) {
    liblog_exit(code);
}

// One argument, the program's name.
static const char NAME[] = "guest";

int32_t SYSTEM(args_sizes_get)(int32_t count, int32_t bytes) {
    *(size_t *)count = 1;
    *(size_t *)bytes = sizeof NAME;
    return 0;
}

int32_t SYSTEM(args_get)(int32_t arguments, int32_t bytes) {
    memcpy((char *)bytes, NAME, sizeof NAME);
    *(char **)arguments = (char *)bytes;
    return 0;
}

int32_t SYSTEM(environ_sizes_get)(int32_t count, int32_t bytes) {
    *(size_t *)count = *(size_t *)bytes = 0;
    return 0;
}

int32_t SYSTEM(environ_get)(int32_t variables, int32_t bytes) {
    (void)variables, (void)bytes;
    return 0;
}

// ---- What is not there ----

#define NOT_THERE(call, ...) \
    int32_t SYSTEM(call)(__VA_ARGS__) { return __WASI_ERRNO_NOSYS; }
#pragma clang diagnostic ignored "-Wunused-parameter"

NOT_THERE(fd_advise, int32_t file, int64_t offset, int64_t length, int32_t advice)
NOT_THERE(fd_allocate, int32_t file, int64_t offset, int64_t length)
NOT_THERE(fd_datasync, int32_t file)
NOT_THERE(fd_sync, int32_t file)
NOT_THERE(fd_fdstat_set_rights, int32_t file, int64_t base, int64_t inherited)
NOT_THERE(fd_filestat_set_size, int32_t file, int64_t size)
NOT_THERE(fd_filestat_set_times, int32_t file, int64_t access, int64_t change, int32_t flags)
NOT_THERE(fd_pread, int32_t file, int32_t pieces, int32_t count, int64_t offset, int32_t read)
NOT_THERE(fd_pwrite, int32_t file, int32_t pieces, int32_t count, int64_t offset, int32_t written)
NOT_THERE(fd_prestat_dir_name, int32_t file, int32_t path, int32_t length)
NOT_THERE(fd_readdir, int32_t file, int32_t place, int32_t room, int64_t cookie, int32_t used)
NOT_THERE(fd_renumber, int32_t from, int32_t to)
NOT_THERE(fd_tell, int32_t file, int32_t offset)
NOT_THERE(path_create_directory, int32_t folder, int32_t path, int32_t length)
NOT_THERE(path_filestat_get, int32_t folder, int32_t flags, int32_t path, int32_t length, int32_t stat)
NOT_THERE(path_filestat_set_times, int32_t folder, int32_t flags, int32_t path, int32_t length, int64_t access, int64_t change, int32_t which)
NOT_THERE(path_link, int32_t from, int32_t flags, int32_t path, int32_t length, int32_t to, int32_t new_path, int32_t new_length)
NOT_THERE(path_open, int32_t folder, int32_t look, int32_t path, int32_t length, int32_t open, int64_t base, int64_t inherited, int32_t flags, int32_t file)
NOT_THERE(path_readlink, int32_t folder, int32_t path, int32_t length, int32_t place, int32_t room, int32_t used)
NOT_THERE(path_remove_directory, int32_t folder, int32_t path, int32_t length)
NOT_THERE(path_rename, int32_t from, int32_t path, int32_t length, int32_t to, int32_t new_path, int32_t new_length)
NOT_THERE(path_symlink, int32_t target, int32_t target_length, int32_t folder, int32_t path, int32_t length)
NOT_THERE(path_unlink_file, int32_t folder, int32_t path, int32_t length)
NOT_THERE(sock_accept, int32_t file, int32_t flags, int32_t accepted)
NOT_THERE(sock_recv, int32_t file, int32_t pieces, int32_t count, int32_t flags, int32_t read, int32_t read_flags)
NOT_THERE(sock_send, int32_t file, int32_t pieces, int32_t count, int32_t flags, int32_t written)
NOT_THERE(sock_shutdown, int32_t file, int32_t how)
