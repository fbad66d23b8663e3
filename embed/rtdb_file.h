/* rtdb_file.h: a log of rtdb.h on a file of the system, in C99 with POSIX. Define _POSIX_C_SOURCE as 200809L or more before the
 * first header. Each function answers 1 where it did all, and 0 else. */
#ifndef RTDB_FILE_H
#define RTDB_FILE_H

#include <errno.h>
#include <fcntl.h>
#include <stdlib.h>
#include <sys/file.h>
#include <sys/stat.h>
#include <unistd.h>

#include "rtdb.h"

/* Opens a file, or makes it, and locks it, so that another program that does the same has none. Answers its number, or -1. */
static inline int rtdb_file_open(const char *path) {
    int file = open(path, O_RDWR | O_CREAT | O_CLOEXEC, 0666);
    if (file >= 0 && flock(file, LOCK_EX | LOCK_NB) != 0) {
        close(file);
        return -1;
    }
    return file;
}

/* Reads the whole file into a block, which is to be freed. The block is not null, also where the file is empty. */
static inline int rtdb_file_read(int file, uint8_t **bytes, size_t *length) {
    struct stat about;
    if (fstat(file, &about) != 0) return 0;
    size_t done = 0, whole = (size_t)about.st_size;
    uint8_t *block = (uint8_t *)malloc(whole + 1);
    if (block == NULL) return 0;
    while (done < whole) {
        ssize_t got = pread(file, block + done, whole - done, (off_t)done);
        if (got < 0 && errno == EINTR) continue;
        if (got <= 0) break;
        done += (size_t)got;
    }
    if (done < whole) {
        free(block);
        return 0;
    }
    *bytes = block;
    *length = whole;
    return 1;
}

/* Makes one call. */
static inline int rtdb_file_make(int file, const rtdb_call *call, const uint8_t *bytes) {
    size_t done = 0;
    if (call->kind == RTDB_CALL_SYNC) {
        int answer;
        do answer = fsync(file);
        while (answer != 0 && errno == EINTR);
        return answer == 0;
    }
    while (done < call->count) {
        ssize_t put = pwrite(file, bytes + done, (size_t)call->count - done, (off_t)(call->offset + done));
        if (put < 0 && errno == EINTR) continue;
        if (put <= 0) return 0;
        done += (size_t)put;
    }
    return 1;
}

/* Makes the calls of a log, and answers each. After 0 one failed, and the log has stopped. */
static inline int rtdb_file_make_all(int file, rtdb_log *log) {
    uint8_t bytes[RTDB_LOG_WIDTH] = {0};
    rtdb_call call = {0, 0, 0};
    while (rtdb_log_call(log, &call, bytes, sizeof bytes) == RTDB_OK) {
        int made = rtdb_file_make(file, &call, bytes);
        if (rtdb_log_answer(log, (uint32_t)made) != RTDB_OK || !made) return 0;
    }
    return 1;
}

/* Makes sure of the name of a new file in the folder that it stands in. */
static inline int rtdb_file_sync_folder(const char *folder) {
    int file = open(folder, O_RDONLY | O_CLOEXEC), answer;
    if (file < 0) return 0;
    do answer = fsync(file);
    while (answer != 0 && errno == EINTR);
    close(file);
    return answer == 0;
}

#endif
