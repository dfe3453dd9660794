/* cut.h: included before take.c by its tests. CUT=BLOCK:WHAT says what happens at that block:
 *   before, written, flushed   the process is killed with SIGKILL before it writes the block, behind that, behind its flush
 *   fails, unflushed           the block cannot be written, or not be flushed
 *   short, interrupted         half of the block is written at first; the call is interrupted once
 *   told                       the process gets the signals of a terminal that goes away and of a supervisor before it writes the block
 * It also sees that each block is written whole, by itself, in rising order from 0, and flushed before the next: else the status is 99. */
#ifndef CUT_H
#define CUT_H

#ifndef _POSIX_C_SOURCE
#define _POSIX_C_SOURCE 200809L
#endif
#include <errno.h>
#include <signal.h>
#include <stdio.h>
#include <stdlib.h>
#include <string.h>
#include <unistd.h>

static struct {
    off_t next;    /* the byte that is to be written next */
    int unflushed; /* whether what was written is yet to be flushed */
    int done;      /* whether the one short write or the one signal came */
} cut;

static int cut_is(off_t at, const char *what) {
    const char *told = getenv("CUT"), *colon = told != NULL ? strchr(told, ':') : NULL;
    return colon != NULL && strtol(told, NULL, 10) == (long)(at / 512) && strcmp(colon + 1, what) == 0;
}

static void cut_here(off_t at, const char *what) {
    if (cut_is(at, what)) kill(getpid(), SIGKILL);
}

static void out_of_order(const char *what) {
    fprintf(stderr, "cut.h: %s at byte %ld\n", what, (long)cut.next);
    _exit(99);
}

static ssize_t cut_pwrite(int file, const void *bytes, size_t length, off_t at) {
    const int halved = cut_is(at, "short") && (cut.done || at % 512 == 0);
    if (at != cut.next || (at + (off_t)length) % 512 != 0 || (length != 512 && !halved)) out_of_order("no whole block, or another");
    if (cut.unflushed && at % 512 == 0) out_of_order("the block before is not flushed");
    cut_here(at, "before");
    if (cut_is(at, "told")) {
        kill(getpid(), SIGHUP);
        kill(getpid(), SIGINT);
        kill(getpid(), SIGTERM);
    }
    if (cut_is(at, "fails") || (cut_is(at, "interrupted") && !cut.done)) {
        cut.done = 1;
        errno = cut_is(at, "fails") ? EIO : EINTR;
        return -1;
    }
    const ssize_t wrote = pwrite(file, bytes, halved && !cut.done ? length / 2 : length, at);
    if (wrote > 0) cut.next += wrote;
    cut.done |= halved;
    cut.unflushed = 1;
    cut_here(at, "written");
    return wrote;
}

static int cut_fdatasync(int file) {
    const off_t block = cut.next - 512;
    if (cut_is(block, "unflushed")) {
        errno = EIO;
        return -1;
    }
    const int failed = fdatasync(file);
    cut.unflushed = 0;
    cut_here(block, "flushed");
    return failed;
}

#define pwrite cut_pwrite
#define fdatasync cut_fdatasync
#endif
