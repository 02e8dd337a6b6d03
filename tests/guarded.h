/* Lent memory that tells when a call leaves it.
 *
 * A buffer is lent from a slot: pages between two that may not be touched. It stands at the front of
 * them, so that the byte before it is guarded, or at their end, so that the byte behind it is; on its
 * other side stands a strip of bytes that must stay. On the heap it is a block of its own, exactly as
 * long as said, for valgrind or a sanitizer. Valgrind is told that the strip may not be touched, and
 * that bytes which a call may not depend on are undefined, so that it tells when a call does. */
#ifndef GUARDED_H
#define GUARDED_H

#ifndef _DEFAULT_SOURCE
#define _DEFAULT_SOURCE /* MAP_ANONYMOUS */
#endif
#include <signal.h>
#include <stdio.h>
#include <stdlib.h>
#include <string.h>
#include <sys/mman.h>
#include <sys/time.h>
#include <unistd.h>

#include "../include/tishkolan.h"
#include "memcheck.h"

enum { SLOTS = 8, PAGE = 4096, SLOT_BYTES = 192 * PAGE, STRIP = 48, STRIP_BYTE = 0x5C };

typedef enum { AT_FRONT, AT_END, ON_HEAP, PLACINGS } placing;

/* A slot, the buffer that is lent from it, and the bytes that this had when it was lent. */
static struct {
    uint8_t *pages, *at, *before, *block;
    size_t bytes;
    placing where;
} slot[SLOTS];

/* What is being done, for the message of a fault. */
static const char *doing = "nothing";
static void (*tell_more)(void);

static void on_fault(int signal)
{
    printf("signal %d (%s) in %s\n", signal, signal == SIGVTALRM ? "the call does not end" : "a fault", doing);
    if (tell_more != NULL)
        tell_more();
    fflush(stdout);
    _exit(1);
}

static inline void lay_guards(void)
{
    const int signals[] = {SIGSEGV, SIGBUS, SIGILL, SIGFPE, SIGABRT, SIGVTALRM};

    for (size_t place = 0; place < sizeof signals / sizeof signals[0]; place++)
        signal(signals[place], on_fault);
    for (int place = 0; place < SLOTS; place++) {
        uint8_t *whole = mmap(NULL, SLOT_BYTES + 2 * PAGE, PROT_NONE, MAP_PRIVATE | MAP_ANONYMOUS, -1, 0);

        slot[place].before = malloc(SLOT_BYTES);
        if (whole == MAP_FAILED || slot[place].before == NULL || mprotect(whole + PAGE, SLOT_BYTES, PROT_READ | PROT_WRITE) != 0) {
            printf("there are no pages to lend\n");
            exit(2);
        }
        slot[place].pages = whole + PAGE;
    }
}

/* From now on so many seconds of this program's own time may pass, and no more: a call that does not end is a fault. */
static inline void must_end_within(int seconds)
{
    const struct itimerval time = {{0, 0}, {seconds, 0}};

    setitimer(ITIMER_VIRTUAL, &time, NULL);
}

/* The strip beside the buffer, which is not on the heap. */
static inline uint8_t *strip_of(int place)
{
    return slot[place].where == AT_FRONT ? slot[place].at + slot[place].bytes : slot[place].at - STRIP;
}

/* Lends so many of these bytes. */
static inline uint8_t *lend(int place, placing where, const void *from, size_t bytes)
{
    if (bytes > SLOT_BYTES - STRIP)
        exit(2);
    slot[place].bytes = bytes;
    slot[place].where = where;
    if (where == ON_HEAP) {
        slot[place].at = slot[place].block = malloc(bytes);
        if (slot[place].block == NULL && bytes > 0)
            exit(2);
    } else {
        slot[place].at = where == AT_FRONT ? slot[place].pages : slot[place].pages + SLOT_BYTES - bytes;
        memset(strip_of(place), STRIP_BYTE, STRIP);
        FORBIDDEN(strip_of(place), STRIP);
    }
    if (bytes > 0) {
        memcpy(slot[place].before, from, bytes);
        memcpy(slot[place].at, from, bytes);
    }
    return slot[place].at;
}

/* The call may not depend on the lent bytes from one on. */
static inline void hide(int place, size_t from)
{
    if (from < slot[place].bytes)
        UNDEFINED(slot[place].at + from, slot[place].bytes - from);
}

/* After the call: all bytes can be looked at again. Whether the strip beside the buffer stayed. */
static inline bool beside_stays(int place)
{
    if (slot[place].bytes > 0)
        DEFINED(slot[place].at, slot[place].bytes);
    if (slot[place].where == ON_HEAP)
        return true;
    DEFINED(strip_of(place), STRIP);
    for (int byte = 0; byte < STRIP; byte++)
        if (strip_of(place)[byte] != STRIP_BYTE)
            return false;
    return true;
}

/* Whether the lent bytes from one on are what they were. */
static inline bool stays(int place, size_t from)
{
    return from >= slot[place].bytes
        || memcmp(slot[place].at + from, slot[place].before + from, slot[place].bytes - from) == 0;
}

static inline bool is_zero(int place)
{
    for (size_t byte = 0; byte < slot[place].bytes; byte++)
        if (slot[place].at[byte] != 0)
            return false;
    return true;
}

/* Takes it back. */
static inline void take_back(int place)
{
    if (slot[place].where == ON_HEAP)
        free(slot[place].block);
}

#endif
