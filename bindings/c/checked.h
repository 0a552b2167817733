/* What the calls of a checked archive test before they make the call of the plain one (bindings/checked_calls). A handle in it is a block of its own
 * around the library's: a word for its kind, which says too that it is closed, whether it is in a call, and the library's handle. A mistake ends the
 * program with one line. */
#ifndef UAS_CHECKED_H
#define UAS_CHECKED_H

#include <stdatomic.h>
#include <stdbool.h>
#include <stddef.h>
#include <stdint.h>
#include <stdio.h>
#include <stdlib.h>

/* A handle's kind: words that no other memory is likely to begin with. */
enum kind { DEVICE, CONTROLLER, DRIVER, BUS, TASKS, XHCI, BLOCK, KINDS };
static const uint64_t first_kind = 0x9a3c71e5d2b84f00, closed_word = 0x9a3c71e5d2b84fff;
static const char *const kind_names[KINDS] = { "uas_device", "uas_controller", "uas_driver", "uas_bus", "uas_tasks", "uas_xhci",
                                              "uas_block" };

struct handle {
    _Atomic uint64_t word;
    atomic_bool in_call;
    void *plain;
};

/* Ends the program: of a call, what is wrong with an argument. */
static _Noreturn void refuse(const char *call, const char *argument, const char *wrong, const char *more)
{
    char line[160];
    snprintf(line, sizeof line, "%s: %s %s%s\n", call, argument, wrong, more);
    fputs(line, stderr);
    abort();
}

static void want(const char *call, const char *argument, const void *pointer)
{
    if (pointer == NULL)
        refuse(call, argument, "is a null pointer", "");
}

/* The same of what may be null where it has no elements. */
static void want_some(const char *call, const char *argument, const void *pointer, size_t count)
{
    if (count > 0)
        want(call, argument, pointer);
}

static void want_kind(const char *call, const char *argument, const struct handle *handle, enum kind kind)
{
    uint64_t word = atomic_load(&handle->word);
    if (word == closed_word)
        refuse(call, argument, "is closed", "");
    if (word != first_kind + kind)
        refuse(call, argument, "is no ", kind_names[kind]);
}

/* Begins a call on a handle, which no other call is on until leave. */
static struct handle *enter(const char *call, const char *argument, const void *pointer, enum kind kind)
{
    struct handle *handle = (struct handle *)(uintptr_t)pointer;
    want(call, argument, pointer);
    want_kind(call, argument, handle, kind);
    if (atomic_exchange(&handle->in_call, true))
        refuse(call, argument, "is in another thread's call", "");
    want_kind(call, argument, handle, kind);
    return handle;
}

static void leave(struct handle *handle)
{
    atomic_store(&handle->in_call, false);
}

/* A handle around the library's; a null pointer where there is no memory. */
static void *hold(enum kind kind, void *plain)
{
    struct handle *handle = malloc(sizeof *handle);
    if (handle == NULL)
        return NULL;
    atomic_init(&handle->word, first_kind + kind);
    atomic_init(&handle->in_call, false);
    handle->plain = plain;
    return handle;
}

/* The library's handle is closed: its block goes, and the one around it says so. */
static void close_handle(struct handle *handle)
{
    free(handle->plain);
    atomic_store(&handle->word, closed_word);
    leave(handle);
}

/* Keeps the closed handles that came last, so that a call on one of them is told. */
static void keep_closed(struct handle *handle)
{
    enum { KEPT = 256 };
    static struct handle *_Atomic kept[KEPT];
    static atomic_uint next;
    free(atomic_exchange(&kept[atomic_fetch_add(&next, 1) % KEPT], handle));
}

#endif
