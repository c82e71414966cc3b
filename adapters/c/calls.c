/* Gives requests to the library, and compares replies and statuses with those that the program gave: `test` says how.

   calls FILE rooms MOST       each case at room of every size from 0 to that of its reply, if that has at most MOST bytes,
                               and else at the sizes about both ends
   calls FILE threads COUNT    all cases in each of this many threads at once, each with 128 KB of stack
   calls FILE refused          each case with each allocation refused in turn, alone and with all that follow it; built with
                               -Wl,--wrap=malloc,--wrap=realloc

   Where HEAP is set, requests and replies are blocks of their own size of the heap, for ASan and valgrind; otherwise they end
   at the end of a page before one that cannot be used, and requests cannot be written.

   FILE is a list of cases: the command, the status, the lengths of request and reply, each of 8 bytes as this machine has
   them, and then both. */
#define _GNU_SOURCE
#include "sigverify.h"

#include <pthread.h>
#include <stdio.h>
#include <stdlib.h>
#include <string.h>
#include <sys/mman.h>
#include <unistd.h>

enum { FILL = 0xA5, FRONT = 16, STACK = 1 << 17 };

struct header {
    uint64_t command, status, request_length, reply_length;
};

struct call {
    struct header is;
    const uint8_t *request, *reply;
};

static struct call *calls;
static size_t count;
static int is_heap;

static _Noreturn void stop(const char *said) {
    fprintf(stderr, "calls: %s\n", said);
    exit(2);
}

/* Blocks of a request, and of the room for a reply. */

static size_t pages(size_t length) {
    size_t page = (size_t)sysconf(_SC_PAGESIZE);
    return (length + page - 1) / page * page;
}

/* Memory that ends where a page begins that cannot be used. */
static uint8_t *before_a_wall(size_t length) {
    size_t usable = pages(length + FRONT), page = pages(1);
    uint8_t *start = mmap(NULL, usable + page, PROT_READ | PROT_WRITE, MAP_PRIVATE | MAP_ANONYMOUS, -1, 0);
    if (start == MAP_FAILED || mprotect(start + usable, page, PROT_NONE) != 0) stop("no memory");
    return start + usable - length;
}

static uint8_t *block(size_t length) {
    uint8_t *made = is_heap ? malloc(length) : before_a_wall(length);
    if (made == NULL) stop("no memory");
    return made;
}

static const uint8_t *read_only(const uint8_t *bytes, size_t length) {
    uint8_t *made = block(length);
    memcpy(made, bytes, length);
    if (!is_heap) {
        size_t usable = pages(length + FRONT);
        if (mprotect(made + length - usable, usable, PROT_READ) != 0) stop("memory cannot be protected");
    }
    return made;
}

/* Reading FILE. */

static void read_calls(const char *path) {
    struct header is;
    FILE *file = fopen(path, "rb");
    if (file == NULL) stop("the file of cases cannot be read");
    while (fread(&is, sizeof is, 1, file) == 1) {
        uint8_t *request = malloc(is.request_length + 1), *reply = malloc(is.reply_length + 1);
        struct call *longer = realloc(calls, (count + 1) * sizeof *calls);
        if (request == NULL || reply == NULL || longer == NULL) stop("no memory");
        if (fread(request, 1, is.request_length, file) != is.request_length) stop("a request is cut off");
        if (fread(reply, 1, is.reply_length, file) != is.reply_length) stop("a reply is cut off");
        calls = longer;
        calls[count++] = (struct call){is, read_only(request, is.request_length), reply};
        free(request);
    }
    fclose(file);
}

static void free_calls(void) {
    for (size_t at = 0; at < count; at++) {
        if (is_heap) free((void *)calls[at].request);
        free((void *)calls[at].reply);
    }
    free(calls);
}

/* One call. */

static int is_filled(const uint8_t *bytes, size_t length) {
    for (size_t at = 0; at < length; at++)
        if (bytes[at] != FILL) return 0;
    return 1;
}

/* Whether the status, the length and the bytes are those that the case has at this room. */
static int is_right(const struct call *call, size_t room, uint8_t status, size_t written, const uint8_t *reply) {
    size_t length = call->is.reply_length, put = room < length ? 0 : length;
    if (status == SIGVERIFY_NO_COMMAND || call->is.status == SIGVERIFY_NO_COMMAND)
        return status == call->is.status && written == 0 && is_filled(reply, room);
    if (room < length) return status == SIGVERIFY_NO_ROOM && written == length && is_filled(reply, room);
    return status == call->is.status && written == length && memcmp(reply, call->reply, put) == 0 &&
           is_filled(reply + put, room - put);
}

static uint8_t made(const struct call *call, size_t room, uint8_t *reply, size_t *written) {
    *written = (size_t)-1;
    memset(reply, FILL, room);
    return sigverify_reply((uint32_t)call->is.command, call->request, call->is.request_length, reply, room, written);
}

static int wrong(const struct call *call, const char *title, size_t number, uint8_t status, size_t written) {
    int shown = call->is.request_length < 60 ? (int)call->is.request_length : 60;
    fprintf(stderr, "command %lu, request %.*s, %s %zu: status %u and %zu bytes, and not %lu and %lu\n",
            (unsigned long)call->is.command, shown, (const char *)call->request, title, number, status, written,
            (unsigned long)call->is.status, (unsigned long)call->is.reply_length);
    return 1;
}

/* The rooms. */

static int at_room(const struct call *call, size_t room) {
    size_t written;
    uint8_t *reply = block(room), status = made(call, room, reply, &written);
    int failed = is_right(call, room, status, written, reply) ? 0 : wrong(call, "room", room, status, written);
    if (is_heap)
        free(reply);
    else
        munmap(reply + room - pages(room + FRONT), pages(room + FRONT) + pages(1));
    return failed;
}

static int rooms(size_t most) {
    int failed = 0;
    for (size_t at = 0; at < count; at++) {
        size_t length = calls[at].is.reply_length, gap = length <= most ? 1 : (length + 7) / 8;
        for (size_t room = 0; room < length; room += gap) failed += at_room(&calls[at], room);
        for (size_t more = 0; more < 2; more++) failed += at_room(&calls[at], length + more * 1000);
        if (length > 0) failed += at_room(&calls[at], length - 1);
    }
    return failed;
}

/* The threads. Each begins at another case. */

static size_t threads;

static void *all_calls(void *number) {
    size_t first = (size_t)number, failed = 0, written;
    for (size_t turn = 0; turn < count; turn++) {
        const struct call *call = &calls[(first * count / threads + turn) % count];
        size_t room = call->is.reply_length;
        uint8_t *reply = block(room), status = made(call, room, reply, &written);
        if (!is_right(call, room, status, written, reply)) failed += (size_t)wrong(call, "thread", first, status, written);
        if (is_heap)
            free(reply);
        else
            munmap(reply + room - pages(room + FRONT), pages(room + FRONT) + pages(1));
    }
    return (void *)failed;
}

static int in_threads(size_t number) {
    pthread_t *all = malloc(number * sizeof *all);
    pthread_attr_t small;
    size_t failed = 0;
    void *its;
    threads = number;
    if (all == NULL || pthread_attr_init(&small) != 0 || pthread_attr_setstacksize(&small, STACK) != 0) stop("no threads");
    for (size_t at = 0; at < number; at++)
        if (pthread_create(&all[at], &small, all_calls, (void *)at) != 0) stop("no thread");
    for (size_t at = 0; at < number; at++) {
        if (pthread_join(all[at], &its) != 0) stop("a thread is lost");
        failed += (size_t)its;
    }
    pthread_attr_destroy(&small);
    free(all);
    return (int)failed;
}

/* The library's allocations, counted from 1 in each call: that of the number `refused` is refused, and all after it too
   where it is not refused alone. */

static size_t allocations, refused;
static int is_alone, is_counting;

#ifdef WRAPPED
void *__real_malloc(size_t size);
void *__real_realloc(void *old, size_t size);

static int is_refused(void) {
    if (!is_counting) return 0;
    allocations++;
    return refused != 0 && (is_alone ? allocations == refused : allocations >= refused);
}

void *__wrap_malloc(size_t size) { return is_refused() ? NULL : __real_malloc(size); }
void *__wrap_realloc(void *old, size_t size) { return is_refused() ? NULL : __real_realloc(old, size); }
#endif

/* The status of a call with an allocation refused: how the case has it, or no memory and nothing written. */
static int at_refusal(const struct call *call, uint8_t *reply, size_t number, int *ended) {
    size_t written, room = call->is.reply_length;
    allocations = 0;
    refused = number;
    is_counting = 1;
    uint8_t status = made(call, room, reply, &written);
    is_counting = 0;
    *ended = status == SIGVERIFY_NO_MEMORY;
    if (*ended && written == 0 && is_filled(reply, room)) return 0;
    return is_right(call, room, status, written, reply) ? 0 : wrong(call, "allocation", number, status, written);
}

static int all_refused(void) {
    int failed = 0, ended, any = 0;
    for (size_t at = 0; at < count; at++) {
        uint8_t *reply = block(calls[at].is.reply_length);
        failed += at_refusal(&calls[at], reply, 0, &ended);
        size_t all = allocations;
        for (is_alone = 0; is_alone < 2; is_alone++)
            for (size_t number = 1; number <= all; number++, any += ended)
                failed += at_refusal(&calls[at], reply, number, &ended);
        if (is_heap) free(reply);
    }
    if (any == 0) stop("no call ran out of memory");
    return failed;
}

int main(int argc, char **argv) {
    size_t number = argc > 3 ? strtoul(argv[3], NULL, 10) : 0;
    const char *does = argc > 2 ? argv[2] : "";
    int failed;
    is_heap = getenv("HEAP") != NULL;
    if (sigverify_version() != SIGVERIFY_VERSION) stop("the library has another version than the header");
    if (argc < 3) stop("FILE and what to do are missing");
    read_calls(argv[1]);
    if (count == 0) stop("no case");
    if (strcmp(does, "rooms") == 0)
        failed = rooms(number);
    else if (strcmp(does, "threads") == 0)
        failed = in_threads(number);
    else if (strcmp(does, "refused") == 0)
        failed = all_refused();
    else
        stop("rooms, threads or refused");
    printf("%s: %zu cases, %d failed\n", does, count, failed);
    free_calls();
    return failed != 0;
}
