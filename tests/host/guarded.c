#define _GNU_SOURCE
#include "guarded.h"

#include <signal.h>
#include <stdio.h>
#include <stdlib.h>
#include <string.h>
#include <sys/mman.h>
#include <unistd.h>

#define FILLING 0xA5
/* As many bytes beside the string are looked at. */
#define BESIDE 256

static int on_heap;
static char scene[256];

static void give_up(const char *words)
{
    perror(words);
    exit(2);
}

void guarded_use_heap(void)
{
    on_heap = 1;
}

void guarded_scene(const char *words)
{
    snprintf(scene, sizeof scene, "%s", words);
}

static void say(const char *words)
{
    if (write(STDOUT_FILENO, words, strlen(words)) < 0)
        _exit(3);
}

/* Only calls that a handler may make. */
static void on_fault(int signal_number)
{
    (void)signal_number;
    say("\ntouched a byte that was not lent, or wrote a string that is only read: ");
    say(scene);
    say("\n0 passed, 1 failed\n");
    _exit(1);
}

void guarded_watch(void)
{
    struct sigaction action;
    memset(&action, 0, sizeof action);
    action.sa_handler = on_fault;
    if (sigaction(SIGSEGV, &action, NULL) != 0 || sigaction(SIGBUS, &action, NULL) != 0)
        give_up("sigaction");
}

void guarded_make(guarded *string, size_t most)
{
    size_t page = (size_t)sysconf(_SC_PAGESIZE);
    memset(string, 0, sizeof *string);
    if (on_heap)
        return;
    string->capacity = (most + page - 1) / page * page;
    uint8_t *pages = mmap(NULL, string->capacity + 2 * page, PROT_NONE, MAP_PRIVATE | MAP_ANONYMOUS, -1, 0);
    if (pages == MAP_FAILED)
        give_up("mmap");
    string->room = pages + page;
    guarded_seal(string, GUARDED_OPEN);
}

/* The bytes beside the string: where they begin, and how many are looked at. */
static uint8_t *beside(const guarded *string, size_t *count)
{
    size_t spare = string->capacity - string->length;
    *count = spare < BESIDE ? spare : BESIDE;
    return string->bytes == string->room ? string->bytes + string->length : string->bytes - *count;
}

static uint8_t *lend_heap(guarded *string, const uint8_t *contents, size_t length)
{
    uint8_t *bytes = malloc(length == 0 ? 1 : length);
    if (bytes == NULL)
        give_up("malloc");
    if (length > 0)
        memcpy(bytes, contents, length);
    free(string->room);
    string->room = bytes;
    /* An empty string has no byte that may be touched: it begins where its block ends. */
    string->bytes = length == 0 ? bytes + 1 : bytes;
    string->length = length;
    return string->bytes;
}

uint8_t *guarded_lend(guarded *string, const uint8_t *contents, size_t length, int edge)
{
    size_t count;
    if (on_heap)
        return lend_heap(string, contents, length);
    if (length > string->capacity) {
        fprintf(stderr, "no room for a string of %zu bytes\n", length);
        exit(2);
    }
    string->bytes = edge == GUARDED_START ? string->room : string->room + string->capacity - length;
    string->length = length;
    uint8_t *filled = beside(string, &count);
    memset(filled, FILLING, count);
    if (length > 0)
        memcpy(string->bytes, contents, length);
    return string->bytes;
}

void guarded_seal(const guarded *string, int sealing)
{
    static const int allowed[] = {PROT_READ | PROT_WRITE, PROT_READ, PROT_NONE};
    if (on_heap)
        return;
    if (mprotect(string->room, string->capacity, allowed[sealing]) != 0)
        give_up("mprotect");
}

int guarded_beside_kept(const guarded *string)
{
    size_t count;
    if (on_heap)
        return 1;
    const uint8_t *bytes = beside(string, &count);
    for (size_t i = 0; i < count; i++)
        if (bytes[i] != FILLING)
            return 0;
    return 1;
}
