/*
 * Runs the fuzz target without a coverage-guided fuzzer: driver SEED COUNT FILE... changes the kept inputs at random.
 * Each run has a seed of its own, so that a failing one can be run alone with its seed and count 1.
 */
#include "guarded.h"

#include <signal.h>
#include <stdio.h>
#include <stdlib.h>
#include <string.h>
#include <unistd.h>

#define MOST_INPUT 1024

int LLVMFuzzerTestOneInput(const uint8_t *data, size_t size);

static uint64_t state;
static char scene[80];

/* The target aborts where the two differ. */
static void on_abort(int signal_number)
{
    (void)signal_number;
    if (write(STDERR_FILENO, scene, strlen(scene)) < 0)
        _exit(3);
    _exit(1);
}

/* Splitmix64, below `end`. */
static size_t below(size_t end)
{
    uint64_t z = state += 0x9E3779B97F4A7C15u;
    z = (z ^ z >> 30) * 0xBF58476D1CE4E5B9u;
    z = (z ^ z >> 27) * 0x94D049BB133111EBu;
    return (z ^ z >> 31) % end;
}

static size_t read_file(const char *path, uint8_t *bytes)
{
    FILE *file = fopen(path, "rb");
    if (file == NULL) {
        perror(path);
        exit(2);
    }
    size_t size = fread(bytes, 1, MOST_INPUT, file);
    fclose(file);
    return size;
}

/* Changes, removes or inserts a byte. */
static size_t change(uint8_t *bytes, size_t size)
{
    size_t at = below(size + 1);
    uint8_t value = (uint8_t)below(256);
    switch (below(3)) {
    case 0:
        if (at < size)
            bytes[at] = value;
        return size;
    case 1:
        if (at == size)
            return size;
        memmove(bytes + at, bytes + at + 1, size - at - 1);
        return size - 1;
    default:
        if (size == MOST_INPUT)
            return size;
        memmove(bytes + at + 1, bytes + at, size - at);
        bytes[at] = value;
        return size + 1;
    }
}

/* A kept input, or none, with calls added at its end and some bytes changed. */
static size_t make_input(uint8_t *bytes, char **files, size_t file_count)
{
    size_t size = file_count == 0 ? 0 : read_file(files[below(file_count)], bytes);
    for (size_t more = below(200); more > 0 && size < MOST_INPUT; more--)
        bytes[size++] = (uint8_t)below(below(2) == 0 ? 16 : 256);
    for (size_t changes = below(6); changes > 0; changes--)
        size = change(bytes, size);
    return size;
}

int main(int argc, char **argv)
{
    static uint8_t bytes[MOST_INPUT];
    if (argc < 3) {
        fprintf(stderr, "usage: driver SEED COUNT FILE...\n");
        return 2;
    }
    unsigned long long seed = strtoull(argv[1], NULL, 10), count = strtoull(argv[2], NULL, 10);
    guarded_watch();
    signal(SIGABRT, on_abort);
    for (unsigned long long run = 0; run < count; run++) {
        state = seed + run;
        snprintf(scene, sizeof scene, "differ at seed %llu\n", seed + run);
        guarded_scene(scene);
        size_t size = make_input(bytes, argv + 3, (size_t)argc - 3);
        LLVMFuzzerTestOneInput(bytes, size);
    }
    printf("seeds %llu to %llu: the library and its twin agree\n", seed, seed + count - 1);
    return 0;
}
