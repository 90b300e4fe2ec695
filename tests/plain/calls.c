/* Calls the library of include/fhpgas.h for calls.py, which may be of another machine. A request names a call, and has numbers, and arrays with
 * their lengths. The answer has what the call returned, and the arrays as it left them. */
#include <stdint.h>
#include <stdio.h>
#include <stdlib.h>
#include <string.h>

#include "../../include/fhpgas.h"

enum { NUMBERS = 8, ARRAYS = 3 };

struct request {
    char name[16];
    uint64_t numbers[NUMBERS];
    struct {
        uint64_t length, bytes;
    } arrays[ARRAYS];
};

static void fail(const char *why) {
    fprintf(stderr, "%s\n", why);
    exit(1);
}

static uint64_t answer(const struct request *request, void *const at[ARRAYS]) {
    const char *name = request->name;
    const uint64_t *n = request->numbers;
    const uint64_t a = request->arrays[0].length, b = request->arrays[1].length, c = request->arrays[2].length;
    if (!strcmp(name, "interface")) return fhpgas_interface();
    if (!strcmp(name, "directions")) return fhpgas_directions(n[0]);
    if (!strcmp(name, "words")) return fhpgas_words(n[0], n[1], n[2]);
    if (!strcmp(name, "work_words")) return fhpgas_work_words(n[0], n[1]);
    if (!strcmp(name, "pack")) return fhpgas_pack(n[0], n[1], n[2], at[0], a, at[1], b);
    if (!strcmp(name, "unpack")) return fhpgas_unpack(n[0], n[1], n[2], at[0], a, at[1], b);
    if (!strcmp(name, "sums")) return fhpgas_sums(n[0], n[1], n[2], n[3], n[4], at[0], a, at[1], b, at[2], c);
    if (!strcmp(name, "advance"))
        return fhpgas_advance(n[0], n[1], n[2], n[3], n[4], n[5], n[6], n[7], at[0], a, at[1], b, at[2], c);
    fail(name);
    return 0;
}

int main(void) {
    struct request request;
    while (fread(&request, sizeof request, 1, stdin) == 1) {
        void *at[ARRAYS];
        uint64_t returned;
        for (int i = 0; i < ARRAYS; i++) {
            const size_t bytes = request.arrays[i].bytes;
            at[i] = malloc(bytes + 1);
            if (!at[i] || fread(at[i], 1, bytes, stdin) != bytes) fail("a request is cut");
        }
        returned = answer(&request, at);
        fwrite(&returned, sizeof returned, 1, stdout);
        for (int i = 0; i < ARRAYS; i++) {
            fwrite(at[i], 1, request.arrays[i].bytes, stdout);
            free(at[i]);
        }
        if (fflush(stdout)) fail("an answer is cut");
    }
    return 0;
}
