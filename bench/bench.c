/* bench FILE: microseconds that the word layer and the recogniser take on a text, in one run. The best of many rounds is taken; the
   text lies in memory, and nothing is cleared between the rounds. */
#include <stdint.h>
#include <stddef.h>
#include <stdio.h>
#include <time.h>

typedef struct { uint32_t number; size_t place; } Answer;
size_t kasimbur_count_words(const uint8_t *text, size_t len);
Answer kasimbur_recognise(const uint8_t *text, size_t len);

static uint8_t text[32769];
static volatile size_t sink;

static double now(void) {
    struct timespec t;
    clock_gettime(CLOCK_MONOTONIC, &t);
    return t.tv_sec * 1e6 + t.tv_nsec / 1e3;
}

static void words(size_t n) { sink = kasimbur_count_words(text, n); }
static void recogniser(size_t n) { sink = kasimbur_recognise(text, n).place; }

/* microseconds of one call: the best of 200 rounds of 10 calls */
static double best(void (*f)(size_t), size_t n) {
    double least = 1e12;
    for (int round = 0; round < 200; round++) {
        double from = now();
        for (int i = 0; i < 10; i++) f(n);
        double took = (now() - from) / 10;
        if (took < least) least = took;
    }
    return least;
}

int main(int argc, char **argv) {
    FILE *f = argc == 2 ? fopen(argv[1], "rb") : NULL;
    if (!f) { fprintf(stderr, "usage: bench FILE\n"); return 2; }
    size_t n = fread(text, 1, sizeof text, f);
    fclose(f);
    Answer a = kasimbur_recognise(text, n);
    printf("%zu bytes, %zu words, answer %u %zu\n", n, kasimbur_count_words(text, n), a.number, a.place);
    double w = best(words, n), r = best(recogniser, n);
    printf("words       %8.1f us\nrecogniser  %8.1f us  %.2f times the words\n", w, r, r / w);
    if (n > 1) {
        double h = best(recogniser, n / 2);
        printf("half of it  %8.1f us  the whole takes %.2f times that\n", h, r / h);
    }
    return 0;
}
