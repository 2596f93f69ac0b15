/*
 * Calls a function of a program in this process.
 *
 *     cc call.c $(pkg-config --cflags --libs umc) -o call
 *     ./call vehicle.um mean '[1<m>; 2<m>; 6<m>]'
 *
 * It prints the value and ends with 0, or the refusal on standard error and ends with its number.
 */
#include <stdio.h>
#include <stdlib.h>
#include <string.h>

#include <umc.h>

enum { MOST_BYTES = 1 << 20, MOST_WORDS = 34, OWN_WORDS = 3, NO_INPUT = 66, USAGE = 64 };

/* The bytes of a file, of which one more is read than a program may have; NULL if it can't be read. */
static char *read_file(const char *name, size_t *size) {
    FILE *file = fopen(name, "rb");
    char *text = file ? malloc(MOST_BYTES + 1) : NULL;
    if (text) {
        *size = fread(text, 1, MOST_BYTES + 1, file);
        if (ferror(file)) {
            free(text);
            text = NULL;
        }
    }
    if (file) {
        fclose(file);
    }
    return text;
}

/* Asks for the call of a function, and tells the answer. */
static int call(const char *text, size_t size, int count, char **words) {
    const char *asked[MOST_WORDS] = {"run", "10000000"};
    for (int at = 0; at < count; at++) {
        asked[2 + at] = words[at];
    }
    char *answer;
    size_t answer_size;
    int status = umc_answer(asked, (size_t)count + 2, text, size, &answer, &answer_size);
    if (answer) {
        fwrite(answer, 1, answer_size, status == UMC_DONE ? stdout : stderr);
    } else {
        fputs("call: out of memory\n", stderr);
    }
    umc_free(answer);
    return status;
}

int main(int count, char **words) {
    if (count < OWN_WORDS || count - 2 > MOST_WORDS - 2) {
        fputs("use: call FILE NAME [ARG..]\n", stderr);
        return USAGE;
    }
    size_t size = 0;
    char *text = read_file(words[1], &size);
    if (!text) {
        fprintf(stderr, "call: %s can't be read\n", words[1]);
        return NO_INPUT;
    }
    int status = call(text, size, count - 2, words + 2);
    free(text);
    return status;
}
