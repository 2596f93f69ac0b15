/*
 * The calls of umc.h over the proved calls of crates/um_embed. Nothing here is proved: it hands on what it is handed,
 * and lets one thread at a time use an open program.
 */
#include "umc.h"

#include <pthread.h>
#include <stdbool.h>
#include <stdint.h>
#include <stdlib.h>
#include <string.h>

typedef unsigned char byte;

/* An open program, or none if all is zero. What `at` points to is the proved calls' alone. */
struct held {
    bool is_open;
    void *at;
};

/*
 * The proved calls: their crate says what each gives. Words stand in one text, a zero byte between each two. The answer
 * is copied into the room if it fits, and its size is told in any case.
 */
byte um_page_serve(const byte *words, size_t words_size, const byte *text, size_t text_size, byte *answer, size_t room,
                   size_t *answer_size);
byte umc_embed_open(const byte *text, size_t text_size, struct held *into, byte *answer, size_t room,
                    size_t *answer_size);
byte umc_embed_types(struct held *program, byte *answer, size_t room, size_t *answer_size);
byte umc_embed_call(struct held *program, uint64_t budget, const byte *words, size_t words_size, byte *answer,
                    size_t room, size_t *answer_size);
void umc_embed_close(struct held *program);

/* No slice is larger than this. */
static const size_t MOST = SIZE_MAX / 2;
/* The room that is tried first. A larger answer is computed twice. */
static const size_t FIRST_ROOM = 1 << 16;

/* ---- questions */

/* Some bytes, of which there may be none. */
struct bytes {
    const void *begin;
    size_t size;
};

/* What one of the proved calls is handed, but for the room of its answer. */
struct question {
    enum { SERVE, OPEN, TYPES, CALL } call;
    struct held *program;
    uint64_t budget;
    struct bytes words, text;
};

static int put(const struct question *question, byte *answer, size_t room, size_t *size) {
    struct bytes words = question->words, text = question->text;
    switch (question->call) {
    case SERVE:
        return um_page_serve(words.begin, words.size, text.begin, text.size, answer, room, size);
    case OPEN:
        return umc_embed_open(text.begin, text.size, question->program, answer, room, size);
    case TYPES:
        return umc_embed_types(question->program, answer, room, size);
    default:
        return umc_embed_call(question->program, question->budget, words.begin, words.size, answer, room, size);
    }
}

/* Asks with room for so many bytes and a zero byte after them. */
static int ask(const struct question *question, size_t room, char **answer, size_t *size) {
    char *bytes = room < MOST ? malloc(room + 1) : NULL;
    if (!bytes) {
        return UMC_NO_MEMORY;
    }
    int status = put(question, (byte *)bytes, room, size);
    if (status == UMC_NO_MEMORY || *size > room) {
        free(bytes);
    } else {
        bytes[*size] = '\0';
        *answer = bytes;
    }
    return status;
}

/* The answer in no more memory than it needs. */
static void fit(char **answer, size_t size) {
    char *smaller = realloc(*answer, size + 1);
    if (smaller) {
        *answer = smaller;
    }
}

static int answered(const struct question *question, char **answer, size_t *answer_size) {
    size_t size = 0, room = FIRST_ROOM;
    if (question->text.size <= (MOST - FIRST_ROOM) / 4) {
        room += 4 * question->text.size;
    }
    int status = ask(question, room, answer, &size);
    if (status != UMC_NO_MEMORY && !*answer) {
        status = ask(question, size, answer, &size);
    }
    if (*answer) {
        fit(answer, size);
        *answer_size = size;
    }
    return status;
}

/* ---- words and texts */

/* Copies a word and its zero byte, and gives the end. */
static char *copied(char *to, const char *word) {
    size_t size = strlen(word) + 1;
    memcpy(to, word, size);
    return to + size;
}

/* The words in one text, after the first one if it isn't NULL; NULL if memory is wanting. */
static char *joined(const char *first, const char *const *words, size_t count, size_t *size) {
    size_t bytes = first ? strlen(first) + 1 : 0;
    for (size_t at = 0; at < count; at++) {
        size_t length = strlen(words[at]);
        if (length >= MOST - bytes) {
            return NULL;
        }
        bytes += length + 1;
    }
    char *text = malloc(bytes ? bytes : 1);
    if (!text) {
        return NULL;
    }
    char *end = first ? copied(text, first) : text;
    for (size_t at = 0; at < count; at++) {
        end = copied(end, words[at]);
    }
    *size = bytes ? bytes - 1 : 0;
    return text;
}

static struct bytes text_of(const void *text, size_t size) {
    return (struct bytes){text ? text : "", text ? size : 0};
}

/* ---- the calls of umc.h */

int umc_answer(const char *const *words, size_t words_count, const void *text, size_t text_size, char **answer,
               size_t *answer_size) {
    struct question question = {.call = SERVE, .text = text_of(text, text_size)};
    *answer = NULL;
    *answer_size = 0;
    char *line = text_size < MOST ? joined(NULL, words, words_count, &question.words.size) : NULL;
    if (!line) {
        return UMC_NO_MEMORY;
    }
    question.words.begin = line;
    int status = answered(&question, answer, answer_size);
    free(line);
    return status;
}

void umc_free(char *answer) {
    free(answer);
}

/* A thread has the lock while one of the proved calls uses what is held. */
struct umc_program {
    pthread_mutex_t lock;
    struct held held;
};

int umc_open(const void *text, size_t text_size, umc_program **program, char **answer, size_t *answer_size) {
    *program = NULL;
    *answer = NULL;
    *answer_size = 0;
    umc_program *made = text_size < MOST ? malloc(sizeof *made) : NULL;
    if (!made) {
        return UMC_NO_MEMORY;
    }
    if (pthread_mutex_init(&made->lock, NULL)) {
        free(made);
        return UMC_NO_MEMORY;
    }
    made->held = (struct held){0};
    struct question question = {.call = OPEN, .program = &made->held, .text = text_of(text, text_size)};
    int status = answered(&question, answer, answer_size);
    if (status == UMC_DONE) {
        *program = made;
    } else {
        umc_close(made);
    }
    return status;
}

/* Asks a question about a program when no other thread does. */
static int answered_by(const umc_program *shared, struct question *question, char **answer, size_t *answer_size) {
    umc_program *program = (umc_program *)shared;
    question->program = &program->held;
    pthread_mutex_lock(&program->lock);
    int status = answered(question, answer, answer_size);
    pthread_mutex_unlock(&program->lock);
    return status;
}

int umc_types(const umc_program *program, char **answer, size_t *answer_size) {
    struct question question = {.call = TYPES};
    *answer = NULL;
    *answer_size = 0;
    return answered_by(program, &question, answer, answer_size);
}

int umc_call(const umc_program *program, unsigned long budget, const char *name, const char *const *arguments,
             size_t arguments_count, char **answer, size_t *answer_size) {
    struct question question = {.call = CALL, .budget = budget};
    *answer = NULL;
    *answer_size = 0;
    char *words = joined(name, arguments, arguments_count, &question.words.size);
    if (!words) {
        return UMC_NO_MEMORY;
    }
    question.words.begin = words;
    int status = answered_by(program, &question, answer, answer_size);
    free(words);
    return status;
}

int umc_call_into(const umc_program *shared, unsigned long budget, const char *words, size_t words_size, char *answer,
                  size_t room, size_t *answer_size) {
    umc_program *program = (umc_program *)shared;
    byte none[1];
    *answer_size = 0;
    if (words_size >= MOST || room >= MOST) {
        return UMC_NO_MEMORY;
    }
    struct question question = {.call = CALL, .program = &program->held, .budget = budget};
    question.words = text_of(words, words_size);
    pthread_mutex_lock(&program->lock);
    int status = put(&question, answer ? (byte *)answer : none, answer ? room : 0, answer_size);
    pthread_mutex_unlock(&program->lock);
    return status;
}

void umc_close(umc_program *program) {
    if (program) {
        umc_embed_close(&program->held);
        pthread_mutex_destroy(&program->lock);
        free(program);
    }
}

const char *umc_version(void) {
    return UMC_VERSION;
}
