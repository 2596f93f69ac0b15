/*
 * Tries the calls of umc.h: answers, refusals, answers of any length, threads, and every allocation failing in turn.
 *
 * Linked with -Wl,--wrap=malloc,--wrap=realloc. What it says is one line for each check that fails.
 */
#include <pthread.h>
#include <stdio.h>
#include <stdlib.h>
#include <string.h>

#include "umc.h"

enum { THREADS = 8, TIMES = 3, MOST_WORDS = 8 };

static int failed;

static void check(int is_well, const char *what) {
    if (!is_well) {
        printf("failed: %s\n", what);
        failed = 1;
    }
}

/* ---- a heap that fails where it is told, in the thread that tells it */

void *__real_malloc(size_t bytes);
void *__real_realloc(void *block, size_t bytes);

static _Thread_local long asked, fail_at, fail_from;

static int fails(void) {
    asked++;
    return asked == fail_at || (fail_from && asked >= fail_from);
}

void *__wrap_malloc(size_t bytes) {
    return fails() ? NULL : __real_malloc(bytes);
}

void *__wrap_realloc(void *block, size_t bytes) {
    return fails() ? NULL : __real_realloc(block, bytes);
}

/* ---- questions */

struct question {
    const char *words[MOST_WORDS];
    const char *text;
    int status;
    const char *answer;
};

static const char VEHICLE[] =
    "[<Measure>] type m\n[<Measure>] type ft\n"
    "let rec total (l: num<_> list) : num<_> = match l with [] -> 0<_> | x :: r -> x + total r\n"
    "let metres (d: num<ft>) = d * 0.3048<m/ft>\n";
static const char WRONG[] = "[<Measure>] type m\nlet f (x: num<m>) = x + 1\n";

static const struct question QUESTIONS[] = {
    {{"types"}, VEHICLE, 0, "total : num<'a> list -> num<'a>\nmetres : num<ft> -> num<m>\n"},
    {{"run", "1", "metres", "10<ft>"}, VEHICLE, 0, "381r125<m>\n"},
    {{"run", "9", "total", "[1<m>; 2.5<m>]"}, VEHICLE, 0, "7r2<m>\n"},
    {{"run", "2", "total", "[1; 2]"}, VEHICLE, 13, "error 13: budget\n"},
    {{"run", "1", "metres", "10<m>"}, VEHICLE, 11, "error 11: units of the arguments\n"},
    {{"types"}, WRONG, 9, "error 9: units of f at 2:23\n"},
    {{"types"}, "", 0, ""},
    {{"types"}, NULL, 0, ""},
    {{"conform", "metres", "num<ft> -> num<m>"}, VEHICLE, 0, "metres conforms\n"},
    {{"no such command"}, VEHICLE, 1, "error 1: usage\n"},
    {{"types", "\xff"}, VEHICLE, 1, "error 1: usage\n"},
    {{NULL}, VEHICLE, 1, "error 1: usage\n"},
};
enum { QUESTION_COUNT = sizeof QUESTIONS / sizeof *QUESTIONS };

static size_t count_of(const struct question *question) {
    size_t count = 0;
    while (count < MOST_WORDS && question->words[count]) {
        count++;
    }
    return count;
}

static int ask(const struct question *question, char **answer, size_t *size) {
    return umc_answer(question->words, count_of(question), question->text, question->text ? strlen(question->text) : 0,
                      answer, size);
}

/* Whether the answer is the one that must come. */
static int is_well(const struct question *question) {
    char *answer;
    size_t size;
    int status = ask(question, &answer, &size);
    int well = status == question->status && answer && size == strlen(question->answer) &&
               strcmp(answer, question->answer) == 0;
    umc_free(answer);
    return well;
}

static void check_answers(void) {
    for (int at = 0; at < QUESTION_COUNT; at++) {
        check(is_well(QUESTIONS + at), QUESTIONS[at].answer);
    }
}

static void check_bytes(void) {
    char *answer;
    size_t size;
    const char *words[] = {"types"};
    check(umc_answer(words, 1, "let k = 1\n\0", 11, &answer, &size) == 4, "a zero byte in a text");
    check(answer && strcmp(answer, "error 4: character at 2:1\n") == 0, "its place");
    umc_free(answer);
    check(umc_answer(words, 1, "// caf\xe9", 7, &answer, &size) == 3, "a text that isn't UTF-8");
    umc_free(answer);
    check(umc_answer(words, 1, VEHICLE, (size_t)-1, &answer, &size) == UMC_NO_MEMORY && !answer && !size,
          "a size that no text has");
    umc_free(NULL);
    check(strlen(umc_version()) > 0, "the version");
}

/* A program whose value is twice as long with each line. */
static void doubling(char *text, int lines) {
    char *end = text + sprintf(text, "let f (x: num) =\n");
    for (int line = 0; line < lines; line++) {
        end += line ? sprintf(end, "  let x%d = [x%d; x%d] in\n", line, line - 1, line - 1)
                    : sprintf(end, "  let x0 = [x; x] in\n");
    }
    sprintf(end, "  x%d\n", lines - 1);
}

static int is_long(const char *answer, size_t size) {
    return answer && size > 100000 && strlen(answer) == size && strcmp(answer + size - 3, "]]\n") == 0;
}

/* An answer that is longer than the room that is tried first. */
static void check_long(void) {
    char text[1024], *answer;
    size_t size;
    const char *words[] = {"run", "1", "f", "1"};
    doubling(text, 16);
    check(umc_answer(words, 4, text, strlen(text), &answer, &size) == 0, "the status of a long answer");
    check(is_long(answer, size), "a long answer as a whole");
    umc_free(answer);
    umc_program *program;
    check(umc_open(text, strlen(text), &program, &answer, &size) == 0, "a program with long answers");
    umc_free(answer);
    check(umc_call(program, 1, "f", words + 3, 1, &answer, &size) == 0 && is_long(answer, size),
          "a long answer of an open program");
    umc_free(answer);
    umc_close(program);
}

/* Each allocation fails, alone and with all after it: the whole answer comes, or none for want of memory. */
static void check_failures(const struct question *question) {
    char *answer;
    size_t size;
    asked = 0;
    ask(question, &answer, &size);
    umc_free(answer);
    long calls = asked, refused = 0;
    for (long at = 1; at <= 2 * calls; at++) {
        asked = 0;
        fail_at = at <= calls ? at : 0;
        fail_from = at <= calls ? 0 : at - calls;
        int status = ask(question, &answer, &size);
        fail_at = fail_from = 0;
        int is_none = status == UMC_NO_MEMORY && !answer && !size;
        refused += is_none;
        check(is_none || (status == question->status && answer && strcmp(answer, question->answer) == 0),
              "an answer with a failed allocation");
        umc_free(answer);
    }
    check(calls > 3 && refused > 0, "that allocations fail");
    printf("%s: %ld allocations, %ld of %ld refused\n", question->words[0], calls, refused, 2 * calls);
}

/* ---- programs that are open */

/* Whether a call of an open program is answered so. */
static int calls_well(const umc_program *program, unsigned long budget, const char *name, const char *argument,
                      int status, const char *expected) {
    char *answer;
    size_t size;
    int found = umc_call(program, budget, name, &argument, 1, &answer, &size);
    int well = found == status && answer && size == strlen(expected) && strcmp(answer, expected) == 0;
    umc_free(answer);
    return well;
}

/* Whether a call whose answer goes into room is answered so: more room than it needs, as much, and too little. */
static int calls_into_well(const umc_program *program, unsigned long budget, const char *words, size_t words_size,
                           int status, const char *expected) {
    size_t length = strlen(expected), rooms[] = {2 * length, length, length - 1, 0};
    char answer[128];
    int well = 1;
    for (int at = 0; at < 4; at++) {
        size_t size = 77, put = rooms[at] < length ? 0 : length;
        memset(answer, 'x', sizeof answer);
        int found = umc_call_into(program, budget, words, words_size, rooms[at] ? answer : NULL, rooms[at], &size);
        well = well && found == status && size == length && memcmp(answer, expected, put) == 0;
        for (size_t after = put; after < sizeof answer; after++) {
            well = well && answer[after] == 'x';
        }
    }
    return well;
}

#define INTO(program, budget, words, status, expected) \
    calls_into_well(program, budget, words, sizeof words - 1, status, expected)

static int is_open_well(const umc_program *program) {
    char *answer;
    size_t size;
    int well = umc_types(program, &answer, &size) == 0 && answer && strcmp(answer, QUESTIONS[0].answer) == 0;
    umc_free(answer);
    return well && calls_well(program, 1, "metres", "10<ft>", 0, "381r125<m>\n") &&
           calls_well(program, 10000000, "total", "[1<m>; 2.5<m>]", 0, "7r2<m>\n") &&
           calls_well(program, 0, "metres", "10<ft>", 13, "error 13: budget\n") &&
           calls_well(program, 10000001, "metres", "10<ft>", 1, "error 1: usage\n") &&
           calls_well(program, (unsigned long)-1, "metres", "10<ft>", 1, "error 1: usage\n") &&
           calls_well(program, 1, "metres", "10<m>", 11, "error 11: units of the arguments\n") &&
           calls_well(program, 1, "yards", "1", 11, "error 11: no such function\n") &&
           INTO(program, 1, "metres\0" "10<ft>", 0, "381r125<m>\n") &&
           INTO(program, 9, "total\0[1<m>; 2.5<m>]", 0, "7r2<m>\n") &&
           INTO(program, 10000001, "metres\0" "10<ft>", 1, "error 1: usage\n") &&
           INTO(program, 1, "metres\0" "10<ft>\0", 11, "error 11: wrong number of arguments\n") &&
           INTO(program, 1, "metres", 11, "error 11: wrong number of arguments\n") &&
           INTO(program, 1, "metres\0\xff", 1, "error 1: usage\n") &&
           INTO(program, 1, "", 11, "error 11: no such function\n") &&
           calls_into_well(program, 1, NULL, 0, 11, "error 11: no such function\n");
}

static void check_programs(void) {
    umc_program *program;
    char *answer, text[sizeof VEHICLE];
    size_t size;
    strcpy(text, VEHICLE);
    check(umc_open(text, strlen(text), &program, &answer, &size) == 0 && program, "a program is opened");
    check(answer && strcmp(answer, QUESTIONS[0].answer) == 0, "the types of what is opened");
    umc_free(answer);
    memset(text, 'x', sizeof text); /* the text is copied */
    check(is_open_well(program), "the answers of an open program");
    umc_close(program);
    check(umc_open(NULL, 0, &program, &answer, &size) == 0 && program && answer && !size, "a program without a text");
    umc_free(answer);
    check(calls_well(program, 1, "f", "1", 11, "error 11: no such function\n"), "a call of nothing");
    umc_close(program);
    check(umc_open(WRONG, strlen(WRONG), &program, &answer, &size) == 9 && !program, "a text that is refused");
    check(answer && strcmp(answer, "error 9: units of f at 2:23\n") == 0, "its line");
    umc_free(answer);
    umc_close(NULL);
}

/* Opens and calls; the status is that of the first that isn't done. */
static int open_and_call(char **answer, size_t *size) {
    umc_program *program;
    const char *argument = "10<ft>";
    int status = umc_open(VEHICLE, strlen(VEHICLE), &program, answer, size);
    if (status == 0) {
        umc_free(*answer);
        status = umc_call(program, 1, "metres", &argument, 1, answer, size);
    }
    umc_close(program);
    return status;
}

/* Each allocation of opening and calling fails, alone and with all after it. */
static void check_program_failures(void) {
    char *answer;
    size_t size;
    asked = 0;
    open_and_call(&answer, &size);
    umc_free(answer);
    long calls = asked, refused = 0;
    for (long at = 1; at <= 2 * calls; at++) {
        asked = 0;
        fail_at = at <= calls ? at : 0;
        fail_from = at <= calls ? 0 : at - calls;
        int status = open_and_call(&answer, &size);
        fail_at = fail_from = 0;
        int is_none = status == UMC_NO_MEMORY && !answer && !size;
        refused += is_none;
        check(is_none || (status == 0 && answer && strcmp(answer, "381r125<m>\n") == 0),
              "an open program with a failed allocation");
        umc_free(answer);
    }
    check(calls > 6 && refused > 0, "that allocations fail");
    printf("open: %ld allocations, %ld of %ld refused\n", calls, refused, 2 * calls);
}

/* Whether a call is answered so, or memory is wanting and the room stays as it was. */
static int is_whole_or_wanting(const umc_program *program) {
    static const char words[] = "total\0[1<m>; 2.5<m>]";
    char answer[16] = "unchanged";
    size_t size = 77;
    int status = umc_call_into(program, 9, words, sizeof words - 1, answer, sizeof answer, &size);
    return status == UMC_NO_MEMORY ? size == 0 && strcmp(answer, "unchanged") == 0
                                   : status == 0 && size == 7 && memcmp(answer, "7r2<m>\n", size) == 0;
}

/* A call that memory is wanting for leaves the program open. */
static void check_call_failures(void) {
    umc_program *program;
    const char *argument = "[1<m>; 2.5<m>]";
    char *answer;
    size_t size;
    check(umc_open(VEHICLE, strlen(VEHICLE), &program, &answer, &size) == 0, "a program to call");
    umc_free(answer);
    asked = 0;
    umc_call(program, 9, "total", &argument, 1, &answer, &size);
    umc_free(answer);
    long calls = asked, refused = 0;
    for (long at = 1; at <= calls; at++) {
        asked = 0;
        fail_at = at;
        int status = umc_call(program, 9, "total", &argument, 1, &answer, &size);
        fail_at = 0;
        refused += status == UMC_NO_MEMORY && !answer && !size;
        umc_free(answer);
        check(is_open_well(program), "an open program after a failed allocation");
        asked = 0;
        fail_at = at;
        check(is_whole_or_wanting(program), "a call into room with a failed allocation");
        fail_at = 0;
    }
    int status = umc_call_into(program, 1, "", (size_t)-1, NULL, 0, &size);
    check(status == UMC_NO_MEMORY && !size, "a size that no words have");
    umc_close(program);
    check(calls > 6 && refused > 0, "that allocations fail");
    printf("call: %ld allocations, %ld refused\n", calls, refused);
}

static void *of_thread(void *given) {
    long wrong = 0;
    for (int time = 0; time < TIMES; time++) {
        wrong += !is_open_well(given);
        for (int at = 0; at < QUESTION_COUNT; at++) {
            wrong += !is_well(QUESTIONS + at);
        }
    }
    return (void *)wrong;
}

/* Threads share a program. */
static void check_threads(void) {
    pthread_t threads[THREADS];
    umc_program *program;
    char *answer;
    size_t size;
    check(umc_open(VEHICLE, strlen(VEHICLE), &program, &answer, &size) == 0, "a program that threads share");
    umc_free(answer);
    for (int at = 0; at < THREADS; at++) {
        check(pthread_create(threads + at, NULL, of_thread, program) == 0, "a thread");
    }
    for (int at = 0; at < THREADS; at++) {
        void *wrong;
        check(pthread_join(threads[at], &wrong) == 0 && !wrong, "the answers in a thread");
    }
    umc_close(program);
}

int main(void) {
    check_answers();
    check_bytes();
    check_long();
    check_failures(QUESTIONS);
    check_failures(QUESTIONS + 2);
    check_failures(QUESTIONS + 5);
    check_programs();
    check_program_failures();
    check_call_failures();
    check_threads();
    puts(failed ? "failed" : "all well");
    return failed;
}
