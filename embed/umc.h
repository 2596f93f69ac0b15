/*
 * umc for programs in C and C++: questions about a program of the language, answered in this process.
 *
 *     char *answer;
 *     size_t size;
 *     const char *words[] = {"run", "10000000", "mean", "[1<m>; 2<m>]"};
 *     int status = umc_answer(words, 4, text, strlen(text), &answer, &size);
 *     if (answer) {
 *         fputs(answer, status ? stderr : stdout);
 *     }
 *     umc_free(answer);
 *
 * The library keeps nothing between two calls but the programs that are open, and has no variables of its own, so any
 * number of threads may call it at once. It reads no file, writes none, and prints nothing. Link it with -lumc, or with
 * libumc.a.
 */
#ifndef UMC_H
#define UMC_H

#include <stddef.h>

#ifdef __cplusplus
extern "C" {
#endif

/* The status of an answer; every other status is the number of a refusal, whose line is the answer. */
#define UMC_DONE 0
/* There was too little memory. This status alone has no answer. */
#define UMC_NO_MEMORY 17

/*
 * Answers the words of a command line about a text, as the program `umc` answers them about its standard input.
 *
 * words, words_count: the command and its words, as {"types"} or {"run", "100", "mean", "[1; 2]"}, in UTF-8
 * text, text_size: the bytes that the command reads, which may hold any byte; NULL for none
 * answer: set to the answer, and a zero byte after its last byte; it is the caller's, who hands it to umc_free
 * answer_size: set to the number of bytes of the answer without that zero byte
 *
 * Gives the status: 0 if the command was done, otherwise the number of the refusal, and the answer is the line
 * "error N: ..". If memory is wanting, it gives UMC_NO_MEMORY, *answer is NULL and *answer_size is 0.
 *
 * A budget bounds how many calls a run makes; the time and the memory of a run aren't bounded otherwise. What a thread
 * needs of its stack is within the 8 MiB that Linux gives a program.
 */
int umc_answer(const char *const *words, size_t words_count, const void *text, size_t text_size, char **answer,
               size_t *answer_size);

/* Gives the memory of an answer back. NULL is allowed. */
void umc_free(char *answer);

/*
 * A program that was accepted: it stays checked and compiled. Threads may share it: it answers one of them at a time,
 * and the others wait. Threads that must be answered at once open a program each.
 */
typedef struct umc_program umc_program;

/*
 * Opens a program: checks and compiles its text, and keeps what comes of it. The text itself isn't needed any longer.
 *
 * Gives the status of `types` on the text, and its answer. If the status is 0, *program is set to the program, which is
 * the caller's, who hands it to umc_close; otherwise it is set to NULL. The rest is as with umc_answer.
 */
int umc_open(const void *text, size_t text_size, umc_program **program, char **answer, size_t *answer_size);

/* The types of the program's functions: the status and the answer of `types` on its text. */
int umc_types(const umc_program *program, char **answer, size_t *answer_size);

/*
 * Calls a function of the program: the status and the answer of `run BUDGET NAME ARGUMENT..` on its text.
 *
 * budget: how many calls the run may make, at most 10,000,000
 * name, arguments, arguments_count: the function's name, and its arguments as they are written in the language
 *
 * A call takes time for its words and for its run; the text isn't looked at again.
 */
int umc_call(const umc_program *program, unsigned long budget, const char *name, const char *const *arguments,
             size_t arguments_count, char **answer, size_t *answer_size);

/*
 * The same for many calls: the words come in one text, and the answer goes into the caller's room.
 *
 * words, words_size: the name and the arguments, a zero byte between each two, as "metres\0" "10<ft>"
 * answer, room: the place of the answer, and how many bytes it has; NULL for none
 * answer_size: set to the number of bytes of the answer
 *
 * The answer is in the room if it isn't longer than the room, without a zero byte after it. Otherwise the room stays as
 * it was, and the caller may ask again with more. If memory is wanting, the status is UMC_NO_MEMORY and the size is 0.
 */
int umc_call_into(const umc_program *program, unsigned long budget, const char *words, size_t words_size, char *answer,
                  size_t room, size_t *answer_size);

/* Lets go of a program, which no thread uses any longer. NULL is allowed. */
void umc_close(umc_program *program);

/* The version of the library, as "1.0.0". */
const char *umc_version(void);

#ifdef __cplusplus
}
#endif

#endif
