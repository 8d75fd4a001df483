/* Much of the C library: reads words of the input up to its end, and writes them sorted, with their lengths' mean, what a long jump
   brings back, the numbers that math.h computes of it, and last what atexit was given. */
#include <errno.h>
#include <math.h>
#include <setjmp.h>
#include <stdio.h>
#include <stdlib.h>
#include <string.h>

enum { WORD = 31 };

struct list { char **words; size_t count, room; };

static jmp_buf before;

static void say_goodbye(void) { printf("goodbye\n"); }

static int by_letters(const void *left, const void *right) {
    return strcmp(*(char *const *)left, *(char *const *)right);
}

static void *needed(void *memory) {
    if (!memory) longjmp(before, 1);
    return memory;
}

static void append(struct list *all, const char *word) {
    if (all->count == all->room) {
        all->room = all->room ? 2 * all->room : 4;
        all->words = needed(realloc(all->words, all->room * sizeof *all->words));
    }
    all->words[all->count++] = strcpy(needed(malloc(strlen(word) + 1)), word);
}

static double write_sorted(struct list *all) {
    double letters = 0;
    qsort(all->words, all->count, sizeof *all->words, by_letters);
    for (size_t at = 0; at < all->count; at++) {
        printf("%2zu %-12s %2zu\n", at + 1, all->words[at], strlen(all->words[at]));
        letters += strlen(all->words[at]);
        free(all->words[at]);
    }
    free(all->words);
    return letters / all->count;
}

int main(int count, char **arguments) {
    struct list all = { NULL, 0, 0 };
    char word[WORD + 1];
    atexit(say_goodbye);
    printf("%d argument, '%s'\n", count, arguments[0]);
    while (scanf("%31s", word) == 1) append(&all, word);
    double mean = write_sorted(&all);
    printf("mean %.3f, root %.6f, sine %.9f, power %g\n", mean, sqrt(mean), sin(mean), pow(mean, 10));
    if (setjmp(before) == 0) {
        needed(malloc(1u << 30));
        printf("a gigabyte was found\n");
    } else {
        printf("no memory: errno %d is ENOMEM: %s\n", errno, errno == ENOMEM ? "yes" : "no");
    }
    fprintf(stderr, "%lld of %u bits\n", 1LL << 40, (unsigned)sizeof(long long) * 8);
    return 7;
}
