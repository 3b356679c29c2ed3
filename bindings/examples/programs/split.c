/* A function that gcc splits into a hot and a cold part, one that is inlined and one that is
   inlined and also called. */
#include <stdio.h>
#include <stdlib.h>

static int total;

static inline __attribute__((always_inline)) int twice(int number) { return 2 * number; }

static inline int thrice(int number) { return 3 * number; }

__attribute__((cold, noinline)) void complain(int number) { fprintf(stderr, "%d is too great\n", number); }

__attribute__((noinline)) int add(int number) {
    total += number;
    return total;
}

__attribute__((noinline)) int checked(int number) {
    if (number > 1000000) {
        complain(number);
        abort();
    }
    return add(twice(number)) + twice(number + 1) + thrice(number);
}

int main(int argc, char **argv) {
    int (*volatile kept)(int) = thrice;
    (void)argv;
    for (int i = 0; i < 5; i++) printf("%d\n", checked(i * argc) + kept(i));
    return 0;
}
