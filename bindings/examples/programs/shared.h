// A function that is inlined in each of two files, and one that each has of its own, of which the
// linker keeps one.
#pragma once

extern int total;

inline int tripled(int number) { return 3 * number; }

inline __attribute__((noinline)) int summed(int number) {
    int sum = 0;
    for (int i = 0; i < tripled(number); i++) sum += i ^ (total += i % 7);
    return sum;
}

int second(int number);
