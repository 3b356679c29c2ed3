// The second of two files that share a header.
#include "shared.h"

__attribute__((noinline)) int second(int number) { return tripled(summed(number + 1)) - total; }

__attribute__((noinline)) int unused(int number) { return tripled(number) ^ summed(total); }
