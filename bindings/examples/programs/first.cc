// The first of two files that share a header.
#include "shared.h"

int total;

__attribute__((noinline)) int first(int number) { return summed(number) + tripled(number + total); }

int main(int argc, char **) { return first(argc) == second(argc); }
