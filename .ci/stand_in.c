/* A program of which no allocation is refused, built by .ci/wrong_programs. It runs the program that the macro PROGRAM
   names, with nothing loaded in front of it; with KEEPS it takes memory before, and goes on where there is none. */
#include <stdlib.h>
#include <unistd.h>

int main(int count, char **words)
{
    (void)count;
#ifdef KEEPS
    char *volatile taken = malloc(64);
    free(taken);
#endif
    unsetenv("LD_PRELOAD");
    execv(PROGRAM, words);
    return 99;
}
