/* plan.c: reads a problem file, plans it, and prints number and place, and the proposal: a line with column and base row for each message.
   Build, at the root of the repository:
     (cd crates/ffynorwel && rt lib)
     cc -std=c99 -O2 -Iinclude -o plan examples/c/plan.c crates/ffynorwel/out/libffynorwel.a
   cc is a C compiler for x86-64 Linux; elsewhere a cross compiler, as x86_64-linux-gnu-gcc -static. */
#include <stdio.h>

#include "ffynorwel.h"

int main(int argc, char **argv) {
    uint8_t bytes[FFY_BYTES + 1]; /* one more than a problem has, so that a longer file is refused */
    uint32_t plan[FFY_PLAN], answer[FFY_ANSWER];
    FILE *file = argc == 2 ? fopen(argv[1], "rb") : NULL;
    if (!file) {
        fprintf(stderr, "usage: plan FILE, with a problem file that can be read\n");
        return 2;
    }
    size_t count = fread(bytes, 1, sizeof bytes, file);
    fclose(file);
    ffy_plan(bytes, count, plan, FFY_PLAN, answer);
    if (answer[0] != FFY_DONE) {
        printf("refused %u, place %u\n", (unsigned)answer[0], (unsigned)answer[1]);
        return 1;
    }
    printf("done %u, place %u\n", (unsigned)answer[0], (unsigned)answer[1]);
    for (uint32_t i = 0; i < answer[3]; i += 2)
        printf("%u %u\n", (unsigned)plan[i], (unsigned)plan[i + 1]);
    return 0;
}
