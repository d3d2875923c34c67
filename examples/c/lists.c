/* lists.c: reads a problem file, plans it, and prints the triggers that each node's controller is to be loaded with, node by node; nodes that
   neither send nor receive have the reference's only, and are left out. A refusal is printed by its number and place.
   Build, at the root of the repository:
     (cd crates/ffynorwel && rt lib)
     cc -std=c99 -O2 -Iinclude -o lists examples/c/lists.c crates/ffynorwel/out/libffynorwel.a
   cc is a C compiler for x86-64 Linux; elsewhere a cross compiler, as x86_64-linux-gnu-gcc -static. */
#include <stdio.h>

#include "ffynorwel.h"

static const char *what(uint32_t kind) {
    switch (kind) {
    case FFY_REFERENCE:
        return "reference";
    case FFY_SENDS:
        return "sends";
    case FFY_RECEIVES:
        return "receives";
    default:
        return "unknown";
    }
}

/* One node: how many entries it has, and a line for each. A controller would be written here. */
static void load(unsigned node, const uint32_t *list, uint32_t entries) {
    printf("node %u, triggers: %u\n", node, (unsigned)entries);
    for (uint32_t i = 0; i < entries; i++) {
        const uint32_t *e = list + FFY_ENTRY_WORDS * i;
        printf("  mark %5u, row %2u, repeat %2u: %s 0x%03x\n", (unsigned)e[1], (unsigned)e[2], (unsigned)e[3], what(e[0] / FFY_KIND_WEIGHT),
               (unsigned)(e[0] % FFY_KIND_WEIGHT));
    }
}

static int refused(const uint32_t *answer) {
    printf("refused %u, place %u, second place %u\n", (unsigned)answer[0], (unsigned)answer[1], (unsigned)answer[2]);
    return 1;
}

int main(int argc, char **argv) {
    uint8_t bytes[FFY_BYTES + 1]; /* one more than a problem has, so that a longer file is refused */
    uint32_t plan[FFY_PLAN], lists[FFY_LISTS], answer[FFY_ANSWER];
    FILE *file = argc == 2 ? fopen(argv[1], "rb") : NULL;
    if (!file) {
        fprintf(stderr, "usage: lists FILE, with a problem file that can be read\n");
        return 2;
    }
    size_t count = fread(bytes, 1, sizeof bytes, file);
    fclose(file);
    ffy_plan(bytes, count, plan, FFY_PLAN, answer);
    if (answer[0] != FFY_DONE)
        return refused(answer);
    ffy_lists(bytes, count, plan, answer[3], lists, FFY_LISTS, answer);
    if (answer[0] != FFY_DONE)
        return refused(answer);
    const uint32_t *list = lists + FFY_NODES;
    for (unsigned node = 0; node < FFY_NODES; node++) {
        if (1 < lists[node])
            load(node, list, lists[node]);
        list += FFY_ENTRY_WORDS * lists[node];
    }
    return 0;
}
