/* accuracy STRIDE: errors of the operators at every STRIDE-th f32 of their domains, and of softmax's weights.
   A line "@name" stands before each table; bench/accuracy puts the tables into the page. */
#include <stdlib.h>

#include "accuracy.h"

enum { MOST_OPERATIONS = 12 };

static void print_input(FILE *out, uint64_t place) {
    fprintf(out, " | %.9g (0x%08x) |", of_pattern((uint32_t)place), (unsigned)place);
}

static void print_errors(FILE *out, const struct result *result, int range) {
    fputc(' ', out);
    print_ulps(out, result->ulps[range].error);
    print_input(out, result->ulps[range].place);
    fputc(' ', out);
    print_absolute(out, result->absolute[range].error);
    print_input(out, result->absolute[range].place);
}

static void print_whole(FILE *out, const struct result *results) {
    fputs("@whole\n| operator | inputs | largest ULP | at | largest absolute | at | what rten-vecmath's comments say |"
          " what SLEEF promises |\n|---|---|---|---|---|---|---|---|\n", out);
    for (int o = 0; operations[o].name; o++) {
        fprintf(out, "| `%s` | %llu |", operations[o].name, (unsigned long long)results[o].inputs);
        print_errors(out, &results[o], 0);
        fprintf(out, " %s | %s |\n", operations[o].rust, operations[o].sleef);
    }
}

static void print_ranges(FILE *out, const struct result *results) {
    fputs("@ranges\n| operator | where | largest ULP | at | largest absolute | at |\n|---|---|---|---|---|---|\n", out);
    for (int o = 0; operations[o].name; o++)
        for (int r = 1; operations[o].ranges[r].name; r++) {
            fprintf(out, "| `%s` | %s |", operations[o].name, operations[o].ranges[r].name);
            print_errors(out, &results[o], r);
            fputc('\n', out);
        }
}

int main(int count, char **arguments) {
    struct result results[MOST_OPERATIONS];
    const long stride = count == 2 ? strtol(arguments[1], 0, 10) : 0;
    if (stride < 1 || stride > 1000000)
        fail("one argument is needed, the step from a pattern to the next (1 to 1000000)");
    for (int o = 0; operations[o].name; o++) {
        fprintf(stderr, "accuracy: %s\n", operations[o].name);
        results[o] = scan(&operations[o], (uint32_t)stride);
    }
    print_whole(stdout, results);
    print_ranges(stdout, results);
    puts("@softmax");
    softmax_table(stdout, stride == 1 ? 1 : 100);
    if (fflush(stdout) != 0 || ferror(stdout))
        fail("cannot write to standard output");
    return 0;
}
