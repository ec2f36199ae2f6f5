/* One line to its low and high values and back.
   From the top of the repository: cc -I include examples/line.c target/staticlib/libterrain.a -o target/line && target/line */
#include <stdio.h>
#include <terrain.h>

enum { N = 5 };

static void print(const char *name, const int32_t *values, size_t n)
{
    printf("%s", name);
    for (size_t i = 0; i < n; i++) printf(" %d", (int)values[i]);
    printf("\n");
}

int main(void)
{
    const int32_t line[N] = {1, 4, 2, 7, 3};
    int32_t coefficients[N], again[N];

    if (terrain_line_forward(line, N, 0, coefficients, N) != 0) return 1;
    print("low", coefficients, (N + 1) / 2);
    print("high", coefficients + (N + 1) / 2, N / 2);

    if (terrain_line_backward(coefficients, N, 0, again, N) != 0) return 1;
    print("line", again, N);

    printf("too short: %u\n", (unsigned)terrain_line_forward(line, N, 0, again, N - 1));
    return 0;
}
