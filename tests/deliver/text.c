/* text KIND: writes the values whose little-endian bytes stand on standard input, one to a line, as C's printf writes them. */
#include <inttypes.h>
#include <stdio.h>
#include <string.h>

int main(int argc, char **argv)
{
    const char *kind = argc > 1 ? argv[1] : "";
    const char *names[] = {"u64", "u32", "f32", "f64", "normal_f32", "normal_f64", "open01_f32", "open01_f64"};
    int number = 0;
    for (int i = 0; i < 8; i++)
        if (!strcmp(kind, names[i]) || (kind[0] == '1' + i && !kind[1]))
            number = i + 1;
    uint64_t wide;
    uint32_t narrow;
    double x;
    float y;
    switch (number) {
    case 1:
        while (fread(&wide, sizeof wide, 1, stdin))
            printf("%" PRIu64 "\n", wide);
        return 0;
    case 2:
        while (fread(&narrow, sizeof narrow, 1, stdin))
            printf("%" PRIu32 "\n", narrow);
        return 0;
    case 3:
    case 5:
    case 7:
        while (fread(&y, sizeof y, 1, stdin))
            printf("%a\n", (double)y);
        return 0;
    case 4:
    case 6:
    case 8:
        while (fread(&x, sizeof x, 1, stdin))
            printf("%a\n", x);
        return 0;
    }
    return 2;
}
