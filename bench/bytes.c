/* Reads the files that are named, and prints the sum of their bytes. */
#include <stdio.h>

int main(int count, char **names)
{
    static unsigned char piece[65536];
    unsigned long sum = 0;
    for (int file = 1; file < count; file++) {
        FILE *in = fopen(names[file], "rb");
        if (in == NULL)
            return 1;
        size_t got;
        while ((got = fread(piece, 1, sizeof piece, in)) > 0)
            for (size_t place = 0; place < got; place++)
                sum += piece[place];
        fclose(in);
    }
    printf("%lu\n", sum);
    return 0;
}
