/* picture WIDTH HEIGHT SEED [grey]: a PPM picture, or PGM, of soft shapes and a little noise, values 40 to 215. */
#include <math.h>
#include <stdio.h>
#include <stdlib.h>

static unsigned long long state;

static double chance(void)
{
    state = state * 6364136223846793005ull + 1442695040888963407ull;
    return (double)(state >> 40) / (1 << 24);
}

int main(int argc, char **argv)
{
    if (argc < 4)
        return 2;
    int width = atoi(argv[1]), height = atoi(argv[2]), samples = argc > 4 ? 1 : 3;
    state = strtoull(argv[3], NULL, 10) + 1;
    double wave[3][4];
    for (int c = 0; c < 3; c++)
        for (int i = 0; i < 4; i++)
            wave[c][i] = chance();
    printf("P%d\n%d %d\n255\n", samples == 1 ? 5 : 6, width, height);
    for (int y = 0; y < height; y++)
        for (int x = 0; x < width; x++)
            for (int c = 0; c < samples; c++) {
                const double *w = wave[c];
                double v = sin(x * (0.05 + 0.4 * w[0]) + 6 * w[1]) * cos(y * (0.05 + 0.3 * w[2]) + 6 * w[3]);
                putchar((int)(128 + 70 * v + 30 * (chance() - 0.5)));
            }
    return 0;
}
