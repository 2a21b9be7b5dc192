/* Whether people tell colours apart who see them all, and those who lack one of the three kinds of cones: how far each two of them lie from each other, in the CIE's L*a*b*, as each of these sees them
 * (Machado, Oliveira and Fernandes, 2009, at full strength). Reads a colour a line, #rrggbb or a number of the 256 that terminals have, and behind it, where something is written on it, the ink. Prints
 * the least distance of two colours and the least contrast of an ink, both in whole numbers and tenths; contrast is that of the W3C, 1 to 21. */
#include <math.h>
#include <stdio.h>
#include <stdlib.h>

enum { MOST = 64, EYES = 4 };

static const double eyes[EYES][3][3] = {
    {{1, 0, 0}, {0, 1, 0}, {0, 0, 1}},
    {{0.152286, 1.052583, -0.204868}, {0.114503, 0.786281, 0.099216}, {-0.003882, -0.048116, 1.051998}},
    {{0.367322, 0.860646, -0.227968}, {0.280085, 0.672501, 0.047413}, {-0.011820, 0.042940, 0.968881}},
    {{1.255528, -0.076749, -0.178779}, {-0.078411, 0.930809, 0.147602}, {0.004733, 0.691367, 0.303900}},
};

/* The light of a colour's red, green and blue, 0 to 1; of a number from 16 to 231 that of the terminals' cube. */
static void light_of(const char *colour, double *light) {
    static const unsigned steps[] = {0, 95, 135, 175, 215, 255};
    const unsigned long number = strtoul(colour + (colour[0] == '#'), NULL, colour[0] == '#' ? 16 : 10);
    for (int i = 0; i < 3; i++) {
        const unsigned long part = colour[0] == '#' ? number >> (16 - 8 * i) & 255 : steps[(number - 16) / (i == 0 ? 36 : i == 1 ? 6 : 1) % 6];
        const double share = (double)part / 255;
        light[i] = share <= 0.04045 ? share / 12.92 : pow((share + 0.055) / 1.055, 2.4);
    }
}

static double root(double share) {
    return share > 0.008856 ? cbrt(share) : 7.787 * share + 16.0 / 116;
}

/* A colour as one kind of eye sees it, in L*a*b*. */
static void seen_by(const double eye[3][3], const double *light, double *seen) {
    double rgb[3], x, y, z;
    for (int i = 0; i < 3; i++) rgb[i] = fmax(0, fmin(1, eye[i][0] * light[0] + eye[i][1] * light[1] + eye[i][2] * light[2]));
    x = root((0.4124564 * rgb[0] + 0.3575761 * rgb[1] + 0.1804375 * rgb[2]) / 0.95047);
    y = root(0.2126729 * rgb[0] + 0.7151522 * rgb[1] + 0.0721750 * rgb[2]);
    z = root((0.0193339 * rgb[0] + 0.1191920 * rgb[1] + 0.9503041 * rgb[2]) / 1.08883);
    seen[0] = 116 * y - 16, seen[1] = 500 * (x - y), seen[2] = 200 * (y - z);
}

static double contrast(const double *one, const double *other) {
    const double a = 0.2126 * one[0] + 0.7152 * one[1] + 0.0722 * one[2] + 0.05, b = 0.2126 * other[0] + 0.7152 * other[1] + 0.0722 * other[2] + 0.05;
    return a > b ? a / b : b / a;
}

int main(void) {
    static double seen[MOST][EYES][3];
    double least = 1000, least_contrast = 21;
    char line[64], colour[16], ink[16];
    int count = 0;
    while (count < MOST && fgets(line, sizeof line, stdin)) {
        double light[3], of_ink[3];
        const int words = sscanf(line, "%15s %15s", colour, ink);
        if (words < 1) continue;
        light_of(colour, light);
        for (int eye = 0; eye < EYES; eye++) seen_by(eyes[eye], light, seen[count][eye]);
        count++;
        if (words < 2) continue;
        light_of(ink, of_ink);
        least_contrast = fmin(least_contrast, contrast(light, of_ink));
    }
    for (int i = 0; i < count; i++)
        for (int j = 0; j < i; j++)
            for (int eye = 0; eye < EYES; eye++)
                least = fmin(least, sqrt(pow(seen[i][eye][0] - seen[j][eye][0], 2) + pow(seen[i][eye][1] - seen[j][eye][1], 2) + pow(seen[i][eye][2] - seen[j][eye][2], 2)));
    printf("%d colours, apart %.1f, contrast %.1f\n", count, least, least_contrast);
    return 0;
}
