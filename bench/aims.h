/* aims.h: an aim beside a figure, and whether the figure as it is printed, with two digits, misses it. */
#ifndef AIMS_H
#define AIMS_H

#include <stdio.h>

typedef struct {
    const char *text;
    int hundredths; /* the most that a figure may be */
} Aim;

/* The aim's column, which is as wide as its longest text: the aim, and a word if it is missed. An aim without a text is none. */
enum { AIM_WIDTH = 14 };

static const char *judged(Aim aim, double figure) {
    static char column[4][AIM_WIDTH + 1];
    static int next;
    char *to = column[next = (next + 1) % 4];
    const int missed = *aim.text != '\0' && (int)(figure * 100 + 0.5) > aim.hundredths;
    snprintf(to, AIM_WIDTH + 1, "%s%s", aim.text, missed ? " missed" : "");
    return to;
}

#endif
