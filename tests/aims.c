/* aims: what bench/aims.h says of figures at an aim and on either side of it. Exit status: 0 all as it should be, 1 not so. */
#include <string.h>

#include "../bench/aims.h"

int main(void) {
    static const struct {
        Aim aim;
        double figure;
        const char *column;
    } cases[] = {
        {{"<= 1.1", 110}, 1.0, "<= 1.1"},         {{"<= 1.1", 110}, 1.104, "<= 1.1"}, {{"<= 1.1", 110}, 1.106, "<= 1.1 missed"},
        {{"<= 1.1", 110}, 30.0, "<= 1.1 missed"}, {{"< 1.0", 99}, 0.994, "< 1.0"},    {{"< 1.0", 99}, 0.996, "< 1.0 missed"},
        {{"< 1.0", 99}, 1.0, "< 1.0 missed"},     {{"", 0}, 9.0, ""},
    };
    int wrong = 0;
    for (size_t i = 0; i < sizeof cases / sizeof cases[0]; i++) {
        const char *column = judged(cases[i].aim, cases[i].figure);
        if (strcmp(column, cases[i].column) == 0) continue;
        fprintf(stderr, "aims: %.3f gets '%s' and should get '%s'\n", cases[i].figure, column, cases[i].column);
        wrong = 1;
    }
    return wrong;
}
