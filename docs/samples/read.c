/* Month lines in; out, in decimal: solstice year, number, leap mark, first day and length. It stops at any other line. */
#include <stdio.h>
#include <string.h>

int main(void) {
    unsigned year, number, leap, first, length;
    for (char line[16]; fgets(line, sizeof line, stdin);)
        if (strspn(line, "0123456789ABCDEF") == 12 && strchr("\n", line[12])) {
            sscanf(line, "%3x%1x%1x%5x%2x", &year, &number, &leap, &first, &length);
            printf("%u %u %u %u %u\n", year, number, leap, first, length);
        } else if (line[0] == 'E' && strspn(line + 1, "12345") == 1 && strchr("\n", line[2]))
            printf("refused %c\n", line[1]);
        else
            return fprintf(stderr, "no month line: %s\n", line), 1;
}
