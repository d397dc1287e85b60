/* Counts the lines and the words of the input, with the C library. */
#include <ctype.h>
#include <stdio.h>
#include <stdlib.h>

int main(void)
{
    enum { MOST = 80 };
    char *line = malloc(MOST);
    int lines = 0, words = 0;
    if (line == NULL)
        return 1;
    while (fgets(line, MOST, stdin) != NULL) {
        lines++;
        for (int i = 0; line[i] != 0; i++)
            words += !isspace(line[i]) && (i == 0 || isspace(line[i - 1]));
    }
    printf("%d lines, %d words\n", lines, words);
    free(line);
    return 0;
}
