/* Prints the tool's words for each refusal that the header names, and for a
 * number that it doesn't name. The names come on standard input, as lines
 * "NUMBER NAME". */
#include <stdio.h>

#include "refusals.h"

int main(void)
{
    unsigned number;
    char name[64];
    while (scanf("%u %63s", &number, name) == 2)
        printf("%u %s: %s\n", number, name, refusal_in_words(number));
    printf("99: %s\n", refusal_in_words(99));
    return 0;
}
