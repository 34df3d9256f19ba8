/* Writes each refusal's number and text as include/ne.h has them. */
#include "ne.h"

#include <stdio.h>
#include <string.h>

int main(void)
{
    for (uint32_t number = 1; number < 1000; number++)
        if (strcmp(ne_refusal_text(number), "unknown refusal") != 0)
            printf("%lu %s\n", (unsigned long)number, ne_refusal_text(number));
    return 0;
}
