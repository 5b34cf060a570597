/* A small screen program: checks each line of standard input, and says what is refused, and where. */
#include "pairing.h"

#include <stdio.h>
#include <string.h>

static void say(const char *line, size_t length)
{
    uint32_t code = pairing_check_line((const uint8_t *)line, length);
    if (code == 0)
        printf("granted\n");
    else
        printf("refused %u at %u\n", (unsigned)(code / 65536), (unsigned)(code % 65536));
}

int main(void)
{
    char line[1024];
    while (fgets(line, sizeof line, stdin)) {
        size_t length = strlen(line);
        if (length > 0 && line[length - 1] == '\n')
            length--;
        say(line, length);
    }
    return 0;
}
