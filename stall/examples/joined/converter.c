/* Answers each picture, once it has read its size. With `slow` the size doesn't matter, and it takes five minutes. */
#include <stdio.h>
#include <string.h>
#include <unistd.h>

int main(int number, char **words)
{
    char picture[80], size[80];
    if (!fgets(picture, sizeof picture, stdin))
        return 1;
    if (number > 1 && strcmp(words[1], "slow") == 0)
        sleep(300);
    else if (!fgets(size, sizeof size, stdin))
        return 1;
    puts("converted");
    return 0;
}
