/* examples/hosts/copy.v in C. */
#include <errno.h>
#include <stdio.h>

int main(int count, char **words)
{
    FILE *from = count > 2 ? fopen(words[1], "rb") : NULL;
    FILE *to = from != NULL ? fopen(words[2], "wb") : NULL;
    int byte;
    if (to == NULL) {
        printf("%d\n", errno);
        return 0;
    }
    while ((byte = getc(from)) != EOF) {
        if (putc(byte, to) == EOF) {
            break;
        }
    }
    byte = ferror(from) || ferror(to) || fclose(to) != 0 ? errno : 0;
    printf("%d\n", byte);
    return 0;
}
