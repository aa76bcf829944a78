// NFC by utf8proc, for comparison: titles one to a line on standard input, their NFC on standard output.
#include <stdio.h>
#include <stdlib.h>
#include <utf8proc.h>

int main(void) {
    char *line = NULL;
    size_t room = 0;
    ssize_t n;
    while ((n = getline(&line, &room, stdin)) > 0) {
        utf8proc_uint8_t *out = NULL;
        if (line[n - 1] == '\n') n--;
        utf8proc_ssize_t k = utf8proc_map((utf8proc_uint8_t *)line, n, &out, UTF8PROC_STABLE | UTF8PROC_COMPOSE);
        if (k >= 0) fwrite(out, 1, (size_t)k, stdout);
        fputc('\n', stdout);
        free(out);
    }
    return 0;
}
