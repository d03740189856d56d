/* A plain loop over the bytes of a file, for comparison: it counts the bytes that begin a name. */
#include <stdio.h>

int main(int count, char **words) {
    static unsigned char bytes[1 << 21];
    FILE *file = count == 2 ? fopen(words[1], "rb") : NULL;
    if (!file) {
        return 1;
    }
    size_t length = fread(bytes, 1, sizeof bytes, file);
    unsigned long names = 0;
    int inside = 0;
    for (size_t at = 0; at < length; at++) {
        unsigned char byte = bytes[at];
        int letter = (byte >= 'a' && byte <= 'z') || (byte >= 'A' && byte <= 'Z') || byte == '_';
        int digit = byte >= '0' && byte <= '9';
        names += letter && !inside;
        inside = letter || (inside && digit);
    }
    printf("%lu\n", names);
    return fclose(file);
}
