/* remainder: prints the remainder of up to 65,536 bytes of standard input, in six hex digits. Of the library it calls that one function,
   and it can be linked with nothing else: tools/native-lib khlongrae --only khlongrae_remainder. C and C++ alike. */
#include <stdio.h>

#include "khlongrae.h"

int main(void) {
    static uint8_t bytes[65536];
    size_t count = fread(bytes, 1, sizeof bytes, stdin);
    if (ferror(stdin) || getc(stdin) != EOF) {
        fputs("remainder: standard input cannot be read, or is longer than 65536 bytes\n", stderr);
        return 1;
    }
    printf("%06X\n", (unsigned)khlongrae_remainder(bytes, count));
    return 0;
}
