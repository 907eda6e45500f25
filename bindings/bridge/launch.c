/* Starts the program `dustmap`, which is x86-64 code, on a machine with another processor: under the kit's emulator, with the same arguments,
 * environment and open files. This is target/dustmap there, and the program lies beside it as target/dustmap.x86-64.
 *
 * It is linked statically: a library that LD_PRELOAD names is one for the program, and no loader of this machine is to look at it.
 * EMULATOR and ROOT, the folder of the program's C library, are given when it is compiled. */
#include <errno.h>
#include <limits.h>
#include <stdio.h>
#include <stdlib.h>
#include <string.h>
#include <unistd.h>

static const char beside[] = ".x86-64";

int main(int argc, char **argv)
{
    static char emulator[] = EMULATOR, prefix[] = "-L", root[] = ROOT, name[] = "-0", program[PATH_MAX];
    ssize_t length = readlink("/proc/self/exe", program, sizeof program - sizeof beside);
    char **words = calloc((size_t)argc + 6, sizeof *words);
    if (length > 0 && words && argc > 0) {
        memcpy(program + length, beside, sizeof beside);
        memcpy(words, (char *[]){emulator, prefix, root, name, argv[0], program}, 6 * sizeof *words);
        memcpy(words + 6, argv + 1, (size_t)argc * sizeof *words);
        execv(emulator, words);
    }
    fprintf(stderr, "dustmap: it could not be started under %s: %s\n", emulator, strerror(errno));
    return 9;
}
