/* fclose of a carrier that is tried, by the linker's --wrap: it leaves other bytes on the stack each time, so that what a later call does not set is never
   the same by chance. */
#include <stdio.h>
#include <string.h>

int __real_fclose(FILE *file);
int __wrap_fclose(FILE *file);

int __wrap_fclose(FILE *file) {
    static int turn;
    int wrong = __real_fclose(file);
    volatile char used[16384];
    memset((char *)used, ++turn, sizeof used);
    return used[turn] == turn ? wrong : EOF;
}
