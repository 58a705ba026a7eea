/* One element step from C: cc -Iembed embed/example.c -Lembed/out -lhithwelor -Wl,-rpath,'$ORIGIN/out' -o embed/example */
#include "hithwelor.h"
#include <stdio.h>
#include <stdlib.h>
#include <string.h>

int main(void) {
    const char words[] = "step\0" "1";
    const char *input = "rotary 1\nelements 1\nstart 0.n\nend 0.w\nsteps 0\nat 0.n\ne 0 H - - - -\n";
    size_t room = 16;
    for (;;) {
        uint8_t *output = malloc(room);
        uint64_t taken = 0;
        if (!output) return 9;
        uint32_t code = hithwelor_answer((const uint8_t *)words, sizeof words - 1, (const uint8_t *)input, strlen(input),
                                         output, room, &taken);
        if (taken <= room) {
            fwrite(output, 1, taken, stdout);
            free(output);
            return (int)code;
        }
        free(output);
        room = taken;
    }
}
