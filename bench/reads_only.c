/* The least that a process which reads its input can do: bench/run holds `skern eval` against it. */
#include <stdio.h>

int main(void) {
    static char text[0x100001];
    size_t len = fread(text, 1, sizeof text, stdin);
    return len == 0;
}
