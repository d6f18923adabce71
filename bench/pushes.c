/* What pushes alone cost: pulls of 4,096 bytes, and a push of a line of 42 bytes for each 16 bytes, as `mtc-read` has
 * them, and nothing read. Time it on MIDI bytes, with output to /dev/null:  cc -O2 -o pushes bench/pushes.c */
#include <string.h>
#include <unistd.h>

int main(void) {
    static char pulled[4096], line[42];
    long waiting = 0;
    ssize_t count;
    memset(line, 'x', sizeof line);
    while ((count = read(0, pulled, sizeof pulled)) > 0)
        for (waiting += count; waiting >= 16; waiting -= 16)
            if (write(1, line, sizeof line) < 0)
                return 1;
    return count < 0;
}
