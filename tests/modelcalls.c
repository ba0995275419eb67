/* The model in place of the driver program: calls on standard input, answers on standard output. */
#include <unistd.h>
#include "spur.h"

int main(void)
{
    static struct driver d;
    static uint8_t in[CALL * 256], out[CALL * 256];
    size_t have = 0;
    driver_start(&d);
    for (;;) {
        ssize_t n = read(0, in + have, sizeof in - have);
        if (n < 0)
            return 3;
        if (n == 0)
            return 0;
        have += (size_t)n;
        size_t calls = have / CALL, done = 0;
        for (size_t i = 0; i < calls; i++)
            driver_call(&d, in + i * CALL, out + i * CALL);
        while (done < calls * CALL) {
            ssize_t w = write(1, out + done, calls * CALL - done);
            if (w <= 0)
                return 3;
            done += (size_t)w;
        }
        for (size_t i = calls * CALL; i < have; i++)
            in[i - calls * CALL] = in[i];
        have -= calls * CALL;
    }
}
