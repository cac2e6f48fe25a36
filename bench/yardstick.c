// A fixed piece of work, by whose processor time the times of different machines can be compared: products of 64-bit
// numbers, summed in 128 bits, and a remainder for every eighth. What it prints keeps the compiler from leaving it out.
#include <stdint.h>
#include <stdio.h>

int main(void) {
    uint64_t state = 1, rest = 0;
    __int128 sum = 0;
    for (int k = 0; k < 10000000; k++) {
        state = state * 6364136223846793005u + 1442695040888963407u;
        sum += (__int128)(int64_t)state * (int64_t)(state >> 21);
        if (k % 8 == 0)
            rest += (state >> 7) % ((state >> 40) + 3);
    }
    printf("%llu\n", (unsigned long long)((uint64_t)(sum >> 32) ^ rest));
    return 0;
}
