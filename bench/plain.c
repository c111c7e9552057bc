// The comparison for bench/run with a program that promises nothing: the usual recursion, rising, with no trials and no state to hand back.
// plain N D RINGS lists the first RINGS necklaces of drawer (N, D) and prints how many there were.
#include <stdio.h>
#include <stdlib.h>

enum { MOST = 64 };
static int n, d;
static long wanted, rings;
static unsigned char a[MOST + 1];

// Places 1 to t - 1 of a begin a necklace of period p and have `ones` ones.
static void list(int t, int p, int ones) {
    if (t > n) {
        rings += n % p == 0;
        return;
    }
    for (int s = a[t - p]; s <= 1 && rings < wanted; s++) {
        if (ones + s > d || ones + s + n - t < d) continue;
        a[t] = s;
        list(t + 1, s == a[t - p] ? p : t, ones + s);
    }
}

int main(int count, char **words) {
    if (count != 4) return 1;
    n = atoi(words[1]);
    d = atoi(words[2]);
    wanted = atol(words[3]);
    list(1, 1, 0);
    printf("%ld rings\n", rings);
    return 0;
}
