// The comparison for bench/run: Algorithms 1 and 2 of source document 000, written plainly.
// paper N D RINGS walks drawer (N, D), kind 1, from N ones, and prints the rings and the prefix questions.
#include <stdio.h>
#include <stdlib.h>

enum { MOST = 64 };
static long trials;

// Section 3: the top ring of (n, d), at places 1 to n.
static void top(int n, int d, unsigned char *a) {
    unsigned char b[MOST + 1];
    int p = 1;
    if (d == 0 || d == n) {
        for (int i = 1; i <= n; i++) a[i] = d == n;
    } else if (2 * d <= n) {
        int t = n / d;
        top(d, d - n % d, b);
        for (int k = 1; k <= d; k++) {
            for (int i = 0; i < t - b[k]; i++) a[p++] = 0;
            a[p++] = 1;
        }
    } else {
        int z = n - d, s = n / z;
        top(z, n % z, b);
        for (int k = 1; k <= z; k++) {
            a[p++] = 0;
            for (int i = 0; i < s - 1 + b[k]; i++) a[p++] = 1;
        }
    }
}

// The period that a prenecklace goes on with, 0 for other words.
static int prenecklace(const unsigned char *a, int n) {
    int p = 1;
    for (int i = 2; i <= n; i++) {
        if (a[i] < a[i - p]) return 0;
        if (a[i] > a[i - p]) p = i;
    }
    return p;
}

// Algorithm 1: do the first t symbols of w begin a necklace of (n, d)?
static int begins(int n, int d, const unsigned char *w, int t) {
    unsigned char a[MOST + 1], b[MOST + 1];
    int ones = 0, p = prenecklace(w, t);
    if (p == 0) return 0;
    for (int i = 1; i <= t; i++) ones += a[i] = w[i];
    int all = ones;
    for (int i = t + 1; i <= n; i++) all += a[i] = a[i - p];
    if (all == d && n % p == 0) return 1;
    for (int j = t + 1; j <= n; j++) {
        if (a[j] == 0) {
            int left = d - ones - 1;
            if (0 <= left && left <= n - j) {
                if (j == n) return 1;
                top(n - j, left, b);
                a[j] = 1;
                int i = 1;
                while (i <= j && i <= n - j && a[i] == b[i]) i++;
                a[j] = 0;
                if (n - j < i ? j <= n - j : i <= j ? (i == j ? 1 : a[i]) < b[i] : 1) return 1;
            }
        }
        ones += a[j];
    }
    return 0;
}

static int asks(int n, int d, const unsigned char *w, int t) {
    trials++;
    return begins(n, d, w, t);
}

// Algorithm 2: the highest necklace of (n, d) at or below the row, which is no such necklace itself.
static int below(int n, int d, unsigned char *a) {
    for (int p = n; 1 <= p; p--) {
        if (a[p] == 0) continue;
        a[p] = 0;
        if (asks(n, d, a, p)) {
            for (int q = p + 1; q <= n; q++) {
                a[q] = 1;
                if (!asks(n, d, a, q)) a[q] = 0;
            }
            return 1;
        }
    }
    return 0;
}

int main(int count, char **words) {
    if (count < 4) return 1;
    int n = atoi(words[1]), d = atoi(words[2]);
    long most = atol(words[3]), rings = 0;
    unsigned char a[MOST + 1];
    if (n < 1 || MOST < n) return 1;
    for (int i = 1; i <= n; i++) a[i] = 1;
    if (0 < most && (d == n || below(n, d, a)))
        for (rings = 1; rings < most && 0 < d; rings++) {
            a[n] = 0;
            if (!below(n, d, a)) break;
        }
    printf("%ld rings %ld trials\n", rings, trials);
}
