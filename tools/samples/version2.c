/* Functions whose unwind info clang writes in version 2, their epilogs included: -fwinx64-eh-unwindv2=best-effort. */
#define APART __attribute__((noinline))

static volatile int turns;

APART static void turn(void) { turns++; }

APART static int sum(int n, const int *from) {
    volatile int kept[100];
    int all = 0;
    for (int i = 0; i < 100; i++) {
        kept[i] = from[i % n];
        turn();
        all += kept[i];
    }
    return all;
}

/* Values that live across the call, so that XMM registers are saved. */
APART static double mean(const double *from, int n) {
    double a = 0, b = 1, c = 2, d = 3;
    for (int i = 0; i < n; i++) {
        a += from[i];
        turn();
        b *= a;
        c += b;
        d += c;
    }
    return a + b + c + d;
}

/* More than one epilog. */
APART static int either(int n, int m) {
    if (n > m) {
        turn();
        if (turns > 3) {
            return sum(n, &m) + m;
        }
        return n + turns;
    }
    turn();
    return sum(m, &n) - n;
}

int start(void) {
    double one = turns;
    return either(turns, 2) + (int)mean(&one, 1);
}
