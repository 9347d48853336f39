/* Variables that GCC reaches from anchors, one of which it places past the section's end: rvld refuses it, but for -fno-section-anchors. */
static int first[300], second[300], third[300];

int count(int n) {
    int sum = 0;
    for (int i = 0; i < 30; i++) {
        sum += third[i] += first[i] + second[i];
        first[i] = second[i + 10] = n;
    }
    return sum + third[n];
}

void _start(void) { count(7); }
