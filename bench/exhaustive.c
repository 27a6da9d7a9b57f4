/* The exhaustive recipe over every 16x16 block of a picture against one reference picture, in plain C: the same costs, the
 * same giving up strip by strip, the same lines as crates/blocks prints. It shares no code with the engine.
 *
 *   exhaustive WIDTH HEIGHT RANGE QP < PICTURES
 */
#include <stdint.h>
#include <stdio.h>
#include <stdlib.h>
#include <string.h>

enum { MARGIN = 96, STRIPS = 4 };

static const int32_t LAMBDA[52] = {
    15105,   16955,   19031,   21362,   23978,   26914,   30210,   33910,   38062,   42724,   47956,   53829,   60421,
    67820,   76125,   85448,   95912,   107658,  120842,  135641,  152251,  170896,  191825,  215316,  241684,  271282,
    304503,  341793,  383650,  430633,  483369,  542564,  609007,  683587,  767301,  861266,  966739,  1085128, 1218015,
    1367175, 1534602, 1722533, 1933478, 2170256, 2436030, 2734351, 3069205, 3445067, 3866957, 4340512, 4872060, 5468703,
};

static int width, height, range, qp, stride;
static uint8_t *current, *padded;
static int bits_table[1024];
static int *const bits = bits_table + 512;

typedef struct {
    int x, y, cost;
    long trials, strips;
} Held;

static int code_bits(int d) {
    int code = d > 0 ? 2 * d - 1 : -2 * d, log = 0;
    while ((code + 1) >> (log + 1)) log++;
    return 2 * log + 1;
}

/* The rate part of a vector in quarter samples, (0, 0) predicted, one picture. */
static int rate_part(int x, int y) { return (int)(((int64_t)LAMBDA[qp] * (bits[x] + bits[y])) >> 16); }

static int sad_strip(const uint8_t *a, const uint8_t *b) {
    int sum = 0;
    for (int y = 0; y < 4; y++)
        for (int x = 0; x < 16; x++) {
            int d = a[y * width + x] - b[y * stride + x];
            sum += d < 0 ? -d : d;
        }
    return sum;
}

static int clip(int v) { return v < 0 ? 0 : v > 255 ? 255 : v; }

static int tap(int e, int f, int g, int h, int i, int j) { return e - 5 * f + 20 * g + 20 * h - 5 * i + j; }

/* The b of 16 cells of a row, the h of 17, and the j of 16. */
static void b_row(const uint8_t *p, int *out) {
    for (int x = 0; x < 16; x++) out[x] = clip((tap(p[x - 2], p[x - 1], p[x], p[x + 1], p[x + 2], p[x + 3]) + 16) >> 5);
}

static void h_row(const uint8_t *p, int *out) {
    for (int x = 0; x < 17; x++)
        out[x] = clip((tap(p[x - 2 * stride], p[x - stride], p[x], p[x + stride], p[x + 2 * stride], p[x + 3 * stride]) + 16) >> 5);
}

static void sums_row(const uint8_t *p, int *out) {
    for (int x = 0; x < 16; x++) out[x] = tap(p[x - 2], p[x - 1], p[x], p[x + 1], p[x + 2], p[x + 3]);
}

static void mean(int n, const int *a, const int *b, int *out) {
    for (int x = 0; x < n; x++) out[x] = (a[x] + b[x] + 1) >> 1;
}

static void whole_row(const uint8_t *p, int *out) {
    for (int x = 0; x < 16; x++) out[x] = p[x];
}

/* Four rows of 16 samples at a fraction of the cells from p on. */
static void strip_at(const uint8_t *p, int fx, int fy, int out[4][16]) {
    int sums[9][16], j[4][16];
    if ((fx == 2 && fy) || (fy == 2 && fx)) {
        for (int y = 0; y < 9; y++) sums_row(p + (y - 2) * stride, sums[y]);
        for (int y = 0; y < 4; y++)
            for (int x = 0; x < 16; x++)
                j[y][x] = clip((tap(sums[y][x], sums[y + 1][x], sums[y + 2][x], sums[y + 3][x], sums[y + 4][x], sums[y + 5][x]) + 512) >> 10);
    }
    for (int y = 0; y < 4; y++) {
        const uint8_t *row = p + y * stride;
        int a[17], b[17], whole[17];
        if (fy == 0) {
            whole_row(row, whole);
            if (fx == 0) memcpy(out[y], whole, sizeof out[y]);
            else {
                b_row(row, b);
                if (fx == 2) memcpy(out[y], b, sizeof out[y]);
                else {
                    if (fx == 3) whole_row(row + 1, whole);
                    mean(16, whole, b, out[y]);
                }
            }
        } else if (fx == 0) {
            h_row(row, a);
            if (fy == 2) memcpy(out[y], a, sizeof out[y]);
            else {
                whole_row(fy == 3 ? row + stride : row, whole);
                mean(16, whole, a, out[y]);
            }
        } else if (fx == 2) {
            if (fy == 2) memcpy(out[y], j[y], sizeof out[y]);
            else {
                b_row(fy == 3 ? row + stride : row, b);
                mean(16, b, j[y], out[y]);
            }
        } else {
            h_row(row, a);
            const int *side = fx == 3 ? a + 1 : a;
            if (fy == 2) mean(16, side, j[y], out[y]);
            else {
                b_row(fy == 3 ? row + stride : row, b);
                mean(16, b, side, out[y]);
            }
        }
    }
}

static int satd_square(const uint8_t *a, int b[4][16], int from) {
    int d[4][4], t[4][4], sum = 0;
    for (int y = 0; y < 4; y++)
        for (int x = 0; x < 4; x++) d[y][x] = a[y * width + from + x] - b[y][from + x];
    for (int y = 0; y < 4; y++) {
        int p = d[y][0] + d[y][1], q = d[y][2] + d[y][3], r = d[y][0] - d[y][1], s = d[y][2] - d[y][3];
        t[y][0] = p + q; t[y][1] = p - q; t[y][2] = r - s; t[y][3] = r + s;
    }
    for (int x = 0; x < 4; x++) {
        int p = t[0][x] + t[1][x], q = t[2][x] + t[3][x], r = t[0][x] - t[1][x], s = t[2][x] - t[3][x];
        sum += abs(p + q) + abs(p - q) + abs(r - s) + abs(r + s);
    }
    return sum / 2;
}

static void take(Held *held, int x, int y, int total, int bound, int strips) {
    held->trials++;
    held->strips += strips;
    if (total < bound) {
        held->x = x;
        held->y = y;
        held->cost = total;
    }
}

static void try_whole(Held *held, const uint8_t *block, const uint8_t *under, int x, int y, int bound) {
    int total = rate_part(4 * x, 4 * y), s = 0;
    for (; s < STRIPS && total < bound; s++) total += sad_strip(block + 4 * s * width, under + (y + 4 * s) * stride + x);
    take(held, x, y, total, bound, s);
}

static void try_quarter(Held *held, const uint8_t *block, const uint8_t *under, int x, int y, int bound) {
    int total = rate_part(x, y), s = 0;
    for (; s < STRIPS && total < bound; s++) {
        int samples[4][16];
        strip_at(under + ((y >> 2) + 4 * s) * stride + (x >> 2), x & 3, y & 3, samples);
        for (int from = 0; from < 16; from += 4) total += satd_square(block + 4 * s * width, samples, from);
    }
    take(held, x, y, total, bound, s);
}

static void search(int left, int top) {
    const uint8_t *block = current + top * width + left, *under = padded + (top + MARGIN) * stride + left + MARGIN;
    Held held = {0};
    try_whole(&held, block, under, 0, 0, INT32_MAX);
    for (int k = 0; k <= range; k++)
        for (int y = -k; y <= k; y++)
            for (int x = -k; x <= k; x += (y == -k || y == k || k == 0) ? 1 : 2 * k) try_whole(&held, block, under, x, y, held.cost);
    int x = 4 * held.x, y = 4 * held.y;
    try_quarter(&held, block, under, x, y, INT32_MAX);
    for (int d = 2; d >= 1; d--) {
        x = held.x, y = held.y;
        for (int v = -d; v <= d; v += d)
            for (int u = -d; u <= d; u += d)
                if (u || v) try_quarter(&held, block, under, x + u, y + v, held.cost);
    }
    printf("%d %d 0 %d %d %d %ld %ld\n", left, top, held.x, held.y, held.cost, held.trials, held.strips);
}

int main(int argc, char **argv) {
    if (argc != 5) {
        fprintf(stderr, "usage: exhaustive WIDTH HEIGHT RANGE QP < PICTURES\n");
        return 1;
    }
    width = atoi(argv[1]), height = atoi(argv[2]), range = atoi(argv[3]), qp = atoi(argv[4]);
    stride = width + 2 * MARGIN;
    size_t area = (size_t)width * height;
    current = malloc(2 * area);
    padded = malloc((size_t)stride * (height + 2 * MARGIN));
    if (!current || !padded || fread(current, 1, 2 * area, stdin) != 2 * area) {
        fprintf(stderr, "exhaustive: too few samples\n");
        return 1;
    }
    const uint8_t *reference = current + area;
    for (int y = 0; y < height + 2 * MARGIN; y++)
        for (int x = 0; x < stride; x++) {
            int u = x - MARGIN, v = y - MARGIN;
            u = u < 0 ? 0 : u >= width ? width - 1 : u;
            v = v < 0 ? 0 : v >= height ? height - 1 : v;
            padded[y * stride + x] = reference[v * width + u];
        }
    for (int d = -300; d <= 300; d++) bits[d] = code_bits(d);
    for (int top = 0; top < height; top += 16)
        for (int left = 0; left < width; left += 16) search(left, top);
    return 0;
}
