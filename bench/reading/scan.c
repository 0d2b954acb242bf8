/* The yardstick of `bench/reading`: it reads weight files by the same grammar, and prints the sum of what they say.
   It reads a file in pieces, looks at each line where it lies, and checks the form and the range of every number. */
#include <stdint.h>
#include <stdio.h>
#include <stdlib.h>
#include <string.h>

#define BUFFER 131072
#define MAX_NODES (1u << 23)
#define MAX_ARCS (1u << 24)

static unsigned char buffer[BUFFER];

/* A field of the line from *at up to end: its length, or 0 where there is none; *at is left at its start. */
static size_t field(const unsigned char **at, const unsigned char *end) {
    const unsigned char *p = *at;
    while (p < end && (*p == ' ' || *p == '\t')) p++;
    *at = p;
    while (p < end && *p != ' ' && *p != '\t') p++;
    return (size_t)(p - *at);
}

/* The number in a field: UINT64_MAX where it is none, and from UINT64_MAX >> 1 on where it is beyond every range. */
static uint64_t number(const unsigned char *p, size_t length) {
    uint64_t value = 0;
    if (length == 0) return UINT64_MAX;
    for (size_t i = 0; i < length; i++) {
        if (p[i] < '0' || p[i] > '9') return UINT64_MAX;
        value = value > (UINT64_MAX >> 4) ? UINT64_MAX >> 1 : value * 10 + (p[i] - '0');
    }
    return value;
}

struct arcs { uint32_t *tail, *head, *weight; uint32_t nodes, due, come; int begun; };

static int line(struct arcs *arcs, const unsigned char *p, const unsigned char *end) {
    if (end > p && end[-1] == '\r') end--;
    size_t length = field(&p, end);
    if (length == 0 || *p == 'c') return 1;
    unsigned char first = *p;
    if (length != 1) return 0;
    p += length;
    uint64_t n[3];
    if (first == 'p') {
        length = field(&p, end);
        if (length != 2 || memcmp(p, "sp", 2) != 0) return 0;
        p += length;
    } else if (first != 'a') return 0;
    int count = first == 'p' ? 2 : 3;
    for (int i = 0; i < count; i++) {
        length = field(&p, end);
        n[i] = number(p, length);
        if (n[i] == UINT64_MAX) return 0;
        p += length;
    }
    if (field(&p, end) != 0) return 0;
    if (first == 'p') {
        if (arcs->begun || n[0] < 1 || n[0] > MAX_NODES || n[1] > MAX_ARCS) return 0;
        arcs->begun = 1; arcs->nodes = (uint32_t)n[0]; arcs->due = (uint32_t)n[1];
        arcs->tail = malloc(4 * (n[1] + 1)); arcs->head = malloc(4 * (n[1] + 1)); arcs->weight = malloc(4 * (n[1] + 1));
        return arcs->tail && arcs->head && arcs->weight;
    }
    if (!arcs->begun || arcs->come == arcs->due) return 0;
    if (n[0] < 1 || n[0] > arcs->nodes || n[1] < 1 || n[1] > arcs->nodes || n[2] > UINT32_MAX) return 0;
    arcs->tail[arcs->come] = (uint32_t)n[0];
    arcs->head[arcs->come] = (uint32_t)n[1];
    arcs->weight[arcs->come++] = (uint32_t)n[2];
    return 1;
}

static int read_file(struct arcs *arcs, const char *name) {
    FILE *file = fopen(name, "rb");
    if (!file) return 0;
    setvbuf(file, NULL, _IONBF, 0);
    size_t held = 0, taken;
    while ((taken = fread(buffer + held, 1, BUFFER - held, file)) > 0) {
        size_t have = held + taken, start = 0;
        unsigned char *lf;
        while ((lf = memchr(buffer + start, '\n', have - start))) {
            if (!line(arcs, buffer + start, lf)) return 0;
            start = (size_t)(lf - buffer) + 1;
        }
        held = have - start;
        memmove(buffer, buffer + start, held);
        if (held == BUFFER) return 0;
    }
    if (held > 0 && !line(arcs, buffer, buffer + held)) return 0;
    fclose(file);
    return arcs->begun && arcs->come == arcs->due;
}

int main(int count, char **names) {
    struct arcs first = {0};
    uint64_t sum = 0;
    for (int i = 1; i < count; i++) {
        struct arcs arcs = {0};
        if (!read_file(&arcs, names[i])) { fprintf(stderr, "scan: %s\n", names[i]); return 5; }
        if (i == 1) first = arcs;
        else if (arcs.nodes != first.nodes || arcs.due != first.due
            || memcmp(arcs.tail, first.tail, 4ul * arcs.due) || memcmp(arcs.head, first.head, 4ul * arcs.due)) return 6;
        for (uint32_t k = 0; k < arcs.due; k++) sum += arcs.weight[k];
    }
    printf("%u %u %llu\n", first.nodes, first.due, (unsigned long long)sum);
    return 0;
}
