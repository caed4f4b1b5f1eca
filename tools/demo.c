/* Converts a recording from storage format to IF1, to IF2 and back, shows that it returned unchanged, and prints its counts. The recording,
 * tests/sample.awb, is what a real AMR-WB encoder wrote, with changes of mode and DTX. */
#include "../include/amrwb.h"
#include <stdio.h>
#include <stdlib.h>
#include <string.h>

#define SAMPLE "tests/sample.awb"
#define MOST_OCTETS 16777215
#define REQUEST 2

typedef struct {
    uint8_t *octets;
    size_t len;
} recording;

static const char *const names[] = {"", "IF1", "IF2", "stored"};

/* A file of at most the octets of a recording. */
static recording read_file(const char *path) {
    recording r = {malloc(MOST_OCTETS + 1), 0};
    FILE *file = fopen(path, "rb");
    if (!file || !r.octets) {
        perror(path);
        exit(1);
    }
    /* one octet more than the limit is enough for refusal 9 */
    r.len = fread(r.octets, 1, MOST_OCTETS + 1, file);
    if (ferror(file)) {
        perror(path);
        exit(1);
    }
    fclose(file);
    return r;
}

/* Prints the refusal and ends where there is one. */
static amrwb_answer accepted(const char *what, amrwb_answer a) {
    if (a.refusal) {
        printf("%s: refusal %llu, frame %llu, octet %llu\n", what, (unsigned long long)a.refusal, (unsigned long long)a.frame,
               (unsigned long long)a.octet);
        exit(1);
    }
    return a;
}

static recording convert(uint64_t from, uint64_t to, recording in) {
    recording out;
    char what[32];
    snprintf(what, sizeof what, "%s to %s", names[from], names[to]);
    amrwb_answer a = accepted(what, amrwb_convert_length(from, to, REQUEST, in.octets, in.len));
    out.len = a.octets;
    out.octets = malloc(out.len + 1); /* not null, also for no octets */
    if (!out.octets) {
        perror(what);
        exit(1);
    }
    a = accepted(what, amrwb_convert(from, to, REQUEST, in.octets, in.len, out.octets, out.len));
    printf("%s: %llu frames, %llu octets\n", what, (unsigned long long)a.frames, (unsigned long long)a.octets);
    return out;
}

int main(void) {
    recording sample = read_file(SAMPLE);
    amrwb_answer a = accepted(SAMPLE, amrwb_validate(3, sample.octets, sample.len));
    printf("%s: %llu frames, %llu octets\n", SAMPLE, (unsigned long long)a.frames, (unsigned long long)sample.len);
    recording if1 = convert(3, 1, sample);
    recording if2 = convert(1, 2, if1);
    recording back = convert(2, 3, if2);
    int same = back.len == sample.len && memcmp(back.octets, sample.octets, sample.len) == 0;
    printf(same ? "the recording returned unchanged\n" : "the recording did not return unchanged\n");
    free(sample.octets);
    free(if1.octets);
    free(if2.octets);
    free(back.octets);
    return !same;
}
