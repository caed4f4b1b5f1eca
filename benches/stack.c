/* How much stack each call of level three's library takes.
 *   stack            prints for each call its name, the octets of its deepest run, those of its arguments on the stack, and of its answer
 *   stack --check N  fails where a call takes more than N octets
 *
 * A call runs on a stack of its own, which is filled with a pattern before; afterwards the lowest octet that changed tells how deep it
 * went. Each input runs with two patterns, so that an octet written with the pattern's own value does not hide. What is counted begins with
 * the return address: arguments on the stack lie above it, and they and the answer are the caller's. An empty call in the library's place
 * tells where the return address lies, and shows that nothing else is counted. Each refusal that a call can give must be met. */
#include "../include/amrwb.h"
#include <stdio.h>
#include <stdlib.h>
#include <string.h>

#define SAMPLE "tests/sample.awb"
#define MOST_OCTETS 16777215
#define HEADER "#!AMR-WB\n"
#define HEADER_OCTETS 9
#define FRAME_OCTETS 63 /* of the longest frame */
#define PLACES 11

typedef void (*function)(void);

/* ---- the stack */

#define STACK_OCTETS 8192

static uint64_t stack[STACK_OCTETS / 8] __attribute__((aligned(16)));

/* Runs f on the stack that ends at top. */
void on_stack(function f, void *top);
/* Keeps where its return address lies; the answer's address goes out as it came in. */
void empty_call(void);
uint8_t *return_place;

__asm__(".text\n"
        ".globl on_stack\n"
        "on_stack:\n"
        "    push %rbp\n"
        "    mov %rsp, %rbp\n"
        "    mov %rsi, %rsp\n"
        "    call *%rdi\n"
        "    mov %rbp, %rsp\n"
        "    pop %rbp\n"
        "    ret\n"
        ".globl empty_call\n"
        "empty_call:\n"
        "    mov %rsp, return_place(%rip)\n"
        "    mov %rdi, %rax\n"
        "    ret\n");

/* ---- the calls, with arguments from here */

static volatile function target; /* the library's function, or the empty call */
static uint64_t refusal;

static uint64_t n[4];
static const uint8_t *in = (const uint8_t *)"";
static size_t in_len;
static const uint8_t *second = (const uint8_t *)"";
static size_t second_len;
static uint8_t *out;
static size_t out_len;
static const uint16_t *sheet;
static size_t sheet_len;
static uint16_t numbers[512];
static size_t numbers_len;
static amrwb_consoles consoles;
static amrwb_link state;
static uint64_t rows[5 * (PLACES + 1)];
static size_t rows_len;
static uint8_t flows[3][FRAME_OCTETS + 1];
static size_t flow_lens[3];

#define RUN(name, ...)                                                                                                                 \
    static void run_##name(void) { refusal = ((__typeof__(&amrwb_##name))target)(__VA_ARGS__).refusal; }

RUN(validate, n[0], in, in_len)
RUN(convert, n[0], n[1], n[2], in, in_len, out, out_len)
RUN(convert_length, n[0], n[1], n[2], in, in_len)
RUN(merge, n[0], in, in_len, second, second_len, out, out_len)
RUN(read_frame, n[0], in, in_len, out, out_len)
RUN(build_if1, n[0], n[1], n[2], n[3], in, in_len, out, out_len)
RUN(build_if2, n[0], n[1], in, in_len, out, out_len)
RUN(build_stored, n[0], n[1], in, in_len, out, out_len)
RUN(class, n[0], n[1], n[2])
RUN(order_to_core, n[0], sheet, sheet_len, in, in_len, out, out_len)
RUN(order_to_row, n[0], sheet, sheet_len, in, in_len, out, out_len)
RUN(sheet_read, in, in_len, numbers, numbers_len)
RUN(view_open, n[0], in, in_len)
RUN(view_next, n[0], n[1], n[2], in, in_len, out, out_len)
RUN(report, in, in_len)
RUN(consoles_add, consoles, n[0])
RUN(consoles_slot, consoles)
RUN(link_assign, state, rows, rows_len)
RUN(link_release, state)
RUN(link_rate, state, n[0])
RUN(link_up, state, n[0], n[1], flows[0], flow_lens[0], flows[1], flow_lens[1], flows[2], flow_lens[2], out, out_len)
RUN(link_down, state, in, in_len, flows[0], flow_lens[0], flows[1], flow_lens[1], flows[2], flow_lens[2])

/* Are never refused; fresh consoles' next and a fresh link's count are 0. */
static void run_consoles_fresh(void) { refusal = ((__typeof__(&amrwb_consoles_fresh))target)().next; }
static void run_link_fresh(void) { refusal = ((__typeof__(&amrwb_link_fresh))target)().set.count; }

typedef struct {
    const char *name;
    function library, run;
    uint32_t refusals; /* bit i: refusal i is to be met; bit 0: a call that is not refused */
    size_t words;      /* arguments of eight octets, with the answer's address; consoles are two */
    size_t link;       /* octets of the link handed over by value */
    size_t answer;     /* octets of the answer */
    uint32_t met;      /* as refusals */
    size_t deepest;    /* octets of stack */
} call;

#define R(i) (1u << (i))
#define IN_FRAME (R(2) | R(3) | R(5) | R(6) | R(7))
#define BUILT (R(0) | R(2) | R(5) | R(6) | R(10) | R(11))
#define CALL(name, refusals, words, link, answer)                                                                                      \
    { "amrwb_" #name, (function)amrwb_##name, run_##name, refusals, words, link, sizeof(answer), 0, 0 }

enum {
    VALIDATE, CONVERT, CONVERT_LENGTH, MERGE, READ_FRAME, BUILD_IF1, BUILD_IF2, BUILD_STORED, CLASS, ORDER_TO_CORE, ORDER_TO_ROW,
    SHEET_READ, VIEW_OPEN, VIEW_NEXT, REPORT, CONSOLES_FRESH, CONSOLES_ADD, CONSOLES_SLOT, LINK_FRESH, LINK_ASSIGN, LINK_RELEASE,
    LINK_RATE, LINK_UP, LINK_DOWN, CALLS
};

static call calls[CALLS] = {
    CALL(validate, R(0) | IN_FRAME | R(8) | R(9) | R(11), 4, 0, amrwb_answer),
    CALL(convert, R(0) | IN_FRAME | R(8) | R(9) | R(10) | R(11), 8, 0, amrwb_answer),
    CALL(convert_length, R(0) | IN_FRAME | R(8) | R(9) | R(11), 6, 0, amrwb_answer),
    CALL(merge, R(0) | IN_FRAME | R(8) | R(9) | R(10) | R(11), 8, 0, amrwb_joined),
    CALL(read_frame, R(0) | R(1) | IN_FRAME | R(4) | R(10) | R(11), 6, 0, amrwb_frame),
    CALL(build_if1, BUILT, 9, 0, amrwb_answer),
    CALL(build_if2, BUILT, 7, 0, amrwb_answer),
    CALL(build_stored, BUILT, 7, 0, amrwb_answer),
    CALL(class, R(0) | R(2) | R(11), 4, 0, amrwb_class_answer),
    CALL(order_to_core, R(0) | R(10) | R(11) | R(12) | R(24), 8, 0, amrwb_answer),
    CALL(order_to_row, R(0) | R(5) | R(10) | R(11) | R(12) | R(24), 8, 0, amrwb_answer),
    CALL(sheet_read, R(0) | R(10) | R(23) | R(24), 5, 0, amrwb_sheet),
    CALL(view_open, R(0) | R(8) | R(9) | R(11), 4, 0, amrwb_view),
    CALL(view_next, R(0) | IN_FRAME | R(10) | R(11), 8, 0, amrwb_view),
    CALL(report, R(0) | R(2) | R(3) | R(5) | R(6) | R(8) | R(9), 3, 0, amrwb_counts),
    CALL(consoles_fresh, R(0), 0, 0, amrwb_consoles),
    CALL(consoles_add, R(0) | R(11) | R(27), 4, 0, amrwb_consoles_answer),
    CALL(consoles_slot, R(0), 3, 0, amrwb_consoles_answer),
    CALL(link_fresh, R(0), 1, 0, amrwb_link),
    CALL(link_assign, R(0) | R(11) | R(15), 3, sizeof(amrwb_link), amrwb_link_answer),
    CALL(link_release, R(0) | R(14), 1, sizeof(amrwb_link), amrwb_link_answer),
    CALL(link_rate, R(0) | R(11), 2, sizeof(amrwb_link), amrwb_link_answer),
    CALL(link_up, R(0) | R(6) | R(10) | R(11) | R(13) | R(14) | R(16) | R(17), 11, sizeof(amrwb_link), amrwb_answer),
    CALL(link_down, R(0) | R(1) | IN_FRAME | R(4) | R(10) | R(14) | R(16), 9, sizeof(amrwb_link), amrwb_down),
};

/* Six arguments go in registers, by the calling convention of x86-64. */
static size_t arguments_on_stack(const call *c) {
    return c->link + (c->words > 6 ? 8 * (c->words - 6) : 0);
}

/* ---- measuring */

static uint8_t *const top = (uint8_t *)stack + STACK_OCTETS;

/* Octets from the return address down to the lowest one that f changes, where the stack is filled with a pattern. */
static size_t depth_over(const call *c, function f, uint64_t pattern) {
    for (size_t i = 0; i < STACK_OCTETS / 8; i++)
        stack[i] = pattern;
    target = f;
    on_stack(c->run, top);
    size_t word = 0;
    while (word < STACK_OCTETS / 8 && stack[word] == pattern)
        word++;
    if (word == 0) {
        printf("%s: %d octets of stack are not enough\n", c->name, STACK_OCTETS);
        exit(1);
    }
    const uint8_t *lowest = (const uint8_t *)(stack + word);
    while (lowest < top && *lowest == (uint8_t)pattern)
        lowest++;
    return return_place + 8 - lowest;
}

/* The deeper of two runs with different patterns. */
static size_t depth(const call *c, function f) {
    size_t one = depth_over(c, f, 0xA5A5A5A5A5A5A5A5), two = depth_over(c, f, 0x5A5A5A5A5A5A5A5A);
    return one > two ? one : two;
}

/* Runs a call with the arguments that stand ready. */
static void measure(int which) {
    call *c = &calls[which];
    /* the empty call tells return_place */
    target = empty_call;
    on_stack(c->run, top);
    if (!c->met && depth(c, empty_call) != 8) {
        printf("%s: an empty call takes more or less than its return address\n", c->name);
        exit(1);
    }
    size_t octets = depth(c, c->library);
    if (octets > c->deepest)
        c->deepest = octets;
    c->met |= R(refusal);
}

/* ---- inputs */

static const uint64_t types[] = {0, 1, 2, 3, 4, 5, 6, 7, 8, 9, 14, 15};
static const size_t core_bits[16] = {132, 177, 253, 285, 317, 365, 397, 461, 477, 40};
static const size_t class_a[16] = {54, 64, 72, 72, 72, 72, 72, 72, 72, 40};

#define LENGTH(array) (sizeof(array) / sizeof *(array))

static uint8_t *big, *other; /* of MOST_OCTETS + 1 octets, 0 but where a recording is made */

static uint64_t chance(void) {
    static uint64_t x = 0x9E3779B97F4A7C15;
    x ^= x << 13;
    x ^= x >> 7;
    x ^= x << 17;
    return x >> 8;
}

static size_t octets_of(size_t bits) {
    return (bits + 7) / 8;
}

static void accepted(const char *what, uint64_t number) {
    if (number) {
        printf("%s: refusal %d\n", what, (int)number);
        exit(1);
    }
}

/* A packed core by chance; a SID frame's mode is up to 7. */
static size_t make_core(uint64_t type, uint8_t *core) {
    size_t len = octets_of(core_bits[type]);
    for (size_t i = 0; i < len; i++)
        core[i] = chance();
    if (core_bits[type] % 8)
        core[len - 1] &= 0xFF00 >> core_bits[type] % 8;
    if (type == 9)
        core[4] &= 0xF7;
    return len;
}

static size_t make_frame(uint64_t format, uint64_t type, uint64_t quality, uint8_t *octets) {
    uint8_t core[FRAME_OCTETS];
    size_t len = make_core(type, core);
    amrwb_answer a = format == 1   ? amrwb_build_if1(type, quality, type < 9 ? type : 0, type < 10 ? 2 : 0, core, len, octets, FRAME_OCTETS)
                     : format == 2 ? amrwb_build_if2(type, quality, core, len, octets, FRAME_OCTETS)
                                   : amrwb_build_stored(type, quality, core, len, octets, FRAME_OCTETS);
    accepted("a frame", a.refusal);
    return a.octets;
}

/* Merged with a short recording that begins with gaps, as the first of the two and as the second. */
static void merges(uint64_t format, const uint8_t *rec, size_t len) {
    static const uint64_t short_types[] = {14, 15, 9, 8};
    static uint8_t other_rec[HEADER_OCTETS + LENGTH(short_types) * FRAME_OCTETS];
    size_t other_len = format == 3 ? HEADER_OCTETS : 0;
    memcpy(other_rec, HEADER, other_len);
    for (size_t i = 0; i < LENGTH(short_types); i++)
        other_len += make_frame(format, short_types[i], 1, other_rec + other_len);
    n[0] = format;
    in = rec;
    in_len = len;
    second = other_rec;
    second_len = other_len;
    measure(MERGE);
    in = other_rec;
    in_len = other_len;
    second = rec;
    second_len = len;
    measure(MERGE);
}

/* Merged, validated, converted to each format, with a buffer of so many octets, viewed to its end or a refusal, and reported. */
static void recording(uint64_t format, const uint8_t *rec, size_t len, size_t room) {
    out = other;
    out_len = room;
    merges(format, rec, len);
    in = rec;
    in_len = len;
    n[0] = format;
    measure(VALIDATE);
    measure(VIEW_OPEN);
    if (format == 3)
        measure(REPORT);
    n[2] = 2;
    for (n[1] = 1; n[1] <= 3; n[1]++) {
        measure(CONVERT);
        measure(CONVERT_LENGTH);
    }
    amrwb_view v = amrwb_view_open(format, rec, len);
    while (!v.refusal && !v.end) {
        n[1] = v.offset;
        n[2] = v.number;
        measure(VIEW_NEXT);
        v = amrwb_view_next(format, v.offset, v.number, rec, len, out, out_len);
    }
}

/* One frame, right or wrong, in every call that reads it, with buffers of so many octets. */
static void one_frame(uint64_t format, const uint8_t *octets, size_t len, size_t room) {
    uint8_t rec[HEADER_OCTETS + FRAME_OCTETS + 1] = HEADER;
    size_t header = format == 3 ? HEADER_OCTETS : 0;
    memcpy(rec + header, octets, len);
    recording(format, rec, header + len, room);
    in = octets;
    in_len = len;
    n[0] = format;
    measure(READ_FRAME);
    for (int flow = 0; flow < 3; flow++)
        flow_lens[flow] = room;
    if (format == 1)
        measure(LINK_DOWN);
}

/* Each frame as it is, cut, with an octet more, with each bit of it changed, and with each buffer. */
static void frames(uint64_t format) {
    for (size_t i = 0; i < 2 * LENGTH(types); i++) {
        uint8_t octets[FRAME_OCTETS + 1] = {0};
        size_t len = make_frame(format, types[i / 2], i % 2, octets);
        for (size_t cut = 0; cut <= len + 1; cut++)
            one_frame(format, octets, cut, FRAME_OCTETS);
        for (size_t bit = 0; bit < 8 * len; bit++) {
            octets[bit / 8] ^= 128 >> bit % 8;
            one_frame(format, octets, len, FRAME_OCTETS);
            octets[bit / 8] ^= 128 >> bit % 8;
        }
        for (size_t room = 0; room < FRAME_OCTETS; room++)
            one_frame(format, octets, len, room);
    }
}

/* The sample, in each format, and changed here and there. */
static void recordings(void) {
    FILE *file = fopen(SAMPLE, "rb");
    uint8_t *sample = malloc(65536), *rec = malloc(65536);
    if (!file || !sample || !rec) {
        perror(SAMPLE);
        exit(1);
    }
    size_t len = fread(sample, 1, 65536, file);
    fclose(file);
    for (uint64_t format = 1; format <= 3; format++) {
        amrwb_answer a = amrwb_convert(3, format, 2, sample, len, rec, 65536);
        accepted(SAMPLE, a.refusal);
        recording(format, rec, a.octets, 65536);
        recording(format, rec, a.octets, 8000);
        for (int i = 0; i < 20; i++) {
            size_t place = chance() % a.octets;
            rec[place] ^= 128 >> i % 8;
            recording(format, rec, a.octets, 65536);
            rec[place] ^= 128 >> i % 8;
        }
        for (size_t place = 0; format == 3 && place < HEADER_OCTETS; place++) {
            recording(3, rec, place, 65536);
            rec[place] ^= 1;
            recording(3, rec, a.octets, 65536);
            rec[place] ^= 1;
        }
    }
    free(sample);
    free(rec);
}

/* Lengths above the limits, also of what would be written, and numbers out of their range. Octets of 0 are IF2 frames of type 0. */
static void limits(void) {
    for (uint64_t format = 0; format <= 4; format++)
        recording(format, big, MOST_OCTETS + 1, MOST_OCTETS);
    memcpy(big, HEADER, HEADER_OCTETS);
    recording(3, big, MOST_OCTETS + 1, MOST_OCTETS);
    recording(3, big, 65537, MOST_OCTETS);
    memset(big, 0, HEADER_OCTETS);
    recording(2, big, MOST_OCTETS / 18 * 18, 0);
    /* a recording that begins with a gap, which another fills: both are short enough, and the merged one is not */
    static const uint8_t filling[18];
    big[0] = 0xF8;
    in = big;
    in_len = 1 + MOST_OCTETS / 18 * 18;
    second = filling;
    second_len = sizeof filling;
    n[0] = 2;
    measure(MERGE);
    if (refusal != 9) {
        printf("a merge too long: refusal %d\n", (int)refusal);
        exit(1);
    }
    big[0] = 0;
    for (uint64_t format = 0; format <= 4; format++)
        for (n[1] = 0; n[1] <= 4; n[1]++)
            for (n[2] = 0; n[2] <= 9; n[2]++) {
                n[0] = format;
                in = big;
                in_len = 18;
                out = other;
                out_len = FRAME_OCTETS;
                measure(CONVERT);
                measure(CONVERT_LENGTH);
                measure(VIEW_NEXT);
                measure(READ_FRAME);
            }
}

static void builders(void) {
    static const uint64_t modes[] = {0, 2, 8, 9, UINT64_MAX};
    static uint8_t core[FRAME_OCTETS + 1];
    out = other;
    in = core;
    for (uint64_t type = 0; type <= 16; type++) {
        size_t len = type < 16 ? make_core(type, core) : 0;
        size_t rooms[] = {FRAME_OCTETS, len + 1, len, 0};
        for (int i = 0; i < 4 * 5 * 5 * 3 * 4; i++) {
            n[0] = type;
            n[1] = i % 3;
            n[2] = modes[i / 3 % 5];
            n[3] = modes[i / 15 % 5];
            out_len = rooms[i / 75 % 4];
            in_len = len;
            uint8_t last = len ? core[len - 1] : 0;
            switch (i / 300) {
            case 1: in_len = len + 1; break;
            case 2: in_len = len ? len - 1 : 0; break;
            case 3:
                if (len)
                    core[len - 1] |= 0x0F; /* filling bits, or a SID frame's mode 15 */
            }
            measure(BUILD_IF1);
            measure(BUILD_IF2);
            measure(BUILD_STORED);
            if (len)
                core[len - 1] = last;
        }
    }
}

static void classes(void) {
    for (n[0] = 0; n[0] <= 16; n[0]++)
        for (n[1] = 0; n[1] <= 2; n[1]++)
            for (n[2] = 0; n[2] <= 2; n[2]++)
                measure(CLASS);
}

/* A sheet with each number once, since 7 divides no K. */
static void make_sheet(size_t bits, uint16_t *places) {
    for (size_t j = 0; j < bits; j++)
        places[j] = 7 * j % bits;
}

/* Rows and cores with something wrong at times, by right and wrong sheets. */
static void orders(void) {
    static uint8_t row[512], core[FRAME_OCTETS + 1], buffer[512];
    static uint16_t places[512];
    sheet = places;
    out = buffer;
    for (uint64_t mode = 0; mode <= 9; mode++) {
        size_t bits = core_bits[mode];
        for (int i = 0; i < 200; i++) {
            n[0] = mode;
            make_sheet(bits, places);
            sheet_len = i % 7 == 1 ? 0 : i % 7 == 2 ? bits - 1 : i % 7 == 3 ? bits + 1 : bits;
            if (i % 7 == 4)
                places[chance() % bits] = i % 2 ? bits : UINT16_MAX;
            if (i % 7 == 5)
                places[bits - 1] = places[0];
            for (size_t j = 0; j < bits; j++)
                row[j] = chance() & 1;
            in = row;
            in_len = i % 8 == 1 ? bits + 1 : i % 8 == 2 ? bits - 1 : bits;
            out_len = i % 8 == 3 ? octets_of(bits) - 1 : FRAME_OCTETS;
            if (i % 8 == 4)
                row[chance() % bits] = 2;
            measure(ORDER_TO_CORE);
            size_t len = make_core(mode, core);
            in = core;
            in_len = i % 8 == 1 ? len + 1 : i % 8 == 2 ? len - 1 : len;
            out_len = i % 8 == 3 ? bits - 1 : sizeof buffer;
            if (i % 8 == 4)
                core[len - 1] |= 1;
            measure(ORDER_TO_ROW);
        }
    }
}

/* The text of a mode's sheet, with another number at a place. */
static size_t make_text(uint64_t mode, size_t place, const char *number, char *text) {
    size_t bits = core_bits[mode];
    uint16_t places[512];
    make_sheet(bits, places);
    int len = sprintf(text, "mode=%d\nbits=%d\n", (int)mode, (int)bits);
    for (size_t j = 0; j < bits; j++)
        len += j == place ? sprintf(text + len, "d%d=%s\n", (int)j, number) : sprintf(text + len, "d%d=%d\n", (int)j, places[j]);
    return len;
}

/* Sheets of every mode, right and with a number out of form, twice or too large; that of mode 8 cut, with each octet changed, and read with
 * each length of the numbers. */
static void sheets(void) {
    static const char *wrong[] = {"", "00", "0", "477", "65535", "65536", "18446744073709551616", "1000000000000000000000000000000000000000"};
    static char text[8192];
    in = (const uint8_t *)text;
    numbers_len = LENGTH(numbers);
    for (uint64_t mode = 0; mode <= 9; mode++)
        for (size_t i = 0; i < 4 * LENGTH(wrong); i++) {
            size_t bits = core_bits[mode], place[] = {0, bits / 2, bits - 1, bits};
            in_len = make_text(mode, place[i % 4], wrong[i / 4], text);
            measure(SHEET_READ);
        }
    size_t bits = core_bits[8], len = make_text(8, bits, "", text);
    for (in_len = 0; in_len <= len + 1; in_len++)
        measure(SHEET_READ);
    in_len = len;
    for (size_t i = 0; i < len; i++) {
        text[i] ^= 1 + i % 31;
        measure(SHEET_READ);
        text[i] ^= 1 + i % 31;
    }
    for (numbers_len = 0; numbers_len <= bits + 1; numbers_len++)
        measure(SHEET_READ);
}

/* Frames added from a fresh state until every console is full and served until none waits, and states that no call answers. Console 8 is out
 * of range. */
static void slots(void) {
    measure(CONSOLES_FRESH);
    consoles = amrwb_consoles_fresh();
    for (int i = 0; i < 9 * 101; i++) {
        n[0] = i % 9;
        measure(CONSOLES_ADD);
        measure(CONSOLES_SLOT);
        consoles = amrwb_consoles_add(consoles, n[0]).consoles;
    }
    for (int i = 0; i <= 8 * 100; i++) {
        measure(CONSOLES_SLOT);
        consoles = amrwb_consoles_slot(consoles).consoles;
    }
    for (int i = 0; i < 100; i++) {
        for (size_t j = 0; j < sizeof consoles; j++)
            ((uint8_t *)&consoles)[j] = chance();
        n[0] = i % 9;
        measure(CONSOLES_ADD);
        measure(CONSOLES_SLOT);
    }
}

/* A set of all types, by a way to split a core. */
static void make_set(int split) {
    rows_len = 5 * PLACES;
    for (size_t i = 0; i < PLACES; i++) {
        uint64_t *row = rows + 5 * i;
        uint64_t type = types[i == 10 ? 11 : i], bits = core_bits[type];
        uint64_t sizes[][2] = {{class_a[type], bits - class_a[type]}, {bits / 3, bits / 3}, {0, bits}, {0, 0}, {bits, 0}};
        row[0] = 63 - i;
        row[1] = type;
        row[2] = sizes[split][0];
        row[3] = sizes[split][1];
        row[4] = bits - row[2] - row[3];
    }
}

/* A link with a set. */
static amrwb_link linked(size_t len) {
    amrwb_link_answer a = amrwb_link_assign(amrwb_link_fresh(), rows, len);
    accepted("a set", a.refusal);
    return a.link;
}

/* Sets with one number after the other out of its range, too many and too few, and a set that is there already. */
static void assigns(void) {
    static const uint64_t wrong[] = {0, 1, 10, 14, 64, 256, UINT64_MAX};
    for (int split = 0; split < 5; split++) {
        make_set(split);
        amrwb_link with = linked(rows_len);
        for (rows_len = 0; rows_len <= LENGTH(rows); rows_len++)
            for (int i = 0; i < 2; i++) {
                state = i ? with : amrwb_link_fresh();
                measure(LINK_ASSIGN);
            }
        rows_len = 5 * PLACES;
        for (size_t i = 0; i < rows_len; i++) {
            uint64_t right = rows[i];
            for (size_t j = 0; j < LENGTH(wrong); j++) {
                rows[i] = wrong[j];
                state = amrwb_link_fresh();
                measure(LINK_ASSIGN);
            }
            rows[i] = right;
        }
    }
}

/* Up for every combination, with right and wrong sub-flows. */
static void ups(void) {
    uint8_t frame[FRAME_OCTETS + 1];
    out = other;
    for (size_t i = 0; i < 2 * PLACES; i++) {
        uint64_t type = rows[5 * (i / 2) + 1];
        size_t len = make_frame(1, type, i % 2, frame);
        amrwb_down d = amrwb_link_down(state, frame, len, flows[0], FRAME_OCTETS, flows[1], FRAME_OCTETS, flows[2], FRAME_OCTETS);
        if (d.refusal && d.refusal != 14 && d.refusal != 16)
            accepted("a frame for the link", d.refusal);
        size_t lens[] = {d.n1, d.n2, d.n3};
        for (int j = 0; j < 5 * 4 * 10; j++) {
            n[0] = j % 5;
            n[1] = j / 5 % 4 == 0 ? 64 : j / 5 % 4 == 1 ? 0 : d.rfci;
            out_len = j / 5 % 4 == 2 ? 0 : len;
            memcpy(flow_lens, lens, sizeof lens);
            int flow = j / 20 % 3;
            uint8_t *last = lens[flow] ? &flows[flow][lens[flow] - 1] : flows[flow], before = *last;
            switch (j / 60) {
            case 0: break;
            case 1: flow_lens[flow]++; break;
            case 2: *last |= 0x0F; break; /* filling bits, or a SID frame's mode 15 */
            default: flow_lens[flow] = 0;
            }
            measure(LINK_UP);
            *last = before;
        }
    }
}

/* Up, Down, Release and Rate with the link that stands ready. */
static void link_calls(void) {
    amrwb_link before = state;
    measure(LINK_RELEASE);
    for (n[0] = 0; n[0] <= 9; n[0]++)
        measure(LINK_RATE);
    ups();
    for (size_t i = 0; i < 2 * LENGTH(types); i++) {
        uint8_t octets[FRAME_OCTETS + 1];
        in = octets;
        in_len = make_frame(1, types[i / 2], i % 2, octets);
        for (int j = 0; j < 4; j++) {
            for (int flow = 0; flow < 3; flow++)
                flow_lens[flow] = flow == j ? 0 : FRAME_OCTETS;
            measure(LINK_DOWN);
        }
    }
    state = before;
}

static void links(void) {
    for (int split = 0; split < 5; split++) {
        measure(LINK_FRESH);
        make_set(split);
        state = amrwb_link_fresh();
        link_calls();
        state = linked(5);
        link_calls();
        state = linked(rows_len);
        link_calls();
        if (split == 1)
            frames(1);
        /* links that no call answers */
        state.request = 9;
        link_calls();
        state.set.count = UINT32_MAX;
        link_calls();
        for (size_t i = 0; i < sizeof state; i++)
            ((uint8_t *)&state)[i] = chance();
        link_calls();
    }
}

int main(int argc, char **argv) {
    size_t most = argc == 3 && strcmp(argv[1], "--check") == 0 ? strtoul(argv[2], 0, 10) : 0;
    if (argc != 1 && !most) {
        printf("stack, or stack --check OCTETS\n");
        return 2;
    }
    big = calloc(MOST_OCTETS + 1, 1);
    other = calloc(MOST_OCTETS + 1, 1);
    if (!big || !other) {
        perror("stack");
        return 1;
    }
    state = amrwb_link_fresh();
    frames(2);
    frames(3);
    recordings();
    limits();
    builders();
    classes();
    orders();
    sheets();
    slots();
    assigns();
    links();
    int wrong = 0;
    for (int i = 0; i < CALLS; i++) {
        call *c = &calls[i];
        if (c->met != c->refusals) {
            printf("%s: refusals met %x, not %x\n", c->name, (unsigned)c->met, (unsigned)c->refusals);
            wrong = 1;
        }
        if (most && c->deepest > most) {
            printf("%s: %zu octets of stack, more than %zu\n", c->name, c->deepest, most);
            wrong = 1;
        }
        if (!most)
            printf("%s %zu %zu %zu\n", c->name, c->deepest, arguments_on_stack(c), c->answer);
    }
    if (most && !wrong)
        printf("no call takes more than %zu octets of stack\n", most);
    free(big);
    free(other);
    return wrong;
}
