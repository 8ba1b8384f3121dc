#include "demodulator.h"
#include "sender.h"

#include <ctype.h>
#include <float.h>
#include <math.h>
#include <stdio.h>
#include <stdlib.h>
#include <string.h>

/* Exit statuses: a refusal is 1, anything else that goes wrong is 2. */
enum { REFUSED = 1, BROKEN = 2 };

static struct frame frame;

/* The decimal number of the text, or -1 where it is none of at most 9 digits. */
static long whole_number(const char *text)
{
    size_t digits = strlen(text);
    if (digits < 1 || digits > 9)
        return -1;
    for (size_t d = 0; d < digits; d++)
        if (!isdigit((unsigned char)text[d]))
            return -1;
    return strtol(text, NULL, 10);
}

static void break_off(const char *complaint, const char *path)
{
    fprintf(stderr, "reference: %s %s\n", complaint, path);
    exit(BROKEN);
}

/* Reads one byte past the longest message, enough to tell that it is too long. */
static size_t read_message(const char *path, uint8_t bytes[MAX_LENGTH + 1])
{
    FILE *in = fopen(path, "rb");
    if (in == NULL)
        break_off("cannot open", path);
    size_t length = fread(bytes, 1, MAX_LENGTH + 1, in);
    if (ferror(in))
        break_off("cannot read", path);
    fclose(in);
    return length;
}

static const char *fault_sentence(enum fault fault)
{
    switch (fault) {
    case FAULT_RATE:
        return "The rate is not one of 6, 9, 12, 18, 24, 36, 48 and 54 Mbit/s.";
    case FAULT_SEED:
        return "The seed is outside 1 to 127.";
    case FAULT_LENGTH:
        return "The message is outside 1 to 4095 bytes.";
    default:
        return "";
    }
}

static void write_symbol(FILE *out, const struct point points[CARRIERS])
{
    for (size_t n = 0; n < CARRIERS; n++)
        fprintf(out, "%s%d,%d", n == 0 ? "" : " ", points[n].i, points[n].q);
    fputc('\n', out);
}

static void write_recording(const char *path)
{
    FILE *out = fopen(path, "wb");
    if (out == NULL)
        break_off("cannot open", path);
    for (size_t n = 0; n <= frame.data_symbols; n++) {
        write_symbol(out, frame.symbols[n]);
        printf("symbol n=%zu\n", n);
    }
    int unwritten = ferror(out);
    if (fclose(out) != 0 || unwritten)
        break_off("cannot write", path);
    printf("wrote symbols=%zu\n", frame.data_symbols + 1);
}

static void print_header(void)
{
    printf("header bits=");
    for (size_t b = 0; b < HEADER_BITS; b++)
        putchar('0' + frame.header[b]);
    putchar('\n');
}

static int run_send(char *arguments[4])
{
    static uint8_t bytes[MAX_LENGTH + 1];
    long mbps = whole_number(arguments[0]), seed = whole_number(arguments[1]);
    size_t length = read_message(arguments[2], bytes);
    enum fault fault = find_fault(mbps, seed, length);
    if (fault != NO_FAULT) {
        printf("refused fault=%d\n%s\n", (int)fault, fault_sentence(fault));
        return REFUSED;
    }
    send_frame(mbps, seed, bytes, length, &frame);
    printf("sending rate=%ld seed=%ld length=%zu symbols=%zu pad=%zu\n", mbps, seed, length,
           frame.data_symbols, frame.pad_bits);
    print_header();
    write_recording(arguments[3]);
    return 0;
}

static const long SWEPT_MBPS[8] = {6, 9, 12, 18, 24, 36, 48, 54};

/* The generator of a sweep; its state runs on from line to line. */
static uint32_t next_random(void)
{
    static uint32_t state = 1;
    state = 1664525u * state + 1013904223u;
    return state >> 16;
}

/* Short frames of several kinds, and frames close to the longest. */
static size_t random_length(long number)
{
    switch (number / 8 % 4) {
    case 0:
        return 1 + next_random() % 8;
    case 1:
        return 1 + next_random() % 100;
    case 2:
        return 1 + next_random() % 1500;
    default:
        return MAX_LENGTH - next_random() % 64;
    }
}

/* 32-bit FNV-1a, taken over whole numbers instead of bytes. */
static const uint32_t EMPTY_DIGEST = 2166136261u;

static uint32_t digest_item(uint32_t digest, int item)
{
    return (digest ^ (uint32_t)item) * 16777619u;
}

static uint32_t digest_frame(void)
{
    uint32_t digest = EMPTY_DIGEST;
    for (size_t s = 0; s <= frame.data_symbols; s++)
        for (size_t n = 0; n < CARRIERS; n++) {
            digest = digest_item(digest, frame.symbols[s][n].i + 8);
            digest = digest_item(digest, frame.symbols[s][n].q + 8);
        }
    return digest;
}

static void sweep_frame(long number)
{
    static uint8_t bytes[MAX_LENGTH];
    long mbps = SWEPT_MBPS[number % 8], seed = 1 + next_random() % 127;
    size_t length = random_length(number);
    for (size_t b = 0; b < length; b++)
        bytes[b] = next_random() & 255;
    send_frame(mbps, seed, bytes, length, &frame);
    printf("frame=%ld rate=%ld seed=%ld length=%zu symbols=%zu digest=%lu\n", number, mbps, seed,
           length, frame.data_symbols, (unsigned long)digest_frame());
}

/* Coordinates where limiting or dropping the fraction is easily done wrong. */
static float random_edge(void)
{
    static const float EDGES[20] = {
        0.0f,
        -0.0f,
        0x1p-4f, /* one whole step, and the nearest below it */
        -0x1p-4f,
        0x1.fffffep-5f,
        -0x1.fffffep-5f,
        8.0f, /* the limit, and the nearest on either side */
        -8.0f,
        0x1.fffffep+2f,
        -0x1.fffffep+2f,
        0x1.000002p+3f,
        INFINITY,
        -INFINITY,
        FLT_MAX,
        -FLT_MAX,
        0x1p-149f, /* the least subnormal */
        -0x1p-149f,
        FLT_MIN,
        0.06f,
        -0.07f,
    };
    return EDGES[next_random() % 20];
}

static float random_level(void)
{
    return (float)(2 * (int)(next_random() % 8) - 7);
}

/* The scale is a power of two, so the product is exact. */
static float random_scaled(float scale)
{
    return (float)((int)next_random() - 32768) * scale;
}

static float random_coordinate(uint32_t kind)
{
    if (kind == 2)
        return random_edge();
    if (kind <= 4)
        return random_level();
    if (kind <= 7)
        return random_scaled(0x1p-12f); /* the whole range */
    if (kind <= 11)
        return random_scaled(0x1p-11f); /* twice the range */
    if (kind <= 13)
        return random_scaled(0x1p-17f); /* around zero */
    if (kind == 14)
        return random_scaled(0x1p+16f); /* far out */
    return random_scaled(0x1p-149f); /* subnormals */
}

static struct carrier random_carrier(void)
{
    struct carrier carrier = {true, 0, 0};
    uint32_t kind = next_random() / 4096;
    if (kind <= 1)
        return carrier;
    carrier.struck = false;
    carrier.i = random_coordinate(kind);
    carrier.q = random_coordinate(kind);
    return carrier;
}

static void spoil_carrier(struct carrier carriers[CARRIERS])
{
    uint32_t place = next_random() % CARRIERS, axis = next_random() % 2;
    carriers[place] = axis == 0 ? (struct carrier){false, NAN, 1} : (struct carrier){false, 1, NAN};
}

/* Draws one carrier more than a symbol has, the last one struck, and returns
 * how many of them count. */
static size_t random_symbol(struct carrier carriers[CARRIERS + 1])
{
    uint32_t flaw = next_random() / 4096;
    for (size_t n = 0; n < CARRIERS; n++)
        carriers[n] = random_carrier();
    carriers[CARRIERS] = (struct carrier){true, 0, 0};
    if (flaw == 0 || flaw == 2 || flaw == 4) {
        spoil_carrier(carriers);
        spoil_carrier(carriers);
    }
    if (flaw == 1 || flaw == 2)
        return CARRIERS - 1;
    return flaw == 3 || flaw == 4 ? CARRIERS + 1 : CARRIERS;
}

/* The item of an absent bit is one that no value has. */
static void print_heard_bits(const struct heard_bit *coded, size_t count)
{
    uint32_t digest = EMPTY_DIGEST;
    size_t absent = 0;
    for (size_t c = 0; c < count; c++) {
        digest = digest_item(digest, coded[c].absent ? 1000 : coded[c].value + 200);
        absent += coded[c].absent;
    }
    printf("digest=%lu absent=%zu\n", (unsigned long)digest, absent);
}

static void sweep_symbol(long number)
{
    struct carrier carriers[CARRIERS + 1];
    struct heard_bit coded[MAX_HEARD_BITS];
    long mbps = SWEPT_MBPS[number % 8];
    size_t count = random_symbol(carriers);
    struct symbol_refusal refusal = find_symbol_fault(carriers, count);
    printf("symbol=%ld rate=%ld ", number, mbps);
    if (refusal.fault == FAULT_CARRIERS) {
        printf("fault=%d carriers=%zu\n", (int)refusal.fault, count);
    } else if (refusal.fault == FAULT_NOT_A_NUMBER) {
        printf("fault=%d carrier=%zu axis=%c\n", (int)refusal.fault, refusal.carrier, refusal.axis);
    } else {
        size_t coded_bits = demodulate(mbps, carriers, coded);
        print_heard_bits(coded, coded_bits);
    }
}

static int run_sweep(const char *number_of_lines, void (*sweep_one)(long number))
{
    long count = whole_number(number_of_lines);
    if (count < 0)
        break_off("not a number of lines:", number_of_lines);
    for (long number = 0; number < count; number++)
        sweep_one(number);
    return 0;
}

int main(int count, char *arguments[])
{
    if (count == 6 && strcmp(arguments[1], "send") == 0)
        return run_send(arguments + 2);
    if (count == 3 && strcmp(arguments[1], "sweep") == 0)
        return run_sweep(arguments[2], sweep_frame);
    if (count == 3 && strcmp(arguments[1], "sweep_symbols") == 0)
        return run_sweep(arguments[2], sweep_symbol);
    fprintf(stderr, "usage: reference send RATE SEED IN OUT\n"
                    "       reference sweep COUNT\n"
                    "       reference sweep_symbols COUNT\n");
    return BROKEN;
}
