/* A separator scan: the part of a device's firmware that takes lines of text from a serial port apart.
 *
 * A line is a command letter and decimal fields, parted by commas: "S,12,-7,305". The scan finds the separators eight bytes at a time, the
 * fields are read and held in a table, and the command decides what is done with them. Every answer goes to a register of the device, with
 * a check word over the line. It is written for RV64IM without a library and without the C extension; samples/README.md has the command
 * that compiles it. The answers to the lines below stand before the function `lines`.
 */

typedef unsigned char u8;
typedef unsigned int u32;
typedef unsigned long u64;
typedef long s64;

enum { FIELDS = 16, REFUSED = 255 };

#define DEVICE ((volatile u32 *)0x10010000ul)
#define ONES 0x0101010101010101ul
#define TOPS 0x8080808080808080ul

struct record {
    u64 count;           /* fields of the line, the command among them */
    u32 at[FIELDS];      /* where each begins */
    s64 value[FIELDS];   /* what it says, where it is a number */
};

static const u8 input[] __attribute__((aligned(8))) =
    "S,12,-7,305\n"
    "P,2,3,5,7\n"
    "D,1000,7\n"
    "H,0,255,16\n"
    "M,4,-9,33,-9\n"
    "?,1\n";

static struct record record;
static u32 crc_table[16];

/* A byte of the result is not 0 where the word has the byte. */
static u64 bytes_equal(u64 word, u64 byte)
{
    u64 x = word ^ (byte * ONES);
    return (x - ONES) & ~x & TOPS;
}

/* The place of the next separator or line end from `at` on: eight bytes at a time where the place is a multiple of 8. */
__attribute__((noinline)) static u64 next_separator(const u8 *text, u64 at, u64 end)
{
    while (at < end) {
        if (at % 8 == 0) {
            u64 word = *(const u64 *)(text + at);
            if ((bytes_equal(word, ',') | bytes_equal(word, '\n')) == 0) {
                at += 8;
                continue;
            }
        }
        if (text[at] == ',' || text[at] == '\n')
            return at;
        at++;
    }
    return end;
}

/* A decimal number with an optional sign; 0 is stored at `good` where it is none. */
__attribute__((noinline)) static s64 number(const u8 *text, u64 length, u32 *good)
{
    u64 n = 0, value = 0;
    int negative = length > 0 && text[0] == '-';
    if (negative)
        n = 1;
    *good = n < length;
    for (; n < length; n++) {
        u32 digit = text[n] - (u32)'0';
        if (digit > 9) {
            *good = 0;
            return 0;
        }
        value = value * 10 + digit;
    }
    return negative ? -(s64)value : (s64)value;
}

/* Splits the line that begins at `at` into fields and gives the place after it. */
__attribute__((noinline)) static u64 split(const u8 *text, u64 at, u64 end, struct record *to)
{
    to->count = 0;
    for (;;) {
        u64 stop = next_separator(text, at, end);
        if (to->count < FIELDS) {
            u32 good;
            u64 n = to->count++;
            to->at[n] = (u32)at;
            to->value[n] = number(text + at, stop - at, &good);
            if (!good)
                to->value[n] = 0;
        }
        if (stop >= end)
            return end;
        at = stop + 1;
        if (text[stop] == '\n')
            return at;
    }
}

/* A check word, four bits at a time, over a table that `main` fills. */
__attribute__((noinline)) static u32 check(const u8 *text, u64 from, u64 to)
{
    u32 crc = 0xffffffffu;
    for (; from < to; from++) {
        crc = crc_table[(crc ^ text[from]) & 15] ^ (crc >> 4);
        crc = crc_table[(crc ^ (text[from] >> 4)) & 15] ^ (crc >> 4);
    }
    return ~crc;
}

static void fill_table(void)
{
    for (u32 n = 0; n < 16; n++) {
        u32 word = n;
        for (int bit = 0; bit < 4; bit++)
            word = word & 1 ? word >> 1 ^ 0xedb88320u : word >> 1;
        crc_table[n] = word;
    }
}

static s64 sum(const struct record *r)
{
    s64 all = 0;
    for (u64 n = 1; n < r->count; n++)
        all += r->value[n];
    return all;
}

static s64 product(const struct record *r)
{
    s64 all = 1;
    for (u64 n = 1; n < r->count; n++)
        all *= r->value[n];
    return all;
}

static s64 smallest(const struct record *r)
{
    s64 least = r->value[1];
    for (u64 n = 2; n < r->count; n++)
        if (r->value[n] < least)
            least = r->value[n];
    return least;
}

/* The fields as bytes of a word, the first lowest. */
static s64 packed(const struct record *r)
{
    u64 word = 0;
    for (u64 n = 1; n < r->count && n <= 8; n++)
        word |= (u64)(u8)r->value[n] << (8 * (n - 1));
    return (s64)word;
}

__attribute__((noinline)) static s64 answer(u32 command, const struct record *r)
{
    switch (command) {
    case 'S':
        return sum(r);
    case 'P':
        return product(r);
    case 'M':
        return r->count > 1 ? smallest(r) : 0;
    case 'D':
        return r->count == 3 && r->value[2] != 0 ? r->value[1] / r->value[2] : 0;
    case 'R':
        return r->count == 3 && r->value[2] != 0 ? (s64)((u64)r->value[1] % (u64)r->value[2]) : 0;
    case 'H':
        return packed(r);
    case 'N':
        return (s64)r->count - 1;
    default:
        return REFUSED;
    }
}

/* Answers, line by line: 310, 210, 142, 1113856 (0, 255 and 16 as bytes), -9, 255. */
__attribute__((noinline)) static u64 lines(const u8 *text, u64 end)
{
    u64 at = 0, count = 0;
    while (at < end) {
        u64 from = at;
        at = split(text, at, end, &record);
        s64 word = answer(text[from], &record);
        DEVICE[0] = (u32)word;
        DEVICE[1] = (u32)((u64)word >> 32);
        DEVICE[2] = check(text, from, at);
        __asm__ volatile("fence" ::: "memory");
        count++;
    }
    return count;
}

__attribute__((noreturn, used)) void main_of_firmware(void)
{
    fill_table();
    u64 count = lines(input, sizeof input - 1);
    register u64 status __asm__("a0") = count != 6;
    register u64 number_of_exit __asm__("a7") = 93;
    for (;;)
        __asm__ volatile("ecall" : : "r"(status), "r"(number_of_exit) : "memory");
}

__asm__(
    ".pushsection .text.startup, \"ax\"\n"
    ".globl _start\n"
    "_start:\n"
    ".option push\n"
    ".option norelax\n"
    "    la gp, __global_pointer$\n"
    ".option pop\n"
    "    li sp, 0x80000\n"
    "    call main_of_firmware\n"
    "1:  j 1b\n"
    ".popsection\n");
