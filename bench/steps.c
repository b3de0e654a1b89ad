/* Writes as many lines for crates/benchmarks as its first argument says: single steps of Debian's libz80ex (package
   libz80ex-dev) at random states, over every documented instruction but HALT, LD A,R, LD R,A and those of input and
   output. The second argument, not 0, starts the random numbers. The form of a line is told in
   crates/benchmarks/src/vectors.rt. */
#include <stdint.h>
#include <stdio.h>
#include <stdlib.h>
#include <string.h>
#include <z80ex/z80ex.h>

enum { RAM = 0x400, PAIRS = 11 };

static const Z80_REG_T PAIR[PAIRS] = {
    regAF, regBC, regDE, regHL, regIX, regIY, regSP, regAF_, regBC_, regDE_, regHL_,
};

/* What is compared of F: bits 5 and 3 are open where flags change, H after DAA, S and P/V after BIT, P/V after LD A,I. */
enum { ALL = 0xFF, CHANGED = 0xD7, AFTER_DAA = 0xC7, AFTER_BIT = 0x53, AFTER_LD_A_I = 0xD3 };

/* The codes in which an index register takes the place of HL. */
static const uint8_t INDEXED[] = {
    0x09, 0x19, 0x29, 0x39, 0x21, 0x22, 0x23, 0x2A, 0x2B, 0x34, 0x35, 0x36, 0x46, 0x4E, 0x56, 0x5E, 0x66, 0x6E, 0x7E, 0x70,
    0x71, 0x72, 0x73, 0x74, 0x75, 0x77, 0x86, 0x8E, 0x96, 0x9E, 0xA6, 0xAE, 0xB6, 0xBE, 0xE1, 0xE3, 0xE5, 0xE9, 0xF9,
};

/* The codes behind ED. */
static const uint8_t EXTENDED[] = {
    0x42, 0x4A, 0x52, 0x5A, 0x62, 0x6A, 0x72, 0x7A, 0x43, 0x4B, 0x53, 0x5B, 0x63, 0x6B, 0x73, 0x7B, 0x44,
    0x45, 0x4D, 0x46, 0x56, 0x5E, 0x47, 0x57, 0x67, 0x6F, 0xA0, 0xA8, 0xB0, 0xB8, 0xA1, 0xA9, 0xB1, 0xB9,
};

static uint8_t rom[4], work[RAM], video[RAM];
static int outside; /* whether the step used an address that is neither ROM nor one of these RAMs, or a port */
static uint32_t seed;

static uint8_t *cell(uint16_t at) {
    if (at >= 0x4000 && at < 0x4800) return &work[at % RAM];
    if (at >= 0x5000 && at < 0x5800) return &video[at % RAM];
    return 0;
}

static Z80EX_BYTE read_byte(Z80EX_CONTEXT *cpu, Z80EX_WORD at, int m1, void *data) {
    (void)cpu; (void)m1; (void)data;
    uint8_t *byte = at < sizeof rom ? &rom[at] : cell(at);
    outside |= !byte;
    return byte ? *byte : 0;
}

static void write_byte(Z80EX_CONTEXT *cpu, Z80EX_WORD at, Z80EX_BYTE value, void *data) {
    (void)cpu; (void)data;
    uint8_t *byte = cell(at);
    outside |= !byte;
    if (byte) *byte = value;
}

static Z80EX_BYTE read_port(Z80EX_CONTEXT *cpu, Z80EX_WORD port, void *data) {
    (void)cpu; (void)port; (void)data;
    outside = 1;
    return 0;
}

static void write_port(Z80EX_CONTEXT *cpu, Z80EX_WORD port, Z80EX_BYTE value, void *data) {
    (void)cpu; (void)port; (void)value; (void)data;
    outside = 1;
}

static Z80EX_BYTE read_vector(Z80EX_CONTEXT *cpu, void *data) {
    (void)cpu; (void)data;
    return 0xFF;
}

static uint32_t random_number(void) {
    seed ^= seed << 13;
    seed ^= seed >> 17;
    seed ^= seed << 5;
    return seed;
}

/* A byte, often one at which a flag changes. */
static uint8_t random_byte(void) {
    static const uint8_t edges[] = { 0x00, 0x01, 0x0F, 0x10, 0x7F, 0x80, 0x99, 0x9A, 0xFF };
    return random_number() % 3 ? random_number() : edges[random_number() % sizeof edges];
}

/* A word, mostly an address in RAM. */
static uint16_t random_word(void) {
    switch (random_number() % 4) {
    case 0: return 0x4000 + random_number() % 0x800;
    case 1: return 0x5000 + random_number() % 0x800;
    case 2: return 0x4380 + random_number() % 0x80;
    default: return random_number();
    }
}

static void put_operand(uint8_t *bytes) {
    uint16_t word = random_word();
    bytes[0] = random_number() % 2 ? word : random_byte();
    bytes[1] = word >> 8;
}

static int mask_of_unprefixed(uint8_t code) {
    int middle = code >> 3 & 7, low = code & 7;
    switch (code >> 6) {
    case 0:
        if (low == 7) return middle == 4 ? AFTER_DAA : CHANGED;
        return low == 4 || low == 5 || (low == 1 && middle % 2) ? CHANGED : ALL;
    case 1: return ALL;
    case 2: return CHANGED;
    default: return low == 6 ? CHANGED : ALL;
    }
}

static int mask_of_bits(uint8_t code) {
    return code >> 6 == 0 ? CHANGED : code >> 6 == 1 ? AFTER_BIT : ALL;
}

static int mask_of_extended(uint8_t code) {
    if (code == 0x57) return AFTER_LD_A_I;
    int words = (code & 0xC7) == 0x42, digits = code == 0x67 || code == 0x6F;
    return words || digits || code == 0x44 || code >= 0xA0 ? CHANGED : ALL;
}

/* Puts a random instruction into the ROM, and gives what is compared of F; 0 where the bytes were none. */
static int random_instruction(void) {
    uint8_t code = random_number();
    put_operand(&rom[2]);
    switch (random_number() % 5) {
    case 0:
    case 1:
        if (strchr("\x76\xCB\xD3\xDB\xDD\xED\xFD", code) && code) return 0;
        rom[0] = code;
        put_operand(&rom[1]);
        return mask_of_unprefixed(code);
    case 2:
        if ((code & 0xF8) == 0x30) return 0;
        rom[0] = 0xCB;
        rom[1] = code;
        return mask_of_bits(code);
    case 3:
        rom[0] = random_number() % 2 ? 0xDD : 0xFD;
        if (random_number() % 3) {
            rom[1] = code;
            return memchr(INDEXED, code, sizeof INDEXED) ? mask_of_unprefixed(code) : 0;
        }
        rom[1] = 0xCB;
        rom[3] = (code & 0xF8) | 6;
        return (code & 0xF8) == 0x30 ? 0 : mask_of_bits(rom[3]);
    default:
        rom[0] = 0xED;
        rom[1] = code;
        return memchr(EXTENDED, code, sizeof EXTENDED) ? mask_of_extended(code) : 0;
    }
}

static void start(Z80EX_CONTEXT *cpu, const uint16_t *pairs) {
    for (int i = 0; i < RAM; i++) {
        work[i] = 7 * i + 3;
        video[i] = 5 * i + 1;
    }
    z80ex_reset(cpu);
    for (int i = 0; i < PAIRS; i++) z80ex_set_reg(cpu, PAIR[i], pairs[i]);
    z80ex_set_reg(cpu, regI, 0);
    outside = 0;
}

static void print_line(Z80EX_CONTEXT *cpu, const uint16_t *pairs, int mask, int t) {
    for (int i = 0; i < 4; i++) printf("%02X", rom[i]);
    printf("%02X", mask);
    for (int i = 0; i < PAIRS; i++) printf("%04X", pairs[i]);
    for (int i = 0; i < PAIRS; i++) printf("%04X", z80ex_get_reg(cpu, PAIR[i]) & (i ? 0xFFFF : 0xFF00 | mask));
    printf("%02X%02X", z80ex_get_reg(cpu, regI), 2 * !!z80ex_get_reg(cpu, regIFF1) + !!z80ex_get_reg(cpu, regIFF2));
    printf("%04X%02X", z80ex_get_reg(cpu, regPC), t);
    uint32_t sum = 0;
    for (int i = 0; i < RAM; i++) sum += (i + 1) * work[i] + (i + 1 + RAM) * video[i];
    printf("%08X %02X%02X%02X%02X\n", sum, rom[0], rom[1], rom[2], rom[3]);
}

int main(int count, char **words) {
    Z80EX_CONTEXT *cpu = z80ex_create(read_byte, 0, write_byte, 0, read_port, 0, write_port, 0, read_vector, 0);
    long lines = count > 1 ? atol(words[1]) : 0;
    seed = count > 2 ? strtoul(words[2], 0, 10) : 1;
    while (lines > 0) {
        int mask = random_instruction();
        if (!mask) continue;
        uint16_t pairs[PAIRS];
        for (int i = 0; i < PAIRS; i++) pairs[i] = i == 0 || i > 6 ? random_byte() << 8 | random_byte() : random_word();
        if (random_number() % 3 == 0) pairs[1] = random_number() % 3 << 8 | random_number() % 3; /* BC for loops that end */
        pairs[6] = 0x4390 + random_number() % 0x60; /* SP, so that the stack stays in its region */
        start(cpu, pairs);
        int t = 0;
        do {
            t += z80ex_step(cpu);
        } while (z80ex_last_op_type(cpu) != 0);
        if (outside) continue;
        print_line(cpu, pairs, mask, t);
        lines--;
    }
    z80ex_destroy(cpu);
    return 0;
}
