/* A ROM on Debian's libz80ex (package libz80ex-dev): libz80ex ROM EVENTS. It starts with all 0, does as many events, and prints the lines
   that `galcert run` ends with, for a ROM that reads and writes no memory but its own and the cells of the RAMs. */
#include <stdio.h>
#include <stdlib.h>
#include <z80ex/z80ex.h>

static Z80EX_BYTE memory[65536];

static Z80EX_BYTE read_byte(Z80EX_CONTEXT *cpu, Z80EX_WORD at, int m1, void *data) {
    (void)cpu; (void)m1; (void)data;
    return memory[at];
}

static void write_byte(Z80EX_CONTEXT *cpu, Z80EX_WORD at, Z80EX_BYTE byte, void *data) {
    (void)cpu; (void)data;
    memory[at] = byte;
}

static Z80EX_BYTE read_port(Z80EX_CONTEXT *cpu, Z80EX_WORD port, void *data) {
    (void)cpu; (void)port; (void)data;
    return 0xFF;
}

static void write_port(Z80EX_CONTEXT *cpu, Z80EX_WORD port, Z80EX_BYTE byte, void *data) {
    (void)cpu; (void)port; (void)byte; (void)data;
}

static Z80EX_BYTE read_vector(Z80EX_CONTEXT *cpu, void *data) {
    (void)cpu; (void)data;
    return 0xFF;
}

static unsigned sum(unsigned from, unsigned count) {
    unsigned total = 0;
    for (unsigned i = 0; i < count; i++)
        total += memory[from + i];
    return total;
}

int main(int count, char **words) {
    FILE *rom = count == 3 ? fopen(words[1], "rb") : NULL;
    if (rom == NULL || fread(memory, 1, 0x4000, rom) == 0) {
        fprintf(stderr, "usage: libz80ex ROM EVENTS\n");
        return 2;
    }
    fclose(rom);
    static const Z80_REG_T registers[] = {
        regAF, regBC, regDE, regHL, regIX, regIY, regSP, regAF_, regBC_, regDE_, regHL_,
    };
    Z80EX_CONTEXT *cpu = z80ex_create(read_byte, 0, write_byte, 0, read_port, 0, write_port, 0, read_vector, 0);
    for (unsigned i = 0; i < sizeof registers / sizeof *registers; i++)
        z80ex_set_reg(cpu, registers[i], 0);
    long events = atol(words[2]), states = 0;
    for (long event = 0; event < events; event++) {
        do {
            states += z80ex_step(cpu);
        } while (z80ex_last_op_type(cpu) != 0);
    }
    printf("done %ld %ld %04X %04X\nregs", events, states, z80ex_get_reg(cpu, regPC), z80ex_get_reg(cpu, regSP));
    for (unsigned i = 0; i < 6; i++)
        printf(" %04X", z80ex_get_reg(cpu, registers[i]));
    printf("\nsum %u %u %u\n", sum(0x4000, 0x400), sum(0x5000, 0x400), sum(0x5800, 0x100));
    z80ex_destroy(cpu);
    return 0;
}
