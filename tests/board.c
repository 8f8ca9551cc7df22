/* A simulated ATmega328P at 16 MHz as a library for boards.py: the chip of an Uno, a Nano or a Pro Mini.
 *
 * simavr runs machine code that others wrote: a bootloader, or the sketch ArduinoISP. This file knows nothing of STK500. A
 * byte to the chip takes the time of its ten bits, and is lost if the receiver is off or full. At the pins that ArduinoISP
 * uses there is a second ATmega328P: a model of the data sheet's serial programming, with the times for which a part is
 * busy. */
#include <stdint.h>
#include <stdlib.h>
#include <string.h>

#include <simavr/avr_ioport.h>
#include <simavr/avr_spi.h>
#include <simavr/avr_uart.h>
#include <simavr/sim_avr.h>
#include <simavr/sim_hex.h>

enum {
    CLOCK = 16000000, MICROSECOND = CLOCK / 1000000, FLASH = 32768, EEPROM = 1024, PAGE = 128, QUEUE = 1 << 16,
    /* places of registers in data memory, and bits of them */
    MCUSR_AT = 0x54, EXTRF = 2, SPMCSR_AT = 0x57, UCSR0B_AT = 0xC1, RXEN = 0x10,
    /* SPM, its tasks by the low bits of SPMCSR, and how long each takes */
    SPM = 0x95E8, ERASE_PAGE = 3, WRITE_PAGE = 5, PAGE_CYCLES = CLOCK / 250,
    /* bytes that the receiver holds. (The simulated sketch reads them late.) */
    HELD_BY_BOOTLOADER = 3, HELD_BY_SKETCH = 60,
};

static avr_t *avr;
static avr_uart_t *uart;
static avr_irq_t *uart_in, *spi_in;
static uint8_t to_chip[QUEUE], to_host[QUEUE];
static unsigned in_at, in_end, out_end, byte_cycles;
static avr_cycle_count_t next_byte;
static int has_crashed;

/* the chip at the pins; `fuses` has low, high and extended fuse and the lock */
static struct {
    uint8_t flash[FLASH], eeprom[EEPROM], fuses[4], page[PAGE], eeprom_page[4], is_loaded[4], in[4];
    int count, is_reset, is_enabled, ignored;
    avr_cycle_count_t busy_until;
} target;

static void be_busy(unsigned microseconds) {
    target.busy_until = avr->cycle + microseconds * MICROSECOND;
}

static void erase_target(void) {
    memset(target.flash, 0xFF, FLASH);
    target.fuses[3] = 0xFF;
    if (target.fuses[1] & 8)
        memset(target.eeprom, 0xFF, EEPROM);
    be_busy(9000);
}

static void write_fuse(uint8_t which, uint8_t value) {
    if (which == 0xE0)
        target.fuses[3] &= value;
    else if (which == 0xA0 || which == 0xA8 || which == 0xA4)
        target.fuses[which == 0xA0 ? 0 : which == 0xA8 ? 1 : 2] = value;
    be_busy(4500);
}

static void write_page(uint8_t *at) {
    for (int i = 0; i < PAGE; i++)
        at[i] &= target.page[i];
    memset(target.page, 0xFF, PAGE);
    be_busy(4500);
}

static void write_eeprom_page(uint8_t *at) {
    for (int i = 0; i < 4; i++)
        if (target.is_loaded[i])
            at[i] = target.eeprom_page[i];
    memset(target.is_loaded, 0, 4);
    be_busy(3600);
}

/* Executes an instruction and returns its fourth byte. (Data sheet: serial programming instruction set, wait delays.) */
static uint8_t execute(const uint8_t *in) {
    unsigned word = (in[1] << 8 | in[2]) & (FLASH / 2 - 1), cell = (in[1] << 8 | in[2]) & (EEPROM - 1), high = in[0] >> 3 & 1;
    if (in[0] == 0xF0)
        return avr->cycle < target.busy_until;
    if (avr->cycle < target.busy_until) {
        target.ignored++;
        return 0xFF;
    }
    switch (in[0]) {
    case 0x30: return (uint8_t[]){0x1E, 0x95, 0x0F, 0xFF}[in[2] & 3];
    case 0x38: return 0x5A;
    case 0x20: case 0x28: return target.flash[word * 2 + high];
    case 0xA0: return target.eeprom[cell];
    case 0x50: return target.fuses[in[1] == 8 ? 2 : 0];
    case 0x58: return target.fuses[in[1] == 8 ? 1 : 3];
    case 0x40: case 0x48: target.page[(in[2] * 2 + high) & (PAGE - 1)] = in[3]; break;
    case 0x4C: write_page(target.flash + (word * 2 & ~(PAGE - 1))); break;
    case 0xC0: target.eeprom[cell] = in[3], be_busy(3600); break;
    case 0xC1: target.eeprom_page[in[2] & 3] = in[3], target.is_loaded[in[2] & 3] = 1; break;
    case 0xC2: write_eeprom_page(target.eeprom + (cell & ~3)); break;
    case 0xAC: in[1] == 0x80 ? erase_target() : write_fuse(in[1], in[3]); break;
    }
    return in[2];
}

/* The sketch has sent a byte over SPI. The target shifts out the byte before; the fourth is its result. */
static void on_spi(avr_irq_t *irq, uint32_t value, void *param) {
    (void)irq, (void)param;
    uint8_t out = 0xFF;
    if (target.is_reset) {
        target.in[target.count] = value;
        out = target.count ? target.in[target.count - 1] : 0;
        int enables = target.in[0] == 0xAC && target.in[1] == 0x53;
        if (target.count == 1 && !target.is_enabled && !enables)
            target.in[1] = 0;
        if (target.count == 3 && target.is_enabled && !enables)
            out = execute(target.in);
        if (target.count == 3 && enables)
            target.is_enabled = 1, memset(target.page, 0xFF, PAGE), memset(target.is_loaded, 0, 4);
        target.count = (target.count + 1) & 3;
    }
    avr_raise_irq(spi_in, out);
}

static void on_reset_pin(avr_irq_t *irq, uint32_t value, void *param) {
    (void)irq, (void)param;
    target.is_reset = !value, target.count = 0, target.is_enabled = 0;
}

static void on_byte(avr_irq_t *irq, uint32_t value, void *param) {
    (void)irq, (void)param;
    if (out_end < QUEUE)
        to_host[out_end++] = value;
}

static void quiet(avr_t *a, const int level, const char *format, va_list list) {
    (void)a, (void)level, (void)format, (void)list;
}

/* Makes the board. Its flash has `content`, and from `start` on, where it starts, this hex file. Returns 0, or 1. */
int board_new(const char *hex, unsigned start, unsigned baud, const uint8_t *content) {
    ihex_chunk_p chunks;
    int many = read_ihex_chunks(hex, &chunks);
    avr_global_logger_set(quiet);
    if (many <= 0 || !(avr = avr_make_mcu_by_name("atmega328p")) || avr_init(avr))
        return 1;
    avr->frequency = CLOCK, avr->reset_pc = start, byte_cycles = CLOCK / baud * 10;
    memcpy(avr->flash, content, FLASH);
    for (int i = 0; i < many; i++)
        if (chunks[i].baseaddr >= start && chunks[i].baseaddr + chunks[i].size <= FLASH)
            memcpy(avr->flash + chunks[i].baseaddr, chunks[i].data, chunks[i].size);
    uint32_t flags = 0;
    avr_ioctl(avr, AVR_IOCTL_UART_SET_FLAGS('0'), &flags);
    for (avr_io_t *it = avr->io_port; it; it = it->next)
        if (!strcmp(it->kind, "uart"))
            uart = (avr_uart_t *)it;
    uart_in = avr_io_getirq(avr, AVR_IOCTL_UART_GETIRQ('0'), UART_IRQ_INPUT);
    avr_irq_register_notify(avr_io_getirq(avr, AVR_IOCTL_UART_GETIRQ('0'), UART_IRQ_OUTPUT), on_byte, NULL);
    spi_in = avr_io_getirq(avr, AVR_IOCTL_SPI_GETIRQ(0), SPI_IRQ_INPUT);
    avr_irq_register_notify(avr_io_getirq(avr, AVR_IOCTL_SPI_GETIRQ(0), SPI_IRQ_OUTPUT), on_spi, NULL);
    avr_irq_register_notify(avr_io_getirq(avr, AVR_IOCTL_IOPORT_GETIRQ('B'), 2), on_reset_pin, NULL);
    memset(&target, 0, sizeof target);
    memset(&target, 0xFF, FLASH + EEPROM);
    memcpy(target.fuses, (uint8_t[]){0x62, 0xD9, 0xFF, 0xFF}, 4);
    return 0;
}

/* The reset pin, as DTR pulses it. */
void board_reset(void) {
    memset(avr->data + 0x20, 0, 0x900 - 0x20);
    avr_reset(avr);
    avr->data[MCUSR_AT] = EXTRF;
    in_at = in_end = out_end = 0, has_crashed = 0, next_byte = avr->cycle;
}

void board_put(const uint8_t *bytes, unsigned count) {
    if (in_at == in_end)
        in_at = in_end = 0;
    for (unsigned i = 0; i < count && in_end < QUEUE; i++)
        to_chip[in_end++] = bytes[i];
}

unsigned board_take(uint8_t *bytes) {
    unsigned count = out_end;
    memcpy(bytes, to_host, count);
    out_end = 0;
    return count;
}

static void give_byte(void) {
    unsigned held = (uart->input.write - uart->input.read) & 63;
    if (avr->data[UCSR0B_AT] & RXEN && held < (avr->reset_pc ? HELD_BY_BOOTLOADER : HELD_BY_SKETCH))
        avr_raise_irq(uart_in, to_chip[in_at]);
    in_at++;
    next_byte = avr->cycle + (uart->cycles_per_byte > 1000 ? uart->cycles_per_byte : byte_cycles);
}

/* Executes an instruction of the chip. (simavr lacks that a page write only clears bits, and the time that it takes.) */
static void step(void) {
    unsigned task = avr->data[SPMCSR_AT] & 0x1F, z = avr->data[30] | avr->data[31] << 8;
    int is_spm = (avr->flash[avr->pc] | avr->flash[avr->pc + 1] << 8) == SPM;
    uint8_t old[PAGE], *page = avr->flash + (z & (FLASH - PAGE));
    memcpy(old, page, is_spm ? PAGE : 0);
    if (has_crashed || (has_crashed = avr_run(avr) == cpu_Crashed))
        avr->cycle++;
    for (int i = 0; is_spm && task == WRITE_PAGE && i < PAGE; i++)
        page[i] &= old[i];
    if (is_spm && (task == WRITE_PAGE || task == ERASE_PAGE))
        avr->cycle += PAGE_CYCLES;
}

/* Runs the chip until it has sent `wanted` bytes, for at most this many microseconds. Returns how many passed. */
double board_run(double microseconds, unsigned wanted) {
    avr_cycle_count_t begun = avr->cycle, end = begun + (uint64_t)(microseconds * MICROSECOND);
    while (avr->cycle < end && out_end < wanted) {
        if (in_at < in_end && avr->cycle >= next_byte)
            give_byte();
        step();
    }
    return (double)(avr->cycle - begun) / MICROSECOND;
}

uint8_t *board_flash(void) { return avr->flash; }
uint8_t *target_flash(void) { return target.flash; }
uint8_t *target_eeprom(void) { return target.eeprom; }
uint8_t *target_fuses(void) { return target.fuses; }
int target_ignored(void) { return target.ignored; }
