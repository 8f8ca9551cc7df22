/* Simulates part of an Arduino board: simavr's ATmega2560 with a bootloader's hex file in its flash. Its serial port is a
 * port of 127.0.0.1. A call has the effect of opening a board's device: it resets the chip, which starts at the boot
 * section. When the caller has gone, the flash is saved, and the next caller is accepted.
 *
 *     mega BOOTLOADER FLASH        prints its port; FLASH is read if it exists, and saved after each caller
 *
 * A byte takes the time of its ten bits at 115,200 baud with a clock of 16 MHz. While bytes are sent, the chip runs as fast
 * as it can. Otherwise it runs no faster than a real one, because the bootloader's timeout starts the application. */
#include <arpa/inet.h>
#include <errno.h>
#include <netinet/tcp.h>
#include <stdio.h>
#include <stdlib.h>
#include <string.h>
#include <sys/socket.h>
#include <unistd.h>

#include <simavr/avr_uart.h>
#include <simavr/sim_avr.h>
#include <simavr/sim_hex.h>

enum { FREQUENCY = 16000000, BAUD = 115200, BYTE_CYCLES = FREQUENCY / BAUD * 10, BOOT = 0x3E000 };

static int caller = -1;
/* the cycle at which the last byte was sent or received */
static avr_cycle_count_t moved;

static void fail(const char *what) {
    perror(what);
    exit(1);
}

static void quiet(avr_t *avr, const int level, const char *format, va_list list) {
    (void)avr, (void)level, (void)format, (void)list;
}

/* Passes on a byte that the chip sends. Without a caller the byte is lost. */
static void sent(struct avr_irq_t *irq, uint32_t value, void *param) {
    (void)irq;
    moved = ((avr_t *)param)->cycle;
    unsigned char byte = (unsigned char)value;
    if (caller >= 0)
        (void)!send(caller, &byte, 1, MSG_NOSIGNAL);
}

static void load(avr_t *avr, const char *bootloader, const char *flash) {
    ihex_chunk_p chunks;
    int many = read_ihex_chunks(bootloader, &chunks);
    if (many < 0)
        fail(bootloader);
    memset(avr->flash, 0xFF, avr->flashend + 1);
    FILE *file = fopen(flash, "rb");
    if (file) {
        if (fread(avr->flash, 1, avr->flashend + 1, file) != avr->flashend + 1)
            fail(flash);
        fclose(file);
    }
    for (int at = 0; at < many; at++) {
        if (chunks[at].baseaddr < BOOT || chunks[at].baseaddr + chunks[at].size > avr->flashend + 1)
            fail("a piece outside the boot section");
        memcpy(avr->flash + chunks[at].baseaddr, chunks[at].data, chunks[at].size);
    }
    free_ihex_chunks(chunks);
}

static void save(avr_t *avr, const char *flash) {
    FILE *file = fopen(flash, "wb");
    if (!file || fwrite(avr->flash, 1, avr->flashend + 1, file) != avr->flashend + 1 || fclose(file))
        fail(flash);
}

/* Runs the chip until the caller has gone. */
static void meet(avr_t *avr) {
    avr_irq_t *input = avr_io_getirq(avr, AVR_IOCTL_UART_GETIRQ('0'), UART_IRQ_INPUT);
    avr_reset(avr);
    avr->pc = BOOT;
    moved = avr->cycle;
    for (avr_cycle_count_t next = avr->cycle;;) {
        int state = avr_run(avr);
        if (state == cpu_Done || state == cpu_Crashed)
            return;
        if (avr->cycle < next)
            continue;
        next = avr->cycle + BYTE_CYCLES;
        unsigned char byte;
        ssize_t got = recv(caller, &byte, 1, MSG_DONTWAIT);
        if (got == 1) {
            moved = avr->cycle;
            avr_raise_irq(input, byte);
        }
        else if (got == 0 || (errno != EAGAIN && errno != EINTR))
            return;
        else if (avr->cycle - moved > FREQUENCY / 100) {
            usleep(1000);
            next = avr->cycle + FREQUENCY / 1000;
        }
    }
}

int main(int many, char **words) {
    if (many != 3)
        return 2;
    avr_global_logger_set(quiet);
    avr_t *avr = avr_make_mcu_by_name("atmega2560");
    if (!avr || avr_init(avr))
        fail("atmega2560");
    avr->frequency = FREQUENCY;
    load(avr, words[1], words[2]);
    uint32_t flags = 0;
    avr_ioctl(avr, AVR_IOCTL_UART_SET_FLAGS('0'), &flags);
    avr_irq_register_notify(avr_io_getirq(avr, AVR_IOCTL_UART_GETIRQ('0'), UART_IRQ_OUTPUT), sent, avr);

    int listener = socket(AF_INET, SOCK_STREAM, 0);
    struct sockaddr_in here = {.sin_family = AF_INET, .sin_addr.s_addr = htonl(INADDR_LOOPBACK)};
    socklen_t size = sizeof here;
    if (listener < 0 || bind(listener, (struct sockaddr *)&here, size) || listen(listener, 1) ||
        getsockname(listener, (struct sockaddr *)&here, &size))
        fail("port");
    printf("%d\n", ntohs(here.sin_port));
    fflush(stdout);
    while ((caller = accept(listener, NULL, NULL)) >= 0) {
        /* a reply's bytes are sent one by one, without waiting for more */
        setsockopt(caller, IPPROTO_TCP, TCP_NODELAY, &(int){1}, sizeof(int));
        meet(avr);
        /* (whoever waits for the end of the connection finds the whole flash) */
        save(avr, words[2]);
        close(caller);
        caller = -1;
        puts("saved");
        fflush(stdout);
    }
    fail("accept");
}
