/* The serial line of a BBC micro:bit (nRF51822): the UART, which the USB port of the board carries, at 115,200 baud.
 * Its interrupt calls on_byte for each byte, so no byte is lost while the main loop computes. The interrupt also wakes
 * the main loop when a byte of an answer has left. */
#include "board.h"
#include "interrupts.h"
#include <stdatomic.h>

enum { UART_IRQ = 2, TX_PIN = 24, RX_PIN = 25, BAUD_115200 = 0x01d7e000 };

#define REGISTER(address) (*(volatile uint32_t *)(address))
#define UART_STARTRX REGISTER(0x40002000)
#define UART_STARTTX REGISTER(0x40002008)
#define UART_RXDRDY REGISTER(0x40002108)
#define UART_TXDRDY REGISTER(0x4000211c)
#define UART_INTENSET REGISTER(0x40002304)
#define UART_ENABLE REGISTER(0x40002500)
#define UART_PSELTXD REGISTER(0x4000250c)
#define UART_PSELRXD REGISTER(0x40002514)
#define UART_RXD REGISTER(0x40002518)
#define UART_TXD REGISTER(0x4000251c)
#define UART_BAUDRATE REGISTER(0x40002524)
#define NVIC_ENABLE REGISTER(0xe000e100)

/* True while a byte of an answer leaves. */
static atomic_bool is_sending;

/* A byte has come, or has left. */
void on_irq2(void) {
    while (UART_RXDRDY != 0) {
        UART_RXDRDY = 0;
        on_byte(0, (char)UART_RXD);
    }
    if (UART_TXDRDY != 0) {
        UART_TXDRDY = 0;
        is_sending = false;
    }
}

void begin_serial(void) {
    UART_PSELTXD = TX_PIN;
    UART_PSELRXD = RX_PIN;
    UART_BAUDRATE = BAUD_115200;
    UART_ENABLE = 4;
    UART_INTENSET = 1 << 2 | 1 << 7; /* RXDRDY and TXDRDY */
    NVIC_ENABLE = 1 << UART_IRQ;
    UART_STARTRX = 1;
    UART_STARTTX = 1;
}

bool has_room(uint8_t port) {
    return port == 0 && !is_sending;
}

void give_byte(uint8_t port, char c) {
    (void)port;
    is_sending = true;
    UART_TXD = (uint8_t)c;
}
