/* Blinks a light on pin B5 of an ATmega328P (the LED of an Arduino Uno). The EEPROM has the times. */
#include <avr/eeprom.h>
#include <avr/io.h>
#include <util/delay.h>

/* Tenths of a second that the light is on and off. */
uint8_t EEMEM saved_on = 2;
uint8_t EEMEM saved_off = 8;

static void wait(uint8_t tenths)
{
    while (tenths--)
        _delay_ms(100);
}

int main(void)
{
    uint8_t on = eeprom_read_byte(&saved_on);
    uint8_t off = eeprom_read_byte(&saved_off);

    DDRB |= _BV(DDB5);
    for (;;) {
        PORTB |= _BV(PORTB5);
        wait(on);
        PORTB &= ~_BV(PORTB5);
        wait(off);
    }
}
