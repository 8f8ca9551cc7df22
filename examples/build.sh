#!/usr/bin/env bash
# Builds the example files from blink.c with avr-gcc and avr-objcopy.
set -eu
cd "$(dirname "$0")"
avr-gcc -mmcu=atmega328p -DF_CPU=16000000UL -Os -Wall -o blink.elf blink.c
avr-objcopy -O ihex -R .eeprom blink.elf blink.hex
avr-objcopy -O srec -R .eeprom blink.elf blink.srec
avr-objcopy -O ihex -j .eeprom --change-section-lma .eeprom=0 blink.elf eeprom.hex
# (avr-objcopy gives them the program's mode)
chmod a-x blink.hex blink.srec eeprom.hex
rm blink.elf
