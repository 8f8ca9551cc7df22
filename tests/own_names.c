/* Has functions with the names of those inside the library for C (from_c.py). */
#include "avr_records.h"
void *rattle_alloc(void) { return 0; }
void *rattle_realloc(void) { return 0; }
void rattle_dealloc(void) {}
int main(void) {
    const uint8_t file[] = ":0100000055AA";
    uint8_t byte, present;
    return avr_records_read(AVR_RECORDS_IHEX, file, sizeof file - 1, &byte, 1, &present, 1).fault;
}
