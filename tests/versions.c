/* Prints the version of the library for C by its header and by its call (from_c.py). */
#include <stdio.h>
#include "avr_records.h"
#if AVR_RECORDS_VERSION_NUMBER < 900
#error "older than the macro"
#endif
int main(void) {
    printf("%s %d.%d.%d %lu %lu\n", AVR_RECORDS_VERSION, AVR_RECORDS_VERSION_MAJOR, AVR_RECORDS_VERSION_MINOR,
           AVR_RECORDS_VERSION_PATCH, (unsigned long)AVR_RECORDS_VERSION_NUMBER, (unsigned long)avr_records_version());
    return 0;
}
