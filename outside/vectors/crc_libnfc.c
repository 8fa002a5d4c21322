/* Reads lines `crc HEX` and writes `HEX CRC`, the CRC by libnfc; the empty run, which libnfc cannot do, has no line. */
#include <nfc/nfc.h>
#include <stdint.h>
#include <stdio.h>
#include <string.h>

int main(void)
{
    static char line[2048];
    static uint8_t bytes[1024];
    while (fgets(line, sizeof line, stdin) != NULL) {
        line[strcspn(line, "\n")] = '\0';
        const char *hex = line + 4;
        if (strcmp(hex, "-") == 0)
            continue;
        size_t length = strlen(hex) / 2;
        for (size_t i = 0; i < length; i++) {
            unsigned value;
            if (sscanf(hex + 2 * i, "%2x", &value) != 1)
                return 1;
            bytes[i] = (uint8_t)value;
        }
        uint8_t sent[2];
        iso14443a_crc(bytes, length, sent);
        printf("%s %02X%02X\n", hex, sent[0], sent[1]);
    }
    return 0;
}
