// Prints what Judge answers of a card: 0 where its sheet would load, else the number of the refusal.
#include <stddef.h>
#include <stdint.h>
#include <stdio.h>
#include <stdlib.h>

uint32_t judge(const uint8_t *card, size_t length);

// No card is longer than 6 + 7 * 512 + 4096 bytes; one byte more tells that a file is.
enum { LONGEST = 7686 };

int main(int argc, char **argv) {
    static uint8_t card[LONGEST + 1];
    if (argc != 2) {
        fprintf(stderr, "usage: judge CARD\n");
        return 2;
    }
    FILE *file = fopen(argv[1], "rb");
    if (file == NULL) {
        perror(argv[1]);
        return 2;
    }
    size_t length = fread(card, 1, sizeof card, file);
    fclose(file);
    uint32_t answer = judge(card, length);
    printf("%u\n", (unsigned)answer);
    return answer == 0 ? 0 : 1;
}
