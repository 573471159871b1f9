/* Reads a file and counts its words of four bytes that are not ff ff ff ff, with one walk: what opening a table
   costs at least. */
#include <stdint.h>
#include <stdio.h>
#include <stdlib.h>

int main(int count, char **words) {
    FILE *file = count == 2 ? fopen(words[1], "rb") : NULL;
    if (!file || fseek(file, 0, SEEK_END)) return 1;
    size_t length = (size_t)ftell(file) / 4;
    uint32_t *table = malloc(length * 4);
    rewind(file);
    if (!table || fread(table, 4, length, file) != length) return 1;
    size_t found = 0;
    for (size_t i = 0; i < length; i++) found += table[i] != 0xffffffff;
    printf("%zu\n", found);
    return 0;
}
