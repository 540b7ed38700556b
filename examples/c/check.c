/* check safe FILE CERT | check run FILE STIM: what aigcheck does, over the library. */
#include <stdio.h>
#include <stdlib.h>
#include <string.h>

#include "aigcheck.h"

/* The bytes of a file, or null. */
static uint8_t *bytes_of(const char *name, size_t *length)
{
    FILE *file = fopen(name, "rb");
    uint8_t *bytes = malloc(1);
    size_t room = 1, got;
    *length = 0;
    while (file && bytes && (got = fread(bytes + *length, 1, room - *length, file)) > 0) {
        *length += got;
        if (*length == room)
            bytes = realloc(bytes, room *= 2);
    }
    if (!file || ferror(file)) {
        free(bytes);
        bytes = NULL;
    }
    if (file)
        fclose(file);
    return bytes;
}

int main(int count, char **words)
{
    if (count != 4 || (strcmp(words[1], "safe") && strcmp(words[1], "run"))) {
        fprintf(stderr, "check safe FILE CERT | check run FILE STIM\n");
        return 3;
    }
    size_t circuit_length, evidence_length, length;
    uint8_t line[AIGCHECK_ROOM];
    uint8_t *circuit = bytes_of(words[2], &circuit_length), *evidence = bytes_of(words[3], &evidence_length);
    int status = AIGCHECK_NONE;
    if (circuit && evidence)
        status = (strcmp(words[1], "safe") ? aigcheck_run : aigcheck_safe)(circuit, circuit_length, evidence, evidence_length, line, sizeof line, &length);
    if (status != AIGCHECK_NONE)
        fwrite(line, 1, length, stdout);
    free(circuit);
    free(evidence);
    return status;
}
