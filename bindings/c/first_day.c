/* Founds a policy by the file that its word names, and answers the commands of standard input, a JSON object a line. */
#define _POSIX_C_SOURCE 200809L
#include <stdio.h>
#include <stdlib.h>

#include "fochillun.h"

int main(int count, char **words) {
    static uint8_t founding[1048577], answer[65536];
    struct policy_place place = {0};
    FILE *file = count == 2 ? fopen(words[1], "rb") : NULL;
    if (file == NULL) return 2;
    size_t length = fread(founding, 1, sizeof founding, file), room = 0;
    fclose(file);
    uint32_t status = policy_open(&place, founding, length);
    char *line = NULL;
    for (ssize_t read; status == POLICY_DONE && (read = getline(&line, &room, stdin)) > 0;) {
        status = policy_apply(&place, (const uint8_t *)line, (size_t)read, answer, sizeof answer, &length);
        if (status == POLICY_DONE) printf("%.*s\n", (int)length, (const char *)answer);
    }
    if (status != POLICY_DONE) fprintf(stderr, "first_day: %s\n", policy_status_text(status));
    free(line);
    policy_close(&place);
    return status != POLICY_DONE;
}
