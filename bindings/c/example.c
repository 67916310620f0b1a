/* A policy in a C program. */
#include <stdio.h>
#include <string.h>

#include "fochillun.h"

#define TEXT(text) (const uint8_t *)(text), strlen(text)

static const char founding[] = "version = 1\nmembers = 1\noperations = [\"read\"]\nobjects = [\"ledger\"]\n"
                               "permissions = [[\"read\", \"ledger\"]]\n";

int main(void) {
    static const char *const commands[] = {
        "{\"name\":\"AddUser\",\"user\":\"ann\"}",
        "{\"name\":\"AddRole\",\"role\":\"clerk\"}",
        "{\"name\":\"GrantPermission\",\"operation\":\"read\",\"object\":\"ledger\",\"role\":\"clerk\"}",
        "{\"name\":\"AssignUser\",\"user\":\"ann\",\"role\":\"clerk\"}",
        "{\"name\":\"CreateSession\",\"user\":\"ann\",\"session\":\"s1\",\"roles\":[\"clerk\"]}",
    };
    struct policy_place place = {0};
    if (policy_open(&place, TEXT(founding)) != POLICY_DONE) return 1;
    for (size_t i = 0; i < sizeof commands / sizeof *commands; i++) {
        uint8_t answer[256];
        size_t length;
        if (policy_apply(&place, TEXT(commands[i]), answer, sizeof answer, &length) != POLICY_DONE) return 1;
        printf("%.*s\n", (int)length, (const char *)answer);
    }
    bool granted = policy_check(&place, TEXT("s1"), TEXT("read"), TEXT("ledger")) == POLICY_GRANTED;
    puts(granted ? "granted" : "not granted");
    policy_close(&place);
    return !granted;
}
