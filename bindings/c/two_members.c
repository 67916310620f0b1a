/* Two members of a group in one program, which bring each other's messages. */
#include <stdio.h>
#include <string.h>

#include "fochillun.h"

#define TEXT(text) (const uint8_t *)(text), strlen(text)

static const char founding[] = "version = 1\nmembers = 2\noperations = []\nobjects = []\npermissions = []\n";

/* Brings one member what the other sent and it has not received, and delivers what is due. */
static bool bring(struct member_place *from, uint32_t number, struct member_place *to) {
    uint8_t message[4096];
    size_t length;
    uint64_t received, told;
    member_read(to, number, &received);
    while (member_message(from, received + 1, message, sizeof message, &length) == POLICY_DONE) {
        received++;
        if (member_receive(to, number, (uint32_t)received, message, length, &told) != POLICY_DONE) return false;
    }
    while (member_deliver(to, &told) == POLICY_DONE && told != 0) {}
    return true;
}

int main(void) {
    struct member_place one = {0}, two = {0};
    uint8_t record[4096];
    size_t length;
    uint64_t told;
    if (member_open(&one, TEXT(founding), 1) != POLICY_DONE || member_open(&two, TEXT(founding), 2) != POLICY_DONE) return 1;
    if (member_submit(&one, 0, 0, TEXT("{\"name\":\"AddUser\",\"user\":\"ann\"}"), &told) != POLICY_DONE) return 1;
    if (member_submit(&two, 0, 0, TEXT("{\"name\":\"AddUser\",\"user\":\"ann\"}"), &told) != POLICY_DONE) return 1;
    for (int turn = 0; turn < 2; turn++)
        if (!bring(&one, 1, &two) || !bring(&two, 2, &one)) return 1;
    for (size_t number = 1; member_record(&two, number, record, sizeof record, &length) == POLICY_DONE; number++)
        printf("%.*s\n", (int)length, (const char *)record);
    member_close(&one);
    member_close(&two);
    return 0;
}
