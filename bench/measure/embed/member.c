/* Times calls on members from C: sixteen groups of two members, of which the first submits a check of a small policy. Each is brought what the other
 * sent, and delivers what is due. A move is a submit, a receipt or a delivery; in moves a second the texts of messages are told once too. Then a member
 * is made anew of 60,000 messages of its row. */
#include "timing.h"

enum { GROUPS = 16, TURNS = 600, OWN = 60000, LONGEST = 256 };
enum kind { SUBMIT, MESSAGE, RECEIVE_COMMAND, RECEIVE_ACKNOWLEDGEMENT, DELIVER, KINDS };

static const char *const names[KINDS] = {"member_submit of CheckAccess", "member_message", "member_receive of a command", "member_receive of an acknowledgement",
                                         "member_deliver of CheckAccess"};
static const char founding[] = "version = 1\nmembers = 2\noperations = [\"read\"]\nobjects = [\"ledger\"]\npermissions = [[\"read\", \"ledger\"]]\n";
static const char check[] = "{\"name\":\"CheckAccess\",\"session\":\"s1\",\"operation\":\"read\",\"object\":\"ledger\"}";
static const char policy[] = "[{\"name\":\"AddUser\",\"user\":\"ann\"},{\"name\":\"AddRole\",\"role\":\"clerk\"},"
                             "{\"name\":\"GrantPermission\",\"operation\":\"read\",\"object\":\"ledger\",\"role\":\"clerk\"},"
                             "{\"name\":\"AssignUser\",\"user\":\"ann\",\"role\":\"clerk\"},"
                             "{\"name\":\"CreateSession\",\"user\":\"ann\",\"session\":\"s1\",\"roles\":[\"clerk\"]}]";

struct text {
    uint8_t bytes[LONGEST];
    size_t length;
};

static struct member_place one[GROUPS], two[GROUPS];
static struct text texts[GROUPS];
static double spent[KINDS]; /* nanoseconds */
static unsigned made[KINDS];

static void done(uint32_t status) {
    if (status != POLICY_DONE) {
        fprintf(stderr, "member: status %u\n", status);
        exit(1);
    }
}

static void count(enum kind kind, double from) {
    spent[kind] += now() - from;
    made[kind] += GROUPS;
}

/* Tells a message of one member of each group, and brings it to the other. */
static void bring(struct member_place *from, uint32_t member, uint32_t number, struct member_place *to, enum kind kind) {
    uint64_t told;
    double begun = now();
    for (int i = 0; i < GROUPS; i++) done(member_message(from + i, number, texts[i].bytes, LONGEST, &texts[i].length));
    count(MESSAGE, begun);
    begun = now();
    for (int i = 0; i < GROUPS; i++) done(member_receive(to + i, member, number, texts[i].bytes, texts[i].length, &told));
    count(kind, begun);
}

static void deliver(struct member_place *places) {
    uint64_t told;
    double begun = now();
    for (int i = 0; i < GROUPS; i++) done(member_deliver(places + i, &told));
    count(DELIVER, begun);
    if (told == 0) exit(2);
}

/* The policy that is checked: five commands as the first message of a group's member 1. */
static void begin(struct member_place *first, struct member_place *second) {
    uint8_t text[1024];
    size_t length;
    uint64_t told;
    done(member_open(first, TEXT(founding), 1));
    done(member_open(second, TEXT(founding), 2));
    done(member_submit_batch(first, 0, 0, TEXT(policy), &told));
    done(member_message(first, 1, text, sizeof text, &length));
    done(member_receive(second, 1, 1, text, length, &told));
    done(member_message(second, 1, text, sizeof text, &length));
    done(member_receive(first, 2, 1, text, length, &told));
    for (int i = 0; i < 5; i++) {
        done(member_deliver(first, &told));
        done(member_deliver(second, &told));
    }
    if (member_check(first, TEXT("s1"), TEXT("read"), TEXT("ledger"), &told) != POLICY_GRANTED || told != 5) exit(2);
}

static void turn(uint32_t number) {
    uint64_t told;
    double begun = now();
    for (int i = 0; i < GROUPS; i++) done(member_submit(one + i, 0, number + 3, TEXT(check), &told));
    count(SUBMIT, begun);
    bring(one, 1, number, two, RECEIVE_COMMAND);
    deliver(two);
    bring(two, 2, number, one, RECEIVE_ACKNOWLEDGEMENT);
    deliver(one);
}

/* A lap, of which the moves a second are given, and each kind's nanoseconds a call are set. */
static double lap(double *laps) {
    double all = 0, moves = 0;
    memset(spent, 0, sizeof spent);
    memset(made, 0, sizeof made);
    for (int i = 0; i < GROUPS; i++) begin(one + i, two + i);
    for (uint32_t number = 2; number < TURNS + 2; number++) turn(number);
    for (int kind = 0; kind < KINDS; kind++) {
        laps[kind * LAPS] = spent[kind] / made[kind];
        all += spent[kind];
        moves += kind == MESSAGE ? 0 : made[kind];
    }
    for (int i = 0; i < GROUPS; i++) {
        done(member_close(one + i));
        done(member_close(two + i));
    }
    return moves / all * 1e9;
}

/* The messages of a row: what a member sends that submits so many checks. */
static struct text *row(void) {
    struct text *sent = malloc(OWN * sizeof *sent);
    struct member_place place = {0};
    uint64_t told;
    if (sent == NULL) exit(1);
    done(member_open(&place, TEXT(founding), 1));
    for (uint32_t i = 0; i < OWN; i++) {
        done(member_submit(&place, 0, i, TEXT(check), &told));
        done(member_message(&place, i + 1, sent[i].bytes, LONGEST, &sent[i].length));
    }
    done(member_close(&place));
    return sent;
}

/* Milliseconds of a member that takes them all. */
static double taken(const struct text *sent) {
    struct member_place place = {0};
    uint64_t told = 0;
    double begun = now();
    done(member_open(&place, TEXT(founding), 1));
    for (uint32_t i = 0; i < OWN; i++) done(member_take_own(&place, i + 1, sent[i].bytes, sent[i].length, &told));
    double spent_in_all = now() - begun;
    if (told != OWN) exit(2);
    done(member_close(&place));
    return spent_in_all / 1e6;
}

int main(void) {
    static double laps[KINDS * LAPS], moves[LAPS], restores[LAPS];
    struct text *sent = row();
    for (int i = 0; i < LAPS; i++) {
        moves[i] = lap(laps + i);
        restores[i] = taken(sent);
    }
    for (int kind = 0; kind < KINDS; kind++) tell(names[kind], laps + kind * LAPS, "ns");
    tell("moves of two members", moves, "a second");
    tell("member_take_own of 60,000 messages", restores, "ms");
    free(sent);
    return 0;
}
