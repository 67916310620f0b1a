/* Times calls of the library from C, on policies of 1, 100 and 1,000 roles, and ten times as many users with a session each, but at most
 * 1,024: a hundred objects, of which each role may read one. Nanoseconds of processor time a call (no call waits):
 * median of nine laps, the fastest and the slowest. */
#include "timing.h"

enum { NAMES = 1024, OBJECTS = 100 };

static struct policy_place place;
static char sessions[NAMES][24];
static char objects[OBJECTS][24];
static unsigned count, roles;
static uint8_t out[65536];
static size_t length;

static void apply(const char *command) {
    if (policy_apply(&place, TEXT(command), out, sizeof out, &length) != POLICY_DONE || strncmp((char *)out, "\"Done\"", length) != 0) {
        fprintf(stderr, "%s: %.*s\n", command, (int)length, (char *)out);
        exit(1);
    }
}

static void found(void) {
    static char founding[8192];
    char text[256];
    size_t end = (size_t)snprintf(founding, sizeof founding, "version = 1\nmembers = 1\noperations = [\"pay\", \"read\"]\nobjects = [");
    for (unsigned i = 0; i < OBJECTS; i++) {
        snprintf(objects[i], sizeof objects[i], "object%u", i);
        end += (size_t)snprintf(founding + end, sizeof founding - end, "\"%s\",", objects[i]);
    }
    end += (size_t)snprintf(founding + end, sizeof founding - end, "]\npermissions = [");
    for (unsigned i = 0; i < OBJECTS; i++)
        end += (size_t)snprintf(founding + end, sizeof founding - end, "[\"read\",\"%s\"],[\"pay\",\"%s\"],", objects[i], objects[i]);
    end += (size_t)snprintf(founding + end, sizeof founding - end, "]\n");
    if (policy_open(&place, (const uint8_t *)founding, end) != POLICY_DONE) exit(1);
    count = roles * 10 < NAMES ? roles * 10 : NAMES;
    for (unsigned i = 0; i < roles; i++) {
        snprintf(text, sizeof text, "{\"name\":\"AddRole\",\"role\":\"role%u\"}", i);
        apply(text);
        snprintf(text, sizeof text, "{\"name\":\"GrantPermission\",\"operation\":\"read\",\"object\":\"%s\",\"role\":\"role%u\"}", objects[i % OBJECTS], i);
        apply(text);
    }
    for (unsigned i = 0; i < count; i++) {
        snprintf(text, sizeof text, "{\"name\":\"AddUser\",\"user\":\"user%u\"}", i);
        apply(text);
        snprintf(text, sizeof text, "{\"name\":\"AssignUser\",\"user\":\"user%u\",\"role\":\"role%u\"}", i, i % roles);
        apply(text);
        snprintf(sessions[i], sizeof sessions[i], "session%u", i);
        snprintf(text, sizeof text, "{\"name\":\"CreateSession\",\"user\":\"user%u\",\"session\":\"%s\",\"roles\":[\"role%u\"]}", i, sessions[i], i % roles);
        apply(text);
    }
}

static uint32_t check(unsigned at, const char *operation) {
    return policy_check(&place, TEXT(sessions[at]), TEXT(operation), TEXT(objects[at % roles % OBJECTS]));
}

static void granted(unsigned at) { if (check(at, "read") != POLICY_GRANTED) exit(2); }
static void refused(unsigned at) { if (check(at, "pay") != POLICY_REFUSED) exit(2); }

static void no_session(unsigned at) {
    (void)at;
    if (policy_check(&place, TEXT("nobody"), TEXT("read"), TEXT("object0")) != POLICY_NO_SESSION) exit(2);
}

static void empty(unsigned at) {
    (void)at;
    struct policy_place none = {0};
    if (policy_check(&none, TEXT("nobody"), TEXT("read"), TEXT("object0")) != POLICY_EMPTY_PLACE) exit(2);
}

static void add_and_delete(unsigned at) {
    static bool is_there;
    (void)at;
    apply(is_there ? "{\"name\":\"DeleteUser\",\"user\":\"someone\"}" : "{\"name\":\"AddUser\",\"user\":\"someone\"}");
    is_there = !is_there;
}

static void check_by_command(unsigned at) {
    char text[128];
    snprintf(text, sizeof text, "{\"name\":\"CheckAccess\",\"session\":\"%s\",\"operation\":\"read\",\"object\":\"%s\"}", sessions[at],
             objects[at % roles % OBJECTS]);
    if (policy_apply(&place, TEXT(text), out, sizeof out, &length) != POLICY_DONE || length != 9) exit(2);
}

static void timed(const char *what, unsigned calls, void (*call)(unsigned)) {
    double laps[LAPS];
    for (int lap = 0; lap < LAPS; lap++) {
        double from = now();
        for (unsigned i = 0; i < calls; i++) call((i * 7919u) % count);
        laps[lap] = (now() - from) / calls;
    }
    char row[128];
    snprintf(row, sizeof row, "%s, %u roles, %u sessions", what, roles, count);
    tell(row, laps, "ns");
}

int main(void) {
    static const unsigned sizes[] = {1, 100, 1000};
    for (size_t i = 0; i < sizeof sizes / sizeof *sizes; i++) {
        roles = sizes[i];
        found();
        timed("policy_check granted", 200000, granted);
        timed("policy_check refused", 200000, refused);
        timed("policy_check of no session", 200000, no_session);
        timed("policy_check of an empty place", 200000, empty);
        timed("policy_apply of CheckAccess", 20000, check_by_command);
        timed("policy_apply of AddUser or DeleteUser", 5000, add_and_delete);
        policy_close(&place);
    }
    return 0;
}
