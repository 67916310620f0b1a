/* Refuses each allocation in turn, by a malloc of its own: of an open, of each command of a day, and of each text that the policy tells. What is
 * refused changes nothing, and is answered when it is asked again. Linked with -Wl,--wrap=malloc,--wrap=realloc. */
#include "refusing.h"

static const char founding[] = "version = 2\nmembers = 1\nhierarchy = \"general\"\noperations = [\"pay\", \"read\"]\nobjects = [\"ledger\"]\n"
                               "permissions = [[\"read\", \"ledger\"], [\"pay\", \"ledger\"]]\n";

static const char *const day[] = {
    "{\"name\":\"AddUser\",\"user\":\"ann_of_the_long_name\"}",
    "{\"name\":\"AddRole\",\"role\":\"clerk\"}",
    "{\"name\":\"AddAscendant\",\"ascendant\":\"boss\",\"descendant\":\"clerk\"}",
    "{\"name\":\"GrantPermission\",\"operation\":\"read\",\"object\":\"ledger\",\"role\":\"clerk\"}",
    "{\"name\":\"CreateSsdSet\",\"set\":\"duty\",\"roles\":[\"boss\",\"clerk\"],\"n\":2}",
    "{\"name\":\"AssignUser\",\"user\":\"ann_of_the_long_name\",\"role\":\"clerk\"}",
    "{\"name\":\"AssignUser\",\"user\":\"ann_of_the_long_name\",\"role\":\"boss\"}",
    "{\"name\":\"CreateDsdSet\",\"set\":\"desk\",\"roles\":[\"boss\",\"clerk\"],\"n\":2}",
    "{\"name\":\"CreateSession\",\"user\":\"ann_of_the_long_name\",\"session\":\"s1\",\"roles\":[\"clerk\"]}",
    "{\"name\":\"SessionPermissions\",\"session\":\"s1\"}",
    "{\"name\":\"AssignedUsers\",\"role\":\"clerk\"}",
    "{\"name\":\"CheckAccess\",\"session\":\"s1\",\"operation\":\"read\",\"object\":\"ledger\"}",
    "{\"name\":\"DeleteUser\",\"user\":\"ann_of_the_long_name\"}",
};

/* What a policy shows of itself: the texts of reviews, one after the other. */
static size_t shown(struct policy_place *place, uint8_t *out, size_t room) {
    static const char *const reviews[] = {
        "{\"name\":\"AssignedUsers\",\"role\":\"clerk\"}",   "{\"name\":\"AuthorizedUsers\",\"role\":\"clerk\"}",
        "{\"name\":\"AssignedUsers\",\"role\":\"boss\"}",    "{\"name\":\"RolePermissions\",\"role\":\"boss\"}",
        "{\"name\":\"SessionRoles\",\"session\":\"s1\"}",    "{\"name\":\"AssignedRoles\",\"user\":\"ann_of_the_long_name\"}",
        "{\"name\":\"SsdRoleSets\"}",                        "{\"name\":\"DsdRoleSets\"}",
    };
    size_t end = 0;
    for (size_t i = 0; i < COUNT(reviews); i++) {
        size_t length;
        if (policy_apply(place, TEXT(reviews[i]), out + end, room - end, &length) != POLICY_DONE) stop("a review with memory");
        end += length;
    }
    return end;
}

/* The same commands with memory, up to this one. */
static void brought_to(struct policy_place *place, size_t commands) {
    uint8_t out[512];
    size_t length;
    if (policy_open(place, TEXT(founding)) != POLICY_DONE) stop("open with memory");
    for (size_t i = 0; i < commands; i++)
        if (policy_apply(place, TEXT(day[i]), out, sizeof out, &length) != POLICY_DONE) stop(day[i]);
}

static void refuse_open(void) {
    for (long granted = 0;; granted++) {
        struct policy_place place = {0};
        countdown = granted;
        uint32_t told = policy_open(&place, TEXT(founding));
        countdown = -1;
        if (told == POLICY_DONE) {
            policy_close(&place);
            return;
        }
        if (told != POLICY_NO_MEMORY) stop("an open that is refused memory");
        if (policy_close(&place) != POLICY_EMPTY_PLACE) stop("a place after a refused open");
    }
}

static void refuse_command(size_t number) {
    uint8_t before[2048], after[2048], out[512], wanted[512];
    size_t length, wanted_length;
    struct policy_place other = {0};
    brought_to(&other, number);
    if (policy_apply(&other, TEXT(day[number]), wanted, sizeof wanted, &wanted_length) != POLICY_DONE) stop("with memory");
    policy_close(&other);
    for (long granted = 0;; granted++) {
        struct policy_place place = {0};
        brought_to(&place, number);
        size_t begun = shown(&place, before, sizeof before);
        countdown = granted;
        uint32_t told = policy_apply(&place, TEXT(day[number]), out, sizeof out, &length);
        countdown = -1;
        bool refused = told == POLICY_NO_MEMORY;
        if (!refused && told != POLICY_DONE) stop("a command that is refused memory");
        if (refused) {
            if (length != 0) stop("a refused command has an answer");
            if (policy_answer(&place, out, sizeof out, &length) != POLICY_DONE) stop("the answer before");
            size_t ended = shown(&place, after, sizeof after);
            if (ended != begun || memcmp(before, after, begun) != 0) stop("a policy that a refused command changed");
            if (policy_apply(&place, TEXT(day[number]), out, sizeof out, &length) != POLICY_DONE) stop("asked again");
        }
        if (length != wanted_length || memcmp(out, wanted, length) != 0) stop("another answer");
        policy_close(&place);
        if (!refused) return;
    }
}

static uint32_t dump(struct policy_place *place, uint8_t *out, size_t room, size_t *length) { return policy_dump(place, out, room, length); }

static uint32_t subjects(struct policy_place *place, uint8_t *out, size_t room, size_t *length) {
    return policy_subjects(place, TEXT("read"), TEXT("ledger"), out, room, length);
}

static uint32_t explain(struct policy_place *place, uint8_t *out, size_t room, size_t *length) {
    return policy_explain(place, TEXT("{\"name\":\"AddUser\",\"user\":\"ann\"}"), out, room, length);
}

static uint32_t explain_check(struct policy_place *place, uint8_t *out, size_t room, size_t *length) {
    return policy_explain(place, TEXT("{\"name\":\"CheckAccess\",\"session\":\"s1\",\"operation\":\"read\",\"object\":\"ledger\"}"), out, room, length);
}

/* A text that is refused memory is none, and is the same when asked again. */
static void refuse_text(uint32_t (*tell)(struct policy_place *, uint8_t *, size_t, size_t *), const char *what) {
    static uint8_t wanted[2048], out[2048];
    struct policy_place place = {0};
    size_t wanted_length, length;
    brought_to(&place, 9);
    if (tell(&place, wanted, sizeof wanted, &wanted_length) != POLICY_DONE) stop(what);
    for (long granted = 0;; granted++) {
        memset(out, '#', sizeof out);
        countdown = granted;
        uint32_t told = tell(&place, out, sizeof out, &length);
        countdown = -1;
        if (told == POLICY_DONE) break;
        if (told != POLICY_NO_MEMORY || length != 0 || out[0] != '#') stop(what);
    }
    if (length != wanted_length || memcmp(out, wanted, length) != 0) stop(what);
    policy_close(&place);
}

/* A check and the last answer are given with no memory at all. */
static void without_memory(void) {
    struct policy_place place = {0};
    uint8_t out[512];
    size_t length;
    brought_to(&place, 9);
    countdown = 0;
    unsigned long before = refusals;
    uint32_t told = policy_check(&place, TEXT("s1"), TEXT("read"), TEXT("ledger"));
    uint32_t again = policy_answer(&place, out, sizeof out, &length);
    countdown = -1;
    if (told != POLICY_GRANTED || again != POLICY_DONE || refusals != before) stop("a check took memory");
    policy_close(&place);
}

int main(void) {
    refuse_open();
    for (size_t i = 0; i < COUNT(day); i++) refuse_command(i);
    refuse_text(dump, "a dump");
    refuse_text(subjects, "a listing of subjects");
    refuse_text(explain, "an explanation of a denial");
    refuse_text(explain_check, "an explanation of a check");
    without_memory();
    if (refusals == 0) stop("nothing was refused");
    printf("c: %lu refused allocations of an open, %zu commands, a dump, a listing and two explanations: nothing changed, and the same answers when asked again\n", refusals,
           COUNT(day));
    return 0;
}
