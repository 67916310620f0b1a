/* Each call on a member and each status but that of memory, which refuse_each_member_allocation.c brings about. MESSAGE_TOO_LONG is met by batches
 * alone: the texts of a command and of a message are themselves too long before. */
#include "expecting.h"

#define FOUNDING "version = 1\nmembers = 2\n" LISTS
#define ADD_ANN "{\"name\":\"AddUser\",\"user\":\"ann\"}"
#define SENT_ANN "{\"caller\":7,\"commands\":[" ADD_ANN "],\"serial\":0,\"stamp\":[1,1]}"
#define TOLD_ANN "{\"answer\":\"Done\",\"caller\":7,\"command\":" ADD_ANN ",\"serial\":0,\"stamp\":[1,1]}"
#define ACKNOWLEDGEMENT "{\"stamp\":[3,2]}"
#define EIGHT(text) text "," text "," text "," text "," text "," text "," text "," text
#define LONGEST_TEXT 1048576

static struct member_place one, two;

/* ---- Calls, and what they are wanted to tell */

static void opens(struct member_place *place, const char *founding, uint32_t number, uint32_t status) {
    expect(member_open(place, TEXT(founding), number), status, founding);
}

/* Submits, batches and receipts have the same words, and so has what they would send. */
typedef uint32_t step_call(struct member_place *, uint32_t, uint32_t, const uint8_t *, size_t, uint64_t *);
typedef uint32_t text_call(struct member_place *, uint32_t, uint32_t, const uint8_t *, size_t, uint8_t *, size_t, size_t *);

static void steps(step_call call, struct member_place *place, uint32_t of, uint32_t number, const char *text, uint32_t status, uint64_t wanted) {
    uint64_t told = 99;
    expect(call(place, of, number, TEXT(text), &told), status, text);
    expect(told, wanted, "what a step tells");
}

static void writes(text_call call, struct member_place *place, uint32_t of, uint32_t number, const char *text, uint32_t status, const char *wanted) {
    uint8_t out[512];
    size_t length = 99;
    memset(out, '#', sizeof out);
    expect(call(place, of, number, TEXT(text), out, sizeof out, &length), status, text);
    expect_text(out, length, wanted, text);
}

/* A step is refused, and so is what it would send. */
static void refuses(step_call step, struct member_place *place, uint32_t of, uint32_t number, const char *text, uint32_t status, uint64_t told) {
    text_call *next = step == member_submit ? member_next_submit : step == member_receive ? member_next_answer : member_next_submit_batch;
    steps(step, place, of, number, text, status, told);
    writes(next, place, of, number, text, status, "");
}

static void takes_own(struct member_place *place, uint32_t number, const char *message, uint32_t status, uint64_t wanted) {
    uint64_t told = 99;
    expect(member_take_own(place, number, TEXT(message), &told), status, message);
    expect(told, wanted, "what is told of one of its own");
}

static void delivers(struct member_place *place, uint32_t status, uint64_t wanted) {
    uint64_t told = 99;
    expect(member_deliver(place, &told), status, "a delivery");
    expect(told, wanted, "what a delivery tells");
}

/* What a call writes, by the number of its message or record. */
static void tells(uint32_t (*call)(struct member_place *, size_t, uint8_t *, size_t, size_t *), struct member_place *place, size_t number,
                  uint32_t status, const char *wanted) {
    uint8_t out[512];
    size_t length = 99;
    memset(out, '#', sizeof out);
    expect(call(place, number, out, sizeof out, &length), status, wanted);
    expect_text(out, length, wanted, "a text by its number");
}

static void waits_are(struct member_place *place, uint64_t clock, uint32_t member, uint32_t at, uint32_t awaited) {
    struct member_waiting told = {9, 9, 9, 9};
    expect(member_waits(place, &told), POLICY_DONE, "waits");
    expect(told.clock == clock && told.member == member && told.place == at && told.awaited == awaited, 1, "what it waits for");
}

static void checks(struct member_place *place, const char *session, const char *operation, const char *object, uint32_t status, uint64_t records) {
    uint64_t told = 99;
    expect(member_check(place, TEXT(session), TEXT(operation), TEXT(object), &told), status, session);
    expect(told, records, "the records of a check");
}

static void numbers_are(struct member_place *place, uint64_t read_of_other, uint64_t next_serial) {
    uint64_t told = 99;
    expect(member_read(place, place == &one ? 2 : 1, &told), POLICY_DONE, "read");
    expect(told, read_of_other, "how many were read");
    expect(member_next_serial(place, 7, &told), POLICY_DONE, "next serial");
    expect(told, next_serial, "the next serial");
}

/* ---- What they are tried with */

static void each_refused_founding(void) {
    for (size_t i = 0; i < COUNT(refused_foundings); i++) opens(&one, refused_foundings[i].text, 1, refused_foundings[i].status);
    uint8_t *text = many(LONGEST_TEXT + 1, '\n');
    expect(member_open(&one, text, LONGEST_TEXT + 1, 1), POLICY_FOUNDING_TOO_LONG, "a founding too long");
    free(text);
    opens(&one, FOUNDING, 0, MEMBER_UNKNOWN_MEMBER);
    opens(&one, FOUNDING, 3, MEMBER_UNKNOWN_MEMBER);
    expect(member_close(&one), POLICY_EMPTY_PLACE, "close after refused foundings");
}

/* Texts that are none, of a command, of commands and of a message. */
static void each_refused_text(void) {
    char text[256];
    for (size_t i = 0; i < COUNT(refused_commands); i++) {
        const char *command = refused_commands[i].text;
        uint32_t status = refused_commands[i].status, inside = status == POLICY_COMMAND_NOT_OBJECT ? POLICY_COMMAND_WRONG_KIND : status;
        refuses(member_submit, &one, 7, 0, command, status, 0);
        snprintf(text, sizeof text, "[%s]", command);
        refuses(member_submit_batch, &one, 7, 0, text, inside, 0);
        snprintf(text, sizeof text, "{\"caller\":0,\"commands\":[%s],\"serial\":0,\"stamp\":[1,2]}", command);
        refuses(member_receive, &one, 2, 1, text, inside, 0);
        takes_own(&one, 1, text, inside, 0);
    }
    refuses(member_submit_batch, &one, 7, 0, ADD_ANN, POLICY_COMMAND_WRONG_KIND, 0);
    refuses(member_receive, &one, 2, 1, "[]", POLICY_COMMAND_NOT_OBJECT, 0);
    refuses(member_receive, &one, 2, 1, "{}", POLICY_COMMAND_MISSING_FIELD, 0);
    refuses(member_receive, &one, 2, 1, "{\"stamp\":[1]}", POLICY_COMMAND_WRONG_KIND, 0);
    takes_own(&one, 1, "[]", POLICY_COMMAND_NOT_OBJECT, 0);
    takes_own(&one, 1, "{\"stamp\":[1,1],\"at\":1}", POLICY_COMMAND_EXTRA_FIELD, 0);
}

static void each_text_too_long(void) {
    uint8_t *text = many(LONGEST_TEXT + 1, ' ');
    uint64_t told;
    size_t length;
    uint8_t out[1];
    expect(member_submit(&one, 7, 0, text, 65537, &told), POLICY_COMMAND_TOO_LONG, "a command too long");
    expect(member_next_submit(&one, 7, 0, text, 65537, out, 1, &length), POLICY_COMMAND_TOO_LONG, "a next command too long");
    expect(member_submit_batch(&one, 7, 0, text, LONGEST_TEXT, &told), POLICY_COMMAND_NOT_JSON, "commands not too long");
    expect(member_submit_batch(&one, 7, 0, text, LONGEST_TEXT + 1, &told), POLICY_COMMAND_TOO_LONG, "commands too long");
    expect(member_next_submit_batch(&one, 7, 0, text, LONGEST_TEXT + 1, out, 1, &length), POLICY_COMMAND_TOO_LONG, "next commands too long");
    expect(member_receive(&one, 2, 1, text, LONGEST_TEXT + 1, &told), POLICY_COMMAND_TOO_LONG, "a message too long");
    expect(member_next_answer(&one, 2, 1, text, LONGEST_TEXT + 1, out, 1, &length), POLICY_COMMAND_TOO_LONG, "an answer to a message too long");
    expect(member_take_own(&one, 1, text, LONGEST_TEXT + 1, &told), POLICY_COMMAND_TOO_LONG, "its own too long");
    free(text);
}

static size_t put_session(char *text, int roles) {
    size_t end = (size_t)sprintf(text, "{\"name\":\"CreateSession\",\"user\":\"u\",\"session\":\"s1\",\"roles\":[");
    for (int role = 0; role < roles; role++) end += (size_t)sprintf(text + end, "%s\"%064d\"", role > 0 ? "," : "", role);
    return end + (size_t)sprintf(text + end, "]},");
}

/* Commands in an array of so many bytes. */
static void put_array(char *text, size_t length) {
    size_t end = (size_t)sprintf(text, "[");
    for (int i = 0; i < 16; i++) end += put_session(text + end, 976);
    end += put_session(text + end, 17);
    int rest = (int)(length - end) - (int)strlen("{\"name\":\"AddUser\",\"user\":\"\"}]");
    end += (size_t)sprintf(text + end, "{\"name\":\"AddUser\",\"user\":\"%0*d\"}]", rest, 0);
    expect(end, length, "the length of an array");
}

/* A message's text has 49 bytes more than its commands, where the caller has one digit. */
static void longest_message(void) {
    char *text = (char *)many(LONGEST_TEXT, ' ');
    uint8_t *out = many(LONGEST_TEXT, '#');
    size_t length = 99, room = LONGEST_TEXT;
    uint64_t told = 99;
    put_array(text, LONGEST_TEXT - 48);
    expect(member_submit_batch(&one, 7, 0, TEXT(text), &told), MEMBER_MESSAGE_TOO_LONG, "a batch too long");
    expect(member_next_submit_batch(&one, 7, 0, TEXT(text), out, room, &length), MEMBER_MESSAGE_TOO_LONG, "a next batch too long");
    expect(length == 0 && told == 0 && out[0] == '#', 1, "what is told of a batch too long");
    put_array(text, LONGEST_TEXT - 49);
    expect(member_next_submit_batch(&one, 7, 0, TEXT(text), out, room - 1, &length), POLICY_SHORT_BUFFER, "the longest message, without room");
    expect(length == LONGEST_TEXT && out[0] == '#', 1, "the longest message's length");
    expect(member_next_submit_batch(&one, 7, 0, TEXT(text), out, room, &length), POLICY_DONE, "the longest message");
    expect(member_take_own(&one, 1, out, length, &told), POLICY_DONE, "the longest message, taken");
    expect(member_receive(&two, 1, 1, out, length, &told), POLICY_DONE, "the longest message, received");
    free(text);
    free(out);
}

/* What commands and a serial are refused for. Two commands of the last serial would have one beyond it. */
static void each_refused_submit(void) {
    static const char sixty_five[] = "[" EIGHT(EIGHT(ADD_ANN)) "," ADD_ANN "]", two_commands[] = "[" ADD_ANN "," ADD_ANN "]";
    refuses(member_submit_batch, &one, 7, 0, "[]", MEMBER_BAD_BATCH, 0);
    refuses(member_submit_batch, &one, 7, 0, sixty_five, MEMBER_BAD_BATCH, 0);
    refuses(member_submit_batch, &one, 7, 4294967295, two_commands, MEMBER_BAD_BATCH, 0);
    refuses(member_submit_batch, &one, 7, 1, two_commands, MEMBER_BAD_SERIAL, 0);
    refuses(member_submit, &one, 7, 4294967295, ADD_ANN, MEMBER_BAD_SERIAL, 0);
}

/* What member 2 does not receive before the first message of member 1. */
static void each_refused_receipt(void) {
    refuses(member_receive, &two, 0, 1, SENT_ANN, MEMBER_UNKNOWN_MEMBER, 0);
    refuses(member_receive, &two, 3, 1, SENT_ANN, MEMBER_UNKNOWN_MEMBER, 0);
    refuses(member_receive, &two, 2, 1, SENT_ANN, MEMBER_FROM_SELF, 0);
    refuses(member_receive, &two, 1, 0, SENT_ANN, MEMBER_REPEAT, 1);
    refuses(member_receive, &two, 1, 2, SENT_ANN, MEMBER_GAP, 1);
    refuses(member_receive, &two, 1, 1, "{\"stamp\":[1,2]}", MEMBER_STAMP_NOT_RISING, 0);
    refuses(member_receive, &two, 1, 1, "{\"caller\":7,\"commands\":[],\"serial\":0,\"stamp\":[1,1]}", MEMBER_BAD_BATCH, 0);
    refuses(member_receive, &two, 1, 1, "{\"stamp\":[9007199254740991,1]}", MEMBER_CLOCK_FULL, 0);
    refuses(member_receive, &two, 1, 1, "{\"caller\":7,\"commands\":[" ADD_ANN "],\"serial\":5,\"stamp\":[1,1]}", MEMBER_BAD_SERIAL, 0);
}

/* What member 1 does not take behind its first message. */
static void each_refused_own(void) {
    takes_own(&one, 1, "{\"stamp\":[9,1]}", MEMBER_REPEAT, 2);
    takes_own(&one, 3, "{\"stamp\":[9,1]}", MEMBER_GAP, 2);
    takes_own(&one, 2, "{\"stamp\":[1,1]}", MEMBER_STAMP_NOT_RISING, 0);
    takes_own(&one, 2, "{\"stamp\":[9,2]}", MEMBER_STAMP_NOT_RISING, 0);
    takes_own(&one, 2, "{\"caller\":7,\"commands\":[],\"serial\":1,\"stamp\":[9,1]}", MEMBER_BAD_BATCH, 0);
    takes_own(&one, 2, "{\"stamp\":[9007199254740992,1]}", MEMBER_CLOCK_FULL, 0);
    takes_own(&one, 2, "{\"caller\":7,\"commands\":[" ADD_ANN "],\"serial\":0,\"stamp\":[9,1]}", MEMBER_BAD_SERIAL, 1);
}

/* A command that member 1 submits, until both have delivered it. */
static void one_command(void) {
    steps(member_submit, &one, 7, 0, ADD_ANN, POLICY_DONE, 1);
    waits_are(&one, 1, 1, 0, 2);
    delivers(&one, POLICY_DONE, 0);
    tells(member_message, &one, 1, POLICY_DONE, SENT_ANN);
    tells(member_message, &one, 0, MEMBER_NOT_SENT, "");
    tells(member_message, &one, 2, MEMBER_NOT_SENT, "");
    each_refused_receipt();
    writes(member_next_answer, &two, 1, 1, SENT_ANN, POLICY_DONE, "{\"stamp\":[2,2]}");
    steps(member_receive, &two, 1, 1, SENT_ANN, POLICY_DONE, 1);
    steps(member_receive, &two, 1, 1, SENT_ANN, MEMBER_REPEAT, 2);
    delivers(&two, POLICY_DONE, 1);
    delivers(&two, POLICY_DONE, 0);
    tells(member_message, &two, 1, POLICY_DONE, ACKNOWLEDGEMENT);
    writes(member_next_answer, &one, 2, 1, ACKNOWLEDGEMENT, POLICY_DONE, "");
    steps(member_receive, &one, 2, 1, ACKNOWLEDGEMENT, POLICY_DONE, 0);
    delivers(&one, POLICY_DONE, 1);
    tells(member_record, &one, 1, POLICY_DONE, TOLD_ANN);
    tells(member_record, &one, 0, MEMBER_NOT_SENT, "");
    tells(member_record, &one, 2, MEMBER_NOT_SENT, "");
    waits_are(&one, 0, 0, 0, 0);
    numbers_are(&one, 1, 1);
    numbers_are(&two, 1, 0);
    each_refused_own();
}

/* Four commands by the row of member 1, and then the policy that both have. */
#define CLERK                                                                                                                              \
    "{\"name\":\"AddRole\",\"role\":\"clerk\"},{\"name\":\"GrantPermission\",\"operation\":\"read\",\"object\":\"ledger\",\"role\":\"clerk\"}," \
    "{\"name\":\"AssignUser\",\"user\":\"ann\",\"role\":\"clerk\"}"
#define SESSION "{\"name\":\"CreateSession\",\"user\":\"ann\",\"session\":\"s1\",\"roles\":[\"clerk\"]}"
#define SENT_CLERK "{\"caller\":7,\"commands\":[" CLERK "," SESSION "],\"serial\":1,\"stamp\":[5,1]}"

static void commands_by_the_row(void) {
    writes(member_next_submit_batch, &one, 7, 1, "[" CLERK "," SESSION "]", POLICY_DONE, SENT_CLERK);
    writes(member_next_submit, &one, 7, 1, ADD_ANN, POLICY_DONE, "{\"caller\":7,\"commands\":[" ADD_ANN "],\"serial\":1,\"stamp\":[5,1]}");
    takes_own(&one, 2, SENT_CLERK, POLICY_DONE, 2);
    numbers_are(&one, 1, 5);
    writes(member_next_answer, &two, 1, 2, SENT_CLERK, POLICY_DONE, "{\"stamp\":[6,2]}");
    takes_own(&two, 2, "{\"stamp\":[6,2]}", POLICY_DONE, 2);
    steps(member_receive, &two, 1, 2, SENT_CLERK, POLICY_DONE, 0);
    delivers(&two, POLICY_DONE, 2);
    checks(&two, "s1", "read", "ledger", POLICY_NO_SESSION, 2);
    for (uint64_t record = 3; record <= 5; record++) delivers(&two, POLICY_DONE, record);
    checks(&two, "s1", "read", "ledger", POLICY_GRANTED, 5);
    checks(&two, "s1", "pay", "ledger", POLICY_REFUSED, 5);
    checks(&two, "s1", "fly", "ledger", POLICY_NO_OPERATION, 5);
    checks(&two, "s1", "read", "moon", POLICY_NO_OBJECT, 5);
    checks(&two, "s 1", "read", "ledger", POLICY_BAD_NAME, 5);
    waits_are(&one, 5, 1, 0, 2);
    steps(member_receive, &one, 2, 2, "{\"stamp\":[6,2]}", POLICY_DONE, 0);
    delivers(&one, POLICY_DONE, 2);
    steps(member_submit_batch, &one, 7, 5, "[" ADD_ANN "]", POLICY_DONE, 3);
}

/* Each text in a buffer that is too short, which stays as it is. */
static void is_short(uint32_t status, const size_t *length, size_t wanted, const uint8_t *out) {
    expect(status, POLICY_SHORT_BUFFER, "a short buffer");
    expect(*length, wanted, "the length that a text takes");
    expect(out[0], '#', "a short buffer is as it was");
}

static void short_buffers(void) {
    static const char third[] = "{\"caller\":7,\"commands\":[" ADD_ANN "],\"serial\":5,\"stamp\":[8,1]}";
    uint8_t out[5] = "#";
    size_t length = 0;
    is_short(member_message(&two, 1, out, sizeof out, &length), &length, strlen(ACKNOWLEDGEMENT), out);
    is_short(member_record(&two, 1, out, 0, &length), &length, strlen(TOLD_ANN), out);
    is_short(member_next_submit(&two, 7, 0, TEXT(ADD_ANN), out, sizeof out, &length), &length, strlen(SENT_ANN), out);
    is_short(member_next_submit_batch(&two, 7, 0, TEXT("[" ADD_ANN "]"), out, sizeof out, &length), &length, strlen(SENT_ANN), out);
    is_short(member_next_answer(&two, 1, 3, TEXT(third), out, sizeof out, &length), &length, strlen(ACKNOWLEDGEMENT), out);
    is_short(member_dump(&two, out, sizeof out, &length), &length, strlen(ADD_ANN CLERK SESSION) + 3 + 5 * strlen(LINE("")), out);
}

static void dumps(void) {
    uint8_t out[512];
    size_t length = 99;
    memset(out, '#', sizeof out);
    expect(member_dump(&one, out, sizeof out, &length), POLICY_DONE, "a dump");
    expect_text(out, length, LINE(ADD_ANN) "\n" LINE("{\"name\":\"AddRole\",\"role\":\"clerk\"}") "\n", "a dump");
}

/* What the policy of a member answers, by its text. */
static void reviews(struct member_place *place, const char *command, uint32_t status, const char *wanted) {
    uint8_t out[512];
    size_t length = 99;
    memset(out, '#', sizeof out);
    expect(member_review(place, TEXT(command), out, sizeof out, &length), status, command);
    expect_text(out, length, wanted, command);
}

#define USERS(role) "{\"name\":\"AssignedUsers\",\"role\":\"" role "\"}"
#define CHECK(operation) "{\"name\":\"CheckAccess\",\"session\":\"s1\",\"operation\":\"" operation "\",\"object\":\"ledger\"}"

/* Of member 2, which has delivered all. */
static void each_review(void) {
    reviews(&two, USERS("clerk"), POLICY_DONE, "{\"names\":[\"ann\"]}");
    reviews(&two, USERS("boss"), POLICY_DONE, "{\"denied\":\"NoRole\",\"number\":4}");
    reviews(&two, CHECK("read"), POLICY_DONE, "\"Granted\"");
    reviews(&two, CHECK("pay"), POLICY_DONE, "\"Refused\"");
    reviews(&two, CHECK("fly"), POLICY_DONE, "{\"denied\":\"NoOperation\",\"number\":27}");
    reviews(&two, ADD_ANN, MEMBER_NOT_A_REVIEW, "");
    for (size_t i = 0; i < COUNT(refused_commands); i++) reviews(&two, refused_commands[i].text, refused_commands[i].status, "");
    uint8_t out[5] = "#";
    size_t length = 0;
    is_short(member_review(&two, TEXT(USERS("clerk")), out, sizeof out, &length), &length, strlen("{\"names\":[\"ann\"]}"), out);
    uint8_t *text = many(65537, ' ');
    expect(member_review(&two, text, 65537, out, sizeof out, &length), POLICY_COMMAND_TOO_LONG, "a review too long");
    free(text);
}

/* Who may by the policy of a member. */
static void lists(struct member_place *place, const char *operation, const char *object, uint32_t status, const char *wanted) {
    uint8_t out[512];
    size_t length = 99;
    memset(out, '#', sizeof out);
    expect(member_subjects(place, TEXT(operation), TEXT(object), out, sizeof out, &length), status, operation);
    expect_text(out, length, wanted, operation);
}

#define CLERKS "{\"sessions\":[\"s1\"],\"users\":[\"ann\"]}"
#define NOBODY "{\"sessions\":[],\"users\":[]}"

/* Of member 2, which has delivered all. */
static void each_listing(void) {
    lists(&two, "read", "ledger", POLICY_DONE, CLERKS);
    lists(&two, "pay", "ledger", POLICY_DONE, NOBODY);
    lists(&two, "fly", "moon", POLICY_NO_OPERATION, "");
    lists(&two, "read", "moon", POLICY_NO_OBJECT, "");
    lists(&two, "read", "mo on", POLICY_BAD_NAME, "");
    uint8_t out[5] = "#";
    size_t length = 0;
    is_short(member_subjects(&two, TEXT("read"), TEXT("ledger"), out, sizeof out, &length), &length, strlen(CLERKS), out);
}

/* A place that only observes member 2, beside it. */
static void an_observer(void) {
    static struct member_place observer;
    expect(member_observe(&observer, TEXT(FOUNDING), 3), MEMBER_UNKNOWN_MEMBER, "an observer of none");
    expect(member_observe(&observer, TEXT(""), 2), POLICY_FOUNDING_BAD_VERSION, "an observer of no founding");
    expect(member_observe(&observer, TEXT(FOUNDING), 2), POLICY_DONE, "an observer");
    expect(member_observe(&observer, TEXT(FOUNDING), 2), POLICY_FULL_PLACE, "an observer in a full place");
    refuses(member_submit, &observer, 7, 0, ADD_ANN, MEMBER_OBSERVES, 0);
    refuses(member_submit_batch, &observer, 7, 0, "no text", MEMBER_OBSERVES, 0);
    refuses(member_receive, &observer, 1, 1, "{}", POLICY_COMMAND_MISSING_FIELD, 0);
    refuses(member_receive, &observer, 1, 2, SENT_ANN, MEMBER_GAP, 1);
    refuses(member_receive, &observer, 1, 1, SENT_ANN, MEMBER_NOT_YET, 0);
    takes_own(&observer, 1, ACKNOWLEDGEMENT, POLICY_DONE, 1);
    writes(member_next_answer, &observer, 1, 1, SENT_ANN, POLICY_DONE, "");
    steps(member_receive, &observer, 1, 1, SENT_ANN, POLICY_DONE, 0);
    refuses(member_receive, &observer, 1, 2, SENT_CLERK, MEMBER_NOT_YET, 0);
    delivers(&observer, POLICY_DONE, 1);
    tells(member_record, &observer, 1, POLICY_DONE, TOLD_ANN);
    tells(member_message, &observer, 1, POLICY_DONE, ACKNOWLEDGEMENT);
    tells(member_message, &observer, 2, MEMBER_NOT_SENT, "");
    reviews(&observer, USERS("clerk"), POLICY_DONE, "{\"denied\":\"NoRole\",\"number\":4}");
    lists(&observer, "read", "ledger", POLICY_DONE, NOBODY);
    expect(member_close(&observer), POLICY_DONE, "close an observer");
}

/* A member whose clock is at its end, and one that has sent all that it may. */
static void full_members(void) {
    opens(&one, "clock = 9007199254740991\n" FOUNDING, 1, POLICY_DONE);
    refuses(member_submit, &one, 7, 0, ADD_ANN, MEMBER_CLOCK_FULL, 0);
    refuses(member_submit_batch, &one, 7, 0, "[" ADD_ANN "]", MEMBER_CLOCK_FULL, 0);
    expect(member_close(&one), POLICY_DONE, "close at the end of the clock");
    opens(&one, "sent_limit = 1\n" FOUNDING, 1, POLICY_DONE);
    steps(member_submit, &one, 7, 0, ADD_ANN, POLICY_DONE, 1);
    refuses(member_submit, &one, 7, 1, ADD_ANN, MEMBER_SENT_FULL, 0);
    refuses(member_submit_batch, &one, 7, 1, "[" ADD_ANN "]", MEMBER_SENT_FULL, 0);
    takes_own(&one, 2, "{\"stamp\":[9,1]}", MEMBER_SENT_FULL, 0);
    refuses(member_receive, &one, 2, 1, "{\"caller\":7,\"commands\":[" ADD_ANN "],\"serial\":0,\"stamp\":[5,2]}", MEMBER_SENT_FULL, 0);
    expect(member_close(&one), POLICY_DONE, "close of one that has sent all");
}

static void empty_place(void) {
    uint8_t out[8];
    size_t length = 9;
    uint64_t told = 9;
    struct member_waiting waiting = {9, 9, 9, 9};
    refuses(member_submit, &one, 7, 0, ADD_ANN, POLICY_EMPTY_PLACE, 0);
    refuses(member_submit_batch, &one, 7, 0, "[" ADD_ANN "]", POLICY_EMPTY_PLACE, 0);
    refuses(member_receive, &one, 2, 1, SENT_ANN, POLICY_EMPTY_PLACE, 0);
    takes_own(&one, 1, SENT_ANN, POLICY_EMPTY_PLACE, 0);
    delivers(&one, POLICY_EMPTY_PLACE, 0);
    tells(member_message, &one, 1, POLICY_EMPTY_PLACE, "");
    tells(member_record, &one, 1, POLICY_EMPTY_PLACE, "");
    expect(member_dump(&one, out, sizeof out, &length), POLICY_EMPTY_PLACE, "dump of none");
    expect(length, 0, "a dump of none has no length");
    expect(member_read(&one, 2, &told), POLICY_EMPTY_PLACE, "read of none");
    expect(told, 0, "none were read");
    told = 9;
    expect(member_next_serial(&one, 7, &told), POLICY_EMPTY_PLACE, "next serial of none");
    expect(told, 0, "no next serial");
    expect(member_waits(&one, &waiting), POLICY_EMPTY_PLACE, "waits of none");
    expect(waiting.clock | waiting.member | waiting.place | waiting.awaited, 0, "none waits");
    checks(&one, "s1", "read", "ledger", POLICY_EMPTY_PLACE, 0);
    reviews(&one, ADD_ANN, POLICY_EMPTY_PLACE, "");
    lists(&one, "read", "", POLICY_EMPTY_PLACE, "");
    expect(member_close(&one), POLICY_EMPTY_PLACE, "close of none");
}

int main(void) {
    empty_place();
    each_refused_founding();
    opens(&one, FOUNDING, 1, POLICY_DONE);
    opens(&one, FOUNDING, 1, POLICY_FULL_PLACE);
    opens(&two, FOUNDING, 2, POLICY_DONE);
    each_refused_text();
    each_text_too_long();
    each_refused_submit();
    one_command();
    commands_by_the_row();
    dumps();
    short_buffers();
    each_review();
    each_listing();
    an_observer();
    expect(member_close(&one), POLICY_DONE, "close");
    expect(member_close(&two), POLICY_DONE, "close the other");
    empty_place();
    full_members();
    opens(&one, FOUNDING, 1, POLICY_DONE);
    opens(&two, FOUNDING, 2, POLICY_DONE);
    longest_message();
    expect(member_close(&one), POLICY_DONE, "close again");
    expect(member_close(&two), POLICY_DONE, "close the other again");
    if (failures == 0) puts("c: each call on a member and each status as wanted");
    return failures != 0;
}
