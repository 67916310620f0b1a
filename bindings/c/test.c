/* Each call and each status but those of memory, which refuse_each_allocation.c brings about. */
#include "expecting.h"

#define HEAD "version = 1\nmembers = 1\n"

static struct policy_place place;

/* One command, its status, and its answer's text. */
static void applies(const char *command, uint32_t status, const char *wanted) {
    uint8_t out[512];
    size_t length = 99;
    memset(out, '#', sizeof out);
    expect(policy_apply(&place, TEXT(command), out, sizeof out, &length), status, command);
    expect_text(out, length, wanted, command);
}

static void checks(const char *session, const char *operation, const char *object, uint32_t wanted) {
    expect(policy_check(&place, TEXT(session), TEXT(operation), TEXT(object)), wanted, session);
}

/* Who may, in a buffer of so many bytes. */
static void lists(const char *operation, const char *object, size_t room, uint32_t status, size_t wanted_length, const char *wanted) {
    uint8_t out[512];
    size_t length = 99;
    memset(out, '#', sizeof out);
    expect(policy_subjects(&place, TEXT(operation), TEXT(object), out, room, &length), status, operation);
    expect(length, wanted_length, object);
    expect_text(out, strlen(wanted), wanted, object);
}

/* Why, in a buffer of so many bytes. */
static void explains(const char *command, size_t room, uint32_t status, size_t wanted_length, const char *wanted) {
    uint8_t out[512];
    size_t length = 99;
    memset(out, '#', sizeof out);
    expect(policy_explain(&place, TEXT(command), out, room, &length), status, command);
    expect(length, wanted_length, command);
    expect_text(out, strlen(wanted), wanted, command);
}

static void each_refused_founding(void) {
    for (size_t i = 0; i < COUNT(refused_foundings); i++)
        expect(policy_open(&place, TEXT(refused_foundings[i].text)), refused_foundings[i].status, refused_foundings[i].text);
    uint8_t *text = many(1048577, '\n');
    expect(policy_open(&place, text, 1048577), POLICY_FOUNDING_TOO_LONG, "a founding too long");
    free(text);
    expect(policy_close(&place), POLICY_EMPTY_PLACE, "close after refused foundings");
}

static void each_refused_command(void) {
    for (size_t i = 0; i < COUNT(refused_commands); i++) applies(refused_commands[i].text, refused_commands[i].status, "");
    static char text[65538];
    memset(text, ' ', 65537);
    applies(text, POLICY_COMMAND_TOO_LONG, "");
}

static void commands(void) {
    applies("{\"name\":\"AddUser\",\"user\":\"ann\"}", POLICY_DONE, "\"Done\"");
    applies("{\"name\":\"AddUser\",\"user\":\"ann\"}", POLICY_DONE, "{\"denied\":\"UserExists\",\"number\":1}");
    applies("{\"name\":\"AddRole\",\"role\":\"clerk\"}", POLICY_DONE, "\"Done\"");
    applies("{\"name\":\"GrantPermission\",\"operation\":\"read\",\"object\":\"ledger\",\"role\":\"clerk\"}", POLICY_DONE, "\"Done\"");
    applies("{\"name\":\"AssignUser\",\"user\":\"ann\",\"role\":\"clerk\"}", POLICY_DONE, "\"Done\"");
    applies("{\"name\":\"CreateSession\",\"user\":\"ann\",\"session\":\"s1\",\"roles\":[\"clerk\"]}", POLICY_DONE, "\"Done\"");
    applies("{\"name\":\"CheckAccess\",\"session\":\"s1\",\"operation\":\"read\",\"object\":\"ledger\"}", POLICY_DONE, "\"Granted\"");
    applies("{\"name\":\"SessionPermissions\",\"session\":\"s1\"}", POLICY_DONE, "{\"permissions\":[[\"read\",\"ledger\"]]}");
}

static void each_check(void) {
    checks("s1", "read", "ledger", POLICY_GRANTED);
    checks("s1", "pay", "ledger", POLICY_REFUSED);
    checks("s2", "read", "ledger", POLICY_NO_SESSION);
    checks("s1", "fly", "ledger", POLICY_NO_OPERATION);
    checks("s1", "read", "moon", POLICY_NO_OBJECT);
    checks("s 1", "read", "ledger", POLICY_BAD_NAME);
    checks("s1", "", "ledger", POLICY_BAD_NAME);
    checks("s1", "read", "led/ger", POLICY_BAD_NAME);
}

/* Those who may, and each reason why they are not told, the first that applies. */
#define CLERKS "{\"sessions\":[\"s1\"],\"users\":[\"ann\"]}"
#define NOBODY "{\"sessions\":[],\"users\":[]}"

static void each_listing(void) {
    lists("read", "ledger", 512, POLICY_DONE, strlen(CLERKS), CLERKS);
    lists("read", "ledger", strlen(CLERKS), POLICY_DONE, strlen(CLERKS), CLERKS);
    lists("read", "ledger", strlen(CLERKS) - 1, POLICY_SHORT_BUFFER, strlen(CLERKS), "");
    lists("pay", "ledger", 512, POLICY_DONE, strlen(NOBODY), NOBODY);
    lists("fly", "moon", 512, POLICY_NO_OPERATION, 0, "");
    lists("read", "moon", 512, POLICY_NO_OBJECT, 0, "");
    lists("", "ledger", 512, POLICY_BAD_NAME, 0, "");
    lists("fly", "mo on", 512, POLICY_BAD_NAME, 0, "");
}

/* Why a check is granted, and what stands in the way of a command, which is not applied. */
#define BY_CLERK "{\"chain\":[\"clerk\"],\"granted\":true}"
#define THERE "{\"denied\":\"UserExists\",\"names\":{\"user\":\"ann\"},\"number\":1}"

static void each_explanation(void) {
    explains("{\"name\":\"CheckAccess\",\"session\":\"s1\",\"operation\":\"read\",\"object\":\"ledger\"}", 512, POLICY_DONE, strlen(BY_CLERK), BY_CLERK);
    explains("{\"name\":\"AddUser\",\"user\":\"ann\"}", 512, POLICY_DONE, strlen(THERE), THERE);
    explains("{\"name\":\"AddUser\",\"user\":\"ann\"}", strlen(THERE) - 1, POLICY_SHORT_BUFFER, strlen(THERE), "");
    explains("{\"name\":\"DeleteUser\",\"user\":\"ann\"}", 512, POLICY_DONE, strlen("{\"denied\":null}"), "{\"denied\":null}");
    explains("{\"name\":\"Fly\"}", 512, POLICY_COMMAND_UNKNOWN_WORD, 0, "");
    checks("s1", "read", "ledger", POLICY_GRANTED);
}

/* A buffer that is too short loses no answer, and has the command applied once. */
static void short_buffers(void) {
    uint8_t out[16];
    size_t length = 0;
    memset(out, '#', sizeof out);
    expect(policy_apply(&place, TEXT("{\"name\":\"AddUser\",\"user\":\"bob\"}"), out, 5, &length), POLICY_SHORT_BUFFER, "short");
    expect(length == 6 && out[0] == '#', 1, "a short buffer is as it was");
    expect(policy_answer(&place, out, 5, &length), POLICY_SHORT_BUFFER, "short again");
    expect(policy_answer(&place, out, 6, &length), POLICY_DONE, "long enough");
    expect(length == 6 && memcmp(out, "\"Done\"#", 7) == 0, 1, "the answer of the one application");
    expect(policy_answer(&place, out, 0, &length), POLICY_SHORT_BUFFER, "no room");
    applies("{\"name\":\"AddUser\",\"user\":\"bob\"}", POLICY_DONE, "{\"denied\":\"UserExists\",\"number\":1}");
}

/* A client line is applied as its command, whichever member it is for, and refused as a client line. */
#define ADD_CY "{\"name\":\"AddUser\",\"user\":\"cy\"}"

static void client_lines(void) {
    applies(LINE(ADD_CY), POLICY_DONE, "\"Done\"");
    applies("{\"command\":" ADD_CY ",\"at\":9}", POLICY_DONE, "{\"denied\":\"UserExists\",\"number\":1}");
    applies(ADD_CY, POLICY_DONE, "{\"denied\":\"UserExists\",\"number\":1}");
    applies("{\"command\":" ADD_CY "}", POLICY_COMMAND_MISSING_FIELD, "");
    applies("{\"at\":1,\"command\":" ADD_CY ",\"name\":\"AddUser\"}", POLICY_COMMAND_EXTRA_FIELD, "");
}

/* The dump, which makes the same policy in another place. */
static void dumps(void) {
    static uint8_t dump[1024], again[1024];
    uint8_t answer[16];
    size_t length = 0, other_length = 0, answer_length;
    struct policy_place other = {0};
    expect(policy_dump(&place, dump, 9, &length), POLICY_SHORT_BUFFER, "a dump in a short buffer");
    expect(policy_dump(&place, dump, sizeof dump, &length), POLICY_DONE, "a dump");
    static const char first[] = LINE("{\"name\":\"AddUser\",\"user\":\"ann\"}") "\n";
    expect(memcmp(dump, first, strlen(first)) == 0, 1, "the first line of a dump");
    expect(policy_open(&other, TEXT(HEAD LISTS)), POLICY_DONE, "open another");
    for (uint8_t *line = dump, *end; line < dump + length; line = end + 1) {
        end = memchr(line, '\n', (size_t)(dump + length - line));
        expect(policy_apply(&other, line, (size_t)(end - line), answer, sizeof answer, &answer_length), POLICY_DONE, "a line of a dump");
        expect(answer_length == 6 && memcmp(answer, "\"Done\"", 6) == 0, 1, "what a line of a dump is answered");
    }
    expect(policy_dump(&other, again, sizeof again, &other_length), POLICY_DONE, "the dump of the other");
    expect(other_length == length && memcmp(dump, again, length) == 0, 1, "the same dump");
    expect(policy_close(&other), POLICY_DONE, "close the other");
}

static void empty_place(void) {
    uint8_t out[8];
    size_t length = 9;
    expect(policy_dump(&place, out, sizeof out, &length), POLICY_EMPTY_PLACE, "dump of none");
    expect(length == 0, 1, "a dump of none has no length");
    checks("s1", "read", "ledger", POLICY_EMPTY_PLACE);
    lists("read", "", 512, POLICY_EMPTY_PLACE, 0, "");
    explains("", 512, POLICY_EMPTY_PLACE, 0, "");
    applies("{\"name\":\"AddUser\",\"user\":\"ann\"}", POLICY_EMPTY_PLACE, "");
    expect(policy_answer(&place, out, sizeof out, &length), POLICY_EMPTY_PLACE, "answer of none");
    expect(length == 0, 1, "no answer has no length");
    expect(policy_close(&place), POLICY_EMPTY_PLACE, "close of none");
}

/* A word of each status's sentence, which those beside it don't have; and no sentence for what is between them. */
static void each_sentence(void) {
    static const struct {
        uint32_t status;
        const char *word;
    } sentences[] = {
        {POLICY_DONE, "done"},
        {POLICY_NO_SESSION, "session"},
        {POLICY_NO_OPERATION, "no such operation"},
        {POLICY_NO_OBJECT, "no such object"},
        {POLICY_EMPTY_PLACE, "empty"},
        {POLICY_FULL_PLACE, "place is full"},
        {POLICY_SHORT_BUFFER, "buffer"},
        {POLICY_NO_MEMORY, "memory"},
        {POLICY_GRANTED, "granted"},
        {POLICY_REFUSED, "refused"},
        {POLICY_BAD_NAME, "no name"},
        {POLICY_FOUNDING_TOO_LONG, "text is too long"},
        {POLICY_FOUNDING_NOT_TOML, "TOML"},
        {POLICY_FOUNDING_BAD_VERSION, "version"},
        {POLICY_FOUNDING_UNKNOWN_KEY, "key that is not known"},
        {POLICY_FOUNDING_MISSING_KEY, "key that has to be there"},
        {POLICY_FOUNDING_WRONG_KIND, "kind"},
        {POLICY_FOUNDING_OUT_OF_RANGE, "range"},
        {POLICY_FOUNDING_BAD_NAME, "no name"},
        {POLICY_FOUNDING_REPEATED, "twice"},
        {POLICY_FOUNDING_UNKNOWN_NAME, "not listed"},
        {POLICY_COMMAND_TOO_LONG, "text is too long"},
        {POLICY_COMMAND_NOT_JSON, "JSON"},
        {POLICY_COMMAND_NOT_OBJECT, "value is no object"},
        {POLICY_COMMAND_UNKNOWN_WORD, "command's name"},
        {POLICY_COMMAND_MISSING_FIELD, "field is not there"},
        {POLICY_COMMAND_WRONG_KIND, "kind"},
        {POLICY_COMMAND_BAD_NAME, "no name"},
        {POLICY_COMMAND_EXTRA_FIELD, "not belong"},
        {MEMBER_UNKNOWN_MEMBER, "no such member"},
        {MEMBER_BAD_BATCH, "64"},
        {MEMBER_FROM_SELF, "its own"},
        {MEMBER_NOT_SENT, "this number"},
        {MEMBER_REPEAT, "was received"},
        {MEMBER_GAP, "missing"},
        {MEMBER_STAMP_NOT_RISING, "follow"},
        {MEMBER_CLOCK_FULL, "clock"},
        {MEMBER_SENT_FULL, "as many messages"},
        {MEMBER_BAD_SERIAL, "caller's next"},
        {MEMBER_MESSAGE_TOO_LONG, "would be too long"},
        {MEMBER_NOT_YET, "later message"},
        {MEMBER_OBSERVES, "sends nothing"},
        {MEMBER_NOT_A_REVIEW, "neither a review"},
    };
    size_t known = 0;
    for (size_t i = 0; i < COUNT(sentences); i++)
        expect(strstr(policy_status_text(sentences[i].status), sentences[i].word) != NULL, 1, sentences[i].word);
    for (uint32_t status = 0; status < 1000; status++) known += strcmp(policy_status_text(status), "unknown status") != 0;
    expect(known, COUNT(sentences), "how many statuses have a sentence");
    expect(strcmp(policy_status_text(UINT32_MAX), "unknown status") == 0, 1, "the sentence of no status");
    expect(strspn(policy_version(), "0123456789.") == strlen(policy_version()), 1, "the version has numbers alone");
}

int main(void) {
    uint8_t out[8];
    size_t length = 9;
    each_sentence();
    empty_place();
    each_refused_founding();
    expect(policy_open(&place, TEXT(HEAD LISTS)), POLICY_DONE, "open");
    expect(policy_open(&place, TEXT(HEAD LISTS)), POLICY_FULL_PLACE, "open of a full place");
    expect(policy_answer(&place, out, sizeof out, &length), POLICY_DONE, "no answer yet");
    expect(length == 0, 1, "no answer yet is empty");
    each_refused_command();
    commands();
    each_check();
    each_listing();
    each_explanation();
    short_buffers();
    client_lines();
    dumps();
    expect(policy_close(&place), POLICY_DONE, "close");
    empty_place();
    expect(policy_open(&place, TEXT(HEAD LISTS)), POLICY_DONE, "open again");
    checks("s1", "read", "ledger", POLICY_NO_SESSION);
    expect(policy_close(&place), POLICY_DONE, "close again");
    if (failures == 0) puts("c: each call and each status as wanted");
    return failures != 0;
}
