#include "words.h"

#include "deebqoshaan.h"

static const char *const words[] = {
    [DQ_ACCEPTED] = "accepted",
    [DQ_BELOW] = "packet too short",
    [DQ_ABOVE] = "packet too long",
    [DQ_ZEROS] = "bytes 2 and 3 not zero",
    [DQ_NO_HOST] = "no such host",
    [DQ_VECTOR] = "vector wrong",
    [DQ_NOT_OPEN] = "host not open",
    [DQ_ROOM_SHORT] = "room too short",
    [DQ_TAG_WRONG] = "tag wrong",
    [DQ_CLIENT_DIFFERS] = "inner client ID differs",
    [DQ_INNER_ZEROS] = "inner zeros not zero",
    [DQ_LENGTH_FIELD] = "payload length field wrong",
    [DQ_NOT_FRESH] = "number not fresh",
    [DQ_GROUP] = "group not the host's",
    [DQ_NO_INTERFACE] = "no such interface",
    [DQ_NO_ENTRY] = "no such entry",
    [DQ_ENTRY_GROUP] = "entry's group not the packet's",
    [DQ_NO_COMMAND] = "no such command",
    [DQ_NOT_PERMITTED] = "not permitted",
    [DQ_SECRET_WRONG] = "secret wrong",
    [DQ_REQUEST_LENGTH] = "request too short or too long",
    [DQ_VERSION] = "version not 1.0",
    [DQ_NAME_LENGTH] = "name length wrong",
    [DQ_NO_NAME] = "no such host name",
    [DQ_PROOF_LENGTH] = "proof not 32 bytes",
    [DQ_NOT_WAITING] = "host not waiting",
    [DQ_CHALLENGE_DIFFERS] = "challenge 2 differs",
    [DQ_LENGTH_WRONG] = "a lent secret, key, vector, capability or fresh bytes of wrong length",
    [DQ_NOT_OWED] = "no reply owed",
    [DQ_PAYLOAD_ABOVE] = "payload too long",
    [DQ_NO_PLACE_LEFT] = "no all-ones word left",
    [DQ_ALL_ONES] = "narrowing by an all-ones word",
    [DQ_UNSOUND] = "state not sound",
    [DQ_SIZE] = "book too short, too long, or not of its total length",
    [DQ_FORMAT] = "format not 1",
    [DQ_ROWS] = "rows none, too many, or past the end",
    [DQ_KIND_OR_ID] = "a row's kind or id wrong",
    [DQ_START_OR_LENGTH] = "a row's start or length wrong",
    [DQ_COUNTS] = "an interface's command count or entry count wrong",
    [DQ_PERMITTED] = "a permitted bit at or above the command count",
    [DQ_LETTER] = "a bad letter in a name",
    [DQ_NAME_USED] = "a name used before",
};

const char *in_words(uint8_t number) {
    const char *found = number < sizeof words / sizeof words[0] ? words[number] : NULL;
    return found != NULL ? found : "a number that document 01 doesn't have";
}
