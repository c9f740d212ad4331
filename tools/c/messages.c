/*
 * Tests of the calls on messages, over the images of the flow transmitter and of the valve positioner, and of the program
 * that docs/EMBEDDING.md shows. Expected octets are worked out from the sources by docs/OCTETS.md.
 */
#include "tests.h"
#include "exchange.h"

#include <string.h>

/* Numbers of the flow transmitter, in the order of its source. */
enum { FLOW, REFERENCE_FLOW, FACTOR, OUTPUT_MODE, NOTED_MODE, VARIABLES };
enum { READ_FLOW, READ_OUTPUT, WRITE_OUTPUT, WRITE_FACTOR };

static edd_message message(uint16_t command, uint16_t position, uint8_t side)
{
    edd_message it;
    it.command = command;
    it.position = position;
    it.side = side;
    return it;
}

static void try_encoding(const file *it)
{
    const edd_message request = message(WRITE_FACTOR, 0, EDD_REQUEST), nothing = message(READ_FLOW, 0, EDD_REQUEST);
    const edd_message no_command = message(4, 0, EDD_REQUEST), no_position = message(WRITE_FACTOR, 1, EDD_REQUEST);
    const edd_message no_side = message(WRITE_FACTOR, 0, EDD_TRANSACTION), zero = message(WRITE_FACTOR, 0, 0);
    int64_t values[VARIABLES] = { 0, 0, 1000, 1, 0 };
    uint8_t octets[4] = { 9, 9, 9, 9 };
    size_t given = 42;
    /* 1000 is 3 * 256 + 232 */
    CHECK(edd_encode(OF(it), &request, values, VARIABLES, octets, 4, &given) == EDD_OK && given == 2
          && octets[0] == 3 && octets[1] == 232 && octets[2] == 9);
    CHECK(edd_encode(OF(it), &nothing, values, VARIABLES, octets, 0, &given) == EDD_OK && given == 0);
    octets[0] = 9;
    CHECK(edd_encode(OF(it), &request, values, VARIABLES, octets, 1, &given) == EDD_NO_ROOM && given == 2 && octets[0] == 9);
    given = 42;
    CHECK(edd_encode(OF(it), &no_command, values, VARIABLES, octets, 4, &given) == EDD_NO_ITEM);
    CHECK(edd_encode(OF(it), &no_position, values, VARIABLES, octets, 4, &given) == EDD_NO_ITEM);
    CHECK(edd_encode(OF(it), &no_side, values, VARIABLES, octets, 4, &given) == EDD_NO_ITEM);
    CHECK(edd_encode(OF(it), &zero, values, VARIABLES, octets, 4, &given) == EDD_NO_ITEM);
    CHECK(edd_encode(OF(it), &request, values, 4, octets, 4, &given) == EDD_WRONG_VALUES);
    values[FACTOR] = 65536;
    CHECK(edd_encode(OF(it), &request, values, VARIABLES, octets, 4, &given) == EDD_WRONG_VALUES);
    CHECK(given == 42 && octets[0] == 9);
}

static void try_decoding(const file *it, const file *valve)
{
    const edd_message reply = message(READ_FLOW, 0, EDD_REPLY), constant = message(1, 1, EDD_REPLY);
    const edd_message position = message(0, 0, EDD_REPLY), no_side = message(READ_FLOW, 0, 18);
    const int64_t values[VARIABLES] = { 0, 0, 1000, 1, 0 };
    const uint8_t octets[3] = { 1, 44, 0 };
    edd_setting settings[3] = { { 7, 7 }, { 7, 7 }, { 7, 7 } };
    size_t given = 42;
    /* 1 * 256 + 44 is 300 */
    CHECK(edd_decode(OF(it), &reply, values, VARIABLES, octets, 2, settings, 3, &given) == EDD_OK && given == 1
          && settings[0].variable == FLOW && settings[0].value == 300 && settings[1].variable == 7);
    settings[0].variable = 7;
    CHECK(edd_decode(OF(it), &reply, values, VARIABLES, octets, 2, settings, 0, &given) == EDD_NO_ROOM && given == 1);
    given = 42;
    CHECK(edd_decode(OF(it), &reply, values, VARIABLES, octets, 1, settings, 3, &given) == EDD_TOO_FEW_OCTETS);
    CHECK(edd_decode(OF(it), &reply, values, VARIABLES, octets, 0, settings, 3, &given) == EDD_TOO_FEW_OCTETS);
    CHECK(edd_decode(OF(it), &reply, values, VARIABLES, octets, 3, settings, 3, &given) == EDD_TOO_MANY_OCTETS);
    CHECK(edd_decode(OF(it), &no_side, values, VARIABLES, octets, 2, settings, 3, &given) == EDD_NO_ITEM);
    CHECK(edd_decode(OF(it), &reply, values, 4, octets, 2, settings, 3, &given) == EDD_WRONG_VALUES);
    CHECK(given == 42 && settings[0].variable == 7);
    /* The reply of the transaction 1 of move is the constant 1, and 44 is no 1. */
    CHECK(edd_decode(OF(valve), &constant, values, VARIABLES, octets, 1, settings, 3, &given) == EDD_OK && given == 0);
    given = 42;
    CHECK(edd_decode(OF(valve), &constant, values, VARIABLES, octets + 1, 1, settings, 3, &given) == EDD_WRONG_CONSTANT
          && given == 0);
    CHECK(edd_decode(OF(valve), &position, values, VARIABLES, octets, 3, settings, 3, &given) == EDD_OK && given == 2
          && settings[0].variable == 0 && settings[0].value == 300 && settings[1].variable == 4 && settings[1].value == 0);
}

static void try_carriers(const file *it, const file *valve)
{
    const int64_t values[VARIABLES] = { 0, 0, 1000, 1, 0 }, more[VARIABLES + 1] = { 0 };
    edd_message found = message(9, 9, 9);
    size_t given = 42;
    CHECK(edd_reader(OF(it), FLOW, values, VARIABLES, 0, &found, &given) == EDD_OK && given == 1
          && found.command == READ_FLOW && found.position == 0 && found.side == EDD_REPLY);
    CHECK(edd_writer(OF(it), OUTPUT_MODE, values, VARIABLES, 0, &found, &given) == EDD_OK && given == 1
          && found.command == WRITE_OUTPUT && found.position == 0 && found.side == EDD_REQUEST);
    found = message(9, 9, 9);
    CHECK(edd_reader(OF(it), FLOW, values, VARIABLES, 1, &found, &given) == EDD_NO_ITEM && given == 1);
    CHECK(edd_writer(OF(it), FLOW, values, VARIABLES, 0, &found, &given) == EDD_NO_ITEM && given == 0);
    given = 42;
    CHECK(edd_reader(OF(it), 77, values, VARIABLES, 0, &found, &given) == EDD_NO_ITEM && given == 0);
    given = 42;
    CHECK(edd_reader(OF(it), FLOW, values, 4, 0, &found, &given) == EDD_WRONG_VALUES && given == 42);
    CHECK(edd_writer(OF(it), FLOW, more, VARIABLES + 1, 0, &found, &given) == EDD_WRONG_VALUES && given == 42);
    /* move has neither OPERATION, and carries no variable */
    CHECK(edd_reader(OF(valve), 4, values, VARIABLES, 0, &found, &given) == EDD_OK && given == 1 && found.command == 0);
    CHECK(edd_reader(OF(valve), 1, values, VARIABLES, 0, &found, &given) == EDD_NO_ITEM && given == 0);
}

/* ---- the program that docs/EMBEDDING.md shows, with a device that answers to two commands ---- */

static size_t sent;

static size_t answers(int64_t command, uint8_t *octets, size_t count, size_t room)
{
    CHECK(room >= 2);
    sent = count;
    switch (command) {
    case 1: /* the request is empty, and the flow is 300 */
        octets[0] = 1;
        octets[1] = 44;
        return 2;
    case 7: /* the mode is 2, and the device tells it again */
        CHECK(octets[0] == 2);
        return 1;
    default:
        return 3;
    }
}

static void try_exchange(const file *it)
{
    int64_t values[VARIABLES] = { 0, 0, 1000, 2, 0 };
    device own;
    own.bytes = it->bytes;
    own.length = it->length;
    own.image = &it->image;
    own.values = values;
    CHECK(read_variable(&own, FLOW, answers) == EDD_OK && sent == 0 && values[FLOW] == 300);
    CHECK(write_variable(&own, OUTPUT_MODE, answers) == EDD_OK && sent == 1 && values[OUTPUT_MODE] == 2);
    /* the reply of write_factor has no octets */
    CHECK(write_variable(&own, FACTOR, answers) == EDD_TOO_MANY_OCTETS && sent == 2 && values[FACTOR] == 1000);
    CHECK(read_variable(&own, NOTED_MODE, answers) == EDD_NO_ITEM);
}

void try_messages(const file *flow, const file *valve)
{
    const edd_message reply = message(READ_FLOW, 0, EDD_REPLY);
    const int64_t values[VARIABLES] = { 0 };
    edd_message found = message(9, 9, 9);
    edd_setting setting = { 7, 7 };
    uint8_t octets[2] = { 9, 9 };
    size_t given = 42;
    CHECK(sizeof(edd_message) == 6 && offsetof(edd_message, position) == 2 && offsetof(edd_message, side) == 4);
    CHECK(edd_encode(flow->bytes, flow->length, &valve->image, &reply, values, VARIABLES, octets, 2, &given)
          == EDD_OTHER_IMAGE && octets[0] == 9);
    CHECK(edd_decode(flow->bytes, flow->length, &valve->image, &reply, values, VARIABLES, octets, 2, &setting, 1, &given)
          == EDD_OTHER_IMAGE && setting.variable == 7);
    CHECK(edd_reader(flow->bytes, flow->length, &valve->image, FLOW, values, VARIABLES, 0, &found, &given)
          == EDD_OTHER_IMAGE && found.command == 9);
    CHECK(edd_writer(flow->bytes, flow->length, &valve->image, FLOW, values, VARIABLES, 0, &found, &given)
          == EDD_OTHER_IMAGE && found.command == 9);
    CHECK(given == 42);
    try_encoding(flow);
    try_decoding(flow, valve);
    try_carriers(flow, valve);
    try_exchange(flow);
}
