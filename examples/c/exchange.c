/* Reads variables from a device and writes them to it, by the messages of its commands. docs/EMBEDDING.md shows this file. */
#include "exchange.h"

/* The number of a command in its frames. */
static uint32_t number_of(const device *it, uint16_t command, int64_t *number)
{
    edd_record record;
    size_t given;
    const uint32_t status = edd_attribute(it->bytes, it->length, it->image, EDD_KIND_COMMAND, command, EDD_NUMBER, 0,
                                          it->values, it->image->variables, &record, 1, &given);

    if (status == EDD_OK && given == 1)
        *number = record.value;
    return status != EDD_OK || given == 1 ? status : EDD_NO_ITEM;
}

/* Sends the request of a transaction, and takes its reply. */
static uint32_t exchange(const device *it, edd_message message, line send)
{
    const size_t count = it->image->variables;
    edd_setting settings[64];
    uint8_t octets[255];
    int64_t number = 0;
    size_t given, k;
    uint32_t status = number_of(it, message.command, &number);

    message.side = EDD_REQUEST;
    if (status == EDD_OK)
        status = edd_encode(it->bytes, it->length, it->image, &message, it->values, count, octets, 255, &given);
    if (status != EDD_OK)
        return status;
    given = send(number, octets, given, 255);
    message.side = EDD_REPLY;
    status = edd_decode(it->bytes, it->length, it->image, &message, it->values, count, octets, given,
                        settings, 64, &given);
    for (k = 0; status == EDD_OK && k < given; k++)
        it->values[settings[k].variable] = settings[k].value;
    return status;
}

uint32_t read_variable(const device *it, uint16_t variable, line send)
{
    edd_message reply;
    size_t readers;
    const uint32_t status = edd_reader(it->bytes, it->length, it->image, variable, it->values, it->image->variables,
                                       0, &reply, &readers);

    return status == EDD_OK ? exchange(it, reply, send) : status;
}

uint32_t write_variable(const device *it, uint16_t variable, line send)
{
    edd_message request;
    size_t writers;
    const uint32_t status = edd_writer(it->bytes, it->length, it->image, variable, it->values, it->image->variables,
                                       0, &request, &writers);

    return status == EDD_OK ? exchange(it, request, send) : status;
}
