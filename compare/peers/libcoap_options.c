/* Parses CoAP options with libcoap. Standard input has the bytes of all options of a request in a line, in lower-case hex. For each line
 * one is printed: the options as NUMBER:HEX words, NUMBER: for an empty value, and - where there are none; or "? " and why libcoap
 * refused the bytes.
 *
 *     libcoap_options message    the options stand in a GET request, which libcoap's parser of whole messages reads; it also checks the
 *                                lengths of the values of the options it knows
 *     libcoap_options options    each option is read by libcoap's parser of one option
 */
#define _GNU_SOURCE
#include <coap3/coap.h>
#include <stdio.h>
#include <stdlib.h>
#include <string.h>

enum { HEADER = 4, MOST = 2 * 4096 + 16 };

/* What libcoap said last. */
static char said[256];

static void keep(coap_log_t level, const char *message)
{
    (void)level;
    snprintf(said, sizeof said, "%s", message);
    said[strcspn(said, "\n")] = '\0';
}

static void refuse(const char *who)
{
    printf("? %s: %s\n", who, said[0] ? said : "refused");
}

/* An option of the list that is printed. */
static void print_option(unsigned number, const uint8_t *value, size_t length, int is_first)
{
    printf("%s%u:", is_first ? "" : " ", number);
    for (size_t i = 0; i < length; i++)
        printf("%02x", value[i]);
}

/* The message of HEADER bytes, which are set here, and the options after them, parsed; or NULL where libcoap refuses it. */
static coap_pdu_t *parsed(uint8_t *message, size_t length)
{
    /* A confirmable GET request without a token: version 1, type 0, code 0.01, message id 1. */
    static const uint8_t header[HEADER] = {0x40, 0x01, 0x00, 0x01};
    coap_pdu_t *pdu = coap_pdu_init(COAP_MESSAGE_CON, COAP_REQUEST_CODE_GET, 0, HEADER + MOST);
    if (!pdu) {
        fprintf(stderr, "libcoap: no memory\n");
        exit(3);
    }
    memcpy(message, header, HEADER);
    if (coap_pdu_parse(COAP_PROTO_UDP, message, HEADER + length, pdu))
        return pdu;
    coap_delete_pdu(pdu);
    return NULL;
}

/* Tells the first option that is refused in a message of its own too. */
static void refuse_message(const uint8_t *bytes, size_t length)
{
    static uint8_t message[HEADER + MOST];
    coap_option_t option;
    unsigned number = 0;
    for (size_t at = 0, size; at < length; at += size) {
        size = coap_opt_parse(bytes + at, length - at, &option);
        if (!size)
            break;
        number += option.delta;
        size_t alone = coap_opt_encode(message + HEADER, MOST, number, option.value, option.length);
        coap_pdu_t *pdu = parsed(message, alone);
        if (!pdu) {
            printf("? coap_pdu_parse: option %u of %zu bytes\n", number, option.length);
            return;
        }
        coap_delete_pdu(pdu);
    }
    refuse("coap_pdu_parse");
}

static void parse_message(uint8_t *message, size_t length)
{
    coap_pdu_t *pdu = parsed(message, length);
    coap_opt_iterator_t options;
    const coap_opt_t *option;
    const uint8_t *payload;
    size_t payload_length;
    int is_first = 1;
    if (!pdu) {
        refuse_message(message + HEADER, length);
        return;
    }
    if (coap_get_data(pdu, &payload_length, &payload)) {
        printf("? a payload\n");
    } else {
        coap_option_iterator_init(pdu, &options, COAP_OPT_ALL);
        while ((option = coap_option_next(&options))) {
            print_option(options.number, coap_opt_value(option), coap_opt_length(option), is_first);
            is_first = 0;
        }
        printf("%s\n", is_first ? "-" : "");
    }
    coap_delete_pdu(pdu);
}

static void parse_options(const uint8_t *bytes, size_t length)
{
    coap_option_t option;
    unsigned number = 0;
    /* A refused list is not printed, so it is read before. */
    for (size_t at = 0, size; at < length; at += size) {
        size = coap_opt_parse(bytes + at, length - at, &option);
        if (!size) {
            refuse("coap_opt_parse");
            return;
        }
    }
    for (size_t at = 0; at < length;) {
        size_t size = coap_opt_parse(bytes + at, length - at, &option);
        number += option.delta;
        print_option(number, option.value, option.length, at == 0);
        at += size;
    }
    printf("%s\n", length ? "" : "-");
}

static int nibble(char digit)
{
    if (digit >= '0' && digit <= '9')
        return digit - '0';
    if (digit >= 'a' && digit <= 'f')
        return digit - 'a' + 10;
    return -1;
}

/* The number of bytes, or -1 where the line is not hex or too long. A line "-" has none. */
static long unhex(const char *line, uint8_t *bytes)
{
    size_t digits = strcspn(line, "\n");
    if (digits == 1 && line[0] == '-')
        return 0;
    if (digits % 2 || digits / 2 > MOST)
        return -1;
    for (size_t i = 0; i < digits; i += 2) {
        int high = nibble(line[i]), low = nibble(line[i + 1]);
        if (high < 0 || low < 0)
            return -1;
        bytes[i / 2] = (uint8_t)(high << 4 | low);
    }
    return (long)(digits / 2);
}

int main(int count, char **words)
{
    static uint8_t message[HEADER + MOST];
    const char *mode = count == 2 ? words[1] : "";
    int whole = strcmp(mode, "message") == 0;
    char *line = NULL;
    size_t size = 0;
    if (!whole && strcmp(mode, "options") != 0) {
        fprintf(stderr, "usage: libcoap_options message|options\n");
        return 2;
    }
    coap_startup();
    /* 7 is the level of debugging, under a name that differs by version. */
    coap_set_log_level(7);
    coap_set_log_handler(keep);
    while (getline(&line, &size, stdin) > 0) {
        long length = unhex(line, message + HEADER);
        said[0] = '\0';
        if (length < 0)
            printf("? not hex, or too long\n");
        else if (whole)
            parse_message(message, (size_t)length);
        else
            parse_options(message + HEADER, (size_t)length);
    }
    free(line);
    coap_cleanup();
    return 0;
}
