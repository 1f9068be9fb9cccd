/* Prints the prices in a recording of frames of the example feed.
 *
 *     prices SCHEMA < FRAMES
 *
 * A frame is its length in 4 bytes (big-endian, with this header), an encoding type in 2 bytes, and a body. */
#include "sbe.h"

#include <inttypes.h>
#include <stdio.h>
#include <stdlib.h>
#include <string.h>

enum { HEADER = 6, LARGEST = 65536, ENTRIES = 256, SCHEMA_LARGEST = 1 << 24 };

/* The exponent of a price of the feed is the constant -4. */
enum { PLACES = 4, SCALE = 10000 };

static uint8_t frame[LARGEST];

/* A price, or `none`: 1234500 is 123.4500. The integers of SBE have at most 64 bits, so `high` is 0. */
static void print_price(const struct sbe_number *price)
{
    if (price->is_there)
        printf("%s%" PRIu64 ".%0*" PRIu64 "\n", price->is_negative ? "-" : "", price->low / SCALE, PLACES, price->low % SCALE);
    else
        printf("none\n");
}

/* The next frame of the input: the length of its body, or -1 at the end. */
static long next_body(void)
{
    if (fread(frame, 1, HEADER, stdin) < HEADER)
        return -1;
    long length = (long)frame[0] << 24 | frame[1] << 16 | frame[2] << 8 | frame[3];
    if (length < HEADER || length > LARGEST)
        return -1;
    size_t body = (size_t)length - HEADER;
    return fread(frame, 1, body, stdin) == body ? (long)body : -1;
}

/* Opens the schema of a file. */
static bool open_schema(struct sbe_schema *schema, const char *name)
{
    FILE *file = fopen(name, "rb");
    uint8_t *bytes = malloc(SCHEMA_LARGEST);
    struct sbe_report report = {0};
    uint8_t path[256];
    uint32_t answer = SBE_MEMORY;
    if (file && bytes) {
        size_t length = fread(bytes, 1, SCHEMA_LARGEST, file);
        answer = sbe_open(schema, bytes, length, path, sizeof path, &report);
    }
    if (answer == SBE_FILE || answer == SBE_RULE) {
        int shown = (int)(report.length < sizeof path ? report.length : sizeof path);
        fprintf(stderr, "%c%02u at %.*s\n", answer == SBE_FILE ? 'S' : 'C', report.code, shown, (char *)path);
    } else if (answer != SBE_DONE) {
        fprintf(stderr, "%s can't be read\n", name);
    }
    if (file)
        fclose(file);
    free(bytes);
    return answer == SBE_DONE;
}

/* What is read of the feed: the prices of the entries of a refresh, and the symbol of a status with its reference price. */
struct feed {
    struct sbe_place prices;
    size_t status;
    struct sbe_field symbol;
    struct sbe_field reference;
};

/* Finds a message, or a part of a level, by its name. */
static bool find(struct sbe_schema *schema, enum sbe_sort sort, size_t level, const char *name, struct sbe_part *part)
{
    return sbe_find_part(schema, sort, level, (const uint8_t *)name, strlen(name), part) == SBE_DONE;
}

/* Finds the fields of the feed. */
static bool find_fields(struct sbe_schema *schema, struct feed *feed)
{
    static const char message[] = "IncrementalRefresh", group[] = "entries", field[] = "price";
    struct sbe_part status, symbol, reference;
    bool found = find(schema, SBE_MESSAGE, 0, "SecurityStatus", &status)
                 && find(schema, SBE_FIELD, status.level, "symbol", &symbol)
                 && find(schema, SBE_FIELD, status.level, "reference", &reference)
                 && sbe_find(schema, (const uint8_t *)message, strlen(message), (const uint8_t *)group, strlen(group),
                             (const uint8_t *)field, strlen(field), &feed->prices) == SBE_DONE;
    if (found) {
        feed->status = status.number;
        feed->symbol = (struct sbe_field){symbol.number, 0};
        /* The mantissa is the first member of a price. */
        feed->reference = (struct sbe_field){reference.number, 0};
    }
    return found;
}

/* Prints the prices of the entries of a message. */
static bool print_entries(struct sbe_schema *schema, size_t body, const struct feed *feed)
{
    static struct sbe_number prices[ENTRIES];
    struct sbe_report report = {0};
    if (sbe_numbers(schema, frame, body, &feed->prices, prices, ENTRIES, &report) != SBE_DONE)
        return false;
    for (size_t i = 0; i < report.length; i++)
        print_price(&prices[i]);
    return true;
}

/* Prints the symbol of a status and its reference price. A call without a step is about the root. */
static bool print_status(struct sbe_schema *schema, size_t body, const struct feed *feed)
{
    static const struct sbe_step root[1];
    uint8_t symbol[8];
    struct sbe_number price = {0};
    struct sbe_report report = {0};
    bool read = sbe_text_at(schema, frame, body, root, 0, &feed->symbol, symbol, sizeof symbol, &report) == SBE_DONE
                && sbe_number_at(schema, frame, body, root, 0, &feed->reference, &price, &report) == SBE_DONE;
    if (read) {
        printf("%.*s ", (int)report.length, (char *)symbol);
        print_price(&price);
    }
    return read;
}

/* Prints the prices of each body of the input. */
static bool print_prices(struct sbe_schema *schema, const struct feed *feed)
{
    bool good = true;
    for (long body = next_body(); good && body >= 0; body = next_body()) {
        struct sbe_message message;
        struct sbe_report report = {0};
        uint8_t path[256];
        uint32_t answer = sbe_validate(schema, frame, (size_t)body, &message, path, sizeof path, &report);
        int shown = (int)(report.length < sizeof path ? report.length : sizeof path);
        if (answer == SBE_BODY)
            printf("refused: F%02u at byte %zu, %.*s\n", report.code, report.offset, shown, (char *)path);
        else if (answer != SBE_DONE)
            good = false;
        else if (message.message == feed->prices.message)
            good = print_entries(schema, (size_t)body, feed);
        else if (message.message == feed->status)
            good = print_status(schema, (size_t)body, feed);
    }
    return good;
}

int main(int count, char **words)
{
    struct sbe_schema schema = {0};
    struct feed feed;
    if (count != 2) {
        fprintf(stderr, "usage: prices SCHEMA < FRAMES\n");
        return 2;
    }
    bool good = open_schema(&schema, words[1]) && find_fields(&schema, &feed) && print_prices(&schema, &feed);
    sbe_close(&schema);
    return good ? 0 : 1;
}
