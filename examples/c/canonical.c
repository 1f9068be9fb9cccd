/* Says which bodies of a recording of frames are the canonical ones of their messages: each is printed as a line of JSON,
 * and the body of that line is compared with it.
 *
 *     canonical SCHEMA < FRAMES
 *
 * A frame is its length in 4 bytes (big-endian, with this header), an encoding type in 2 bytes, and a body. */
#include "sbe.h"

#include <stdio.h>
#include <string.h>

enum { HEADER = 6, LARGEST = 65536, SCHEMA_LARGEST = 1 << 24 };

static uint8_t file[SCHEMA_LARGEST];
static uint8_t frame[LARGEST];
static uint8_t line[16 * LARGEST];
static uint8_t built[LARGEST];
static uint8_t path[256];

/* Opens the schema of a file. */
static bool open_schema(struct sbe_schema *schema, const char *name)
{
    struct sbe_report report = {0};
    FILE *stream = fopen(name, "rb");
    if (!stream)
        return false;
    size_t length = fread(file, 1, sizeof file, stream);
    fclose(stream);
    return sbe_open(schema, file, length, path, sizeof path, &report) == SBE_DONE;
}

/* The next frame of the input: the length of its body, or -1 at the end. */
static long next_body(void)
{
    if (fread(frame, 1, HEADER, stdin) < HEADER)
        return -1;
    long length = (long)frame[0] << 24 | frame[1] << 16 | frame[2] << 8 | frame[3];
    if (length < HEADER || length > LARGEST)
        return -1;
    size_t body = (size_t)length - HEADER;
    return fread(frame, 1, body, stdin) == body ? (long)body : -1;
}

/* The text of a refusal: its letter and number, and the path of the part. */
static const char *refusal(char letter, const struct sbe_report *report)
{
    static char text[sizeof path + 16];
    int shown = (int)(report->length < sizeof path ? report->length : sizeof path);
    snprintf(text, sizeof text, "%c%02u at %.*s", letter, report->code, shown, (char *)path);
    return text;
}

/* What is to be said of a body. */
static const char *judge(struct sbe_schema *schema, size_t body)
{
    struct sbe_report report = {0};
    struct sbe_message message;
    uint32_t answer = sbe_validate(schema, frame, body, &message, path, sizeof path, &report);
    if (answer == SBE_BODY)
        return refusal('F', &report);
    if (answer != SBE_DONE || sbe_dump(schema, frame, body, line, sizeof line, &report) != SBE_DONE)
        return "no line";
    answer = sbe_build(schema, line, report.length, built, sizeof built, path, sizeof path, &report);
    if (answer == SBE_LINE || answer == SBE_MISFIT)
        return refusal(answer == SBE_LINE ? 'J' : 'N', &report);
    if (answer != SBE_DONE)
        return "no body";
    return report.length == body && memcmp(built, frame, body) == 0 ? "canonical" : "not canonical";
}

int main(int count, char **words)
{
    struct sbe_schema schema = {0};
    if (count != 2 || !open_schema(&schema, words[1])) {
        fprintf(stderr, "usage: canonical SCHEMA < FRAMES\n");
        return 2;
    }
    for (long body = next_body(); body >= 0; body = next_body())
        puts(judge(&schema, (size_t)body));
    sbe_close(&schema);
    return 0;
}
