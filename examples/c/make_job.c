/* Makes a job file of two records in memory, prints its bytes, reads it back and cuts its records, meets each answer that is no
 * record, and writes what was read again. */
#include <inttypes.h>
#include <stdio.h>
#include <string.h>

#include "yoktvarim.h"

/* The bytes of a file that is being made. */
static uint8_t job[YOKTVARIM_HEADER_BYTES + 2 * YOKTVARIM_RECORD_BYTES];

/* Appends a record at *length, and prints the answer where there is no room or the record is refused. */
static void append(uint32_t version, const yoktvarim_settings *settings, const yoktvarim_patterns *patterns, uint8_t *bytes, size_t room,
                   size_t *length)
{
    uint32_t count;
    switch (yoktvarim_write_record(version, settings, patterns, bytes + *length, room - *length, &count)) {
    case YOKTVARIM_JOB_WRITTEN: *length += count; break;
    case YOKTVARIM_JOB_UNKNOWN_SETTING: printf("unknown setting at place %" PRIu32 "\n", count); break;
    case YOKTVARIM_JOB_BAD_TOP: printf("bad top\n"); break;
    case YOKTVARIM_JOB_NO_ROOM: printf("no room\n"); break;
    default: printf("unknown version\n");
    }
}

/* Prints a record that was read and how many points and indices its patch has. */
static void show(const yoktvarim_settings *settings, const yoktvarim_patterns *patterns)
{
    yoktvarim_levels levels = yoktvarim_levels_of(patterns);
    yoktvarim_clamps clamps;
    uint32_t counts[2];
    printf("kind %u, top %u, first inner level %08" PRIX32, settings->kind, settings->top, patterns->inner[0]);
    if (yoktvarim_measure(settings, &levels, counts, &clamps) == YOKTVARIM_MEASURED)
        printf(": %" PRIu32 " points, %" PRIu32 " indices\n", counts[0], counts[1]);
    else
        printf(": discarded\n");
}

/* Prints what is in a file, and writes its records again into bytes; how many bytes those are. */
static size_t copy(const uint8_t *file, size_t length, uint8_t *bytes, size_t room)
{
    uint32_t version, count, place;
    uint64_t next;
    size_t written;
    if (!yoktvarim_is_read(yoktvarim_read_header(file, length, &version))) {
        printf("no job\n");
        return 0;
    }
    if (!yoktvarim_is_written(yoktvarim_write_header(version, bytes, room, &count)))
        return 0;
    written = count;
    for (uint64_t at = YOKTVARIM_HEADER_BYTES;; at = next) {
        yoktvarim_settings settings;
        yoktvarim_patterns patterns;
        switch (yoktvarim_read_record(file, length, version, at, &settings, &patterns, &next, &place)) {
        case YOKTVARIM_JOB_READ:
            show(&settings, &patterns);
            append(version, &settings, &patterns, bytes, room, &written);
            break;
        case YOKTVARIM_JOB_UNKNOWN_SETTING: printf("unknown setting at place %" PRIu32 "\n", place); break;
        case YOKTVARIM_JOB_CUT_RECORD: printf("cut record\n"); break;
        case YOKTVARIM_JOB_END: printf("end\n"); return written;
        default: return 0; /* the header was read, so the version is known */
        }
    }
}

int main(void)
{
    yoktvarim_settings settings = {
        .kind = YOKTVARIM_TRIANGLES,
        .spacing = YOKTVARIM_EQUAL,
        .vertex_order = YOKTVARIM_COUNTER_CLOCKWISE,
        .domain_origin = YOKTVARIM_LOWER_LEFT,
        .point_mode = YOKTVARIM_PRIMITIVES,
        .top = 16,
    };
    yoktvarim_levels levels = {.outer = {1, 1, 1}, .inner = {2}};
    yoktvarim_patterns patterns = yoktvarim_patterns_of(&levels);

    /* A file of version 2: a header, then two records, the second with a NaN that keeps its payload. */
    uint32_t count;
    if (!yoktvarim_is_written(yoktvarim_write_header(2, job, sizeof job, &count)))
        return 1;
    size_t length = count;
    append(2, &settings, &patterns, job, sizeof job, &length);
    patterns.inner[0] = 0xFFC12345;
    append(2, &settings, &patterns, job, sizeof job, &length);
    for (size_t i = 0; i < length; i++)
        printf("%02X%s", job[i], i == 4 || i == 34 || i == 64 ? "\n" : " ");

    /* What was read and written again is the same file. */
    uint8_t again[sizeof job];
    size_t bytes = copy(job, length, again, sizeof again);
    printf("%s\n", bytes == length && memcmp(job, again, length) == 0 ? "the same bytes" : "other bytes");

    /* The list is full now; version 1 holds the top 64 only; and a setting has few values. */
    append(2, &settings, &patterns, job, sizeof job, &length);
    append(1, &settings, &patterns, again, sizeof again, &bytes);
    settings.spacing = 3;
    append(2, &settings, &patterns, job, sizeof job, &length);

    /* A file with an unknown setting and a record that is cut: reading goes on after the first and ends after the second. */
    job[5 + 2] = 7;
    (void)copy(job, length - 1, again, sizeof again);
    return 0;
}
