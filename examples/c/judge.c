/*
 * `judge STREAM < LIST`: loads a stream in writes, judges the list's frames, prints verdicts and five tiles as Tailbow's own program does.
 * At the top of the repository, once `tools/archive` has written the archive:
 *
 *     cc -std=c99 -Iinclude examples/c/judge.c -o judge -Ltarget/staticlib -ltailbow_c
 *     ./judge examples/k.stream < examples/k.list
 */

#include "tailbow.h"

#include <inttypes.h>
#include <stdio.h>

static uint32_t image[TAILBOW_IMAGE_WORDS];
/* One byte more than the most is enough to tell that a list is too long. */
static uint8_t list[TAILBOW_LIST_BYTES + 1];

/* Four bytes as a word, most significant first. */
static uint32_t word_of(const uint8_t *bytes)
{
    return (uint32_t)bytes[0] << 24 | (uint32_t)bytes[1] << 16 | (uint32_t)bytes[2] << 8 | bytes[3];
}

/* The stream's bytes; none where it can't be read. */
static uint64_t count_bytes(FILE *stream)
{
    uint8_t bytes[4096];
    uint64_t total = 0;
    size_t got;
    while ((got = fread(bytes, 1, sizeof bytes, stream)) > 0)
        total += got;
    rewind(stream);
    return total;
}

/* Sends the stream to the loader, 64 words a write, until it answers. Document 01 says 10 where the stream ends before that. */
static uint32_t send_words(FILE *stream)
{
    uint8_t bytes[4 * TAILBOW_WRITE_WORDS];
    uint32_t words[TAILBOW_WRITE_WORDS];
    struct tailbow_load load;
    size_t count, i;
    tailbow_fresh_load(&load);
    while ((count = fread(bytes, 1, sizeof bytes, stream) / 4) > 0) {
        uint32_t answer;
        for (i = 0; i < count; i++)
            words[i] = word_of(bytes + 4 * i);
        answer = tailbow_write(image, TAILBOW_IMAGE_WORDS, &load, words, count);
        if (answer != TAILBOW_MORE)
            return answer;
    }
    return TAILBOW_REFUSED_WORDS_END;
}

static uint32_t load_stream(const char *path)
{
    FILE *stream = path ? fopen(path, "rb") : NULL;
    uint32_t answer;
    if (!stream)
        return TAILBOW_REFUSED_WORDS_END;
    answer = count_bytes(stream) % 4 == 0 ? send_words(stream) : TAILBOW_REFUSED_BYTE_COUNT;
    fclose(stream);
    return answer;
}

/* The line of a frame or of a replica. */
static void print_verdict(const char *what, unsigned number, const struct tailbow_verdict *verdict)
{
    int port;
    if (verdict->kind == TAILBOW_VERDICT_REFUSED) {
        printf("refused %" PRIu32 "\n", verdict->number);
        return;
    }
    if (verdict->kind == TAILBOW_VERDICT_DROP) {
        printf("%s %u drop %" PRIu32 "\n", what, number, verdict->number);
        return;
    }
    printf("%s %u sent %" PRIu64 " vlan %" PRIu64 " prio %" PRIu64 " tags %" PRIu64 " queues", what, number, verdict->ports, verdict->vlan,
           verdict->priority, verdict->tags);
    for (port = 0; port < TAILBOW_PORTS; port++)
        printf(" %" PRIu64, verdict->queues[port]);
    printf("\n");
}

/* A frame, and right behind it its replicas, with the same record's number. */
static void judge_frame(struct tailbow_ledger *ledger, unsigned number, const struct tailbow_record *record)
{
    struct tailbow_verdict replicas[TAILBOW_REPLICAS];
    struct tailbow_judged judged = tailbow_judge(image, TAILBOW_IMAGE_WORDS, ledger, record->port, record->time, list + record->start,
                                                 record->count, replicas);
    uint64_t replica;
    print_verdict("frame", number, &judged.verdict);
    for (replica = 0; replica < judged.replicas; replica++)
        print_verdict("replica", number, &replicas[replica]);
}

/* A refused release changes nothing, and the walk goes on. */
static void print_release(unsigned number, uint32_t refusal)
{
    if (refusal != TAILBOW_DONE)
        printf("refused %" PRIu32 "\n", refusal);
    else
        printf("release %u ok\n", number);
}

/* Runs record after record on one ledger. */
static void walk(struct tailbow_ledger *ledger, size_t bytes)
{
    size_t at = TAILBOW_LIST_FIRST;
    unsigned number;
    for (number = 1;; number++) {
        struct tailbow_record record = tailbow_record_at(list, bytes, at);
        if (record.kind == TAILBOW_RECORD_END)
            return;
        if (record.kind == TAILBOW_RECORD_REFUSED) {
            printf("list refused %" PRIu32 "\n", record.number);
            return;
        }
        if (record.kind == TAILBOW_RECORD_FRAME)
            judge_frame(ledger, number, &record);
        else
            print_release(number, tailbow_release(image, TAILBOW_IMAGE_WORDS, ledger, record.partition));
        at = record.next;
    }
}

/* A share is printed by its bits. */
static void print_tile(const struct tailbow_ledger *ledger, size_t port)
{
    struct tailbow_port_tile tile = tailbow_tile(image, TAILBOW_IMAGE_WORDS, ledger, port);
    printf("tile %zu ", port);
    switch (tile.kind) {
    case TAILBOW_TILE_NOT_LOADED:
        printf("not-loaded\n");
        break;
    case TAILBOW_TILE_NO_FRAMES:
        printf("no-frames\n");
        break;
    case TAILBOW_TILE_SHARES:
        printf("frames %" PRIu64 " drops %" PRIu64 " share %016" PRIx64 " octets %016" PRIx64 "\n", ledger->frames[port],
               ledger->drops[port], tile.share, tile.octets);
        break;
    default:
        printf("refused %" PRIu32 "\n", tile.number);
    }
}

int main(int arguments, char **argument)
{
    uint32_t answer = load_stream(arguments > 1 ? argument[1] : NULL);
    /* Beside a refused load the ledger is one that is never taken, and every tile is not-loaded. */
    struct tailbow_ledger ledger;
    uint32_t fresh = tailbow_fresh_ledger(image, TAILBOW_IMAGE_WORDS, &ledger);
    size_t port;
    if (answer == TAILBOW_LOADED && fresh == TAILBOW_DONE) {
        printf("config loaded\n");
        walk(&ledger, fread(list, 1, sizeof list, stdin));
    } else {
        printf("config refused %" PRIu32 "\n", answer);
    }
    for (port = 0; port < TAILBOW_PORTS; port++)
        print_tile(&ledger, port);
    return fflush(stdout) == 0 ? 0 : 1;
}
