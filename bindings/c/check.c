/*
 * `check K_STREAM`: every entry called through the header, on configuration K, and held to what document 01 says of it; on K with
 * retagging, to what document 02 says; and what the header says of null pointers with length 0. The last line is 'N passed, M failed'.
 */

#include "tailbow.h"

#include <stdio.h>
#include <string.h>

static unsigned passed, failed;

#define HOLDS(condition) holds((condition) ? 1 : 0, #condition, __LINE__)
/* All bytes of the first, those that belong to no field too. */
#define SAME(one, other) (memcmp(&(one), &(other), sizeof(one)) == 0)

static void holds(int condition, const char *words, int line)
{
    if (condition) {
        passed++;
        return;
    }
    failed++;
    printf("FAILED line %d: %s\n", line, words);
}

static uint32_t image[TAILBOW_IMAGE_WORDS + 1];
static uint8_t stream[4096];
static uint32_t words[1024];
static size_t bytes;

static int image_is(uint32_t word)
{
    size_t i;
    for (i = 0; i < TAILBOW_IMAGE_WORDS; i++)
        if (image[i] != word)
            return 0;
    return 1;
}

/* An untagged broadcast; more bytes than a frame may have. */
static uint8_t broadcast[TAILBOW_FRAME_BYTES + 1] = {0xFF, 0xFF, 0xFF, 0xFF, 0xFF, 0xFF};

/* What a kind does not have is 0; so are priority and queues of all that is sent here. */
static int verdict_is(const struct tailbow_verdict *verdict, uint32_t kind, uint32_t number, uint64_t ports, uint64_t vlan, uint64_t tags)
{
    struct tailbow_verdict expected;
    memset(&expected, 0, sizeof expected);
    expected.kind = kind, expected.number = number, expected.ports = ports, expected.vlan = vlan, expected.tags = tags;
    return SAME(*verdict, expected);
}

static int sent_to(const struct tailbow_verdict *verdict, uint64_t ports, uint64_t vlan, uint64_t tags)
{
    return verdict_is(verdict, TAILBOW_VERDICT_SENT, 0, ports, vlan, tags);
}

static int dropped_with(const struct tailbow_verdict *verdict, uint32_t number)
{
    return verdict_is(verdict, TAILBOW_VERDICT_DROP, number, 0, 0, 0);
}

static int refused_with(const struct tailbow_verdict *verdict, uint32_t number)
{
    return verdict_is(verdict, TAILBOW_VERDICT_REFUSED, number, 0, 0, 0);
}

/* The places for replicas, between two that are nobody's, filled with what no verdict has, each place otherwise. */
static struct tailbow_verdict places[TAILBOW_REPLICAS + 2];

static struct tailbow_verdict as_found(size_t place)
{
    struct tailbow_verdict verdict;
    memset(&verdict, 0xA5, sizeof verdict);
    verdict.vlan = 7000 + place;
    return verdict;
}

static struct tailbow_judged judge(const uint32_t *lent, size_t image_words, struct tailbow_ledger *ledger, size_t port, uint64_t time,
                                   const uint8_t *frame, size_t count)
{
    size_t place;
    for (place = 0; place < TAILBOW_REPLICAS + 2; place++)
        places[place] = as_found(place);
    return tailbow_judge(lent, image_words, ledger, port, time, frame, count, places + 1);
}

/* The place that the replica of this number has. */
static const struct tailbow_verdict *replica(size_t number)
{
    return &places[1 + number];
}

/* So many places are written, and no other. */
static int replicas_are(const struct tailbow_judged *judged, uint64_t many)
{
    size_t place;
    for (place = 0; place < TAILBOW_REPLICAS + 2; place++) {
        struct tailbow_verdict found = as_found(place);
        if (SAME(places[place], found) != !(place >= 1 && place <= many))
            return 0;
    }
    return judged->replicas == many;
}

/* K in writes of this length, from a load state that was anything. A fresh one is all 0; a write keeps the four bytes behind `table`. */
static void in_writes(size_t length)
{
    static const uint8_t zero[sizeof(struct tailbow_load)], nobodys[4] = {1, 2, 3, 4};
    size_t count = bytes / 4, at;
    uint32_t answer = TAILBOW_MORE;
    struct tailbow_load load, found;
    uint8_t *behind_table = (uint8_t *)&load + offsetof(struct tailbow_load, table) + sizeof load.table;
    memset(&load, 0xA5, sizeof load);
    tailbow_fresh_load(&load);
    HOLDS(SAME(load, zero));
    memcpy(behind_table, nobodys, sizeof nobodys);
    for (at = 0; at < count; at += length) {
        HOLDS(answer == TAILBOW_MORE);
        answer = tailbow_write(image, TAILBOW_IMAGE_WORDS + 1, &load, words + at, count - at < length ? count - at : length);
    }
    HOLDS(answer == TAILBOW_LOADED && load.phase == TAILBOW_PHASE_TOLD && load.told == TAILBOW_LOADED);
    HOLDS(load.table == 0 && load.placed == 0 && load.due == 0 && load.first == 0 && load.second == 0 && load.stream == 0 && load.block == 0);
    HOLDS(memcmp(behind_table, nobodys, sizeof nobodys) == 0);
    memcpy(&found, &load, sizeof load);
    HOLDS(tailbow_write(image, TAILBOW_IMAGE_WORDS, &load, words, 1) == TAILBOW_LOADED && SAME(load, found));
}

/* K as writes, as words and as bytes: one answer, one image; the buffer's rest is never written. */
static void loads(void)
{
    static uint32_t written[TAILBOW_IMAGE_WORDS];
    size_t count = bytes / 4;
    image[TAILBOW_IMAGE_WORDS] = 77;
    in_writes(TAILBOW_WRITE_WORDS);
    memcpy(written, image, sizeof written);
    in_writes(1);
    HOLDS(SAME(written, image));
    HOLDS(tailbow_load_words(image, TAILBOW_IMAGE_WORDS, words, count - 1) == TAILBOW_REFUSED_WORDS_END && image_is(0));
    HOLDS(tailbow_load_words(image, TAILBOW_IMAGE_WORDS, words, count) == TAILBOW_LOADED);
    HOLDS(SAME(written, image));
    memset(image, 0x5A, TAILBOW_IMAGE_WORDS * sizeof *image);
    HOLDS(tailbow_load_bytes(image, TAILBOW_IMAGE_WORDS, stream, bytes) == TAILBOW_LOADED);
    HOLDS(SAME(written, image));
    HOLDS(image[TAILBOW_IMAGE_WORDS] == 77);
}

/* A refused call leaves the image and the load state as found; a refused stream leaves the image zero. K is loaded at the end. */
static void refused_loads(void)
{
    static const uint32_t no_table[] = {0x9E00030E, 0, 0, 0x0951EADC};
    struct tailbow_load load, found;
    memset(image, 0x5A, TAILBOW_IMAGE_WORDS * sizeof *image);
    memset(&load, 0xA5, sizeof load);
    memcpy(&found, &load, sizeof load);
    HOLDS(tailbow_write(image, TAILBOW_IMAGE_WORDS - 1, &load, words, 0) == TAILBOW_REFUSED_BUFFER_SHORT && SAME(load, found));
    HOLDS(tailbow_write(image, TAILBOW_IMAGE_WORDS, &load, words, 0) == TAILBOW_REFUSED_IMAGE && SAME(load, found));
    tailbow_fresh_load(&load);
    memcpy(&found, &load, sizeof load);
    HOLDS(tailbow_write(image, TAILBOW_IMAGE_WORDS, &load, words, 0) == TAILBOW_REFUSED_WRITE_LENGTH && SAME(load, found));
    HOLDS(tailbow_write(image, TAILBOW_IMAGE_WORDS, &load, words, TAILBOW_WRITE_WORDS + 1) == TAILBOW_REFUSED_WRITE_LENGTH);
    HOLDS(SAME(load, found));
    HOLDS(tailbow_load_words(image, TAILBOW_IMAGE_WORDS - 1, words, 1) == TAILBOW_REFUSED_BUFFER_SHORT);
    HOLDS(tailbow_load_bytes(image, TAILBOW_IMAGE_WORDS - 1, stream, bytes - 1) == TAILBOW_REFUSED_BUFFER_SHORT);
    HOLDS(tailbow_load_bytes(image, TAILBOW_IMAGE_WORDS, stream, bytes - 1) == TAILBOW_REFUSED_BYTE_COUNT);
    HOLDS(image_is(0x5A5A5A5A));
    HOLDS(tailbow_write(image, TAILBOW_IMAGE_WORDS, &load, no_table, 4) == TAILBOW_REFUSED_ENTRY_COUNTS && image_is(0));
    HOLDS(load.phase == TAILBOW_PHASE_TOLD && load.told == TAILBOW_REFUSED_ENTRY_COUNTS);
    memset(image, 0x5A, TAILBOW_IMAGE_WORDS * sizeof *image);
    HOLDS(tailbow_load_words(image, TAILBOW_IMAGE_WORDS, words + 1, 1) == TAILBOW_REFUSED_WORD_ZERO && image_is(0));
    /* The first block's first data word. */
    stream[16] ^= 1;
    HOLDS(tailbow_load_bytes(image, TAILBOW_IMAGE_WORDS, stream, bytes) == TAILBOW_REFUSED_DATA_CHECKSUM && image_is(0));
    stream[16] ^= 1;
    HOLDS(tailbow_load_bytes(image, TAILBOW_IMAGE_WORDS, stream, bytes) == TAILBOW_LOADED);
}

/* An image that isn't loaded. */
static const uint32_t empty[TAILBOW_IMAGE_WORDS];

/* K's fresh ledger, over numbers that were anything. */
static struct tailbow_ledger fresh_ledger(void)
{
    struct tailbow_ledger ledger;
    memset(&ledger, 0xA5, sizeof ledger);
    HOLDS(tailbow_fresh_ledger(image, TAILBOW_IMAGE_WORDS, &ledger) == TAILBOW_DONE);
    return ledger;
}

/* A fresh ledger, and the one beside a refusal: all numbers are filled. */
static void ledgers(void)
{
    struct tailbow_ledger fresh = fresh_ledger(), expected, none;
    size_t meter;
    memset(&expected, 0, sizeof expected);
    none = expected;
    none.last = TAILBOW_LAST_TIME + 1;
    expected.units[0] = 1;
    for (meter = 0; meter < TAILBOW_METERS; meter++)
        expected.credit[meter] = UINT64_C(65535) * 8000000;
    HOLDS(SAME(fresh, expected));
    HOLDS(tailbow_fresh_ledger(image, TAILBOW_IMAGE_WORDS - 1, &fresh) == TAILBOW_REFUSED_BUFFER_SHORT && SAME(fresh, none));
    memset(&fresh, 0xA5, sizeof fresh);
    HOLDS(tailbow_fresh_ledger(empty, TAILBOW_IMAGE_WORDS, &fresh) == TAILBOW_REFUSED_IMAGE && SAME(fresh, none));
}

/* K's list by hand. */
static void frames(void)
{
    struct tailbow_ledger ledger = fresh_ledger();
    struct tailbow_judged judged = judge(image, TAILBOW_IMAGE_WORDS, &ledger, 0, 10, broadcast, 60);
    HOLDS(sent_to(&judged.verdict, 30, 1, 0) && replicas_are(&judged, 0));
    HOLDS(ledger.units[0] == 0 && ledger.last == 10 && ledger.frames[0] == 1 && ledger.octets[0] == 64);
    HOLDS(ledger.credit[40] == UINT64_C(65535) * 8000000 - UINT64_C(64) * 8000000 && ledger.since[40] == 10);
    judged = judge(image, TAILBOW_IMAGE_WORDS, &ledger, 0, 20, broadcast, 60);
    HOLDS(dropped_with(&judged.verdict, TAILBOW_DROP_PARTITION) && replicas_are(&judged, 0));
    HOLDS(ledger.drops[0] == 1 && ledger.dropped[0] == 64);
    HOLDS(tailbow_release(image, TAILBOW_IMAGE_WORDS, &ledger, 0) == TAILBOW_DONE && ledger.units[0] == 1 && ledger.last == 20);
    judged = judge(image, TAILBOW_IMAGE_WORDS, &ledger, 1, 30, broadcast, 59);
    HOLDS(dropped_with(&judged.verdict, TAILBOW_DROP_SHORT) && replicas_are(&judged, 0) && ledger.last == 30);
}

/* True where the frame is refused so, and the ledger and every place left as found. */
static int frame_refused(const uint32_t *lent, size_t image_words, struct tailbow_ledger ledger, size_t port, uint64_t time, size_t count,
                         uint32_t number)
{
    struct tailbow_ledger found = ledger;
    struct tailbow_judged judged = judge(lent, image_words, &ledger, port, time, broadcast, count);
    return refused_with(&judged.verdict, number) && replicas_are(&judged, 0) && SAME(ledger, found);
}

static int release_refused(const uint32_t *lent, size_t image_words, struct tailbow_ledger ledger, size_t partition, uint32_t number)
{
    struct tailbow_ledger found = ledger;
    return tailbow_release(lent, image_words, &ledger, partition) == number && SAME(ledger, found);
}

/* Each refusal of a frame and of a release, before those behind it. The image is K's, or K's with retagging. */
static void refused_frames(void)
{
    struct tailbow_ledger ledger = fresh_ledger(), bad, full;
    ledger.last = 30;
    bad = full = ledger;
    bad.units[0]++;
    full.frames[4] = UINT64_C(0xFFFFFFFF);
    full.octets[4] = 64 * full.frames[4];
    HOLDS(frame_refused(empty, TAILBOW_IMAGE_WORDS - 1, bad, 5, 29, TAILBOW_FRAME_BYTES + 1, TAILBOW_REFUSED_BUFFER_SHORT));
    HOLDS(frame_refused(empty, TAILBOW_IMAGE_WORDS, bad, 5, 29, TAILBOW_FRAME_BYTES + 1, TAILBOW_REFUSED_IMAGE));
    HOLDS(frame_refused(image, TAILBOW_IMAGE_WORDS, bad, 5, 29, TAILBOW_FRAME_BYTES + 1, TAILBOW_REFUSED_LEDGER));
    HOLDS(frame_refused(image, TAILBOW_IMAGE_WORDS, full, 5, 29, TAILBOW_FRAME_BYTES + 1, TAILBOW_REFUSED_PORT));
    HOLDS(frame_refused(image, TAILBOW_IMAGE_WORDS, full, 4, 29, TAILBOW_FRAME_BYTES + 1, TAILBOW_REFUSED_TIME));
    HOLDS(frame_refused(image, TAILBOW_IMAGE_WORDS, full, 4, 30, TAILBOW_FRAME_BYTES + 1, TAILBOW_REFUSED_FRAME_LENGTH));
    HOLDS(frame_refused(image, TAILBOW_IMAGE_WORDS, full, 4, 30, TAILBOW_FRAME_BYTES, TAILBOW_REFUSED_FRAMES_FULL));
    HOLDS(release_refused(empty, TAILBOW_IMAGE_WORDS - 1, bad, 8, TAILBOW_REFUSED_BUFFER_SHORT));
    HOLDS(release_refused(empty, TAILBOW_IMAGE_WORDS, bad, 8, TAILBOW_REFUSED_IMAGE));
    HOLDS(release_refused(image, TAILBOW_IMAGE_WORDS, bad, 8, TAILBOW_REFUSED_LEDGER));
    HOLDS(release_refused(image, TAILBOW_IMAGE_WORDS, ledger, 8, TAILBOW_REFUSED_PARTITION));
    HOLDS(release_refused(image, TAILBOW_IMAGE_WORDS, ledger, 0, TAILBOW_REFUSED_NOTHING_OUT));
}

/* True where the tile has this kind, this number and twice this share, and the ledger is left as found. */
static int shows(const uint32_t *lent, size_t image_words, struct tailbow_ledger ledger, size_t port, uint32_t kind, uint32_t number,
                 uint64_t share)
{
    struct tailbow_ledger found = ledger;
    struct tailbow_port_tile tile = tailbow_tile(lent, image_words, &ledger, port);
    return tile.kind == kind && tile.number == number && tile.share == share && tile.octets == share && SAME(ledger, found);
}

/* K's tiles, from the counts that document 01 prints; then each tile that shows no share. */
static void tiles(void)
{
    struct tailbow_ledger ledger = fresh_ledger();
    ledger.frames[0] = 2, ledger.drops[0] = 1, ledger.octets[0] = 128, ledger.dropped[0] = 64;
    HOLDS(shows(image, TAILBOW_IMAGE_WORDS, ledger, 0, TAILBOW_TILE_SHARES, 0, UINT64_C(0x3FE0000000000000)));
    HOLDS(shows(image, TAILBOW_IMAGE_WORDS, ledger, 1, TAILBOW_TILE_NO_FRAMES, 0, 0));
    ledger.drops[0] = 3;
    HOLDS(shows(empty, TAILBOW_IMAGE_WORDS - 1, ledger, 5, TAILBOW_TILE_REFUSED, TAILBOW_REFUSED_BUFFER_SHORT, 0));
    HOLDS(shows(empty, TAILBOW_IMAGE_WORDS, ledger, 5, TAILBOW_TILE_REFUSED, TAILBOW_REFUSED_PORT, 0));
    HOLDS(shows(empty, TAILBOW_IMAGE_WORDS, ledger, 1, TAILBOW_TILE_NOT_LOADED, 0, 0));
    HOLDS(shows(image, TAILBOW_IMAGE_WORDS, ledger, 1, TAILBOW_TILE_REFUSED, TAILBOW_REFUSED_LEDGER, 0));
}

static void lists(void)
{
    static const uint8_t list[] = {'F', 'R', 'L', 0, 1, 2, 7, 1, 3, 0, 0, 0, 0, 0, 0, 1, 0, 0, 2, 0xAA, 0xBB, 9};
    static const uint8_t version_2[] = {'F', 'R', 'L', 0, 2}, long_list[TAILBOW_LIST_BYTES + 1] = {'F', 'R', 'L', 0, 1};
    struct tailbow_record record = tailbow_record_at(list, sizeof list, TAILBOW_LIST_FIRST);
    HOLDS(record.kind == TAILBOW_RECORD_RELEASE && record.partition == 7 && record.next == 7);
    record = tailbow_record_at(list, sizeof list, 7);
    HOLDS(record.kind == TAILBOW_RECORD_FRAME && record.port == 3 && record.time == 256);
    HOLDS(record.start == 19 && record.count == 2 && record.next == 21);
    record = tailbow_record_at(list, sizeof list, 21);
    HOLDS(record.kind == TAILBOW_RECORD_REFUSED && record.number == TAILBOW_REFUSED_LIST_KIND);
    HOLDS(tailbow_record_at(list, 20, 7).number == TAILBOW_REFUSED_LIST_CUT);
    HOLDS(tailbow_record_at(list, 21, 21).kind == TAILBOW_RECORD_END);
    HOLDS(tailbow_record_at(list, 21, SIZE_MAX).kind == TAILBOW_RECORD_END);
    HOLDS(tailbow_record_at(list + 1, 20, 5).number == TAILBOW_REFUSED_LIST_MARK);
    HOLDS(tailbow_record_at(version_2, sizeof version_2, 5).number == TAILBOW_REFUSED_LIST_VERSION);
    HOLDS(tailbow_record_at(long_list, TAILBOW_LIST_BYTES + 1, 5).number == TAILBOW_REFUSED_LIST_LENGTH);
    HOLDS(tailbow_record_at(long_list, TAILBOW_LIST_BYTES, 5).number == TAILBOW_REFUSED_LIST_KIND);
}

/* Ethernet CRC-32, each word's low byte first. */
static uint32_t checksum(const uint32_t *over, size_t count)
{
    uint32_t sum = 0xFFFFFFFF;
    size_t i;
    int bit;
    for (i = 0; i < count; i++) {
        sum ^= over[i];
        for (bit = 0; bit < 32; bit++)
            sum = sum >> 1 ^ (sum & 1 ? 0xEDB88320 : 0);
    }
    return ~sum;
}

/* A stream in the making. */
static uint32_t made[1024];
static size_t made_words;

static void make_block(uint32_t id, const uint32_t *data, size_t count)
{
    uint32_t *header = made + made_words;
    header[0] = id << 24;
    header[1] = (uint32_t)count;
    header[2] = checksum(header, 2);
    memcpy(header + 3, data, count * sizeof *data);
    header[3 + count] = checksum(data, count);
    made_words += count + 4;
}

/*
 * K's blocks with PART_SPC(0) at 3; VLAN 2 with all ports in VMEMB_PORT, VLAN_BC and TAG_PORT; a block 12 with these words, where there are
 * any; the end. The load's answer; the image is K's with retagging where that is TAILBOW_LOADED.
 */
static uint32_t load_retagging(const uint32_t *data, size_t count)
{
    static const uint32_t vlan_2[] = {0x10000000, 0x003FFF80};
    uint32_t block[128];
    size_t at;
    made[0] = words[0];
    made_words = 1;
    for (at = 1; words[at + 1] != 0; at += 4 + words[at + 1]) {
        memcpy(block, words + at + 3, words[at + 1] * sizeof *block);
        if (words[at] >> 24 == 0x0E) {
            HOLDS(block[0] == 1 << 13);
            block[0] = 3 << 13;
        }
        make_block(words[at] >> 24, block, words[at + 1]);
    }
    make_block(0x07, vlan_2, 2);
    if (count > 0)
        make_block(0x12, data, count);
    made[made_words] = made[made_words + 1] = 0;
    made[made_words + 2] = checksum(made, made_words + 2);
    return tailbow_load_words(image, TAILBOW_IMAGE_WORDS, made, made_words + 3);
}

/* ING_PORT 1 and VLAN_ING 1: to VLAN 2, and to VLAN 1 again. */
#define TO_2 0x80000000, 0x00400400
#define TO_1 0x40000000, 0x00400400

/* One replica: broadcasts of 60 bytes on port 0 at 10 and 20, release of 0, the same on port 1 at 30, 59 bytes on port 0 at 40. */
static void one_replica(void)
{
    static const uint32_t entry[] = {TO_2};
    struct tailbow_ledger ledger;
    struct tailbow_judged judged;
    struct tailbow_port_tile tile;
    HOLDS(load_retagging(entry, 2) == TAILBOW_LOADED);
    ledger = fresh_ledger();
    judged = judge(image, TAILBOW_IMAGE_WORDS, &ledger, 0, 10, broadcast, 60);
    HOLDS(sent_to(&judged.verdict, 30, 1, 0) && replicas_are(&judged, 1) && sent_to(replica(0), 30, 2, 30));
    HOLDS(ledger.units[0] == 1 && ledger.frames[0] == 1 && ledger.octets[0] == 64 && ledger.last == 10);
    HOLDS(ledger.credit[40] == (UINT64_C(65535) - 2 * 64) * 8000000 && ledger.since[40] == 10);
    judged = judge(image, TAILBOW_IMAGE_WORDS, &ledger, 0, 20, broadcast, 60);
    HOLDS(sent_to(&judged.verdict, 30, 1, 0) && replicas_are(&judged, 1) && dropped_with(replica(0), TAILBOW_DROP_PARTITION));
    HOLDS(ledger.units[0] == 0 && ledger.frames[0] == 2 && ledger.drops[0] == 0);
    HOLDS(tailbow_release(image, TAILBOW_IMAGE_WORDS, &ledger, 0) == TAILBOW_DONE);
    judged = judge(image, TAILBOW_IMAGE_WORDS, &ledger, 1, 30, broadcast, 60);
    HOLDS(sent_to(&judged.verdict, 29, 1, 0) && replicas_are(&judged, 0));
    judged = judge(image, TAILBOW_IMAGE_WORDS, &ledger, 0, 40, broadcast, 59);
    HOLDS(dropped_with(&judged.verdict, TAILBOW_DROP_SHORT) && replicas_are(&judged, 0));
    HOLDS(ledger.frames[0] == 3 && ledger.drops[0] == 1 && ledger.frames[1] == 1 && ledger.drops[1] == 0);
    tile = tailbow_tile(image, TAILBOW_IMAGE_WORDS, &ledger, 0);
    HOLDS(tile.kind == TAILBOW_TILE_SHARES && tile.share == UINT64_C(0x3FD5555555555555) && tile.octets == UINT64_C(0x3FD51C25875F298D));
    HOLDS(shows(image, TAILBOW_IMAGE_WORDS, ledger, 1, TAILBOW_TILE_SHARES, 0, 0));
    HOLDS(shows(image, TAILBOW_IMAGE_WORDS, ledger, 2, TAILBOW_TILE_NO_FRAMES, 0, 0));
}

/* Two replicas, in the order of their entries, also of a frame that is dropped with 11; none without an entry; the most. */
static void many_replicas(void)
{
    static const uint32_t two[] = {TO_2, TO_1};
    uint32_t most[2 * TAILBOW_REPLICAS];
    struct tailbow_ledger ledger;
    struct tailbow_judged judged;
    size_t i;
    HOLDS(load_retagging(two, 4) == TAILBOW_LOADED);
    refused_frames();
    ledger = fresh_ledger();
    judged = judge(image, TAILBOW_IMAGE_WORDS, &ledger, 0, 10, broadcast, 60);
    HOLDS(sent_to(&judged.verdict, 30, 1, 0) && replicas_are(&judged, 2));
    HOLDS(sent_to(replica(0), 30, 2, 30) && sent_to(replica(1), 30, 1, 0) && ledger.units[0] == 0);
    judged = judge(image, TAILBOW_IMAGE_WORDS, &ledger, 0, 20, broadcast, 60);
    HOLDS(dropped_with(&judged.verdict, TAILBOW_DROP_PARTITION) && replicas_are(&judged, 2));
    HOLDS(dropped_with(replica(0), TAILBOW_DROP_PARTITION) && dropped_with(replica(1), TAILBOW_DROP_PARTITION));
    HOLDS(ledger.frames[0] == 2 && ledger.drops[0] == 1 && ledger.dropped[0] == 64);
    HOLDS(load_retagging(two, 0) == TAILBOW_LOADED);
    ledger = fresh_ledger();
    judged = judge(image, TAILBOW_IMAGE_WORDS, &ledger, 0, 10, broadcast, 60);
    HOLDS(sent_to(&judged.verdict, 30, 1, 0) && replicas_are(&judged, 0) && ledger.units[0] == 2);
    for (i = 0; i < 2 * TAILBOW_REPLICAS; i++)
        most[i] = two[i % 2];
    HOLDS(load_retagging(most, 2 * TAILBOW_REPLICAS) == TAILBOW_LOADED);
    ledger = fresh_ledger();
    judged = judge(image, TAILBOW_IMAGE_WORDS, &ledger, 0, 10, broadcast, 60);
    HOLDS(sent_to(&judged.verdict, 30, 1, 0) && replicas_are(&judged, TAILBOW_REPLICAS) && ledger.units[0] == 0);
    for (i = 0; i < TAILBOW_REPLICAS; i++)
        HOLDS(i < 2 ? sent_to(replica(i), 30, 2, 30) : dropped_with(replica(i), TAILBOW_DROP_PARTITION));
}

/* A block 12 that is refused. VLAN 3 has no entry in 07: once it is VLAN_EGR, once VLAN_ING. */
static void refused_retagging(void)
{
    static const uint32_t egr_3[] = {0xC0000000, 0x00400400}, ing_3[] = {0x80000000, 0x00400C00};
    static const uint32_t too_many[2 * (TAILBOW_REPLICAS + 1)];
    HOLDS(load_retagging(egr_3, 2) == TAILBOW_REFUSED_RETAG_VLAN && image_is(0));
    HOLDS(load_retagging(ing_3, 2) == TAILBOW_REFUSED_RETAG_VLAN && image_is(0));
    HOLDS(load_retagging(too_many, 3) == TAILBOW_REFUSED_NOT_WHOLE_ENTRIES && image_is(0));
    HOLDS(load_retagging(too_many, 2 * (TAILBOW_REPLICAS + 1)) == TAILBOW_REFUSED_TOO_MANY_ENTRIES && image_is(0));
}

/* A null pointer with length 0, in every place. The image is K's. */
static void nulls(void)
{
    struct tailbow_load load;
    struct tailbow_ledger ledger = fresh_ledger(), found = ledger;
    struct tailbow_judged judged;
    tailbow_fresh_load(&load);
    HOLDS(tailbow_write(NULL, 0, &load, NULL, 0) == TAILBOW_REFUSED_BUFFER_SHORT);
    HOLDS(tailbow_write(image, TAILBOW_IMAGE_WORDS, &load, NULL, 0) == TAILBOW_REFUSED_WRITE_LENGTH);
    HOLDS(tailbow_load_words(NULL, 0, words, 1) == TAILBOW_REFUSED_BUFFER_SHORT);
    HOLDS(tailbow_load_bytes(NULL, 0, stream, 1) == TAILBOW_REFUSED_BUFFER_SHORT);
    judged = judge(NULL, 0, &ledger, 0, 10, NULL, 0);
    HOLDS(refused_with(&judged.verdict, TAILBOW_REFUSED_BUFFER_SHORT) && SAME(ledger, found) && replicas_are(&judged, 0));
    judged = judge(image, TAILBOW_IMAGE_WORDS, &ledger, 0, 10, NULL, 0);
    HOLDS(dropped_with(&judged.verdict, TAILBOW_DROP_SHORT) && ledger.last == 10 && ledger.dropped[0] == 4);
    HOLDS(tailbow_release(NULL, 0, &ledger, 0) == TAILBOW_REFUSED_BUFFER_SHORT);
    HOLDS(tailbow_tile(NULL, 0, &ledger, 0).number == TAILBOW_REFUSED_BUFFER_SHORT);
    HOLDS(tailbow_fresh_ledger(NULL, 0, &ledger) == TAILBOW_REFUSED_BUFFER_SHORT);
    HOLDS(tailbow_record_at(NULL, 0, 0).number == TAILBOW_REFUSED_LIST_CUT);
    HOLDS(tailbow_load_words(image, TAILBOW_IMAGE_WORDS, NULL, 0) == TAILBOW_REFUSED_WORDS_END && image_is(0));
    HOLDS(tailbow_load_bytes(image, TAILBOW_IMAGE_WORDS, NULL, 0) == TAILBOW_REFUSED_WORDS_END && image_is(0));
}

int main(int arguments, char **argument)
{
    FILE *file = arguments > 1 ? fopen(argument[1], "rb") : NULL;
    size_t i;
    bytes = file ? fread(stream, 1, sizeof stream, file) : 0;
    for (i = 0; i < bytes / 4; i++)
        words[i] = (uint32_t)stream[4 * i] << 24 | (uint32_t)stream[4 * i + 1] << 16 | (uint32_t)stream[4 * i + 2] << 8 | stream[4 * i + 3];
    /* K's stream has 199 words. Without it nothing is checked, and that is a failure. */
    HOLDS(bytes == 796);
    if (bytes == 796) {
        loads();
        refused_loads();
        ledgers();
        frames();
        refused_frames();
        tiles();
        lists();
        nulls();
        one_replica();
        many_replicas();
        refused_retagging();
    }
    printf("%u passed, %u failed\n", passed, failed);
    return failed == 0 ? 0 : 1;
}
