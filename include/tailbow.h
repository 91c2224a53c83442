/*
 * Tailbow for C and C++: loads an SJA1105TEL's static configuration, judges frames, shows tiles.
 *
 * Link libtailbow_c.a, which `tools/archive` writes to target/staticlib/ once the crate is proved. It is for x86-64
 * and needs memcpy and memset, nothing else. The entries allocate nothing, print nothing and keep nothing between two
 * calls: all that they know is in what the caller lends. So calls on different buffers, load states and ledgers may run at the same time.
 *
 * What holds for every entry:
 *
 * - Each entry tests what it needs and refuses by number. Numbers of any value may be passed, also in a load state or a ledger.
 * - A pointer with a length is a slice. It must point to that many elements, aligned for their type, that nobody else
 *   writes during the call; an element lent for writing must not lie in any other slice of the same call.
 * - A load state, a ledger and the places for replicas are lent where they lie. The pointer must not be null: it must point to one such
 *   struct, for replicas to TAILBOW_REPLICAS of them, aligned, that nobody else writes during the call and that lie in no slice of the call.
 *   The places for replicas and the ledger must lie apart.
 * - These two can't be tested by an entry, and are the caller's to keep; so is stack enough. A long whole load keeps four tables of 4 KB there;
 *   how much an entry needs in all no proof measures. Nothing else is the caller's to keep.
 * - Where a length is 0 no element is read or written. The pointer should still be one that isn't null, as to any object.
 *   A null pointer with length 0 has been tried in every place of this archive and did no harm, yet no proof speaks of it.
 * - The image is the first TAILBOW_IMAGE_WORDS words of a buffer that the caller lends. The buffer's rest is never read or written.
 * - What is const here is left as it was.
 *
 * Numbers and rules are those of document 01 and of document 02. The comment over each entry gives its refusals in the order in which they are
 * tested: the first that applies is the answer.
 */
#ifndef TAILBOW_H
#define TAILBOW_H

#include <stddef.h>
#include <stdint.h>

#ifdef __cplusplus
extern "C" {
#endif

/* ---- Sizes ---- */

/* Words of an image; a shorter buffer is refused with 31. */
#define TAILBOW_IMAGE_WORDS 11520
/* The most words of one write; a longer write is refused with 32. */
#define TAILBOW_WRITE_WORDS 64
/* The most bytes of a frame, without its checksum; a longer frame is refused with 35. */
#define TAILBOW_FRAME_BYTES 4096
/* The most bytes of a list; a longer list is refused with 54. */
#define TAILBOW_LIST_BYTES 16384
/* The place of a list's first record, behind the mark FRL and the version. */
#define TAILBOW_LIST_FIRST 5
/* The last time that is a time, in microseconds: 2^48 - 1. */
#define TAILBOW_LAST_TIME UINT64_C(0xFFFFFFFFFFFF)

#define TAILBOW_PORTS 5
#define TAILBOW_PARTITIONS 8
#define TAILBOW_METERS 45
/* The most replicas of one frame: the most entries of block 12. */
#define TAILBOW_REPLICAS 32

/* ---- Answers ---- */

/* Answer 0: loaded; for a ledger or a release: done. */
#define TAILBOW_LOADED 0u
#define TAILBOW_DONE 0u
/* A write's answer while the end block is incomplete. Document 01 gives "more" no number; no load is told this one as its answer. */
#define TAILBOW_MORE 0xFFFFFFFFu

/* A refused load: framing. */
#define TAILBOW_REFUSED_WORD_ZERO 1u           /* word 0 differs from 9E00030E */
#define TAILBOW_REFUSED_HEADER_CHECKSUM 2u     /* a header's checksum is wrong */
#define TAILBOW_REFUSED_UNKNOWN_ID 3u          /* a block ID that isn't in table 2 of the manual */
#define TAILBOW_REFUSED_ID_NOT_CARRIED 4u      /* a block ID in table 2 whose table isn't carried */
#define TAILBOW_REFUSED_NOT_WHOLE_ENTRIES 5u   /* a length that isn't whole entries */
#define TAILBOW_REFUSED_TOO_MANY_ENTRIES 6u    /* the table would pass its most entries */
#define TAILBOW_REFUSED_DATA_CHECKSUM 7u       /* a block's data checksum is wrong */
#define TAILBOW_REFUSED_GLOBAL_CHECKSUM 8u     /* the checksum over the whole stream is wrong */
#define TAILBOW_REFUSED_BYTE_COUNT 9u          /* byte input that isn't a multiple of 4 long */
#define TAILBOW_REFUSED_WORDS_END 10u          /* whole load: the words end before the end block is complete */

/* A refused load: loading rules. */
#define TAILBOW_REFUSED_ENTRY_COUNTS 20u       /* 06 or 07 has no entry, or 08 not 13, 09 not 5, 0E, 11 or 4E not 1 */
#define TAILBOW_REFUSED_VLANID_TWICE 21u       /* two entries of 07 have one VLANID */
#define TAILBOW_REFUSED_PORT_VLANID 22u        /* a port's VLANID in 09 has no entry in 07 */
#define TAILBOW_REFUSED_SHARINDX 23u           /* a SHARINDX isn't below the count of 06 */
#define TAILBOW_REFUSED_PART_SPC 24u           /* the eight PART_SPC add up to more than 929 */
#define TAILBOW_REFUSED_INDEX_TWICE 25u        /* two entries of 05 have one INDEX */
#define TAILBOW_REFUSED_RETAG_VLAN 28u         /* an entry of 12 has a VLAN_ING or VLAN_EGR that no entry of 07 has */

/* A refused call. */
#define TAILBOW_REFUSED_IMAGE 30u              /* the image or the load state can't be believed: see each entry */
#define TAILBOW_REFUSED_BUFFER_SHORT 31u       /* the image's buffer has fewer than TAILBOW_IMAGE_WORDS words */
#define TAILBOW_REFUSED_WRITE_LENGTH 32u       /* a write of 0 words, or of more than 64 */
#define TAILBOW_REFUSED_PORT 33u               /* a port above 4 */
#define TAILBOW_REFUSED_TIME 34u               /* a time before the last time, or above 2^48 - 1 */
#define TAILBOW_REFUSED_FRAME_LENGTH 35u       /* a frame of more than 4,096 bytes */
#define TAILBOW_REFUSED_PARTITION 36u          /* a partition above 7 */
#define TAILBOW_REFUSED_NOTHING_OUT 37u        /* nothing of the partition is out */
#define TAILBOW_REFUSED_FRAMES_FULL 38u        /* the port's frames are at 2^32 - 1 */
#define TAILBOW_REFUSED_LEDGER 39u             /* the ledger is out of range: see struct tailbow_ledger */

/* A refused list. */
#define TAILBOW_REFUSED_LIST_MARK 50u          /* the mark isn't FRL */
#define TAILBOW_REFUSED_LIST_VERSION 51u       /* the version isn't 1 */
#define TAILBOW_REFUSED_LIST_CUT 52u           /* a cut record; also a list below 5 bytes whose bytes so far agree */
#define TAILBOW_REFUSED_LIST_KIND 53u          /* a record of unknown kind */
#define TAILBOW_REFUSED_LIST_LENGTH 54u        /* a list of more than 16,384 bytes */

/* Why a frame is dropped; a replica, with 4 and 7 to 11 alone. L is the frame's bytes plus 4; k is its policing entry. */
#define TAILBOW_DROP_SHORT 1u                  /* L below 64 */
#define TAILBOW_DROP_INGRESS 2u                /* the port's INGRESS is clear */
#define TAILBOW_DROP_UNTAGGED 3u               /* untagged, and the port's DRPUNTAG is set */
#define TAILBOW_DROP_VLAN 4u                   /* the VLAN has no entry in 07 */
#define TAILBOW_DROP_MEMBER 5u                 /* tagged, and the port isn't in VMEMB_PORT */
#define TAILBOW_DROP_ENFPORT 6u                /* the source address is enforced on other ports */
#define TAILBOW_DROP_POLICING 7u               /* entry k, or the one its SHARINDX names, isn't loaded */
#define TAILBOW_DROP_MAXLEN 8u                 /* L above MAXLEN of entry k */
#define TAILBOW_DROP_METER 9u                  /* the meter is short */
#define TAILBOW_DROP_NO_PORT 10u               /* no port to send to */
#define TAILBOW_DROP_PARTITION 11u             /* the partition has no unit left */

/* ---- Loading ---- */

/* A load state's `phase`: which word comes next. */
#define TAILBOW_PHASE_FRESH 0u                 /* word 0; the load has not begun */
#define TAILBOW_PHASE_ID 1u                    /* a header's first word */
#define TAILBOW_PHASE_LENGTH 2u                /* a header's second word */
#define TAILBOW_PHASE_SUM 3u                   /* a header's third word */
#define TAILBOW_PHASE_DATA 4u                  /* a data word; where none is due, the data checksum */
#define TAILBOW_PHASE_TOLD 5u                  /* none: an answer has been told */

/*
 * A load state. A caller makes a fresh one, lends it to each write, and need not look inside. Any numbers may stand in it: those that
 * can't be a load are refused with 30. `told` and `table` are part of the state in one phase each. In any other phase they are not read.
 * A write that ends in any other phase leaves `told` as it stood; it leaves `table` as it stood where the phase is the one before the
 * write, and 0 where the phase has moved.
 */
struct tailbow_load {
    uint32_t phase;
    uint32_t told;   /* in TAILBOW_PHASE_TOLD the answer, which is never TAILBOW_MORE */
    uint32_t table;  /* in TAILBOW_PHASE_DATA the block's table: from 0 on 05, 06, 07, 08, 09, 0D, 0E, 11, 4E, 12, as they stand in the image */
    uint64_t placed; /* data words of the block that stand in the image */
    uint64_t due;    /* data words of the block still to come */
    uint32_t first;  /* the header's first word */
    uint32_t second; /* the header's second word */
    uint32_t stream; /* the checksum register over all words so far */
    uint32_t block;  /* the checksum register over the block's data so far */
};

/*
 * The load state before a first write: each of its 48 bytes becomes 0, whatever stood there, also the four behind `table` that belong to
 * no field. It refuses nothing.
 */
void tailbow_fresh_load(struct tailbow_load *load);

/*
 * A write of 1 to 64 words to a load.
 *
 * 31  image_words is below TAILBOW_IMAGE_WORDS.
 * 30  The phase is above 5; or in TAILBOW_PHASE_DATA no table has the number in `table`; or in TAILBOW_PHASE_TOLD the answer in `told` is
 *     TAILBOW_MORE; or, for a load that has begun (any phase but TAILBOW_PHASE_FRESH), some table's count in the image is above its most
 *     entries, or in TAILBOW_PHASE_DATA more words are placed and due than the table has room for behind the entries it has.
 *     A first write, in TAILBOW_PHASE_FRESH, never gives it, whatever the image and the other numbers of the load state are.
 * 32  count is 0 or above TAILBOW_WRITE_WORDS.
 *
 * Each of these leaves the image and the load state as found. Then, if the load's answer has been told, the number in `told` is the answer
 * again: image and load state stay as found. Otherwise the words are taken one by one, and a first write zeroes the image before that.
 * Answers:
 *
 * TAILBOW_MORE    The end block is incomplete. The image holds the entries that have come; it is not marked loaded.
 * TAILBOW_LOADED  The image holds the entries, the counts and the mark, and zero elsewhere. The same entries in any order of blocks and
 *                 any cutting into writes give the same image.
 * 1 to 8          The first framing rule broken, at a block in the order 8 for an end block; else 2, 3, 4, 5, 6, and 7 after the data.
 *                 The image is zero.
 * a rule's number The first loading rule broken. The image is zero.
 *
 * Words behind an answer are ignored. Afterwards *load is the state for the next write: after an answer it holds
 * TAILBOW_PHASE_TOLD and the answer, all else 0. In TAILBOW_PHASE_DATA `table` is the table of the block that is under way. In any other
 * phase it is what stood there before the call where the phase is still the same, also behind whole blocks, and 0 where the phase has
 * moved: from a fresh load it is 0 outside every block. The four bytes behind `table` are kept in any case. Neither 9 nor 10 is an
 * answer here.
 */
uint32_t tailbow_write(uint32_t *image, size_t image_words, struct tailbow_load *load, const uint32_t *words, size_t count);

/*
 * A whole stream of words.
 *
 * 31  image_words is below TAILBOW_IMAGE_WORDS. The buffer is left as found.
 *
 * Otherwise the image is zeroed and loaded: the answer and the image are those of writes of the same words, in any
 * cutting, but 10 with a zero image where those would end at TAILBOW_MORE. No words at all is 10. Any count of words is taken.
 */
uint32_t tailbow_load_words(uint32_t *image, size_t image_words, const uint32_t *words, size_t count);

/*
 * A whole stream of bytes, each word's most significant byte first. They may stand at any address.
 *
 * 31  image_words is below TAILBOW_IMAGE_WORDS. The buffer is left as found.
 * 9   count isn't a multiple of 4. The buffer is left as found.
 *
 * Otherwise as tailbow_load_words for the words that the bytes are.
 */
uint32_t tailbow_load_bytes(uint32_t *image, size_t image_words, const uint8_t *bytes, size_t count);

/* ---- Frames, releases and tiles ---- */

/*
 * What one night has come to: 119 numbers. A caller makes a fresh one for a loaded image and lends it to each frame, release and tile.
 * Any numbers may stand in it. 39 refuses these, in whichever port, meter or partition they stand:
 * units above PART_SPC; credit above SMAX x 8,000,000, or above 0 for an entry that isn't loaded; since above last; drops above
 * frames; octets not from 4 x frames to 4,100 x frames; dropped not from 4 x drops to 4,100 x drops, or above octets; last above 2^48 - 1.
 */
struct tailbow_ledger {
    uint64_t units[TAILBOW_PARTITIONS]; /* units left of each partition */
    uint64_t credit[TAILBOW_METERS];    /* each meter's credit in millionths of a bit */
    uint64_t since[TAILBOW_METERS];     /* when each meter was brought up to date, in microseconds */
    uint64_t frames[TAILBOW_PORTS];     /* frames judged at each port */
    uint64_t drops[TAILBOW_PORTS];      /* those of them that were dropped */
    uint64_t octets[TAILBOW_PORTS];     /* the sum of L over the frames */
    uint64_t dropped[TAILBOW_PORTS];    /* the sum of L over the drops */
    uint64_t last;                      /* the last time */
};

/* A verdict's `kind`. */
#define TAILBOW_VERDICT_REFUSED 0u
#define TAILBOW_VERDICT_DROP 1u
#define TAILBOW_VERDICT_SENT 2u

/* The verdict on a frame or on a replica. Masks have port 0 as their lowest bit. What a kind does not have is 0. */
struct tailbow_verdict {
    uint32_t kind;
    uint32_t number;                /* the refusal's or the drop's */
    uint64_t ports;                 /* sent: the ports it goes out of */
    uint64_t vlan;
    uint64_t priority;              /* the new priority, q */
    uint64_t tags;                  /* those of the ports that send a tag */
    uint64_t queues[TAILBOW_PORTS]; /* its queue at each port, 0 where it isn't sent */
};

/* A frame's verdict, and how many replicas it has. */
struct tailbow_judged {
    struct tailbow_verdict verdict;
    uint64_t replicas; /* 0 to TAILBOW_REPLICAS */
};

/* A tile's `kind`. Nothing is not zero: only TAILBOW_TILE_SHARES has shares. */
#define TAILBOW_TILE_REFUSED 0u
#define TAILBOW_TILE_NOT_LOADED 1u
#define TAILBOW_TILE_NO_FRAMES 2u
#define TAILBOW_TILE_SHARES 3u

/* A port's tile. What a kind does not have is 0. */
struct tailbow_port_tile {
    uint32_t kind;
    uint32_t number; /* the refusal's */
    uint64_t share;  /* the bits of a double: dropped frames over frames */
    uint64_t octets; /* the bits of a double: dropped octets over octets */
};

/*
 * A fresh ledger of an image: partitions at PART_SPC, meters full (0 where no entry is loaded), times and counts 0.
 *
 * 31  image_words is below TAILBOW_IMAGE_WORDS.
 * 30  The image isn't marked loaded, or a table's count is above its most entries or such as rule 20 refuses.
 *
 * Otherwise the answer is TAILBOW_DONE. All 119 numbers are filled, whatever stood there: with the fresh ledger, or beside a refusal with one
 * that 39 refuses under every image (`last` is 2^48, all else 0). The ledger is never left as found.
 */
uint32_t tailbow_fresh_ledger(const uint32_t *image, size_t image_words, struct tailbow_ledger *ledger);

/*
 * The verdict on a frame that came in at a port at a time in microseconds: its bytes without the checksum. Behind it those on its replicas,
 * for which TAILBOW_REPLICAS places are lent.
 *
 * 31  image_words is below TAILBOW_IMAGE_WORDS.
 * 30  The image isn't marked loaded, or a table's count is above its most entries or such as rule 20 refuses.
 * 39  The ledger is out of range.
 * 33  The port is above 4.
 * 34  The time is before the ledger's last time, or above 2^48 - 1.
 * 35  bytes is above TAILBOW_FRAME_BYTES.
 * 38  The port's frames are at 2^32 - 1 or above.
 *
 * A refusal has TAILBOW_VERDICT_REFUSED, its number and no replica, and leaves the ledger and every place as found. Otherwise the verdict is
 * the first of the drops 1 to 11 that applies, or a sending. The ledger afterwards has the time as its last time and one frame of L octets
 * more at the port, and one drop of L octets more where it was dropped. From drop 9 on the meter has its credit and this time, and unless the
 * meter was short the frame's cost is spent, at drops 10 and 11 too. A sending takes one unit of its partition.
 *
 * Unless it was dropped with 1 to 6 the frame has a replica for each entry of 12 whose VLAN_ING is its VLAN and whose ING_PORT has the port:
 * also where it was dropped with 7 to 11, also untagged. Their verdicts stand in the first places, in the order of the entries; the places
 * behind them are left as found. A replica is on the entry's VLAN_EGR. It has all else of the frame, k and the priority before the new one
 * too, and no replica. Its verdict is the first of the drops 4 and 7 to 11 that applies, or a sending, and never a refusal. The frame is
 * judged to its end first, then each replica on the ledger that the one before has left, all at the frame's time: each spends the same cost
 * at the same meter and takes one unit of the same partition as a frame of its own would. The last time and the port's counts are the
 * frame's alone, so that tiles count originals only.
 */
struct tailbow_judged tailbow_judge(const uint32_t *image, size_t image_words, struct tailbow_ledger *ledger, size_t port, uint64_t time,
                                    const uint8_t *frame, size_t bytes, struct tailbow_verdict *replicas);

/*
 * One unit of a partition comes back.
 *
 * 31  image_words is below TAILBOW_IMAGE_WORDS.
 * 30  The image isn't marked loaded, or a table's count is above its most entries or such as rule 20 refuses.
 * 39  The ledger is out of range.
 * 36  The partition is above 7.
 * 37  Nothing of it is out: its units are at PART_SPC.
 *
 * A refusal leaves the ledger as found. Otherwise the answer is TAILBOW_DONE, and the partition has one unit more; nothing else
 * changes, the last time neither.
 */
uint32_t tailbow_release(const uint32_t *image, size_t image_words, struct tailbow_ledger *ledger, size_t partition);

/*
 * What the screen shows of a port. It changes nothing.
 *
 * 31          image_words is below TAILBOW_IMAGE_WORDS.
 * 33          The port is above 4.
 * not-loaded  The image isn't marked loaded, or a table's count is above its most entries or such as rule 20 refuses.
 * 39          The ledger is out of range.
 * no-frames   No frame was judged at the port. There is no share, not a share of zero.
 * shares      drops over frames and dropped over octets, each one division of two doubles, by their exact bits. +0 where nothing was dropped.
 */
struct tailbow_port_tile tailbow_tile(const uint32_t *image, size_t image_words, const struct tailbow_ledger *ledger, size_t port);

/* ---- Frame lists ---- */

/* A record's `kind`. The second and third are the kind bytes of the list itself. */
#define TAILBOW_RECORD_REFUSED 0u
#define TAILBOW_RECORD_FRAME 1u
#define TAILBOW_RECORD_RELEASE 2u
#define TAILBOW_RECORD_END 3u

/* What stands at a place of a list. What a kind does not have is 0. */
struct tailbow_record {
    uint32_t kind;
    uint32_t number;    /* the refusal's */
    uint64_t time;      /* frame: the time in microseconds */
    uint64_t port;      /* frame: the port, 0 to 255 */
    uint64_t partition; /* release: the partition, 0 to 255 */
    uint64_t start;     /* frame: its bytes are list[start] up to list[start + count - 1] */
    uint64_t count;
    uint64_t next;      /* frame and release: the place of the next record */
};

/*
 * What stands at a place of a list. A walk begins at TAILBOW_LIST_FIRST, goes on at each record's `next`, and is over at a refusal or the
 * end. The list as a whole is looked at first, at every place:
 *
 * 54   bytes is above TAILBOW_LIST_BYTES.
 * 50   One of the first three bytes, as far as there are any, differs from FRL.
 * 51   One of the next two, as far as there are any, differs from version 1, high byte first.
 * 52   The list has fewer than 5 bytes.
 *
 * Then `at`. Any number may be passed: at the list's end and past it stands TAILBOW_RECORD_END.
 *
 * 53   The byte there is neither 1 nor 2.
 * 52   The record that begins there is cut.
 *
 * A record that is handed on lies in the list whole, and its `next` is above `at` and at most `bytes`.
 */
struct tailbow_record tailbow_record_at(const uint8_t *list, size_t bytes, size_t at);

/* ---- The layout that the archive has ---- */

#if defined(__cplusplus) && __cplusplus >= 201103L
#define TAILBOW_HOLDS(condition, words) static_assert(condition, words)
#elif !defined(__cplusplus) && defined(__STDC_VERSION__) && __STDC_VERSION__ >= 201112L
#define TAILBOW_HOLDS(condition, words) _Static_assert(condition, words)
#endif

#ifdef TAILBOW_HOLDS
/* A field's place and length, and a struct's length, in bytes. */
#define TAILBOW_AT(type, field, place, bytes) \
    TAILBOW_HOLDS(offsetof(struct type, field) == (place) && sizeof(((struct type *)0)->field) == (bytes), #type "." #field)
#define TAILBOW_LONG(type, bytes) TAILBOW_HOLDS(sizeof(struct type) == (bytes), #type)
TAILBOW_HOLDS(sizeof(size_t) == 8, "the archive is for x86-64");
TAILBOW_AT(tailbow_load, phase, 0, 4);
TAILBOW_AT(tailbow_load, told, 4, 4);
TAILBOW_AT(tailbow_load, table, 8, 4);
TAILBOW_AT(tailbow_load, placed, 16, 8);
TAILBOW_AT(tailbow_load, due, 24, 8);
TAILBOW_AT(tailbow_load, first, 32, 4);
TAILBOW_AT(tailbow_load, second, 36, 4);
TAILBOW_AT(tailbow_load, stream, 40, 4);
TAILBOW_AT(tailbow_load, block, 44, 4);
TAILBOW_LONG(tailbow_load, 48);
TAILBOW_AT(tailbow_ledger, units, 0, 64);
TAILBOW_AT(tailbow_ledger, credit, 64, 360);
TAILBOW_AT(tailbow_ledger, since, 424, 360);
TAILBOW_AT(tailbow_ledger, frames, 784, 40);
TAILBOW_AT(tailbow_ledger, drops, 824, 40);
TAILBOW_AT(tailbow_ledger, octets, 864, 40);
TAILBOW_AT(tailbow_ledger, dropped, 904, 40);
TAILBOW_AT(tailbow_ledger, last, 944, 8);
TAILBOW_LONG(tailbow_ledger, 952);
TAILBOW_AT(tailbow_verdict, kind, 0, 4);
TAILBOW_AT(tailbow_verdict, number, 4, 4);
TAILBOW_AT(tailbow_verdict, ports, 8, 8);
TAILBOW_AT(tailbow_verdict, vlan, 16, 8);
TAILBOW_AT(tailbow_verdict, priority, 24, 8);
TAILBOW_AT(tailbow_verdict, tags, 32, 8);
TAILBOW_AT(tailbow_verdict, queues, 40, 40);
TAILBOW_LONG(tailbow_verdict, 80);
TAILBOW_AT(tailbow_judged, verdict, 0, 80);
TAILBOW_AT(tailbow_judged, replicas, 80, 8);
TAILBOW_LONG(tailbow_judged, 88);
TAILBOW_AT(tailbow_port_tile, kind, 0, 4);
TAILBOW_AT(tailbow_port_tile, number, 4, 4);
TAILBOW_AT(tailbow_port_tile, share, 8, 8);
TAILBOW_AT(tailbow_port_tile, octets, 16, 8);
TAILBOW_LONG(tailbow_port_tile, 24);
TAILBOW_AT(tailbow_record, kind, 0, 4);
TAILBOW_AT(tailbow_record, number, 4, 4);
TAILBOW_AT(tailbow_record, time, 8, 8);
TAILBOW_AT(tailbow_record, port, 16, 8);
TAILBOW_AT(tailbow_record, partition, 24, 8);
TAILBOW_AT(tailbow_record, start, 32, 8);
TAILBOW_AT(tailbow_record, count, 40, 8);
TAILBOW_AT(tailbow_record, next, 48, 8);
TAILBOW_LONG(tailbow_record, 56);
#undef TAILBOW_AT
#undef TAILBOW_LONG
#undef TAILBOW_HOLDS
#endif

#ifdef __cplusplus
}
#endif

#endif
