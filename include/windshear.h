/* The proved windshear unit for C programs. Link target/staticlib/libhost.a, which `./staticlib host` writes. It is for x86-64 Linux only.
 *
 * Every function is defined for every value of its arguments: what is out of range is refused by a number. A pointer must not
 * be NULL, not even where the length is 0, and must be valid for the size given. malloc(0) and the data() of an empty
 * std::vector may be NULL: make such a buffer one byte longer than the length that you pass. Two buffers must not overlap, and
 * no other thread may use them meanwhile. A lent state must be aligned as C aligns it (8 bytes); a file or a buffer needs no
 * alignment.
 *
 * WARNING: an answer to a refused sample has alert 0, which says nothing of the lamps: they stay as they were. A host that
 * shows `alert` without a look at `refusal` would darken a lit lamp.
 *
 * Twenty frames make a second. The host numbers them with 16 bits that go round, 0 after 65,535, and each sample carries its number.
 * It stands for the frames elapsed since the last accepted sample, so that the host may drop some: 1 to WINDSHEAR_MAX_FRAMES, else it
 * is refused by 21 (the same number again is 0 frames, one that goes back is many). The first stands for one, whatever its number.
 * A sample refused by 21 is as if never offered, and the kept number stays: a host that has fallen more than 20 frames behind is
 * refused until it takes a fresh state, or the number comes round.
 *
 * Request A6 put the frame numbers into windshear_sample, windshear_core (and so into a state) and windshear_record, and the version
 * into windshear_file_test and before the arguments of both writers; A2 had changed windshear_reading and windshear_converted. A
 * program that was compiled with an earlier header still links, and then reads wrong numbers, or has memory of its own overwritten:
 * compile it anew with this one, and read no state that was stored before.
 *
 * A program that lights the red lamp after five seconds at 140 kt in a downdraft of 29.4 kt, a shear of 0.2100, and keeps it lit at a
 * sample that is refused; the next stands for two frames:
 *
 *    #include <stdio.h>
 *    #include "windshear.h"
 *
 *    int main(void) {
 *        struct windshear_state state = windshear_fresh();
 *        struct windshear_sample sample = {.vertical = -2940, .airspeed = 14000, .height = 400, .pitch = 5000,
 *                                          .stall = 20000, .climb = -700, .vs1 = 10000, .mode = 1};
 *        int lamp = WINDSHEAR_ALERT_NONE, refused = 0;
 *        for (int i = 0; i < 102; i++) {
 *            sample.frame = (uint16_t)i;
 *            sample.along = i == 100 ? 30000 : 0;
 *            struct windshear_answer answer = windshear_offer_lent(&state, sample);
 *            if (answer.refusal != WINDSHEAR_ACCEPTED) {
 *                refused++;
 *                printf("sample %d: refused by %d, the lamp stays %d\n", i, answer.refusal, lamp);
 *                continue;
 *            }
 *            if (answer.alert != lamp) printf("sample %d: lamp %d command %d\n", i, answer.alert, (int)answer.command);
 *            lamp = answer.alert;
 *        }
 *        return lamp == WINDSHEAR_ALERT_RED && refused == 1 ? 0 : 1;
 *    }
 */
#ifndef WINDSHEAR_H
#define WINDSHEAR_H

#include <stddef.h>
#include <stdint.h>

#ifdef __cplusplus
extern "C" {
#endif

/* A run file's sizes in bytes, and the greatest count of its records: a file is a header and then count records. Those of version 1
 * each stand for one frame; those of version 2 carry their frame number. */
#define WINDSHEAR_HEADER_SIZE 8
#define WINDSHEAR_RECORD_SIZE 24     /* version 1 */
#define WINDSHEAR_MAX_RECORDS 2600   /* version 1 */
#define WINDSHEAR_RECORD_SIZE_2 26   /* version 2 */
#define WINDSHEAR_MAX_RECORDS_2 2500 /* version 2 */
/* The most frames that a sample may stand for. */
#define WINDSHEAR_MAX_FRAMES 20
/* The bytes that windshear_run writes for each record. A struct windshear_answer is another thing, and larger. */
#define WINDSHEAR_ANSWER_SIZE 10
/* The bytes of room that windshear_list asks for each line of a listing; no line is longer. */
#define WINDSHEAR_LISTING_LINE 64

/* A held shear is cut to between minus this and this as it enters the windows; in hundred-thousandths. */
#define WINDSHEAR_ENTRY_LIMIT 34500

/* A float's hundredths are cut to between minus this and this, which is 10,000.00 kt: see windshear_converted. That is beyond
 * every range, so the floats of a record that is accepted are never cut. */
#define WINDSHEAR_HUNDREDTHS_LIMIT 1000000

/* The refusal numbers: what `refusal` holds, and what a writer answers. They are in the order tested, but for windshear_import and
 * windshear_export, which say their own. */
enum windshear_refusal {
    WINDSHEAR_ACCEPTED = 0,
    WINDSHEAR_REFUSED_SHORT = 1,   /* file shorter than WINDSHEAR_HEADER_SIZE */
    WINDSHEAR_REFUSED_MARK = 2,    /* mark is not WSR */
    WINDSHEAR_REFUSED_VERSION = 3, /* version is neither 1 nor 2; of a file to be exported, not 1 */
    WINDSHEAR_REFUSED_ZERO = 4,    /* sixth byte is not zero */
    WINDSHEAR_REFUSED_COUNT = 5,   /* count above the version's greatest, or a text of more than WINDSHEAR_MAX_RECORDS samples */
    WINDSHEAR_REFUSED_LENGTH = 6,  /* length is not WINDSHEAR_HEADER_SIZE + the version's record size x count */
    WINDSHEAR_REFUSED_BUFFER = 7,  /* lent buffer has the wrong length */
    WINDSHEAR_REFUSED_STATE = 8,   /* the state does not pass: see windshear_state */
    /* the field of the sample, of the record or of the text's line is out of range, or is a float that is not finite */
    WINDSHEAR_REFUSED_ALONG = 11,
    WINDSHEAR_REFUSED_VERTICAL = 12,
    WINDSHEAR_REFUSED_AIRSPEED = 13,
    WINDSHEAR_REFUSED_HEIGHT = 14,
    WINDSHEAR_REFUSED_PITCH = 15,
    WINDSHEAR_REFUSED_STALL = 16,
    WINDSHEAR_REFUSED_CLIMB = 17,
    WINDSHEAR_REFUSED_VS1 = 18,
    WINDSHEAR_REFUSED_MODE = 19,
    WINDSHEAR_REFUSED_DESELECT = 20,
    WINDSHEAR_REFUSED_FRAMES = 21, /* elapsed frames are not 1 to WINDSHEAR_MAX_FRAMES: see windshear_sample */
    WINDSHEAR_REFUSED_CSV_HEADER = 23, /* header line of a text is wrong */
    WINDSHEAR_REFUSED_CSV_LINE = 24    /* a line or a field of a text is malformed */
};

/* What `alert` holds, and the first of a record's WINDSHEAR_ANSWER_SIZE answer bytes. */
enum windshear_alert { WINDSHEAR_ALERT_NONE = 0, WINDSHEAR_ALERT_AMBER = 1, WINDSHEAR_ALERT_RED = 2 };

/* One sample. A field may hold any value; the comment says what is accepted.
 *
 * The elapsed frames are its number less that of the last accepted sample, in 16 bits: from 65,534 to 1 they are 3. Its change of
 * along wind is divided over them, and the shear enters the windows that many times and is judged once; lamps, voice and the end of
 * guidance count in frames, as they stand at the sample's last, and the command may move 75 for each.
 *
 * Bytes 42 and 43 are padding. */
struct windshear_sample {
    int32_t along;    /* along wind, 0.01 kt, tailwind positive: -20,000 to 20,000 */
    int32_t vertical; /* vertical wind, 0.01 kt, up positive: -10,000 to 10,000 */
    int32_t airspeed; /* true airspeed, 0.01 kt: 6,000 to 60,000 */
    int32_t height;   /* above ground, ft: -20 to 5,000 */
    int32_t pitch;    /* 0.001 degree: -30,000 to 30,000 */
    int32_t stall;    /* stall-warning pitch, 0.001 degree: -10,000 to 30,000 */
    int32_t climb;    /* ft/min: -10,000 to 10,000 */
    int32_t vs1;      /* stall speed Vs1, 0.01 kt: 5,000 to 30,000 */
    int32_t mode;     /* 0 take-off, 1 approach */
    int32_t deselect; /* 1 when the pilot cancels */
    uint16_t frame;   /* the host's frame number: any, where elapsed frames are 1 to WINDSHEAR_MAX_FRAMES or it is the first sample */
};

/* The running sums: each the sum of the newest so many entries of the state's ring, read from its place on. */
struct windshear_sums {
    int64_t s200; /* of the newest 200: the whole ring */
    int64_t s180; /* of the newest 180 */
    int64_t s160; /* of the newest 160 */
    int64_t s140; /* of the newest 140 */
    int64_t s120; /* of the newest 120 */
    int64_t s100; /* of the newest 100 */
};

/* What the unit keeps beside the ring. Bytes 74 to 79 are padding. */
struct windshear_core {
    struct windshear_sums sums;
    int32_t along;     /* the last accepted sample's along wind, 0.01 kt: -20,000 to 20,000 */
    int32_t mode;      /* and its mode: 0 or 1 */
    int32_t command;   /* the command, 0.001 degree: -30,000 to 27,000; 0 while guidance is off */
    uint16_t seen;     /* counter: 0 while no sample has been accepted, else 1 */
    uint16_t red;      /* counter: frames for which red has been lit, the one where it came on being the first, up to 60; 0: dark */
    uint16_t amber;    /* counter: the same for amber */
    uint16_t voice;    /* counter: frames since the voice was given, the first one included, up to 73; 0: none since the last mode change */
    uint16_t guidance; /* counter: 0 is off; else one more than the frames in a row that have counted towards its end */
    uint16_t place;    /* where the newest entry stands in the ring: 0 to 199 */
    uint16_t frame;    /* the last accepted sample's frame number, any; 0 while there is none. It is no counter */
};

/* The state that the host keeps and lends. Memory that is all zeros is the fresh state.
 *
 * Its entries are what entered the windows in the last 200 frames, 0 before the first: the held shear of the sample that stands for
 * each, which the unit cuts to between -WINDSHEAR_ENTRY_LIMIT and WINDSHEAR_ENTRY_LIMIT, so that one sharp gust by itself lights no
 * lamp; an answer's `shear` is not cut. They are a ring: the newest stands at `core.place`, each older one a place further on, and
 * after place 199 comes place 0. The next entry is written one place back, over the oldest, and is the newest then: from the fresh
 * state the first one goes to place 199. A sample that stands for three frames writes three.
 *
 * It is refused by 8 where an entry is beyond 50,000,000 either way, a counter is above 600, the command, the last along wind,
 * the last mode or the place is outside its range above, or a sum is not that of its window's entries. The kept frame number may be
 * any: where it is wrong, the next sample is refused by 21 or stands for a wrong number of frames.
 *
 * A host may build a state of its own: the entries, here `entry`, the newest first, from any place below 200 on, each sum anew,
 * and the rest of the core as it is described above. To have the unit's own history, the host cuts each held shear as the unit
 * does: an entry that a state holds is summed as it stands, up to 50,000,000. `last` is the sample that entered the newest; were
 * `seen` left at 0, the next sample would be taken as the first, with no change of along wind, and stand for one frame whatever its
 * number.
 *
 *    struct windshear_state state = windshear_fresh();
 *    state.core.seen = 1;
 *    state.core.along = last.along;
 *    state.core.mode = last.mode;
 *    state.core.frame = last.frame;
 *    state.core.place = place;
 *    for (int i = 0; i < 200; i++) {
 *        state.held[(place + i) % 200] = entry[i];
 *        state.core.sums.s200 += entry[i];
 *        if (i < 180) state.core.sums.s180 += entry[i];
 *        if (i < 160) state.core.sums.s160 += entry[i];
 *        if (i < 140) state.core.sums.s140 += entry[i];
 *        if (i < 120) state.core.sums.s120 += entry[i];
 *        if (i < 100) state.core.sums.s100 += entry[i];
 *    }
 *
 * The core's padding may hold anything, so compare two states by their fields: memcmp no longer does it. Two that differ only in how
 * far the ring is turned, and so in `place` and in the order of `held`, stand for the same history: every sample gets the same answer
 * from both. */
struct windshear_state {
    int32_t held[200]; /* the ring: entries in hundred-thousandths, -50,000,000 to 50,000,000 */
    struct windshear_core core;
};

/* What a sample is answered. Where refusal is not 0 the other fields are 0, alert too, though a lamp may be lit: it stays lit. */
struct windshear_answer {
    uint16_t refusal;  /* of enum windshear_refusal: 0, 8, or 11 to 21 */
    uint16_t alert;    /* of enum windshear_alert, where refusal is 0 */
    uint16_t voice;    /* cycle 1, 2 or 3; 0 for none */
    uint16_t guidance; /* 1 where the command is shown */
    int32_t command;   /* 0.001 degree */
    int32_t shear;     /* held shear, hundred-thousandths, not cut */
};

struct windshear_offered {
    struct windshear_answer answer;
    struct windshear_state state;
};

/* A run file's record: speeds in knots, the rest as in a sample. Accepted is what the sample accepts; of a float, its
 * hundredths (see windshear_hundredths) are tested, so 200.0 is accepted as along wind and 200.125 is not. Bytes 26 and 27 are
 * padding. */
struct windshear_record {
    float along;      /* kt, tailwind positive: hundredths -20,000 to 20,000 */
    float vertical;   /* kt, up positive: hundredths -10,000 to 10,000 */
    float airspeed;   /* true airspeed, kt: hundredths 6,000 to 60,000 */
    int16_t height;   /* above ground, ft: -20 to 5,000 */
    int16_t pitch;    /* 0.001 degree: -30,000 to 30,000 */
    int16_t stall;    /* stall-warning pitch, 0.001 degree: -10,000 to 30,000 */
    int16_t climb;    /* ft/min: -10,000 to 10,000 */
    uint16_t vs1;     /* stall speed Vs1, 0.01 kt: 5,000 to 30,000 */
    uint8_t mode;     /* 0 take-off, 1 approach */
    uint8_t deselect; /* 1 when the pilot cancels */
    uint16_t frame;   /* version 2: the host's frame number, any; version 1 has none: 0 where it was read, not written */
};

/* What a run is answered: 0 and 0; or a refusal, with the first bad record's place from 0 for 11 to 21, and 0 for the others. */
struct windshear_outcome {
    uint16_t refusal;
    uint16_t place;
};

/* A file's own test: 0, 0, how many records it has and its version; or a refusal with its place as in windshear_outcome, 0 and 0. */
struct windshear_file_test {
    uint16_t refusal;
    uint16_t place;
    uint16_t count;
    uint16_t version; /* 1 or 2 */
};

/* The record at a place. Where found is 0 exact is 0 too, and says nothing, and the fields of the record and of the sample are 0.
 * Bytes 6 and 7 are padding, and the record and the sample have their own: compare two readings by their fields. */
struct windshear_reading {
    uint16_t found;                 /* 1 where the record was read: see windshear_read_record */
    uint16_t refusal;               /* of enum windshear_refusal: 0, 1 to 6, or 11 to 20 */
    uint16_t exact;                 /* 1 where all three floats were exact hundredths; 0 where one at least was rounded */
    struct windshear_record record; /* as the file has it, its floats bit for bit */
    struct windshear_sample sample; /* the sample that a run takes it as; its `frame` is the record's, or in version 1 its place */
};

/* A float's hundredths: 100 times its exact value, nearest, ties away from zero. The float is exact where 100 times its exact
 * value is a whole number; else it was rounded. As floats are binary, those that are exact are the whole quarters of a knot:
 * 140.25 is, and 0.0 and -0.0 are; 140.1 is rounded, as no float is 140.1 and a file has the nearest one; every subnormal is
 * rounded. That a float was rounded is no fault: a sample takes its hundredths. Where finite is 0 all is 0: a float that is not
 * finite is neither exact nor rounded. Bytes 6 and 7 are padding: compare two by their fields. */
struct windshear_converted {
    uint16_t finite;    /* 1; or 0 for an infinity and for what is not a number */
    uint16_t exact;     /* 1 where it was exact, 0 where it was rounded: judged by its value, not by the cut, so 3.4e38 is exact */
    uint16_t cut;       /* 1 where the rounded hundredths are beyond WINDSHEAR_HUNDREDTHS_LIMIT either way, and were cut to it */
    int32_t hundredths; /* -WINDSHEAR_HUNDREDTHS_LIMIT to WINDSHEAR_HUNDREDTHS_LIMIT */
};

/* What an import or an export is answered: 0 and 0; or a refusal, with the first bad line's or record's place from 0 for 11 to 20,
 * and 0 for the others. A text's places begin after its header line; as 5 comes after 11 to 20, they may be above 65,535. Bytes 10
 * to 15 are padding: compare two by their fields. */
struct windshear_exchanged {
    size_t place;
    uint16_t refusal; /* of enum windshear_refusal */
};

/* What the output of an import or an export needs: its exact length in bytes, 0 and 0; or length 0, and a refusal with its place as
 * in windshear_exchanged. Bytes 18 to 23 are padding: compare two by their fields. */
struct windshear_needed {
    size_t length;
    size_t place;
    uint16_t refusal; /* of enum windshear_refusal, but never 7 */
};

/* The state that has seen no sample: all fields 0. */
struct windshear_state windshear_fresh(void);

/* A sample offered to the lent state: refused by 8 or 11 to 21, the state left as it stood; or answered, the state left as the next.
 * Look at `refusal` first: a refused answer shows alert 0 though a lamp may be lit, and it stays lit. */
struct windshear_answer windshear_offer_lent(struct windshear_state *state, struct windshear_sample sample);

/* The same with the state by value: returned as it was given, or as the next.
 * Look at `answer.refusal` first: a refused answer shows alert 0 though a lamp may be lit, and it stays lit. */
struct windshear_offered windshear_offer(struct windshear_state state, struct windshear_sample sample);

/* A whole run file. The answers are WINDSHEAR_ANSWER_SIZE bytes a record: alert, voice, the command in 2 (signed), the held
 * shear in 4 (signed, not cut), guidance, a zero; the lowest byte first. They do not say whether a record's floats were exact:
 * windshear_read_record does. Refused by 1 to 7 or 11 to 21, the buffer is untouched. For length 0 pass any pointer that is not
 * NULL. A run of count 0 is good, and its answers have length 0:
 *
 *    uint8_t none = 0;
 *    struct windshear_outcome outcome = windshear_run(file, WINDSHEAR_HEADER_SIZE, &none, 0);
 */
struct windshear_outcome windshear_run(const uint8_t *file, size_t file_length, uint8_t *answers, size_t answers_length);

/* What windshear_run would answer of the file with an answer buffer of the right length: refused by 1 to 6 or 11 to 21; or
 * refusal 0, the count, so that the right length is WINDSHEAR_ANSWER_SIZE x count, and the version. For length 0 pass any pointer
 * that is not NULL; the refusal is 1. */
struct windshear_file_test windshear_test_file(const uint8_t *file, size_t length);

/* The record at a place, from 0, of either version, whatever the file holds and whatever the place is:
 *    refusal 1 to 6, found 0: the file is refused by its header or its length, at every place;
 *    refusal 0, found 0: the file has no record there: place is not below its count;
 *    refusal 11 to 20, found 0: that record is refused (others of the file may be good);
 *    refusal 0, found 1: the record, its sample and whether its floats were exact, though others of the file may be refused.
 * 21 is never given, as it is of two records: windshear_test_file tests it. The samples of a version 1 file are numbered by place, so
 * that offered one by one each stands for one frame, as in its run.
 *
 * Writing a record that was found, in the file's version, gives its bytes again, and reading one that was written gives its fields
 * again (in version 1 but for its frame number). A cataloguer can list by `exact` which records had exact hundredths in the file, and
 * learn from windshear_hundredths which speed was rounded.
 *
 * For length 0 pass any pointer that is not NULL; the refusal is 1. */
struct windshear_reading windshear_read_record(const uint8_t *file, size_t length, size_t place);

/* A run file's header of version 1 or 2, WINDSHEAR_HEADER_SIZE bytes (refused by 3, then 5, then 7), and a record, in version 1
 * WINDSHEAR_RECORD_SIZE bytes and in version 2 WINDSHEAR_RECORD_SIZE_2 (refused by 3, then 7, then 11 to 20; 21 is not tested, as
 * there is no record before it); refused, the buffer is untouched. For length 0 pass any pointer that is not NULL; it is refused. */
uint16_t windshear_write_header(uint32_t version, uint32_t count, uint8_t *buffer, size_t length);
uint16_t windshear_write_record(uint32_t version, struct windshear_record record, uint8_t *buffer, size_t length);

/* The hundredths that the float with these 32 bits becomes, whether it was exact and whether it was cut. A float's bits are what
 * memcpy copies from it into a uint32_t; a record's floats become its sample's speeds in the same way. */
struct windshear_converted windshear_hundredths(uint32_t bits);

/* A CSV text (RFC 4180) written as a run file of version 1. The text is one header line with the ten names below, then a line for
 * each sample, its ten fields in the same order; each line ends in CRLF, the last one too. The header line alone is a run of
 * count 0. The four speeds are in knots, a digit or more, a point and exactly two decimals; the rest are whole, in the units of
 * windshear_sample. Each of the ten may have a sign, plus or minus, and any number of digits and of leading zeros. A field may be
 * quoted whole, a name too. Zero is written as plus zero, and every other float is the one nearest the decimal, ties to even:
 * windshear_read_record finds the same hundredths.
 *
 * Refused, each over the whole text before the next, the buffer is untouched:
 *    23: the header line is wrong, by a name, its quoting, the number of names or its end;
 *    24: a later line or field is malformed: a bare LF or CR, a last line without its CRLF, a blank line, a wrong number of fields, a
 *        space beside a number, too few or too many decimals, a quote in a field not quoted whole, anything after a closing quote;
 *    11 to 20: a field is out of range, however many digits it has: the first bad line's place, and the first number that fits it;
 *    5: there are more than WINDSHEAR_MAX_RECORDS samples;
 *    7: file_length is not WINDSHEAR_HEADER_SIZE + WINDSHEAR_RECORD_SIZE x samples.
 *
 * windshear_import_length answers that length; or it refuses the text by the same numbers but 7. Its length is then 0, and an import
 * into a buffer of length 0 is refused likewise, as 7 comes last. A text that is accepted has at most WINDSHEAR_MAX_RECORDS samples,
 * so this buffer is enough for every text:
 *
 *    static const char text[] =
 *        "along wind,vertical wind,true airspeed,height above ground,pitch,stall-warning pitch,climb,stall speed Vs1,mode,deselect\r\n"
 *        "20.10,-29.40,140.00,400,5000,20000,-700,100.00,1,0\r\n";
 *    static uint8_t file[WINDSHEAR_HEADER_SIZE + WINDSHEAR_RECORD_SIZE * WINDSHEAR_MAX_RECORDS];
 *    struct windshear_needed needed = windshear_import_length((const uint8_t *)text, sizeof text - 1);
 *    struct windshear_exchanged imported = windshear_import((const uint8_t *)text, sizeof text - 1, file, needed.length);
 *
 * The NUL at the end of a C string is no part of the text. For length 0 pass any pointer that is not NULL; a text of length 0 is
 * refused by 23. */
struct windshear_needed windshear_import_length(const uint8_t *text, size_t text_length);
struct windshear_exchanged windshear_import(const uint8_t *text, size_t text_length, uint8_t *file, size_t file_length);

/* A run file of version 1 written as such a text, with no NUL after it: the speeds by their hundredths, also where a float was
 * rounded, no field quoted, and no number with a plus, a needless leading zero or a minus before zero. Refused by 1 to 6, then by 11 to
 * 20 with the first bad record's place, then by 7 where text_length is not the text's exact length, the buffer is untouched; a text has
 * no frame numbers, so every version but 1 is refused by 3. windshear_export_length answers that length; or it refuses the file by the
 * same numbers but 7, and its length is 0.
 *
 * Exporting what was imported gives the same text where no field was quoted and no number had a needless leading zero, a plus, or a
 * minus before zero. Importing what was exported gives a run with the same samples; where the floats were those nearest their
 * hundredths and no zero was minus zero, it gives the same bytes. For length 0 pass any pointer that is not NULL; a file of length 0
 * is refused by 1. */
struct windshear_needed windshear_export_length(const uint8_t *file, size_t file_length);
struct windshear_exchanged windshear_export(const uint8_t *file, size_t file_length, uint8_t *text, size_t text_length);

/* The listing of a run file, as the program `listing` prints it, at the start of the lent buffer, with no NUL after it; its length is
 * returned, and the rest of the buffer is untouched. A file that windshear_test_file refuses is listed as its line `refused N at P`.
 * The buffer must have WINDSHEAR_LISTING_LINE x (count + 2) bytes, by that test's count, and WINDSHEAR_LISTING_LINE for a refused file,
 * or more: a shorter one is untouched and 0 is returned. For length 0 pass any pointer that is not NULL. */
size_t windshear_list(const uint8_t *file, size_t file_length, uint8_t *listing, size_t listing_length);

#ifdef __cplusplus
}
#endif

#endif
