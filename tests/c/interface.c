/* The C interface: the layout of every struct against the library, what refusals leave behind, what enters the windows, runs against lone samples,
 * records read back, which floats are exact, rounded or cut, texts imported, exported and listed, and frames in lone samples and in version 2. */
#include <stdio.h>
#include <stdlib.h>
#include <string.h>
#include "windshear.h"

#define AT(type, field, offset) _Static_assert(offsetof(struct windshear_##type, field) == offset, #type "." #field)
#define SIZE(type, size) _Static_assert(sizeof(struct windshear_##type) == size, #type)
SIZE(sample, 44); SIZE(sums, 48); SIZE(core, 80); SIZE(state, 880); SIZE(answer, 16); SIZE(offered, 896); SIZE(record, 28); SIZE(outcome, 4);
SIZE(converted, 12); SIZE(file_test, 8); SIZE(reading, 80); SIZE(exchanged, 16); SIZE(needed, 24);
AT(sums, s180, 8); AT(sums, s160, 16); AT(sums, s140, 24); AT(sums, s120, 32); AT(sums, s100, 40);
AT(core, sums, 0); AT(core, along, 48); AT(core, mode, 52); AT(core, command, 56); AT(core, seen, 60); AT(core, red, 62); AT(core, amber, 64);
AT(core, voice, 66); AT(core, guidance, 68); AT(core, place, 70); AT(core, frame, 72); AT(state, held, 0); AT(state, core, 800); AT(answer, guidance, 6); AT(answer, shear, 12);
AT(offered, state, 16); AT(record, height, 12); AT(record, vs1, 20); AT(record, deselect, 23); AT(record, frame, 24); AT(outcome, place, 2);
AT(file_test, count, 4); AT(file_test, version, 6); AT(sample, deselect, 36); AT(sample, frame, 40);
AT(converted, finite, 0); AT(converted, exact, 2); AT(converted, cut, 4); AT(converted, hundredths, 8);
AT(reading, found, 0); AT(reading, refusal, 2); AT(reading, exact, 4); AT(reading, record, 8); AT(reading, sample, 36);
AT(exchanged, place, 0); AT(exchanged, refusal, 8); AT(needed, length, 0); AT(needed, place, 8); AT(needed, refusal, 16);
_Static_assert(_Alignof(struct windshear_state) == 8 && _Alignof(struct windshear_offered) == 8 && _Alignof(struct windshear_reading) == 4, "alignment");
/* a state's padding is at its end: up to there its size is that of its fields */
_Static_assert(sizeof(struct windshear_state) == 200 * 4 + 6 * 8 + 3 * 4 + 7 * 2 + 6, "padding");

/* where a record starts in a file, from the file's start; after the last, the file's length; in version 1, and in version 2 */
#define START(place) (WINDSHEAR_HEADER_SIZE + WINDSHEAR_RECORD_SIZE * (size_t)(place))
#define START_2(place) (WINDSHEAR_HEADER_SIZE + WINDSHEAR_RECORD_SIZE_2 * (size_t)(place))

static int checks, wrong;

static void check(int ok, const char *what) {
    checks++;
    if (!ok) { wrong++; printf("wrong: %s\n", what); }
}

static int same_state(const struct windshear_state *a, const struct windshear_state *b) {
    const struct windshear_core *c = &a->core, *d = &b->core;
    return memcmp(a->held, b->held, sizeof a->held) == 0 && memcmp(&c->sums, &d->sums, sizeof c->sums) == 0 && c->along == d->along && c->mode == d->mode
           && c->command == d->command && c->seen == d->seen && c->red == d->red && c->amber == d->amber && c->voice == d->voice && c->guidance == d->guidance
           && c->place == d->place && c->frame == d->frame;
}

/* A sample and a record have their fields before their padding, which is after the frame number. */
static int same_sample(struct windshear_sample a, struct windshear_sample b) {
    return memcmp(&a, &b, offsetof(struct windshear_sample, frame) + sizeof a.frame) == 0;
}

static int same_record(struct windshear_record a, struct windshear_record b) {
    return memcmp(&a, &b, offsetof(struct windshear_record, frame) + sizeof a.frame) == 0;
}

/* The sample so many frames after the last that a state has accepted. */
static struct windshear_sample after(const struct windshear_state *state, int frames, struct windshear_sample s) {
    s.frame = (uint16_t)(state->core.frame + frames);
    return s;
}

static int same_answer(struct windshear_answer a, struct windshear_answer b) {
    return a.refusal == b.refusal && a.alert == b.alert && a.voice == b.voice && a.guidance == b.guidance && a.command == b.command && a.shear == b.shear;
}

/* No record, and this refusal. */
static int unread(struct windshear_reading r, int refusal) {
    static const struct windshear_record no_record;
    static const struct windshear_sample no_sample;
    return r.found == 0 && r.refusal == refusal && r.exact == 0 && same_record(r.record, no_record) && same_sample(r.sample, no_sample);
}

static const struct windshear_sample calm = {.airspeed = 14000, .height = 400, .pitch = 5000, .stall = 20000, .climb = -700, .vs1 = 10000, .mode = 1};
static const struct windshear_answer nothing = {0, 0, 0, 0, 0, 0};

/* What enters the windows of a held shear. */
static int32_t cut(int32_t shear) {
    return shear > WINDSHEAR_ENTRY_LIMIT ? WINDSHEAR_ENTRY_LIMIT : shear < -WINDSHEAR_ENTRY_LIMIT ? -WINDSHEAR_ENTRY_LIMIT : shear;
}

/* Sample i of a list that lights both lamps: seven seconds in a downdraft, ten in an updraft, and so on, 29.4 kt at 140 kt, with a gust of 20 kt
 * every 29 samples, up and down in turn; now and then above the band or cancelled, and the mode changes. */
static struct windshear_sample exposed(int i) {
    struct windshear_sample s = calm;
    s.along = 2000 * (i / 29 % 2);
    s.vertical = i % 340 < 140 ? -2940 : 2940;
    s.height = i % 40 ? 400 : 1200;
    s.mode = i / 170 % 2;
    s.deselect = i % 290 == 289;
    s.frame = (uint16_t)i;
    return s;
}

/* How many answers of a list show each thing. */
static struct lit { int red, amber, voice, guidance, gust; } lit, in_all;

static void tally(struct windshear_answer a) {
    lit.red += a.alert == WINDSHEAR_ALERT_RED;
    lit.amber += a.alert == WINDSHEAR_ALERT_AMBER;
    lit.voice += a.voice != 0;
    lit.guidance += a.guidance;
    lit.gust += cut(a.shear) != a.shear;
}

/* A list that lit nothing would test little. */
static void all_lit(void) {
    check(lit.red && lit.amber && lit.voice && lit.guidance && lit.gust, "the list has red, amber, voice, guidance and gusts");
    in_all.red += lit.red, in_all.amber += lit.amber, in_all.voice += lit.voice, in_all.guidance += lit.guidance, in_all.gust += lit.gust;
    memset(&lit, 0, sizeof lit);
}

/* A sample with field i at an end of its range, or one beyond it. */
static struct windshear_sample at_end(int i, int end, int beyond) {
    static const int32_t range[10][2] = {{-20000, 20000}, {-10000, 10000}, {6000, 60000}, {-20, 5000}, {-30000, 30000},
                                         {-10000, 30000}, {-10000, 10000}, {5000, 30000}, {0, 1}, {0, 1}};
    struct windshear_sample s = calm;
    int32_t value = range[i][end] + (beyond ? (end ? 1 : -1) : 0);
    memcpy((char *)&s + 4 * i, &value, 4);
    return s;
}

/* Each field of a sample, one out of range at each end: its own number, so its own place. */
static void sample_fields(void) {
    static const int number[10] = {WINDSHEAR_REFUSED_ALONG, WINDSHEAR_REFUSED_VERTICAL, WINDSHEAR_REFUSED_AIRSPEED, WINDSHEAR_REFUSED_HEIGHT,
                                   WINDSHEAR_REFUSED_PITCH, WINDSHEAR_REFUSED_STALL, WINDSHEAR_REFUSED_CLIMB, WINDSHEAR_REFUSED_VS1,
                                   WINDSHEAR_REFUSED_MODE, WINDSHEAR_REFUSED_DESELECT};
    for (int i = 0; i < 10; i++)
        for (int end = 0; end < 2; end++)
            for (int beyond = 0; beyond < 2; beyond++) {
                struct windshear_state state = windshear_fresh(), before = state;
                struct windshear_answer a = windshear_offer_lent(&state, at_end(i, end, beyond));
                check(a.refusal == (beyond ? number[i] : WINDSHEAR_ACCEPTED) && (!beyond || a.refusal == 11 + i), "a sample's number");
                check(!beyond || same_state(&state, &before), "a refused sample leaves the lent state");
            }
}

/* The state of these entries, the newest first, from a place on, after this sample: by the lines that the header shows, which .ci/run takes out
 * of it. */
static struct windshear_state built(const int32_t entry[200], uint16_t place, struct windshear_sample last) {
#include <built.inc>
    return state;
}

/* A state that 8 refuses, or not; refused, it is left as it was in both forms. */
static void tested(struct windshear_state state, int refused, const char *what) {
    const struct windshear_state before = state;
    struct windshear_answer want = nothing;
    want.refusal = WINDSHEAR_REFUSED_STATE;
    struct windshear_offered o = windshear_offer(state, after(&before, 1, calm));
    struct windshear_answer a = windshear_offer_lent(&state, after(&before, 1, calm));
    check((a.refusal == WINDSHEAR_REFUSED_STATE) == refused && same_answer(o.answer, a) && same_state(&o.state, &state), what);
    check(!refused || (same_answer(a, want) && same_state(&state, &before)), "a state that 8 refuses is left");
    check(refused || windshear_offer_lent(&state, after(&state, 20, calm)).refusal == WINDSHEAR_ACCEPTED, "what a sample leaves passes again");
}

/* Each field of a state at its limit and one beyond, from a ring of zeros and from one at its limits that is turned. */
static void state_fields(void) {
    for (int turned = 0; turned < 2; turned++) {
        int32_t entry[200] = {0};
        const uint16_t place = turned ? 57 : 0;
        for (int i = 0; turned && i < 200; i++) entry[i] = (i % 7 ? 50000000 : -49999000) - i;
        const struct windshear_state base = built(entry, place, calm);
        tested(base, 0, "the ring as it is built");
        for (int beyond = 0; beyond < 2; beyond++) {
            for (int i = 0; i < 200; i++)
                for (int sign = -1; sign < 2; sign += 2) {
                    const int32_t kept = entry[i];
                    entry[i] = sign * (50000000 + beyond);
                    tested(built(entry, place, calm), beyond, "8 by an entry, its sums right");
                    entry[i] = kept;
                }
            for (int i = 0; i < 3 + 5; i++) {
                struct windshear_state state = base;
                uint16_t *counter[5] = {&state.core.seen, &state.core.red, &state.core.amber, &state.core.voice, &state.core.guidance};
                if (i == 0) state.core.along = -20000 - beyond;
                else if (i == 1) state.core.mode = 1 + beyond;
                else if (i == 2) state.core.command = 27000 + beyond;
                else *counter[i - 3] = (uint16_t)(600 + beyond);
                tested(state, beyond, "8 by one field of the state");
            }
        }
        static const uint16_t frames[] = {0, 1, 600, 601, 32768, 65535};
        for (size_t k = 0; k < sizeof frames / sizeof *frames; k++) {
            struct windshear_state state = base;
            state.core.frame = frames[k];
            tested(state, 0, "the kept frame number is no counter");
        }
        for (int i = 0; i < 6; i++) {
            static const int64_t off[] = {1, -1, INT64_C(1) << 32, -(INT64_C(1) << 32)};
            struct windshear_state state = base;
            int64_t *sum[6] = {&state.core.sums.s200, &state.core.sums.s180, &state.core.sums.s160, &state.core.sums.s140, &state.core.sums.s120, &state.core.sums.s100};
            const int64_t right = *sum[i];
            for (size_t k = 0; k < sizeof off / sizeof *off; k++) {
                *sum[i] = right + off[k];
                tested(state, 1, "8 by one sum");
            }
            *sum[i] = INT64_MAX;
            tested(state, 1, "8 by the greatest sum");
            *sum[i] = INT64_MIN;
            tested(state, 1, "8 by the least sum");
        }
        static const uint16_t places[] = {0, 199, 200, 255, 256, 65535};
        for (size_t k = 0; k < sizeof places / sizeof *places; k++) {
            struct windshear_state state = base;
            state.core.place = places[k];
            /* the ring of zeros is the same from every place, the other from none but its own */
            tested(state, turned || places[k] > 199, "8 by the place");
            if (places[k] < 200) tested(built(entry, places[k], calm), 0, "a ring built from that place");
        }
    }
}

/* A ring that is built at any place from the shears answered, each cut: the answers are those of the state that the samples left. */
static void host_built(void) {
    static struct windshear_state rings[200];
    struct windshear_state state = windshear_fresh();
    int32_t entry[200] = {0};
    for (int i = 0; i < 600; i++) {
        struct windshear_sample s = exposed(i);
        s.along += i * i % 11 - i % 7;
        struct windshear_answer a = windshear_offer_lent(&state, s);
        check(a.refusal == WINDSHEAR_ACCEPTED, "a sample of the list");
        if (i > 300) tally(a);
        memmove(entry + 1, entry, sizeof entry - sizeof *entry);
        entry[0] = cut(a.shear);
        for (int place = 0; place < 200 && i >= 300; place++) {
            struct windshear_state *ring = &rings[place];
            if (i > 300) check(same_answer(windshear_offer_lent(ring, s), a), "a built ring answers as the unit's own");
            struct windshear_state anew = built(entry, i > 300 ? ring->core.place : (uint16_t)place, s);
            check(anew.core.seen == state.core.seen && anew.core.along == state.core.along && anew.core.mode == state.core.mode
                  && anew.core.frame == state.core.frame, "the last sample is kept");
            struct windshear_core core = state.core;
            core.sums = anew.core.sums;
            core.place = anew.core.place;
            anew.core = core;
            if (i == 300) *ring = anew;
            check(same_state(ring, &anew), "and is left with the same entries and sums");
        }
    }
    all_lit();
}

/* Held shears at the cut and one beside it, either way: the answer shows each as it is, and it enters cut. */
static void entries_cut(void) {
    static const struct { int32_t vertical, airspeed, shear; } at[] = {{-10000, 28986, 34499}, {-6900, 20000, 34500}, {-10000, 28985, 34501}, {-10000, 6000, 166667}};
    for (size_t k = 0; k < sizeof at / sizeof *at; k++)
        for (int sign = -1; sign < 2; sign += 2) {
            struct windshear_state state = windshear_fresh();
            struct windshear_sample s = calm;
            s.vertical = sign * at[k].vertical;
            s.airspeed = at[k].airspeed;
            check(windshear_offer_lent(&state, s).shear == sign * at[k].shear, "an answer's shear is not cut");
            check(state.held[199] == cut(sign * at[k].shear) && state.core.sums.s200 == state.held[199] && state.core.sums.s100 == state.held[199], "its entry is");
        }
    /* a gust in a state that a host builds is summed as it stands; one that the unit entered would light nothing */
    for (int sign = -1; sign < 2; sign += 2) {
        int32_t entry[200] = {0};
        entry[57] = sign * 2098349;
        struct windshear_state state = built(entry, 23, calm);
        check(windshear_offer_lent(&state, after(&state, 1, calm)).alert == (sign > 0 ? WINDSHEAR_ALERT_RED : WINDSHEAR_ALERT_AMBER), "a host's entry is not cut");
        entry[57] = cut(entry[57]);
        state = built(entry, 23, calm);
        check(windshear_offer_lent(&state, after(&state, 1, calm)).alert == WINDSHEAR_ALERT_NONE, "cut by the host, it lights nothing");
    }
}

/* A state of zero bytes is the fresh one. */
static void zeroed_memory(void) {
    struct windshear_state fresh = windshear_fresh(), zeroed;
    memset(&zeroed, 0, sizeof zeroed);
    check(same_state(&zeroed, &fresh), "zeroed memory is the fresh state");
    for (int i = 0; i < 300; i++) {
        struct windshear_sample s = exposed(i);
        struct windshear_answer a = windshear_offer_lent(&fresh, s);
        tally(a);
        check(same_answer(windshear_offer_lent(&zeroed, s), a) && same_state(&zeroed, &fresh), "from zeroed memory as from the fresh state");
        check(fresh.core.place == (399 - i) % 200 && fresh.held[fresh.core.place] == cut(a.shear), "the newest entry stands at the place");
    }
    all_lit();
}

/* A refused sample while red is lit: the answer is all zeros but for its number, and the lamp is still lit afterwards. */
static void refused_while_lit(void) {
    struct windshear_state state = windshear_fresh();
    struct windshear_sample s = calm;
    s.vertical = -2940;
    for (int i = 0; i < 100; i++)
        check(windshear_offer_lent(&state, after(&state, 1, s)).alert == (i < 99 ? WINDSHEAR_ALERT_NONE : WINDSHEAR_ALERT_RED), "red is lit by five seconds of 0.2100");
    struct windshear_state before = state;
    struct windshear_answer want = nothing;
    want.refusal = WINDSHEAR_REFUSED_ALONG;
    s.along = 20001;
    check(same_answer(windshear_offer_lent(&state, s), want) && same_state(&state, &before), "a refused answer shows no alert");
    s.along = 0;
    check(windshear_offer_lent(&state, after(&state, 1, s)).alert == WINDSHEAR_ALERT_RED && state.core.red == 2, "and the lamp stayed lit");
}

/* Whether ten bytes of a run show this answer. */
static int shows(const uint8_t *ten, struct windshear_answer a) {
    const int16_t command = (int16_t)(ten[2] + 256 * ten[3]);
    const uint32_t shear = ten[4] + 256u * ten[5] + 65536u * ten[6] + 16777216u * ten[7];
    return ten[0] == a.alert && ten[1] == a.voice && command == a.command && (int32_t)shear == a.shear && ten[8] == a.guidance && ten[9] == 0;
}

/* The record of a sample, its floats nearest their hundredths: a quotient of whole numbers is rounded once. */
static struct windshear_record record_of(struct windshear_sample s) {
    const struct windshear_record r = {(float)s.along / 100, (float)s.vertical / 100, (float)s.airspeed / 100, (int16_t)s.height, (int16_t)s.pitch,
                                       (int16_t)s.stall, (int16_t)s.climb, (uint16_t)s.vs1, (uint8_t)s.mode, (uint8_t)s.deselect, s.frame};
    return r;
}

/* Writes the run file of some samples. */
static void write_file(uint8_t *file, const struct windshear_sample *samples, size_t count) {
    check(windshear_write_header(1, (uint32_t)count, file, WINDSHEAR_HEADER_SIZE) == WINDSHEAR_ACCEPTED, "the header is written");
    for (size_t i = 0; i < count; i++)
        check(windshear_write_record(1, record_of(samples[i]), file + START(i), WINDSHEAR_RECORD_SIZE) == WINDSHEAR_ACCEPTED, "the record is written");
}

/* A run file of a list that lights both lamps: the ten bytes are the lone answers, in both forms. */
static void run_lit(void) {
    enum { COUNT = 600 };
    static struct windshear_sample samples[COUNT];
    static uint8_t file[START(COUNT)], answers[COUNT * WINDSHEAR_ANSWER_SIZE];
    for (int i = 0; i < COUNT; i++) samples[i] = exposed(i);
    write_file(file, samples, COUNT);
    const struct windshear_outcome outcome = windshear_run(file, sizeof file, answers, sizeof answers);
    check(outcome.refusal == WINDSHEAR_ACCEPTED && outcome.place == 0, "the run is accepted");
    struct windshear_state lent = windshear_fresh(), plain = lent;
    for (int i = 0; i < COUNT; i++) {
        const struct windshear_answer a = windshear_offer_lent(&lent, exposed(i));
        const struct windshear_offered o = windshear_offer(plain, exposed(i));
        plain = o.state;
        tally(a);
        check(same_answer(o.answer, a) && same_state(&lent, &plain), "both forms agree");
        check(shows(answers + WINDSHEAR_ANSWER_SIZE * i, a), "a run answers as lone samples");
    }
    all_lit();
}

/* 01's three records, whose gust stays dark: lent, in the plain form, and as a run file that is read back, from an odd address. */
static void three_records(void) {
    static const float along[3] = {0, 20, 20}, vertical[3] = {0, 0, -10};
    static const struct windshear_answer want[3] = {{0, 0, 0, 0, 0, 0}, {0, 0, 0, 0, 0, 2098349}, {0, 0, 0, 0, 0, 7143}};
    struct windshear_state lent = windshear_fresh(), plain = lent;
    _Alignas(8) uint8_t room[1 + START(3)];
    uint8_t *const file = room + 1;
    const size_t length = sizeof room - 1;
    uint8_t answers[3 * WINDSHEAR_ANSWER_SIZE], before[sizeof answers];
    check(windshear_write_header(1, 3, file, WINDSHEAR_HEADER_SIZE) == WINDSHEAR_ACCEPTED, "the header is written");
    for (int i = 0; i < 3; i++) {
        struct windshear_sample s = after(&lent, 1, calm);
        s.along = (int32_t)(100 * along[i]);
        s.vertical = (int32_t)(100 * vertical[i]);
        struct windshear_answer a = windshear_offer_lent(&lent, s);
        struct windshear_offered o = windshear_offer(plain, s);
        plain = o.state;
        check(same_answer(a, want[i]), "01's answer, lent");
        check(same_answer(o.answer, a) && same_state(&lent, &plain), "both forms agree");
        struct windshear_record r = {along[i], vertical[i], 140, 400, 5000, 20000, -700, 10000, 1, 0, 0};
        check(windshear_write_record(1, r, file + START(i), WINDSHEAR_RECORD_SIZE) == WINDSHEAR_ACCEPTED, "the record is written");
        struct windshear_file_test early = windshear_test_file(file, START(i + 1));
        check(early.refusal == (i < 2 ? WINDSHEAR_REFUSED_LENGTH : WINDSHEAR_ACCEPTED) && early.place == 0 && early.count == (i < 2 ? 0 : 3) && early.version == (i < 2 ? 0 : 1), "a file's own test");
    }
    struct windshear_outcome good = windshear_run(file, length, answers, sizeof answers);
    check(good.refusal == WINDSHEAR_ACCEPTED && good.place == 0, "the run is accepted");
    for (int i = 0; i < 3; i++) {
        check(shows(answers + WINDSHEAR_ANSWER_SIZE * i, want[i]), "01's ten bytes");
        struct windshear_reading r = windshear_read_record(file, length, (size_t)i);
        check(r.found == 1 && r.refusal == WINDSHEAR_ACCEPTED && r.exact == 1, "a record is found, and was exact");
        check(r.record.along == along[i] && r.record.vertical == vertical[i] && r.record.airspeed == 140
              && r.record.height == 400 && r.record.pitch == 5000 && r.record.stall == 20000 && r.record.climb == -700 && r.record.vs1 == 10000
              && r.record.mode == 1 && r.record.deselect == 0, "a record is read as it was written");
        check(r.sample.along == (int32_t)(100 * along[i]) && r.sample.vertical == (int32_t)(100 * vertical[i]) && r.sample.airspeed == calm.airspeed
              && r.sample.height == calm.height && r.sample.pitch == calm.pitch && r.sample.stall == calm.stall && r.sample.climb == calm.climb
              && r.sample.vs1 == calm.vs1 && r.sample.mode == calm.mode && r.sample.deselect == 0 && r.record.frame == 0 && r.sample.frame == i, "and its sample, numbered by its place");
        uint8_t again[WINDSHEAR_RECORD_SIZE];
        check(windshear_write_record(1, r.record, again, sizeof again) == WINDSHEAR_ACCEPTED && memcmp(again, file + START(i), sizeof again) == 0, "and written as it was read");
    }
    memcpy(before, answers, sizeof answers);
    file[START(1) + offsetof(struct windshear_record, mode)] = 2;
    struct windshear_outcome bad = windshear_run(file, length, answers, sizeof answers);
    check(bad.refusal == WINDSHEAR_REFUSED_MODE && bad.place == 1, "a bad record's number and place");
    check(memcmp(before, answers, sizeof answers) == 0, "a refused run leaves the buffer");
    bad = windshear_run(file, length, answers, sizeof answers - 1);
    check(bad.refusal == WINDSHEAR_REFUSED_BUFFER && bad.place == 0 && memcmp(before, answers, sizeof answers) == 0, "7 comes before the records");
    struct windshear_file_test test = windshear_test_file(file, length);
    check(test.refusal == WINDSHEAR_REFUSED_MODE && test.place == 1 && test.count == 0 && test.version == 0, "the file's own test says the same, and no count");
    static const struct { size_t place; int found, refusal; } places[] = {{0, 1, 0}, {1, 0, WINDSHEAR_REFUSED_MODE}, {2, 1, 0}, {3, 0, 0}, {SIZE_MAX, 0, 0}};
    for (size_t i = 0; i < sizeof places / sizeof *places; i++) {
        struct windshear_reading r = windshear_read_record(file, length, places[i].place);
        check(places[i].found ? r.found == 1 && r.refusal == 0 && r.exact == 1 : unread(r, places[i].refusal), "the record at a place, or zeros");
    }
}

/* What is lent for a run file, a text or a listing, with a margin behind it; all of it is set before a call. */
enum { MARGIN = 32 };
static uint8_t lent[WINDSHEAR_LISTING_LINE * (WINDSHEAR_MAX_RECORDS + 2) + 1 + MARGIN];

/* A buffer of this length. */
static uint8_t *lend(size_t length) {
    if (length > sizeof lent - MARGIN) abort();
    memset(lent, 0xa5, length + MARGIN);
    return lent;
}

/* Whether a lent buffer of this length has these bytes at its start, and the rest and the margin are as they were. */
static int holds(size_t length, const void *bytes, size_t count) {
    for (size_t i = count; i < length + MARGIN; i++)
        if (lent[i] != 0xa5) return 0;
    return memcmp(lent, bytes, count) == 0;
}

/* An import, or an export, into a buffer of this length is answered so; refused, it leaves the buffer. */
static int answered(struct windshear_exchanged e, int refusal, size_t place, size_t length, const void *bytes) {
    return e.refusal == refusal && e.place == place && holds(length, bytes, refusal ? 0 : length);
}

/* A file that is neither exported, whatever the buffer's length, nor listed but by one line. */
static void refused_file(const uint8_t *file, size_t file_length, int refusal, size_t place) {
    const struct windshear_needed needed = windshear_export_length(file, file_length);
    check(needed.refusal == refusal && needed.place == place && needed.length == 0, "a refused file's text has no length");
    for (size_t length = 0; length < 200; length++)
        check(answered(windshear_export(file, file_length, lend(length), length), refusal, place, length, ""), "a file is refused before its buffer, which it leaves");
    char line[WINDSHEAR_LISTING_LINE];
    const size_t size = (size_t)snprintf(line, sizeof line, "refused %d at %d\n", refusal, (int)place);
    for (size_t length = 0; length < 200; length++) {
        const size_t want = length < WINDSHEAR_LISTING_LINE ? 0 : size;
        check(windshear_list(file, file_length, lend(length), length) == want && holds(length, line, want), "and its line wants its room");
    }
}

/* The first six numbers, by a file's own test and at every place alike. */
static void headers(void) {
    uint8_t good[WINDSHEAR_HEADER_SIZE], file[sizeof good];
    check(windshear_write_header(1, 0, good, sizeof good) == WINDSHEAR_ACCEPTED, "the header of no records");
    for (int number = 0; number < 7; number++) {
        memcpy(file, good, sizeof good);
        if (number == WINDSHEAR_REFUSED_MARK) file[1] = 's';
        if (number == WINDSHEAR_REFUSED_VERSION) file[4] = 1;
        if (number == WINDSHEAR_REFUSED_ZERO) file[5] = 1;
        if (number == WINDSHEAR_REFUSED_COUNT) file[6] = (WINDSHEAR_MAX_RECORDS + 1) % 256, file[7] = (WINDSHEAR_MAX_RECORDS + 1) / 256;
        if (number == WINDSHEAR_REFUSED_LENGTH) file[6] = 1;
        size_t length = sizeof file - (number == WINDSHEAR_REFUSED_SHORT);
        struct windshear_file_test test = windshear_test_file(file, length);
        check(test.refusal == number && test.place == 0 && test.count == 0, "a header's number");
        if (number) refused_file(file, length, number, 0);
        for (size_t place = 0; place < 3; place++) check(unread(windshear_read_record(file, length, place), number), "the same at every place");
    }
}

/* A file or a buffer of length 0, at any address: here a byte that is left as it was. */
static void lengths_of_zero(void) {
    uint8_t file[WINDSHEAR_HEADER_SIZE], byte = 0xa5;
    check(windshear_write_header(1, 0, file, sizeof file) == WINDSHEAR_ACCEPTED, "the header of no records");
    /* the lines that the header shows */
#include <none.inc>
    check(outcome.refusal == WINDSHEAR_ACCEPTED && outcome.place == 0 && none == 0, "a run of count 0 is good");
    outcome = windshear_run(file, sizeof file, &byte, 0);
    check(outcome.refusal == WINDSHEAR_ACCEPTED && outcome.place == 0, "and writes nothing");
    outcome = windshear_run(file, sizeof file, &byte, 1);
    check(outcome.refusal == WINDSHEAR_REFUSED_BUFFER && outcome.place == 0, "a buffer of 1 is not its buffer");
    outcome = windshear_run(&byte, 0, &none, 0);
    check(outcome.refusal == WINDSHEAR_REFUSED_SHORT && outcome.place == 0 && none == 0, "an empty file is refused by 1");
    const struct windshear_file_test test = windshear_test_file(&byte, 0);
    check(test.refusal == WINDSHEAR_REFUSED_SHORT && test.place == 0 && test.count == 0, "by its own test");
    check(unread(windshear_read_record(&byte, 0, 0), WINDSHEAR_REFUSED_SHORT), "and at a place");
    check(windshear_write_header(1, 0, &byte, 0) == WINDSHEAR_REFUSED_BUFFER && windshear_write_header(1, WINDSHEAR_MAX_RECORDS + 1, &byte, 0) == WINDSHEAR_REFUSED_COUNT,
          "no header is written");
    const struct windshear_record record = {0, 0, 140, 400, 5000, 20000, -700, 10000, 1, 0, 0};
    check(windshear_write_record(1, record, &byte, 0) == WINDSHEAR_REFUSED_BUFFER, "no record is written");
    struct windshear_needed needed = windshear_import_length(&byte, 0);
    struct windshear_exchanged exchanged = windshear_import(&byte, 0, &none, 0);
    check(needed.refusal == WINDSHEAR_REFUSED_CSV_HEADER && needed.length == 0 && exchanged.refusal == WINDSHEAR_REFUSED_CSV_HEADER, "an empty text is refused by 23");
    needed = windshear_export_length(&byte, 0);
    exchanged = windshear_export(&byte, 0, &none, 0);
    check(needed.refusal == WINDSHEAR_REFUSED_SHORT && needed.length == 0 && exchanged.refusal == WINDSHEAR_REFUSED_SHORT, "an empty file is not exported");
    check(windshear_export(file, sizeof file, &byte, 0).refusal == WINDSHEAR_REFUSED_BUFFER && windshear_list(file, sizeof file, &byte, 0) == 0, "nor a good one into nothing");
    check(byte == 0xa5 && none == 0, "the bytes are left");
}

static void writers(void) {
    uint8_t buffer[WINDSHEAR_RECORD_SIZE + 1];
    const size_t shorter = WINDSHEAR_HEADER_SIZE - 1;
    memset(buffer, 0xa5, sizeof buffer);
    check(windshear_write_header(1, WINDSHEAR_MAX_RECORDS + 1, buffer, shorter) == WINDSHEAR_REFUSED_COUNT
          && windshear_write_header(1, WINDSHEAR_MAX_RECORDS, buffer, shorter) == WINDSHEAR_REFUSED_BUFFER, "5, then 7");
    struct windshear_record r = {0, 0, 140, 400, 5000, 20000, -700, 10000, 1, 2, 0};
    check(windshear_write_record(1, r, buffer, sizeof buffer) == WINDSHEAR_REFUSED_BUFFER
          && windshear_write_record(1, r, buffer, WINDSHEAR_RECORD_SIZE) == WINDSHEAR_REFUSED_DESELECT, "7, then 20");
    r.along = __builtin_nanf("");
    check(windshear_write_record(1, r, buffer, WINDSHEAR_RECORD_SIZE) == WINDSHEAR_REFUSED_ALONG, "a float that is no number");
    for (size_t i = 0; i < sizeof buffer; i++) check(buffer[i] == 0xa5, "a refused write leaves the buffer");
}

static uint32_t bits_of(float knots) {
    uint32_t bits;
    memcpy(&bits, &knots, sizeof bits);
    return bits;
}

/* How many floats were seen to be exact, rounded and cut. */
static struct seen { int exact, rounded, cut; } seen;

/* A float's conversion, all of it. */
static int becomes(float knots, int exact, int cut, int32_t hundredths) {
    const struct windshear_converted h = windshear_hundredths(bits_of(knots));
    seen.exact += h.exact, seen.rounded += !h.exact, seen.cut += h.cut;
    return h.finite == 1 && h.exact == exact && h.cut == cut && h.hundredths == hundredths;
}

/* Which floats are exact, which are rounded, and which are cut. */
static void converted(void) {
    enum { LIMIT = WINDSHEAR_HUNDREDTHS_LIMIT };
    /* of a float the step at 10,000 is 2^-10; 0x1p-149 is the least subnormal, 0x1.fffffcp-127 the greatest */
    static const struct { float knots; int exact, cut; int32_t hundredths; } of[] = {
        {0.0f, 1, 0, 0}, {140.25f, 1, 0, 14025}, {140.10f, 0, 0, 14010}, {140.0f, 1, 0, 14000}, {0.5f, 1, 0, 50}, {0.25f, 1, 0, 25}, {0.125f, 0, 0, 13},
        {0.004f, 0, 0, 0}, {0x1p-149f, 0, 0, 0}, {0x1.fffffcp-127f, 0, 0, 0}, {0x1p-126f, 0, 0, 0}, {200.004f, 0, 0, 20000}, {9999.75f, 1, 0, 999975},
        {10000.0f, 1, 0, LIMIT}, {10000.0f + 0x1p-10f, 0, 0, LIMIT}, {10000.0f + 0x5p-10f, 0, 0, LIMIT}, {10000.0f + 0x6p-10f, 0, 1, LIMIT},
        {10000.25f, 1, 1, LIMIT}, {10000.1f, 0, 1, LIMIT}, {0x1p21f - 0.125f, 0, 1, LIMIT}, {0x1p21f + 0.25f, 1, 1, LIMIT}, {3.4e38f, 1, 1, LIMIT},
        {0x1.fffffep127f, 1, 1, LIMIT}};
    for (size_t k = 0; k < sizeof of / sizeof *of; k++) {
        check(becomes(of[k].knots, of[k].exact, of[k].cut, of[k].hundredths), "a float is exact, rounded or cut");
        check(becomes(-of[k].knots, of[k].exact, of[k].cut, -of[k].hundredths), "and so with its sign turned");
    }
    static const uint32_t not_finite[] = {0x7f800000u, 0xff800000u, 0x7f800001u, 0x7fc00000u, 0xffc00000u, 0xffffffffu};
    for (size_t k = 0; k < sizeof not_finite / sizeof *not_finite; k++) {
        const struct windshear_converted h = windshear_hundredths(not_finite[k]);
        check(h.finite == 0 && h.exact == 0 && h.cut == 0 && h.hundredths == 0, "what is not finite is neither exact nor rounded");
    }
    /* the float nearest to each hundredth of the three ranges: exact are the quarters of a knot, every 25th */
    for (int32_t n = -20000; n <= 60000; n++) check(becomes((float)n / 100, n % 25 == 0, 0, n), "a hundredth");
    /* patterns of every size: a double holds 100 times a float, and from 2^53 on it is whole */
    for (uint32_t k = 0; k < 50000; k++) {
        const uint32_t bits = k * 85899u;
        if (bits << 1 >= 0xff000000u) continue;
        float knots;
        memcpy(&knots, &bits, sizeof knots);
        const double times = 100 * (double)knots;
        const int small = times > -0x1p53 && times < 0x1p53;
        const int64_t nearest = small ? (int64_t)(times + (times < 0 ? -0.5 : 0.5)) : times < 0 ? INT64_MIN : INT64_MAX;
        const int whole = !small || (double)(int64_t)times == times, above = nearest > LIMIT, below = nearest < -LIMIT;
        check(becomes(knots, whole, above || below, above ? LIMIT : below ? -LIMIT : (int32_t)nearest), "a pattern's hundredths");
    }
    check(seen.exact && seen.rounded && seen.cut, "floats that are exact, rounded and cut");
}

/* Whether a record was exact: each of its floats exact or rounded, in turn. A float that was rounded refuses nothing, and a run takes its hundredths. */
static void exact_records(void) {
    static const struct { float knots[3]; int32_t hundredths[3]; } whole = {{-0.0f, -29.5f, 140.25f}, {0, -2950, 14025}},
        rounded[] = {{{0x1p-149f, -29.4f, 140.10f}, {0, -2940, 14010}}, {{200.004f, 99.996f, 600.004f}, {20000, 10000, 60000}},
                     {{0.125f, -0.125f, 60.125f}, {13, -13, 6013}}, {{-200.004f, -100.004f, 59.996f}, {-20000, -10000, 6000}}};
    enum { KINDS = sizeof rounded / sizeof *rounded, COUNT = 8 * KINDS };
    uint8_t file[START(COUNT)], answers[COUNT * WINDSHEAR_ANSWER_SIZE];
    float knots[COUNT][3];
    struct windshear_sample sample[COUNT];
    check(windshear_write_header(1, COUNT, file, WINDSHEAR_HEADER_SIZE) == WINDSHEAR_ACCEPTED, "the header is written");
    for (int i = 0; i < COUNT; i++) {
        int32_t speed[3];
        for (int k = 0; k < 3; k++) {
            const int is_rounded = i >> k & 1;
            knots[i][k] = is_rounded ? rounded[i / 8].knots[k] : whole.knots[k];
            speed[k] = is_rounded ? rounded[i / 8].hundredths[k] : whole.hundredths[k];
        }
        sample[i] = calm;
        sample[i].frame = (uint16_t)i;
        sample[i].along = speed[0], sample[i].vertical = speed[1], sample[i].airspeed = speed[2];
        const struct windshear_record r = {knots[i][0], knots[i][1], knots[i][2], 400, 5000, 20000, -700, 10000, 1, 0, 0};
        check(windshear_write_record(1, r, file + START(i), WINDSHEAR_RECORD_SIZE) == WINDSHEAR_ACCEPTED, "a record with rounded floats is written");
    }
    const struct windshear_outcome outcome = windshear_run(file, sizeof file, answers, sizeof answers);
    check(outcome.refusal == WINDSHEAR_ACCEPTED && outcome.place == 0, "and run");
    struct windshear_state state = windshear_fresh();
    for (int i = 0; i < COUNT; i++) {
        const struct windshear_reading r = windshear_read_record(file, sizeof file, (size_t)i);
        check(r.found == 1 && r.refusal == WINDSHEAR_ACCEPTED && r.exact == (i % 8 == 0), "a record is exact where its three floats are");
        check(memcmp(&r.record, knots[i], sizeof knots[i]) == 0 && same_sample(r.sample, sample[i]), "its floats, and its hundredths");
        check(shows(answers + WINDSHEAR_ANSWER_SIZE * i, windshear_offer_lent(&state, sample[i])), "which the run takes");
    }
    /* the same records refused, by their last byte and then by their first float: they are not exact */
    static const uint32_t along[] = {0x43484000u /* 200.25 */, 0x7f7fc99eu /* 3.4e38 */, 0xff800000u, 0x7fc00000u};
    for (int i = 0; i < COUNT; i++) {
        file[START(i + 1) - 1] = 2;
        check(unread(windshear_read_record(file, sizeof file, (size_t)i), WINDSHEAR_REFUSED_DESELECT), "refused, it is not exact");
        for (size_t k = 0; k < sizeof along / sizeof *along; k++) {
            memcpy(file + START(i), &along[k], sizeof along[k]);
            check(unread(windshear_read_record(file, sizeof file, (size_t)i), WINDSHEAR_REFUSED_ALONG), "nor by a float out of range");
        }
    }
}

/* The text that is imported, or that is wanted of an export. */
static uint8_t text[4 << 20];
static size_t text_length;

static void add(const char *more) {
    const size_t length = strlen(more);
    memcpy(text + text_length, more, length);
    text_length += length;
}

/* The text's header line and no more. */
static void begin(void) {
    text_length = 0;
    add("along wind,vertical wind,true airspeed,height above ground,pitch,stall-warning pitch,climb,stall speed Vs1,mode,deselect\r\n");
}

/* Adds a sample's line, the speeds in knots; one field of it, or none where it is 10, by a format for its number. */
static void add_line(struct windshear_sample s, int field, const char *format) {
    int32_t fields[10];
    memcpy(fields, &s, sizeof fields);
    for (int i = 0; i < 10; i++) {
        char digits[32];
        const int size = abs((int)fields[i]);
        if (i < 3 || i == 7) snprintf(digits, sizeof digits, "%s%d.%02d", fields[i] < 0 ? "-" : "", size / 100, size % 100);
        else snprintf(digits, sizeof digits, "%d", (int)fields[i]);
        text_length += (size_t)sprintf((char *)text + text_length, i == field ? format : "%s", digits);
        add(i < 9 ? "," : "\r\n");
    }
}

/* The text of some samples. */
static void write_text(const struct windshear_sample *samples, size_t count) {
    begin();
    for (size_t i = 0; i < count; i++) add_line(samples[i], 10, "%s");
}

/* The text is the run of these samples: its file needs its length, no more and no less, and has their bytes. */
static void imports(const struct windshear_sample *samples, size_t count) {
    static uint8_t file[START(WINDSHEAR_MAX_RECORDS)];
    const size_t needs = START(count);
    write_file(file, samples, count);
    const struct windshear_needed needed = windshear_import_length(text, text_length);
    check(needed.refusal == WINDSHEAR_ACCEPTED && needed.place == 0 && needed.length == needs, "a text's file has its length");
    for (size_t length = needs - 1; length <= needs + 1; length++) {
        const int refusal = length == needs ? WINDSHEAR_ACCEPTED : WINDSHEAR_REFUSED_BUFFER;
        check(answered(windshear_import(text, text_length, lend(length), length), refusal, 0, length, file), "a text is imported, or refused by 7");
    }
}

/* The text is refused, whatever the buffer's length. */
static void refused_text(int refusal, size_t place, const char *what) {
    static const size_t lengths[] = {0, START(0), START(1), START(2), START(3), START(WINDSHEAR_MAX_RECORDS), START(WINDSHEAR_MAX_RECORDS + 1)};
    const struct windshear_needed needed = windshear_import_length(text, text_length);
    check(needed.refusal == refusal && needed.place == place && needed.length == 0, what);
    for (size_t k = 0; k < sizeof lengths / sizeof *lengths; k++)
        check(answered(windshear_import(text, text_length, lend(lengths[k]), lengths[k]), refusal, place, lengths[k], ""), "and its buffer is left");
}

/* The file's text is the one that stands: it needs its length, no more and no less. */
static void exports(const uint8_t *file, size_t file_length) {
    const struct windshear_needed needed = windshear_export_length(file, file_length);
    check(needed.refusal == WINDSHEAR_ACCEPTED && needed.place == 0 && needed.length == text_length, "a file's text has its length");
    for (size_t length = text_length - 1; length <= text_length + 1; length++) {
        const int refusal = length == text_length ? WINDSHEAR_ACCEPTED : WINDSHEAR_REFUSED_BUFFER;
        check(answered(windshear_export(file, file_length, lend(length), length), refusal, 0, length, text), "a file is exported, or refused by 7");
    }
}

/* The text and the lines of the header's comment. */
static void shown_import(void) {
#include <imported.inc>
    check(needed.refusal == WINDSHEAR_ACCEPTED && needed.place == 0 && needed.length == START(1), "the header's text has one sample");
    check(imported.refusal == WINDSHEAR_ACCEPTED && imported.place == 0, "and is imported");
    const struct windshear_reading r = windshear_read_record(file, needed.length, 0);
    check(r.found == 1 && r.record.along == 20.10f && r.record.vertical == -29.40f && r.record.airspeed == 140 && r.sample.along == 2010 && r.sample.vertical == -2940
          && r.sample.airspeed == 14000 && r.sample.vs1 == 10000 && r.sample.mode == 1, "its floats are the nearest");
    check(file[START(1)] == 0, "and no more is written");
    text_length = 0;
    add(text);
    exports(file, needed.length);
}

/* Lines that are read as the sample's, and lines that are malformed, by each field; and header lines. */
static void fields_of_texts(void) {
    /* none of its numbers is negative, so that each may have a sign or zeros in front */
    struct windshear_sample s = calm;
    s.climb = 700;
    static char zeros[5000 + sizeof "%s"], nines[sizeof zeros];
    memset(zeros, '0', 5000);
    memset(nines, '9', 5000);
    memcpy(zeros + 5000, "%s", sizeof "%s");
    memcpy(nines + 5000, "%s", sizeof "%s");
    const char *const good[] = {"%s", "\"%s\"", "+%s", "\"+%s\"", "0%s", "+00%s", "\"00%s\"", zeros};
    static const char *const bad[] = {"", "x", "-", "+-%s", "-+%s", "--%s", " %s", "%s ", "+ %s", "%sx", "x%s", "\"%s", "%s\"", "\"%s\" ", " \"%s\"", "\"%s\"0", "0\"%s\"",
                                      "\"\"%s", "\"%s\"\"", "\"\"\"%s\"", "\"%s\"\"\"", "\"\"", "\" %s\"", "\"%s,\"", "\"%s\r\n\"", "%s,", ",%s", "%s,0", "%s.", "%s.0",
                                      "%s0.00", "%se0", "%s\r", "%s\n", "%s\r\n", "\r\n%s", "%s\t", "0x%s", "%s\xa0", "%s;", "'%s'"};
    static const char *const bad_speed[] = {"140", "140.", "140.0", ".00", "-.00", "%s0", "140,00", "140.-0", "140.+00", "140. 00", "140..00", "140.0.0", "1.400e2"};
    static const char *const bad_whole[] = {"1.00", "1.0", "1.", ".1", "1e0"};
    for (int i = 0; i < 10; i++) {
        const int speed = i < 3 || i == 7;
        const char *const *const others = speed ? bad_speed : bad_whole;
        const size_t count = speed ? sizeof bad_speed / sizeof *bad_speed : sizeof bad_whole / sizeof *bad_whole;
        for (size_t k = 0; k < sizeof good / sizeof *good; k++) {
            begin();
            add_line(s, i, good[k]);
            imports(&s, 1);
        }
        for (size_t k = 0; k < sizeof bad / sizeof *bad + count; k++) {
            begin();
            add_line(calm, 10, "%s");
            /* out of range as well, at place 1: 24 is tested first */
            add_line(at_end(9 - i, 1, 1), 10, "%s");
            add_line(s, i, k < count ? others[k] : bad[k - count]);
            refused_text(WINDSHEAR_REFUSED_CSV_LINE, 0, "a field is malformed");
        }
        begin();
        add_line(calm, 10, "%s");
        add_line(s, i, nines);
        refused_text(WINDSHEAR_REFUSED_ALONG + i, 1, "a number of five thousand digits is out of range");
    }
    static const char *const lines[] = {"\r\n", "\n", "\r", " \r\n", ",\r\n", ",,,,,,,,,\r\n", "0.00,0.00,140.00,0,0,0,0,100.00,0\r\n", "0.00,0.00,140.00,0,0,0,0,100.00,0,0\n",
                                        "0.00,0.00,140.00,0,0,0,0,100.00,0,0\r", "0.00,0.00,140.00,0,0,0,0,100.00,0,0", "0.00,0.00,140.00,0,0,0,0,100.00,0,0\n\r"};
    for (size_t k = 0; k < sizeof lines / sizeof *lines; k++) {
        begin();
        add_line(calm, 10, "%s");
        add(lines[k]);
        refused_text(WINDSHEAR_REFUSED_CSV_LINE, 0, "a line is malformed");
    }
    /* the header line damaged at each byte, or cut off there; then with all its names quoted */
    begin();
    const size_t length = text_length;
    for (size_t k = 0; k < length; k++) {
        begin();
        add_line(calm, 0, "x");
        text[k] ^= 0x20;
        refused_text(WINDSHEAR_REFUSED_CSV_HEADER, 0, "a header line with another byte");
        begin();
        text_length = k;
        refused_text(WINDSHEAR_REFUSED_CSV_HEADER, 0, "a header line that is cut off");
    }
    text_length = 0;
    add("\"along wind\",\"vertical wind\",\"true airspeed\",\"height above ground\",\"pitch\",\"stall-warning pitch\",\"climb\",\"stall speed Vs1\",\"mode\",\"deselect\"\r\n");
    imports(NULL, 0);
    add_line(calm, 10, "%s");
    imports(&calm, 1);
}

/* Samples to text and back, the ends of each range, and how many there may be. */
static void texts(void) {
    enum { COUNT = WINDSHEAR_MAX_RECORDS, LONG = 70000 };
    static struct windshear_sample samples[COUNT + 1];
    static uint8_t file[START(COUNT)];
    for (int i = 0; i <= COUNT; i++) {
        samples[i] = exposed(i);
        samples[i].along += i * i % 1999 - i % 701;
    }
    static const size_t counts[] = {0, 1, 2, 599, COUNT};
    for (size_t k = 0; k < sizeof counts / sizeof *counts; k++) {
        write_text(samples, counts[k]);
        imports(samples, counts[k]);
        write_file(file, samples, counts[k]);
        exports(file, START(counts[k]));
    }
    /* one more is refused by 5, after the lines; and a place may be above 16 bits */
    write_text(samples, COUNT + 1);
    refused_text(WINDSHEAR_REFUSED_COUNT, 0, "a sample too many");
    add_line(at_end(9, 1, 1), 10, "%s");
    refused_text(WINDSHEAR_REFUSED_DESELECT, COUNT + 1, "11 to 20 come before 5");
    begin();
    for (int i = 0; i < LONG; i++) add_line(calm, 10, "%s");
    refused_text(WINDSHEAR_REFUSED_COUNT, 0, "far too many samples");
    add_line(at_end(3, 0, 1), 10, "%s");
    add_line(at_end(0, 0, 1), 10, "%s");
    refused_text(WINDSHEAR_REFUSED_HEIGHT, LONG, "a place above 65,535");
    add("\n");
    refused_text(WINDSHEAR_REFUSED_CSV_LINE, 0, "24 comes before 11 to 20");
    text[0] = 'A';
    refused_text(WINDSHEAR_REFUSED_CSV_HEADER, 0, "and 23 before it");
    for (int i = 0; i < 10; i++)
        for (int end = 0; end < 2; end++) {
            const struct windshear_sample three[3] = {calm, at_end(i, end, 0), calm};
            write_text(three, 3);
            imports(three, 3);
            write_file(file, three, 3);
            exports(file, START(3));
            begin();
            add_line(calm, 10, "%s");
            struct windshear_sample beyond = at_end(i, end, 1);
            if (i < 9) beyond.deselect = 2;
            add_line(beyond, 10, "%s");
            add_line(at_end(0, 0, 1), 10, "%s");
            refused_text(WINDSHEAR_REFUSED_ALONG + i, 1, "the first bad line's place, and its first number");
        }
    /* a minus before zero is read as plus zero */
    struct windshear_sample s = calm;
    s.pitch = s.climb = s.height = s.stall = s.mode = 0;
    static const int zero[] = {0, 1, 3, 4, 5, 6, 8, 9};
    for (size_t k = 0; k < sizeof zero / sizeof *zero; k++) {
        begin();
        add_line(s, zero[k], "-%s");
        imports(&s, 1);
    }
}

/* Files whose floats were rounded are exported by their hundredths, and zero without a minus; those refused are left. */
static void exported_files(void) {
    static const struct { float knots; int32_t hundredths; } of[] = {{0.125f, 13}, {-0.125f, -13}, {-0.0f, 0}, {0x1p-149f, 0}, {-0.004f, 0}, {-0.996f, -100},
                                                                     {0.09f, 9}, {-0.5f, -50}, {99.996f, 10000}, {-100.004f, -10000}};
    uint8_t file[START(2)];
    check(windshear_write_header(1, 2, file, WINDSHEAR_HEADER_SIZE) == WINDSHEAR_ACCEPTED, "the header is written");
    for (size_t k = 0; k < sizeof of / sizeof *of; k++) {
        struct windshear_sample s = calm;
        s.along = s.vertical = of[k].hundredths;
        const struct windshear_record r = {of[k].knots, of[k].knots, 140, 400, 5000, 20000, -700, 10000, 1, 0, 0};
        begin();
        for (int i = 0; i < 2; i++) {
            check(windshear_write_record(1, r, file + START(i), WINDSHEAR_RECORD_SIZE) == WINDSHEAR_ACCEPTED, "the record is written");
            add_line(s, 10, "%s");
        }
        exports(file, sizeof file);
    }
    file[START(2) - 1] = 2;
    refused_file(file, sizeof file, WINDSHEAR_REFUSED_DESELECT, 1);
    file[START(2) - 2] = 2;
    refused_file(file, sizeof file, WINDSHEAR_REFUSED_MODE, 1);
    memcpy(file + START(0), &(float){__builtin_nanf("")}, sizeof(float));
    refused_file(file, sizeof file, WINDSHEAR_REFUSED_ALONG, 0);
    refused_file(file, sizeof file - 1, WINDSHEAR_REFUSED_LENGTH, 0);
}

/* The listing of a list that lights both lamps, by the lone answers; and of no records. */
static void listed(void) {
    enum { COUNT = 600 };
    static struct windshear_sample samples[COUNT];
    static uint8_t file[START(COUNT)];
    static const char *const alert[] = {"none", "amber", "red"};
    for (int count = 0; count <= COUNT; count += COUNT) {
        struct windshear_state state = windshear_fresh();
        int on[3] = {0}, last = WINDSHEAR_ALERT_NONE;
        text_length = 0;
        add("sample shear alert voice command float\n");
        for (int i = 0; i < count; i++) {
            samples[i] = exposed(i);
            const struct windshear_answer a = windshear_offer_lent(&state, samples[i]);
            char command[16] = "off";
            if (a.guidance) snprintf(command, sizeof command, "%d", (int)a.command);
            /* of its three floats, the vertical wind of 29.4 kt is rounded, and the others are whole */
            text_length += (size_t)sprintf((char *)text + text_length, "%d %d %s %d %s rounded\n", i, (int)a.shear, alert[a.alert], a.voice, command);
            on[a.alert] += a.alert != last;
            last = a.alert;
            tally(a);
        }
        text_length += (size_t)sprintf((char *)text + text_length, "red %d amber %d\n", on[WINDSHEAR_ALERT_RED], on[WINDSHEAR_ALERT_AMBER]);
        write_file(file, samples, (size_t)count);
        const size_t room = WINDSHEAR_LISTING_LINE * (size_t)(count + 2);
        for (size_t length = room - 1; length <= room + 1; length++) {
            const size_t want = length < room ? 0 : text_length;
            check(windshear_list(file, START(count), lend(length), length) == want && holds(length, text, want), "a listing, where there is room");
        }
    }
    all_lit();
}

/* Frames: a lone sample stands for those elapsed, 1 to 20, and is refused by 21 otherwise, after its fields; a run of version 2 answers as the lone
 * samples, is refused at the place of 21, and is not exported. The numbers go round on the way. */
static void frames(void) {
    enum { COUNT = 600 };
    static uint8_t file[START_2(COUNT)], answers[COUNT * WINDSHEAR_ANSWER_SIZE], before[sizeof answers];
    static struct windshear_sample samples[COUNT];
    struct windshear_state lent = windshear_fresh(), plain = lent;
    check(windshear_write_header(2, COUNT, file, WINDSHEAR_HEADER_SIZE) == WINDSHEAR_ACCEPTED && file[3] == 2, "the header of version 2 is written");
    uint16_t frame = 65000;
    for (int i = 0; i < COUNT; i++) {
        samples[i] = exposed(i);
        frame = (uint16_t)(frame + 1 + i % 4 * (i % 23) % 20);
        samples[i].frame = frame;
        check(windshear_write_record(2, record_of(samples[i]), file + START_2(i), WINDSHEAR_RECORD_SIZE_2) == WINDSHEAR_ACCEPTED, "a record of version 2 is written");
    }
    const struct windshear_file_test test = windshear_test_file(file, sizeof file);
    check(test.refusal == WINDSHEAR_ACCEPTED && test.count == COUNT && test.version == 2, "a file of version 2");
    struct windshear_outcome outcome = windshear_run(file, sizeof file, answers, sizeof answers);
    check(outcome.refusal == WINDSHEAR_ACCEPTED && outcome.place == 0, "the run of version 2 is accepted");
    for (int i = 0; i < COUNT; i++) {
        static const int off[] = {0, 21, 22, 32768, 65535};
        for (size_t k = 0; i > 0 && k < sizeof off / sizeof *off; k++) {
            struct windshear_sample late = after(&lent, off[k], samples[i]);
            struct windshear_answer want = nothing;
            want.refusal = WINDSHEAR_REFUSED_FRAMES;
            check(same_answer(windshear_offer_lent(&lent, late), want) && same_state(&lent, &plain), "21, and the state is left");
            late.deselect = 2;
            check(windshear_offer_lent(&lent, late).refusal == WINDSHEAR_REFUSED_DESELECT && same_state(&lent, &plain), "20 before it");
        }
        const int place = lent.core.place, elapsed = i ? (uint16_t)(samples[i].frame - lent.core.frame) : 1;
        const struct windshear_answer a = windshear_offer_lent(&lent, samples[i]);
        const struct windshear_offered o = windshear_offer(plain, samples[i]);
        plain = o.state;
        tally(a);
        check(same_answer(o.answer, a) && same_state(&lent, &plain) && lent.core.frame == samples[i].frame, "both forms agree");
        check(lent.core.place == (place + 200 - elapsed) % 200, "the ring is turned by the frames");
        for (int k = 0; k < elapsed; k++) check(lent.held[(lent.core.place + k) % 200] == cut(a.shear), "the shear enters once for each");
        check(shows(answers + WINDSHEAR_ANSWER_SIZE * i, a), "a run of version 2 answers as lone samples");
        const struct windshear_reading r = windshear_read_record(file, sizeof file, (size_t)i);
        check(r.found == 1 && r.record.frame == samples[i].frame && same_sample(r.sample, samples[i]), "a record and its sample have their number");
        uint8_t again[WINDSHEAR_RECORD_SIZE_2];
        check(windshear_write_record(2, r.record, again, sizeof again) == WINDSHEAR_ACCEPTED && memcmp(again, file + START_2(i), sizeof again) == 0, "and are written as read");
    }
    all_lit();
    memcpy(before, answers, sizeof answers);
    file[START_2(58) - 1] ^= 1;
    outcome = windshear_run(file, sizeof file, answers, sizeof answers);
    check(outcome.refusal == WINDSHEAR_REFUSED_FRAMES && outcome.place == 57 && memcmp(before, answers, sizeof answers) == 0, "21 at its place");
    check(windshear_read_record(file, sizeof file, 57).found == 1, "where a record alone is read");
    check(windshear_export_length(file, sizeof file).refusal == WINDSHEAR_REFUSED_VERSION && windshear_export(file, sizeof file, lend(8), 8).refusal == WINDSHEAR_REFUSED_VERSION
          && holds(8, "", 0), "version 2 is not exported");
}

/* The versions that there are, and others: 3, then 5, then 7; of a record 3, then 7. */
static void versions(void) {
    static const uint32_t version[] = {0, 1, 2, 3, 65535, 65537, 65538, UINT32_MAX};
    const struct windshear_record r = {20, -10, 140, 400, 5000, 20000, -700, 10000, 1, 0, 258};
    /* its bytes in version 2; in version 1 all but the last two */
    static const uint8_t bytes[26] = {0, 0, 0xa0, 0x41, 0, 0, 0x20, 0xc1, 0, 0, 0x0c, 0x43, 0x90, 1, 0x88, 0x13, 0x20, 0x4e, 0x44, 0xfd, 0x10, 0x27, 1, 0, 2, 1};
    for (size_t k = 0; k < sizeof version / sizeof *version; k++) {
        const int known = version[k] == 1 || version[k] == 2, is_2 = version[k] == 2;
        const uint32_t most = is_2 ? WINDSHEAR_MAX_RECORDS_2 : WINDSHEAR_MAX_RECORDS;
        const size_t size = is_2 ? WINDSHEAR_RECORD_SIZE_2 : WINDSHEAR_RECORD_SIZE;
        for (size_t length = 0; length < 30; length++)
            for (uint32_t count = most - 1; count <= most + 1; count++) {
                const int want = !known ? WINDSHEAR_REFUSED_VERSION : count > most ? WINDSHEAR_REFUSED_COUNT : length != WINDSHEAR_HEADER_SIZE ? WINDSHEAR_REFUSED_BUFFER : 0;
                const uint8_t header[] = {'W', 'S', 'R', (uint8_t)version[k], 0, 0, (uint8_t)count, (uint8_t)(count >> 8)};
                check(windshear_write_header(version[k], count, lend(length), length) == want && holds(length, header, want ? 0 : length), "a header by its version");
                const int refusal = !known ? WINDSHEAR_REFUSED_VERSION : length != size ? WINDSHEAR_REFUSED_BUFFER : 0;
                check(windshear_write_record(version[k], r, lend(length), length) == refusal && holds(length, bytes, refusal ? 0 : length), "a record by its version");
            }
    }
}

int main(void) {
    sample_fields();
    state_fields();
    host_built();
    entries_cut();
    zeroed_memory();
    refused_while_lit();
    run_lit();
    three_records();
    headers();
    lengths_of_zero();
    writers();
    converted();
    exact_records();
    shown_import();
    fields_of_texts();
    texts();
    exported_files();
    listed();
    frames();
    versions();
    printf("answers in lists: red %d, amber %d, with voice %d, with guidance %d, beyond the cut %d\n", in_all.red, in_all.amber, in_all.voice, in_all.guidance,
           in_all.gust);
    printf("floats: exact %d, rounded %d, cut %d\n", seen.exact, seen.rounded, seen.cut);
    printf("compared %d facts of the C interface\n", checks);
    return wrong != 0;
}
