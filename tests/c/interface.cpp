/* The header as C++: 01's three records lent, in the plain form and as a run file that is read back, a ring turned, both lamps lit by an exposure,
 * lengths of 0, floats and records that are exact or rounded, and a text imported, exported and listed. */
#include "windshear.h"
#include <algorithm>
#include <cstddef>
#include <cstdint>
#include <cstdio>
#include <cstring>
#include <string>
#include <vector>

static_assert(sizeof(windshear_sums) == 48 && sizeof(windshear_core) == 80 && sizeof(windshear_state) == 880 && sizeof(windshear_offered) == 896, "sizes");
static_assert(offsetof(windshear_sums, s100) == 40 && offsetof(windshear_core, along) == 48 && offsetof(windshear_core, place) == 70 && offsetof(windshear_core, frame) == 72
              && offsetof(windshear_state, core) == 800 && offsetof(windshear_offered, state) == 16, "places");
static_assert(sizeof(windshear_converted) == 12 && offsetof(windshear_converted, exact) == 2 && offsetof(windshear_converted, cut) == 4
              && offsetof(windshear_converted, hundredths) == 8, "a float's conversion");
static_assert(sizeof(windshear_reading) == 80 && offsetof(windshear_reading, exact) == 4 && offsetof(windshear_reading, record) == 8
              && offsetof(windshear_reading, sample) == 36, "a reading");
static_assert(sizeof(windshear_sample) == 44 && sizeof(windshear_record) == 28 && offsetof(windshear_record, frame) == 24 && sizeof(windshear_file_test) == 8, "frames");
static_assert(sizeof(windshear_exchanged) == 16 && offsetof(windshear_exchanged, refusal) == 8, "an exchange");
static_assert(sizeof(windshear_needed) == 24 && offsetof(windshear_needed, place) == 8 && offsetof(windshear_needed, refusal) == 16, "what it needs");
static_assert(alignof(windshear_state) == 8 && alignof(windshear_offered) == 8, "alignment");

static int checks, wrong;

static void check(bool ok, const char *what) {
    checks++;
    if (!ok) {
        wrong++;
        std::printf("wrong: %s\n", what);
    }
}

static bool same(const windshear_answer &a, const windshear_answer &b) {
    return a.refusal == b.refusal && a.alert == b.alert && a.voice == b.voice && a.guidance == b.guidance && a.command == b.command && a.shear == b.shear;
}

/* Two samples, or two records. */
template <class T> static bool same_fields(const T &a, const T &b) {
    return a.along == b.along && a.vertical == b.vertical && a.airspeed == b.airspeed && a.height == b.height && a.pitch == b.pitch && a.stall == b.stall
           && a.climb == b.climb && a.vs1 == b.vs1 && a.mode == b.mode && a.deselect == b.deselect && a.frame == b.frame;
}

/* No record, and this refusal. */
static bool unread(const windshear_reading &r, int refusal) {
    return r.found == 0 && r.refusal == refusal && r.exact == 0 && same_fields(r.record, windshear_record{}) && same_fields(r.sample, windshear_sample{});
}

/* Where a record starts in a file, from the file's start; after the last, the file's length. */
static constexpr std::size_t start(std::size_t place) { return WINDSHEAR_HEADER_SIZE + WINDSHEAR_RECORD_SIZE * place; }

static windshear_converted converted(float knots) {
    uint32_t bits;
    std::memcpy(&bits, &knots, sizeof bits);
    return windshear_hundredths(bits);
}

/* Floats that are exact, rounded or cut, with either sign; and those that are not finite. */
static void floats() {
    const int32_t limit = WINDSHEAR_HUNDREDTHS_LIMIT;
    const struct { float knots; int exact, cut; int32_t hundredths; } of[] = {
        {140.25f, 1, 0, 14025}, {140.10f, 0, 0, 14010}, {0.0f, 1, 0, 0}, {0x1p-149f, 0, 0, 0}, {0.125f, 0, 0, 13}, {3.4e38f, 1, 1, limit},
        {10000.0f, 1, 0, limit}, {10000.0f + 0x1p-10f, 0, 0, limit}, {10000.0f + 0x6p-10f, 0, 1, limit}, {10000.25f, 1, 1, limit}};
    for (const auto &one : of)
        for (const int sign : {1, -1}) {
            const windshear_converted h = converted(sign < 0 ? -one.knots : one.knots);
            check(h.finite == 1 && h.exact == one.exact && h.cut == one.cut && h.hundredths == sign * one.hundredths, "a float is exact, rounded or cut");
        }
    for (const uint32_t bits : {0x7f800000u, 0xff800000u, 0x7fc00000u, 0xffffffffu}) {
        const windshear_converted h = windshear_hundredths(bits);
        check(h.finite == 0 && h.exact == 0 && h.cut == 0 && h.hundredths == 0, "what is not finite is neither exact nor rounded");
    }
}

/* Records whose floats are exact or rounded, each in turn; and then refused by their last byte. */
static void exact_records() {
    const int count = 8;
    std::vector<uint8_t> file(start(count));
    std::vector<windshear_record> records;
    std::vector<windshear_sample> samples;
    check(windshear_write_header(1, count, file.data(), WINDSHEAR_HEADER_SIZE) == WINDSHEAR_ACCEPTED, "the header is written");
    for (int i = 0; i < count; i++) {
        records.push_back({i & 1 ? 0.1f : -0.0f, i & 2 ? -29.4f : -29.5f, i & 4 ? 140.1f : 140.25f, 400, 5000, 20000, -700, 10000, 1, 0, 0});
        samples.push_back({i & 1 ? 10 : 0, i & 2 ? -2940 : -2950, i & 4 ? 14010 : 14025, 400, 5000, 20000, -700, 10000, 1, 0, static_cast<uint16_t>(i)});
        check(windshear_write_record(1, records[i], file.data() + start(i), WINDSHEAR_RECORD_SIZE) == WINDSHEAR_ACCEPTED, "a record with rounded floats is written");
    }
    for (int i = 0; i < count; i++) {
        const windshear_reading r = windshear_read_record(file.data(), file.size(), i);
        check(r.found == 1 && r.refusal == WINDSHEAR_ACCEPTED && r.exact == (i == 0), "a record is exact where its three floats are");
        check(same_fields(r.record, records[i]) && same_fields(r.sample, samples[i]), "its floats, and its hundredths");
        file[start(i + 1) - 1] = 2;
        check(unread(windshear_read_record(file.data(), file.size(), i), WINDSHEAR_REFUSED_DESELECT), "refused, it is not exact");
    }
}

/* Five seconds of this vertical wind, 0.01 kt, at 140 kt, lent and as a run: dark up to the last sample, which is answered so. */
static void exposed(int32_t vertical, const windshear_answer &last) {
    const int count = 100;
    windshear_state state = windshear_fresh();
    std::vector<uint8_t> file(start(count)), answers(count * WINDSHEAR_ANSWER_SIZE);
    check(windshear_write_header(1, count, file.data(), WINDSHEAR_HEADER_SIZE) == WINDSHEAR_ACCEPTED, "the header is written");
    for (int i = 0; i < count; i++) {
        windshear_answer want{};
        want.shear = last.shear;
        if (i == count - 1) want = last;
        const windshear_sample sample{0, vertical, 14000, 400, 5000, 20000, -700, 10000, 1, 0, static_cast<uint16_t>(i)};
        check(same(windshear_offer_lent(&state, sample), want), "a lamp is lit by its exposure, and not before");
        const windshear_record record{0, vertical / 100.0f, 140, 400, 5000, 20000, -700, 10000, 1, 0, 0};
        check(windshear_write_record(1, record, file.data() + start(i), WINDSHEAR_RECORD_SIZE) == WINDSHEAR_ACCEPTED, "the record is written");
    }
    const windshear_outcome outcome = windshear_run(file.data(), file.size(), answers.data(), answers.size());
    check(outcome.refusal == WINDSHEAR_ACCEPTED && outcome.place == 0, "the run is accepted");
    for (int i = 0; i < count; i++) {
        const uint8_t *answer = answers.data() + WINDSHEAR_ANSWER_SIZE * i;
        const bool lit = i == count - 1;
        check(answer[0] == (lit ? last.alert : 0) && answer[1] == (lit ? last.voice : 0) && answer[2] + 256 * answer[3] == (lit ? last.command : 0)
              && answer[8] == (lit ? last.guidance : 0), "and so in the run");
    }
}

/* The same exposure with frames dropped, each sample standing for five, as a file of version 2 across the number's turn; then 21 at its place. */
static void frames_dropped() {
    const int count = 22;
    const auto at = [](std::size_t place) { return WINDSHEAR_HEADER_SIZE + WINDSHEAR_RECORD_SIZE_2 * place; };
    windshear_state state = windshear_fresh();
    std::vector<uint8_t> file(at(count)), answers(count * WINDSHEAR_ANSWER_SIZE);
    check(windshear_write_header(2, count, file.data(), WINDSHEAR_HEADER_SIZE) == WINDSHEAR_ACCEPTED, "the header of version 2");
    for (int i = 0; i < count; i++) {
        /* the first stands for one: 1 + 20 x 5 is the first sum from 100 on */
        const uint16_t frame = static_cast<uint16_t>(65500 + 5 * i);
        const windshear_answer answer = windshear_offer_lent(&state, {0, -2940, 14000, 400, 5000, 20000, -700, 10000, 1, 0, frame});
        check(answer.alert == (i < 20 ? WINDSHEAR_ALERT_NONE : WINDSHEAR_ALERT_RED) && answer.command == (i < 20 ? 0 : 5000 + 375 * (i - 20)), "red after 100 frames");
        const windshear_record record{0, -29.40f, 140, 400, 5000, 20000, -700, 10000, 1, 0, frame};
        check(windshear_write_record(2, record, file.data() + at(i), WINDSHEAR_RECORD_SIZE_2) == WINDSHEAR_ACCEPTED, "a record of version 2");
        check(i < count - 1 || same_fields(windshear_read_record(file.data(), file.size(), i).record, record), "and read back");
    }
    check(windshear_test_file(file.data(), file.size()).version == 2, "the file's version");
    windshear_outcome outcome = windshear_run(file.data(), file.size(), answers.data(), answers.size());
    check(outcome.refusal == WINDSHEAR_ACCEPTED && answers[10 * 19] == 0 && answers[10 * 20] == WINDSHEAR_ALERT_RED, "and so in the run");
    file[at(3) - 2] += 16;
    outcome = windshear_run(file.data(), file.size(), answers.data(), answers.size());
    check(outcome.refusal == WINDSHEAR_REFUSED_FRAMES && outcome.place == 2, "21 frames are too many");
}

/* A run of no records, and an empty file, each buffer a byte longer than its length, as the data() of an empty vector may be NULL. */
static void lengths_of_zero() {
    std::vector<uint8_t> file(start(0) + 1), answers(0 * WINDSHEAR_ANSWER_SIZE + 1, 0xa5);
    check(windshear_write_header(1, 0, file.data(), file.size() - 1) == WINDSHEAR_ACCEPTED, "the header of no records");
    windshear_outcome outcome = windshear_run(file.data(), file.size() - 1, answers.data(), answers.size() - 1);
    check(outcome.refusal == WINDSHEAR_ACCEPTED && outcome.place == 0 && answers[0] == 0xa5, "a run of count 0 is good");
    outcome = windshear_run(file.data(), 0, answers.data(), answers.size() - 1);
    check(outcome.refusal == WINDSHEAR_REFUSED_SHORT && outcome.place == 0 && answers[0] == 0xa5, "an empty file is refused by 1");
    check(windshear_test_file(file.data(), 0).refusal == WINDSHEAR_REFUSED_SHORT && unread(windshear_read_record(file.data(), 0, 0), WINDSHEAR_REFUSED_SHORT),
          "and so by its own test, and at a place");
    check(windshear_import(file.data(), 0, answers.data(), answers.size() - 1).refusal == WINDSHEAR_REFUSED_CSV_HEADER && answers[0] == 0xa5, "an empty text");
    check(windshear_export(file.data(), 0, answers.data(), answers.size() - 1).refusal == WINDSHEAR_REFUSED_SHORT && answers[0] == 0xa5, "an empty file's text");
    check(windshear_list(file.data(), 0, answers.data(), answers.size() - 1) == 0 && answers[0] == 0xa5, "and its listing");
}

using needs = windshear_needed(const uint8_t *, std::size_t);
using exchanges = windshear_exchanged(const uint8_t *, std::size_t, uint8_t *, std::size_t);

/* An import, or an export, gives this output, where the buffer has its length. */
static void gives(const std::vector<uint8_t> &input, needs length, exchanges exchange, const std::vector<uint8_t> &output) {
    const windshear_needed needed = length(input.data(), input.size());
    check(needed.refusal == WINDSHEAR_ACCEPTED && needed.place == 0 && needed.length == output.size(), "the output's length");
    for (const int off : {-1, 0, 1}) {
        const std::vector<uint8_t> before(output.size() + off, 0xa5);
        std::vector<uint8_t> lent = before;
        const windshear_exchanged e = exchange(input.data(), input.size(), lent.data(), lent.size());
        check(e.refusal == (off ? WINDSHEAR_REFUSED_BUFFER : WINDSHEAR_ACCEPTED) && e.place == 0 && lent == (off ? before : output), "the output, or 7");
    }
}

/* An import, or an export, is refused, and the buffer left, of whatever length. */
static void refuses(const std::vector<uint8_t> &input, needs length, exchanges exchange, int refusal, std::size_t place) {
    const windshear_needed needed = length(input.data(), input.size());
    check(needed.refusal == refusal && needed.place == place && needed.length == 0, "what is refused has no length");
    for (const std::size_t size : {std::size_t{1}, start(0), start(1), start(2), input.size()}) {
        const std::vector<uint8_t> before(size, 0xa5);
        std::vector<uint8_t> lent = before;
        const windshear_exchanged e = exchange(input.data(), input.size(), lent.data(), lent.size());
        check(e.refusal == refusal && e.place == place && lent == before, "what is refused leaves the buffer");
    }
}

/* The listing of a file, where there is room for so many lines. */
static void lists(const std::vector<uint8_t> &input, std::size_t lines, const std::string &listing) {
    const std::size_t room = lines * WINDSHEAR_LISTING_LINE;
    std::vector<uint8_t> lent(room, 0xa5), want = lent;
    check(windshear_list(input.data(), input.size(), lent.data(), room - 1) == 0 && lent == want, "no listing without its room");
    std::copy(listing.begin(), listing.end(), want.begin());
    check(windshear_list(input.data(), input.size(), lent.data(), room) == listing.size() && lent == want, "a listing");
}

/* The text of the header's comment, by its lines; then both ways, with a second line, and refused. */
static void texts() {
#include <imported.inc>
    check(needed.refusal == WINDSHEAR_ACCEPTED && needed.place == 0 && needed.length == start(1), "the header's text has one sample");
    check(imported.refusal == WINDSHEAR_ACCEPTED && imported.place == 0, "and is imported");
    const windshear_record record{20.10f, -29.40f, 140, 400, 5000, 20000, -700, 10000, 1, 0, 0};
    check(same_fields(windshear_read_record(file, needed.length, 0).record, record), "its floats are the nearest");
    const auto bytes = [](const std::string &of) { return std::vector<uint8_t>(of.begin(), of.end()); };
    const std::string first = text, second = "0.00,-0.01,60.00,-20,0,-1,0,50.00,0,1\r\n";
    std::vector<uint8_t> run(file, file + start(1));
    gives(bytes(first), windshear_import_length, windshear_import, run);
    gives(run, windshear_export_length, windshear_export, bytes(first));
    lists(run, 3, "sample shear alert voice command float\n0 21000 none 0 off rounded\nred 0 amber 0\n");
    run.resize(start(2));
    check(windshear_write_header(1, 2, run.data(), WINDSHEAR_HEADER_SIZE) == WINDSHEAR_ACCEPTED, "the header of two records");
    check(windshear_write_record(1, {0, -0.01f, 60, -20, 0, -1, 0, 5000, 0, 1, 0}, run.data() + start(1), WINDSHEAR_RECORD_SIZE) == WINDSHEAR_ACCEPTED, "and the second");
    gives(bytes(first + second), windshear_import_length, windshear_import, run);
    gives(run, windshear_export_length, windshear_export, bytes(first + second));
    gives(bytes(first + "\"-00.00\",-00.01,+060.00,-20,-0,-1,\"0\",50.00,0,1\r\n"), windshear_import_length, windshear_import, run);

    const struct { std::string text; int refusal; std::size_t place; } refused[] = {
        {first.substr(1) + second, WINDSHEAR_REFUSED_CSV_HEADER, 0}, {first + second + "\r\n", WINDSHEAR_REFUSED_CSV_LINE, 0},
        {first + "0.00,0.00,140.00,400,0,0,0,100.00,2,2\r\n" + second, WINDSHEAR_REFUSED_MODE, 1},
        {first + second + "0.00,0.00,140.00,400,0,0,0,49.99,0,0\r\n", WINDSHEAR_REFUSED_VS1, 2}};
    for (const auto &one : refused) refuses(bytes(one.text), windshear_import_length, windshear_import, one.refusal, one.place);
    run[start(1) + offsetof(windshear_record, mode)] = 2;
    refuses(run, windshear_export_length, windshear_export, WINDSHEAR_REFUSED_MODE, 1);
    lists(run, 1, "refused 19 at 1\n");
    run.pop_back();
    refuses(run, windshear_export_length, windshear_export, WINDSHEAR_REFUSED_LENGTH, 0);
    lists(run, 1, "refused 6 at 0\n");
}

int main() {
    const windshear_answer want[3] = {{0, 0, 0, 0, 0, 0}, {0, 0, 0, 0, 0, 2098349}, {0, 0, 0, 0, 0, 7143}};
    const int32_t along[3] = {0, 2000, 2000}, vertical[3] = {0, 0, -1000};
    windshear_sample samples[3];
    windshear_record records[3];
    windshear_state lent = windshear_fresh(), plain = lent;
    uint8_t file[start(3)], answers[3 * WINDSHEAR_ANSWER_SIZE] = {};
    check(windshear_write_header(1, 3, file, WINDSHEAR_HEADER_SIZE) == WINDSHEAR_ACCEPTED, "the header is written");
    for (int i = 0; i < 3; i++) {
        samples[i] = {along[i], vertical[i], 14000, 400, 5000, 20000, -700, 10000, 1, 0, static_cast<uint16_t>(i)};
        check(same(windshear_offer_lent(&lent, samples[i]), want[i]), "01's answer, lent");
        const windshear_offered offered = windshear_offer(plain, samples[i]);
        plain = offered.state;
        check(same(offered.answer, want[i]), "01's answer, plain");
        records[i] = {along[i] / 100.0f, vertical[i] / 100.0f, 140, 400, 5000, 20000, -700, 10000, 1, 0, 0};
        check(windshear_write_record(1, records[i], file + start(i), WINDSHEAR_RECORD_SIZE) == WINDSHEAR_ACCEPTED, "the record is written");
    }
    check(windshear_offer_lent(&lent, windshear_sample{}).refusal == WINDSHEAR_REFUSED_AIRSPEED, "a refused sample");
    windshear_state turned = lent;
    turned.core.place = 0;
    std::rotate_copy(lent.held, lent.held + lent.core.place, lent.held + 200, turned.held);
    check(lent.core.place == 197 && turned.held[0] == 7143 && turned.held[1] == WINDSHEAR_ENTRY_LIMIT && turned.held[2] == 0, "the entries, the newest first, the gust cut");
    windshear_sample next = samples[2];
    next.frame = 3;
    check(same(windshear_offer_lent(&turned, next), windshear_offer_lent(&lent, next)), "a turned ring answers alike");
    check(windshear_offer_lent(&turned, next).refusal == WINDSHEAR_REFUSED_FRAMES, "the same number again");
    for (const uint16_t place : {5, 200, 65535}) {
        windshear_state off = turned;
        off.core.place = place;
        check(windshear_offer_lent(&off, samples[2]).refusal == WINDSHEAR_REFUSED_STATE, "a place that is not the ring's");
    }
    for (int64_t windshear_sums::*sum : {&windshear_sums::s200, &windshear_sums::s180, &windshear_sums::s160, &windshear_sums::s140, &windshear_sums::s120, &windshear_sums::s100})
        for (const int off : {-1, 1}) {
            windshear_state forged = turned;
            forged.core.sums.*sum += off;
            check(windshear_offer_lent(&forged, samples[2]).refusal == WINDSHEAR_REFUSED_STATE, "a sum that is not its window's");
        }
    check(windshear_write_header(1, WINDSHEAR_MAX_RECORDS + 1, file, WINDSHEAR_HEADER_SIZE) == WINDSHEAR_REFUSED_COUNT, "a header of too many records");

    /* the written file, whole */
    windshear_file_test test = windshear_test_file(file, sizeof file);
    check(test.refusal == WINDSHEAR_ACCEPTED && test.place == 0 && test.count == 3 && test.version == 1, "the file's own test");
    windshear_outcome outcome = windshear_run(file, sizeof file, answers, sizeof answers);
    check(outcome.refusal == WINDSHEAR_ACCEPTED && outcome.place == 0, "the run is accepted");
    for (int i = 0; i < 3; i++) {
        const uint8_t *answer = answers + WINDSHEAR_ANSWER_SIZE * i;
        check(answer[0] == want[i].alert && answer[1] == want[i].voice && answer[8] == want[i].guidance, "01's ten bytes");
        const windshear_reading r = windshear_read_record(file, sizeof file, i);
        check(r.found == 1 && r.refusal == WINDSHEAR_ACCEPTED && r.exact == 1, "a record is found, and was exact");
        check(same_fields(r.record, records[i]) && same_fields(r.sample, samples[i]), "as it was written, with its sample");
    }
    const std::size_t beyond[2] = {3, SIZE_MAX};
    for (const std::size_t place : beyond)
        check(unread(windshear_read_record(file, sizeof file, place), WINDSHEAR_ACCEPTED), "a place beyond the count");

    /* its second record refused, and then the file by its length */
    file[start(1) + offsetof(windshear_record, mode)] = 2;
    outcome = windshear_run(file, sizeof file, answers, sizeof answers);
    check(outcome.refusal == WINDSHEAR_REFUSED_MODE && outcome.place == 1, "a bad record's number and place");
    test = windshear_test_file(file, sizeof file);
    check(test.refusal == WINDSHEAR_REFUSED_MODE && test.place == 1 && test.count == 0, "the same by the file's own test");
    check(unread(windshear_read_record(file, sizeof file, 1), WINDSHEAR_REFUSED_MODE), "a record that is refused");
    check(same_fields(windshear_read_record(file, sizeof file, 2).record, records[2]), "the next is read all the same");
    test = windshear_test_file(file, start(2));
    check(test.refusal == WINDSHEAR_REFUSED_LENGTH && test.place == 0 && test.count == 0, "a file that is refused");
    for (std::size_t place = 0; place < 4; place++)
        check(unread(windshear_read_record(file, start(2), place), WINDSHEAR_REFUSED_LENGTH), "and at every place");

    exposed(-2940, {0, WINDSHEAR_ALERT_RED, 1, 1, 5000, 21000});
    exposed(2940, {0, WINDSHEAR_ALERT_AMBER, 0, 0, 0, -21000});
    frames_dropped();
    lengths_of_zero();

    floats();
    exact_records();
    texts();

    std::printf("compared %d facts of the C++ interface\n", checks);
    return wrong != 0;
}
