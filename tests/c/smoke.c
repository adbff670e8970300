/* The library from C: its number, the thirteen proved lines, rests of whole bars, groups over bars,
 * characters beyond ASCII, refusals over poisoned buffers, little room, and cards written and read back. */
#include "pae.h"

#include <stdio.h>
#include <string.h>

enum { RECORDS = 16, POISON = 0x5a, CELL_WORDS = 6 };

static int32_t notes[RECORDS * PAE_NOTE_WORDS];
static int32_t bars[RECORDS * PAE_BAR_WORDS];
static int32_t figure[RECORDS * PAE_NOTE_WORDS];
static PaeDiagnostic cells[PAE_DIAGNOSTIC_CELLS + 1];
static PaeReading got;
static int32_t kept_notes[RECORDS * PAE_NOTE_WORDS];
static int32_t kept_bars[RECORDS * PAE_BAR_WORDS];
static uint8_t card[PAE_CARD_BYTES(RECORDS, RECORDS)];
static int failures;

#define CHECK(condition) check((condition), #condition, __LINE__)

static void check(int holds, const char *condition, int line) {
    if (!holds) {
        printf("smoke.c:%d: not %s\n", line, condition);
        failures++;
    }
}

static void poison(void) {
    memset(notes, POISON, sizeof notes);
    memset(bars, POISON, sizeof bars);
    memset(figure, POISON, sizeof figure);
    memset(cells, POISON, sizeof cells);
}

/* Reads into poisoned buffers of so many words each, and cells. */
static void read_lent(const char *text, size_t note_words, size_t bar_words, size_t figure_words,
                      size_t cell_count) {
    poison();
    got = pae_read((const uint8_t *)text, strlen(text), notes, note_words, bars, bar_words, figure,
                   figure_words, cells, cell_count);
}

static void read_line(const char *text) {
    read_lent(text, RECORDS * PAE_NOTE_WORDS, RECORDS * PAE_BAR_WORDS, RECORDS * PAE_NOTE_WORDS,
              PAE_DIAGNOSTIC_CELLS);
}

static int counts(uint32_t note_count, uint32_t bar_count, uint32_t diagnostic_count) {
    return got.number == PAE_ACCEPTED && got.place == 0 && got.notes == note_count &&
           got.bars == bar_count && got.diagnostics == diagnostic_count;
}

static int refused(uint32_t number, uint32_t place) {
    return got.number == number && got.place == place && got.notes == 0 && got.bars == 0 &&
           got.diagnostics == 0;
}

static int32_t word(int note, int index) {
    return notes[note * PAE_NOTE_WORDS + index];
}

static int32_t pitch(int note, int index) {
    return word(note, PAE_NOTE_PITCHES + index);
}

/* Whether the bytes from `first` to `last` are all `value`. */
static int bytes_are(const unsigned char *bytes, size_t first, size_t last, unsigned char value) {
    size_t i;
    for (i = first; i < last; i++)
        if (bytes[i] != value)
            return 0;
    return 1;
}

/* Whether the words from `first` to `last` have `value` in each byte. */
static int are(const void *from, size_t first, size_t last, unsigned char value) {
    return bytes_are(from, first * sizeof(int32_t), last * sizeof(int32_t), value);
}

/* Whether every lent cell is 0 behind the counted records, and no other cell was touched. */
static int rest_is_clear(size_t note_words, size_t bar_words, size_t figure_words,
                         size_t cell_count) {
    size_t all_cells = (PAE_DIAGNOSTIC_CELLS + 1) * CELL_WORDS;
    size_t lent_cells = cell_count * CELL_WORDS;
    return are(notes, got.notes * PAE_NOTE_WORDS, note_words, 0) &&
           are(notes, note_words, RECORDS * PAE_NOTE_WORDS, POISON) &&
           are(bars, got.bars * PAE_BAR_WORDS, bar_words, 0) &&
           are(bars, bar_words, RECORDS * PAE_BAR_WORDS, POISON) && are(figure, 0, figure_words, 0) &&
           are(figure, figure_words, RECORDS * PAE_NOTE_WORDS, POISON) &&
           are(cells, got.diagnostics * CELL_WORDS, lent_cells, 0) && are(cells, lent_cells, all_cells, POISON);
}

static int alterations(const int *expected, int count) {
    int i;
    for (i = 0; i < count; i++)
        if (pitch(i, PAE_PITCH_ALTER) != expected[i])
            return 0;
    return 1;
}

static void accidentals(void) {
    static const int held[] = {1, 0, 1, 0}, waiting[] = {1}, key[] = {1, 0, 0, 1};
    read_line("xC''C'C/C");
    CHECK(counts(4, 2, 0) && alterations(held, 4));
    CHECK(word(2, PAE_NOTE_BAR) == 1 && word(3, PAE_NOTE_BAR) == 2);
    read_line("x/C");
    CHECK(counts(1, 1, 0) && alterations(waiting, 1));
    read_line("$xF F nF F/F");
    CHECK(counts(4, 2, 0) && alterations(key, 4));
    CHECK(bars[PAE_BAR_KEY_SET] == 1 && bars[PAE_BAR_FIFTHS] == 1);
}

static void rhythm(void) {
    read_line("8.6 C D E");
    CHECK(counts(3, 1, 0));
    CHECK(word(0, PAE_NOTE_DURATION) == PAE_DURATION_EIGHTH && word(0, PAE_NOTE_DOTS) == 1);
    CHECK(word(1, PAE_NOTE_DURATION) == PAE_DURATION_16TH && word(1, PAE_NOTE_DOTS) == 0);
    CHECK(word(2, PAE_NOTE_DURATION) == PAE_DURATION_EIGHTH && word(2, PAE_NOTE_DOTS) == 1);
    read_line("86CqDE");
    CHECK(counts(3, 1, 0));
    CHECK(word(0, PAE_NOTE_KIND) == PAE_KIND_NOTE && word(0, PAE_NOTE_DURATION) == PAE_DURATION_EIGHTH);
    CHECK(word(1, PAE_NOTE_KIND) == PAE_KIND_GRACE && word(1, PAE_NOTE_DURATION) == PAE_DURATION_16TH);
    CHECK(word(2, PAE_NOTE_KIND) == PAE_KIND_NOTE && word(2, PAE_NOTE_DURATION) == PAE_DURATION_16TH);
}

static void chords_and_figures(void) {
    read_line("4C^E-^G");
    CHECK(counts(3, 1, 0));
    CHECK(word(0, PAE_NOTE_PITCH_COUNT) == 2 && word(1, PAE_NOTE_KIND) == PAE_KIND_REST);
    CHECK(pitch(0, PAE_PITCH_WORDS + PAE_PITCH_STEP) == 2 && pitch(2, PAE_PITCH_STEP) == 4);
    read_line("!CD!f");
    CHECK(counts(4, 1, 0));
    CHECK(word(0, PAE_NOTE_PLACE) == 2 && word(1, PAE_NOTE_PLACE) == 3);
    CHECK(word(2, PAE_NOTE_PLACE) == 5 && word(3, PAE_NOTE_PLACE) == 5);
    CHECK(pitch(2, PAE_PITCH_PLACE) == 2 && pitch(3, PAE_PITCH_PLACE) == 3);
}

static int only_diagnostic(int32_t number, int32_t place) {
    return cells[0].number == number && cells[0].place_kind == PAE_PLACE_DATA &&
           cells[0].place == place;
}

static void diagnosed(void) {
    read_line("C$xFF");
    CHECK(counts(1, 1, 1) && only_diagnostic(PAE_D_MID_MEASURE_CHANGE, 2));
    CHECK(cells[0].value_kind == PAE_VALUE_TEXT && cells[0].start == 2 && cells[0].end == 5);
    read_line("''''''C");
    CHECK(counts(1, 1, 0) && pitch(0, PAE_PITCH_OCTAVE) == 9);
    read_line("'''''''C");
    CHECK(counts(1, 1, 1) && only_diagnostic(PAE_D_UNSUPPORTED_OCTAVE, 1));
    read_line("(CDEFG;5)");
    CHECK(counts(5, 1, 0));
    CHECK(word(4, PAE_NOTE_TUPLET_ACTUAL) == 5 && word(4, PAE_NOTE_TUPLET_NORMAL) == 4);
    read_line("(CD;2)");
    CHECK(counts(2, 1, 1) && only_diagnostic(PAE_D_SMALL_TUPLET, 6));
    CHECK(cells[0].value_kind == PAE_VALUE_NUMBER && cells[0].start == 2);
}

static void refused_line(void) {
    size_t note_words = RECORDS * PAE_NOTE_WORDS, bar_words = RECORDS * PAE_BAR_WORDS;
    read_line("@c:C");
    CHECK(refused(PAE_REFUSED_NO_DATA, 0));
    CHECK(rest_is_clear(note_words, bar_words, note_words, PAE_DIAGNOSTIC_CELLS));
}

static int cell(int index, int32_t number, int32_t place, int32_t start, int32_t end) {
    return cells[index].number == number && cells[index].place == place &&
           cells[index].value_kind == PAE_VALUE_TEXT && cells[index].start == start &&
           cells[index].end == end;
}

static int whole_bar_rest(int note, int32_t place, int32_t bar) {
    return word(note, PAE_NOTE_PLACE) == place && word(note, PAE_NOTE_KIND) == PAE_KIND_WHOLE_BAR_REST &&
           are(notes, note * PAE_NOTE_WORDS + PAE_NOTE_DURATION, note * PAE_NOTE_WORDS + PAE_NOTE_BAR, 0) &&
           word(note, PAE_NOTE_BAR) == bar &&
           are(notes, note * PAE_NOTE_WORDS + PAE_NOTE_PITCHES, (note + 1) * PAE_NOTE_WORDS, 0);
}

static void whole_bars(void) {
    size_t note_words = RECORDS * PAE_NOTE_WORDS, bar_words = RECORDS * PAE_BAR_WORDS;
    int i;
    read_line("C=");
    CHECK(counts(2, 1, 0) && word(0, PAE_NOTE_KIND) == PAE_KIND_NOTE && whole_bar_rest(1, 2, 1));
    read_line("=12/C");
    CHECK(counts(13, 13, 0));
    for (i = 0; i < 12; i++)
        CHECK(whole_bar_rest(i, 1, i + 1) && bars[i * PAE_BAR_WORDS + PAE_BAR_NOTE_COUNT] == 1);
    CHECK(rest_is_clear(note_words, bar_words, note_words, PAE_DIAGNOSTIC_CELLS));
    read_line("xC=2C+=C");
    CHECK(counts(6, 2, 0) && pitch(3, PAE_PITCH_ALTER) == 0);
    CHECK(word(3, PAE_NOTE_TIES) == PAE_TIE_START && word(5, PAE_NOTE_TIES) == PAE_TIE_END);
    read_line("C=0");
    CHECK(counts(1, 1, 1) && cell(0, PAE_D_WHOLE_BAR_COUNT, 2, 2, 3));
    CHECK(cells[0].place_kind == PAE_PLACE_DATA);
    read_line("C=1001=1");
    CHECK(counts(2, 1, 1) && cell(0, PAE_D_WHOLE_BAR_COUNT, 2, 2, 6) && whole_bar_rest(1, 7, 1));
    read_lent("/=3", PAE_NOTE_WORDS, 0, 0, PAE_DIAGNOSTIC_CELLS);
    CHECK(refused(PAE_REFUSED_BAR_RECORDS, 2) && rest_is_clear(PAE_NOTE_WORDS, 0, 0, PAE_DIAGNOSTIC_CELLS));
    read_lent("/=3", PAE_NOTE_WORDS, PAE_BAR_WORDS, 0, PAE_DIAGNOSTIC_CELLS);
    CHECK(refused(PAE_REFUSED_NOTE_RECORDS, 2));
    CHECK(rest_is_clear(PAE_NOTE_WORDS, PAE_BAR_WORDS, 0, PAE_DIAGNOSTIC_CELLS));
}

/* Groups, beams and figures that are closed in a later bar, and a barline in an empty one. */
static void over_bars(void) {
    read_line("C(D/EFG)");
    CHECK(counts(5, 2, 1) && only_diagnostic(PAE_D_GROUP_OVER_BARLINE, 8));
    CHECK(cells[0].value_kind == PAE_VALUE_GROUP && word(4, PAE_NOTE_TUPLET_ACTUAL) == 0);
    read_line("{C/DE}");
    CHECK(counts(3, 2, 0) && word(1, PAE_NOTE_BEAM) == PAE_BEAM_NONE);
    read_line("!C!!D/E!f");
    CHECK(counts(4, 2, 1) && only_diagnostic(PAE_D_FIGURE_OVER_BARLINE, 8));
    CHECK(word(3, PAE_NOTE_PLACE) == 9 && pitch(3, PAE_PITCH_PLACE) == 2);
    read_line("(/CDE)");
    CHECK(counts(3, 1, 0) && word(2, PAE_NOTE_TUPLET_ACTUAL) == 3);
}

/* The offset of the character at a data place, as pae.h has it. */
static size_t offset_of(const char *data, int32_t place) {
    size_t at = 0;
    while (at < strlen(data) && ((data[at] & 0xC0) == 0x80 || --place > 0))
        at++;
    return at;
}

static void characters(void) {
    static const char mixed[] = "\xc3\xa9" "C\xc2\xa0" "D\xe6\xbc\xa2\xf0\x9d\x84\x9e" "E";
    read_line("\xc3\xa9" "C");
    CHECK(counts(1, 1, 1) && cell(0, PAE_D_UNSUPPORTED_TOKEN, 1, 0, 2));
    CHECK(word(0, PAE_NOTE_PLACE) == 2 && pitch(0, PAE_PITCH_PLACE) == 2);
    read_line("\xc2\xa0" "C");
    CHECK(counts(1, 1, 0) && word(0, PAE_NOTE_PLACE) == 2);
    read_line("%\xc3\xa9+\xc3\xbc" "C");
    CHECK(counts(1, 1, 2) && word(0, PAE_NOTE_PLACE) == 5);
    CHECK(cell(0, PAE_D_MENSURAL_CLEF, 1, 1, 6) && cell(1, PAE_D_UNSUPPORTED_CLEF, 1, 1, 6));
    read_line("@t\xc3\xaftle:x\n@data:C");
    CHECK(counts(1, 1, 1) && cell(0, PAE_D_UNSUPPORTED_LINE, 1, 0, 9));
    read_line(mixed);
    CHECK(counts(3, 1, 3) && cell(2, PAE_D_UNSUPPORTED_TOKEN, 6, 9, 13));
    CHECK(mixed[offset_of(mixed, word(0, PAE_NOTE_PLACE))] == 'C');
    CHECK(mixed[offset_of(mixed, word(1, PAE_NOTE_PLACE))] == 'D');
    CHECK(mixed[offset_of(mixed, word(2, PAE_NOTE_PLACE))] == 'E');
    CHECK(offset_of(mixed, 6) == 9 && offset_of(mixed, 8) == strlen(mixed));
    read_lent("\xc3\xa9" "C", PAE_NOTE_WORDS, 0, 0, PAE_DIAGNOSTIC_CELLS);
    CHECK(refused(PAE_REFUSED_BAR_RECORDS, 3));
    CHECK(rest_is_clear(PAE_NOTE_WORDS, 0, 0, PAE_DIAGNOSTIC_CELLS));
    read_line("\xe3\x80\x80\xc2\x85");
    CHECK(refused(PAE_REFUSED_BLANK, 0));
}

/* A byte that only continues, a character cut off at the end and inside, an overlong form, a
 * surrogate, a value above U+10FFFF. */
static void malformed(void) {
    static const char *const texts[] = {"!C!)/D\xa9", "!C!)/D\xc3", "!C!)\xe6\xbc/D",
                                        "!C!)/D\xc0\xaf", "!C!)/D\xed\xa0\x80",
                                        "!C!)/D\xf4\x90\x80\x80"};
    size_t note_words = RECORDS * PAE_NOTE_WORDS, bar_words = RECORDS * PAE_BAR_WORDS, i;
    for (i = 0; i < sizeof texts / sizeof *texts; i++) {
        read_line(texts[i]);
        CHECK(refused(PAE_REFUSED_MALFORMED_UTF8, 0));
        CHECK(rest_is_clear(note_words, bar_words, note_words, PAE_DIAGNOSTIC_CELLS));
    }
    read_lent("\xff", 0, 0, 0, PAE_DIAGNOSTIC_CELLS - 1);
    CHECK(refused(PAE_REFUSED_DIAGNOSTIC_CELLS, 0));
}

static void nothing_lent(void) {
    read_lent("C", 0, 0, 0, 0);
    CHECK(refused(PAE_REFUSED_DIAGNOSTIC_CELLS, 0) && rest_is_clear(0, 0, 0, 0));
    read_lent("", 0, 0, 0, PAE_DIAGNOSTIC_CELLS);
    CHECK(refused(PAE_REFUSED_BLANK, 0) && rest_is_clear(0, 0, 0, PAE_DIAGNOSTIC_CELLS));
    read_lent("C", 0, 0, 0, PAE_DIAGNOSTIC_CELLS);
    CHECK(refused(PAE_REFUSED_NOTE_RECORDS, 1) && rest_is_clear(0, 0, 0, PAE_DIAGNOSTIC_CELLS));
}

static void parts_of_records_lent(void) {
    size_t note_words = 2 * PAE_NOTE_WORDS - 1;
    read_lent("C)", note_words, PAE_BAR_WORDS + 1, 0, PAE_DIAGNOSTIC_CELLS + 1);
    CHECK(counts(1, 1, 1) && only_diagnostic(PAE_D_UNMATCHED_PAREN, 2));
    CHECK(rest_is_clear(note_words, PAE_BAR_WORDS + 1, 0, PAE_DIAGNOSTIC_CELLS + 1));
    read_lent("CD", note_words, PAE_BAR_WORDS, 0, PAE_DIAGNOSTIC_CELLS);
    CHECK(refused(PAE_REFUSED_NOTE_RECORDS, 2));
    CHECK(rest_is_clear(note_words, PAE_BAR_WORDS, 0, PAE_DIAGNOSTIC_CELLS));
    read_lent("C ", note_words, PAE_BAR_WORDS - 1, 0, PAE_DIAGNOSTIC_CELLS);
    CHECK(refused(PAE_REFUSED_BAR_RECORDS, 3));
    CHECK(rest_is_clear(note_words, PAE_BAR_WORDS - 1, 0, PAE_DIAGNOSTIC_CELLS));
    read_lent("!C!", note_words, PAE_BAR_WORDS, PAE_NOTE_WORDS - 1, PAE_DIAGNOSTIC_CELLS);
    CHECK(refused(PAE_REFUSED_FIGURE_RECORDS, 3));
    CHECK(rest_is_clear(note_words, PAE_BAR_WORDS, PAE_NOTE_WORDS - 1, PAE_DIAGNOSTIC_CELLS));
}

/* The line of docs/CARD.md and its card. */
static const char example_text[] = "%F-4$bB@3/4 ,2.B+/4B-";
static const uint8_t example[] = {
    1, 2, 0, 0, 0,                                     /* two bars */
    7, 1, 0, 0, 0, 3, 6, 3, 4, 0,                      /* bass, one flat, 3/4; one note */
    0x22, 16, 0, 3 * 4 + 1, 1, 1, 16, 0, 6 + 7 * 3, 1, /* B flat 3, half with a dot, tie start */
    0, 2, 0, 0, 0,                                     /* nothing set; two notes */
    0x22, 20, 0, 4 * 4, 2, 1, 20, 0, 6 + 7 * 3, 1,     /* B flat 3, quarter, tie end */
    1, 21, 0, 4 * 4, 1};                               /* rest, quarter */
enum { CARD_NOTES = 3, CARD_BARS = 2 };

/* Keeps the line's records. */
static void keep(void) {
    read_line(example_text);
    CHECK(counts(CARD_NOTES, CARD_BARS, 0));
    memcpy(kept_notes, notes, sizeof notes);
    memcpy(kept_bars, bars, sizeof bars);
}

/* Writes the kept records' first words into so many poisoned bytes; whether that gives this number and
 * length, every lent byte behind is 0 and no other is touched. */
static int writes(size_t note_words, size_t bar_words, size_t card_bytes, uint32_t number,
                  uint32_t length) {
    PaeCardWritten written;
    memset(card, POISON, sizeof card);
    written = pae_write_card(kept_notes, note_words, kept_bars, bar_words, card, card_bytes);
    return written.number == number && written.length == length &&
           bytes_are(card, length, card_bytes, 0) &&
           bytes_are(card, card_bytes, sizeof card, POISON);
}

/* Whether the records with this word instead are no card's. */
static int no_records(int32_t *word_of_a_record, int32_t value) {
    int32_t kept = *word_of_a_record;
    int holds;
    *word_of_a_record = value;
    holds = writes(CARD_NOTES * PAE_NOTE_WORDS, CARD_BARS * PAE_BAR_WORDS, sizeof card,
                   PAE_REFUSED_NOT_A_CARD, 0);
    *word_of_a_record = kept;
    return holds;
}

static void cards_written(void) {
    size_t note_words = CARD_NOTES * PAE_NOTE_WORDS, bar_words = CARD_BARS * PAE_BAR_WORDS;
    keep();
    CHECK(writes(note_words, bar_words, sizeof card, PAE_ACCEPTED, sizeof example));
    CHECK(memcmp(card, example, sizeof example) == 0);
    CHECK(writes(note_words, bar_words, sizeof example, PAE_ACCEPTED, sizeof example));
    CHECK(writes(note_words, bar_words, sizeof example - 1, PAE_REFUSED_CARD_ROOM, 0));
    CHECK(writes(note_words, bar_words, 0, PAE_REFUSED_CARD_ROOM, 0));
    CHECK(writes(0, 0, sizeof card, PAE_REFUSED_NOT_A_CARD, 0));
    CHECK(writes(note_words - 1, bar_words, sizeof card, PAE_REFUSED_NOT_A_CARD, 0));
    CHECK(writes(note_words, bar_words + 1, 0, PAE_REFUSED_NOT_A_CARD, 0));
    CHECK(writes(note_words + PAE_NOTE_WORDS, bar_words, sizeof card, PAE_REFUSED_NOT_A_CARD, 0));
    CHECK(writes(note_words, PAE_BAR_WORDS, sizeof card, PAE_REFUSED_NOT_A_CARD, 0));
}

static void records_of_no_card(void) {
    keep();
    CHECK(no_records(&kept_notes[PAE_NOTE_PLACE], 0));
    CHECK(no_records(&kept_notes[PAE_NOTE_PLACE], 65536));
    CHECK(no_records(&kept_notes[PAE_NOTE_KIND], PAE_KIND_REST));
    CHECK(no_records(&kept_notes[PAE_NOTE_DURATION], -1));
    CHECK(no_records(&kept_notes[PAE_NOTE_DOTS], 4));
    CHECK(no_records(&kept_notes[PAE_NOTE_TUPLET_NORMAL], 2));
    CHECK(no_records(&kept_notes[PAE_NOTE_MARKS], 1));
    CHECK(no_records(&kept_notes[PAE_NOTE_PITCH_COUNT], 0));
    CHECK(no_records(&kept_notes[PAE_NOTE_BAR], 2));
    CHECK(no_records(&kept_notes[PAE_NOTE_WORDS - 1], 1));
    CHECK(no_records(&kept_bars[PAE_BAR_FIRST_NOTE], 1));
    CHECK(no_records(&kept_bars[PAE_BAR_NOTE_COUNT], 2));
    CHECK(no_records(&kept_bars[PAE_BAR_KEY_SET], 0));
    CHECK(no_records(&kept_bars[PAE_BAR_DENOMINATOR], 3));
    CHECK(no_records(&kept_bars[PAE_BAR_WORDS + PAE_BAR_SYMBOL], PAE_SYMBOL_CUT));
}

/* Reads the card's first bytes into so many poisoned words; whether that gives this number and counts,
 * every lent word behind them is 0 and no other is touched. */
static int reads(size_t card_bytes, size_t note_words, size_t bar_words, uint32_t number,
                 uint32_t note_count, uint32_t bar_count) {
    PaeCardRead back;
    poison();
    back = pae_read_card(card, card_bytes, notes, note_words, bars, bar_words);
    return back.number == number && back.notes == note_count && back.bars == bar_count &&
           are(notes, note_count * PAE_NOTE_WORDS, note_words, 0) &&
           are(notes, note_words, RECORDS * PAE_NOTE_WORDS, POISON) &&
           are(bars, bar_count * PAE_BAR_WORDS, bar_words, 0) &&
           are(bars, bar_words, RECORDS * PAE_BAR_WORDS, POISON);
}

static int reads_to_nothing(size_t card_bytes) {
    return reads(card_bytes, RECORDS * PAE_NOTE_WORDS, RECORDS * PAE_BAR_WORDS,
                 PAE_REFUSED_NOT_A_CARD, 0, 0);
}

static void put_card(void) {
    memset(card, 0, sizeof card);
    memcpy(card, example, sizeof example);
}

static void cards_read(void) {
    size_t note_words = CARD_NOTES * PAE_NOTE_WORDS, bar_words = CARD_BARS * PAE_BAR_WORDS;
    keep();
    put_card();
    CHECK(reads(sizeof example, RECORDS * PAE_NOTE_WORDS, RECORDS * PAE_BAR_WORDS, PAE_ACCEPTED,
                CARD_NOTES, CARD_BARS));
    CHECK(memcmp(notes, kept_notes, sizeof notes) == 0 && memcmp(bars, kept_bars, sizeof bars) == 0);
    CHECK(reads(sizeof example, note_words, bar_words, PAE_ACCEPTED, CARD_NOTES, CARD_BARS));
    CHECK(reads(sizeof example, note_words + 1, bar_words + 1, PAE_ACCEPTED, CARD_NOTES, CARD_BARS));
    CHECK(reads(sizeof example, note_words - 1, bar_words, PAE_REFUSED_CARD_ROOM, 0, 0));
    CHECK(reads(sizeof example, note_words, bar_words - 1, PAE_REFUSED_CARD_ROOM, 0, 0));
    CHECK(reads(sizeof example, 0, 0, PAE_REFUSED_CARD_ROOM, 0, 0));
    CHECK(reads(sizeof example - 1, 0, 0, PAE_REFUSED_NOT_A_CARD, 0, 0));
}

/* Whether the card with this byte instead is none. */
static int no_card(size_t at, uint8_t value) {
    put_card();
    card[at] = value;
    return reads_to_nothing(sizeof example);
}

static void bytes_of_no_card(void) {
    size_t length;
    put_card();
    for (length = 0; length < sizeof example; length++)
        CHECK(reads_to_nothing(length));
    CHECK(reads_to_nothing(sizeof example + 1));
    CHECK(no_card(0, 2));                          /* another first byte */
    CHECK(no_card(1, 1) && no_card(1, 3));         /* a bar fewer, a bar more */
    CHECK(no_card(4, 2));                          /* the bar count's high byte */
    CHECK(no_card(5, 0x27));                       /* an unused bit */
    CHECK(no_card(6, 0) && no_card(6, 2));         /* no note, a note more */
    CHECK(no_card(10, 0) && no_card(10, 9));       /* a bit over 0, clef 9 */
    CHECK(no_card(11, 15) && no_card(13, 3));      /* eight sharps, no power of two */
    CHECK(no_card(16, 0) && no_card(18, 40));      /* place 0, duration 10 */
    CHECK(no_card(19, 0) && no_card(19, 4));       /* a bit over 0, ties 4 */
    CHECK(no_card(20, 0) && no_card(20, 9));       /* a bit over 0, nine pitches */
    CHECK(no_card(23, 70) && no_card(24, 5));      /* octave 10, alteration 3 */
    CHECK(no_card(40, 0) && no_card(40, 0x21));    /* a rest's bits: no pitch at all, a pitch */
    CHECK(no_card(44, 0) && no_card(44, 5));       /* a bit over 0, kind 5 */
}

int main(void) {
    CHECK(pae_version() == 4);
    accidentals();
    rhythm();
    chords_and_figures();
    diagnosed();
    refused_line();
    whole_bars();
    over_bars();
    characters();
    malformed();
    nothing_lent();
    parts_of_records_lent();
    cards_written();
    records_of_no_card();
    cards_read();
    bytes_of_no_card();
    puts(failures == 0 ? "smoke: all hold" : "smoke: failed");
    return failures == 0 ? 0 : 1;
}
