/* What programs write with pae.h, compiled as C and as C++: its words in constants and indexes, added to each
 * other, its macros, its numbers compared and chosen between. */
#include "pae.h"

enum { NOTES = 200, BARS = 50, LAST_ALTER = PAE_NOTE_WORDS - PAE_PITCH_WORDS + PAE_PITCH_ALTER };

static int32_t notes[NOTES * PAE_NOTE_WORDS], bars[BARS * PAE_BAR_WORDS], figure[NOTES * PAE_NOTE_WORDS];
static PaeDiagnostic diagnostics[PAE_DIAGNOSTIC_CELLS];
static uint8_t card[PAE_CARD_BYTES(NOTES, BARS)];

int32_t last_alteration(void);
int32_t alteration(size_t note, size_t pitch);
int32_t sum_of_alterations(const int32_t *note);
int32_t notes_of(uint32_t bar);
int is_marked(const int32_t *note);
int is_tied_on(const int32_t *note);
uint32_t stored(const uint8_t *text, size_t text_len);
uint32_t number_of_room(int enough);
const char *told(uint32_t number);

int32_t last_alteration(void) {
    return notes[LAST_ALTER];
}

int32_t alteration(size_t note, size_t pitch) {
    return notes[note * PAE_NOTE_WORDS + PAE_NOTE_PITCHES + pitch * PAE_PITCH_WORDS + PAE_PITCH_ALTER];
}

int32_t sum_of_alterations(const int32_t *note) {
    int32_t i, sum = 0;
    for (i = 0; i < note[PAE_NOTE_PITCH_COUNT]; i++) {
        const int32_t *pitch = note + PAE_NOTE_PITCHES + i * PAE_PITCH_WORDS;
        sum += pitch[PAE_PITCH_ALTER];
    }
    return sum;
}

int32_t notes_of(uint32_t bar) {
    return bars[bar * PAE_BAR_WORDS + PAE_BAR_FIRST_NOTE] + bars[bar * PAE_BAR_WORDS + PAE_BAR_NOTE_COUNT];
}

int is_marked(const int32_t *note) {
    return note[PAE_NOTE_MARK_COUNT] > 0 && note[PAE_NOTE_KIND] != PAE_KIND_WHOLE_BAR_REST &&
           note[PAE_NOTE_DURATION] <= PAE_DURATION_128TH && note[PAE_NOTE_BEAM] == PAE_BEAM_NONE;
}

int is_tied_on(const int32_t *note) {
    return note[PAE_NOTE_TIES] == PAE_TIE_START + PAE_TIE_END;
}

/* The length of the card, 0 where the text is refused. */
uint32_t stored(const uint8_t *text, size_t text_len) {
    PaeReading reading = pae_read(text, text_len, notes, NOTES * PAE_NOTE_WORDS, bars, BARS * PAE_BAR_WORDS,
                                  figure, NOTES * PAE_NOTE_WORDS, diagnostics, PAE_DIAGNOSTIC_CELLS);
    PaeCardWritten written;
    if (reading.number != PAE_ACCEPTED || pae_version() == 0)
        return 0;
    written = pae_write_card(notes, reading.notes * PAE_NOTE_WORDS, bars, reading.bars * PAE_BAR_WORDS, card,
                             PAE_CARD_BYTES(reading.notes, reading.bars));
    return written.number == PAE_ACCEPTED ? written.length : 0;
}

uint32_t number_of_room(int enough) {
    return enough ? PAE_ACCEPTED : PAE_REFUSED_CARD_ROOM;
}

const char *told(uint32_t number) {
    switch (number) {
    case PAE_ACCEPTED: return "accepted";
    case PAE_REFUSED_BLANK: return "blank";
    case PAE_REFUSED_NOT_A_CARD: return "no card";
    default: return number <= PAE_REFUSED_CARD_ROOM ? "refused" : "of another version";
    }
}
