/* A proved reader of Plaine & Easie Code (PAE) incipits. pae_read reads a text into records,
 * pae_write_card makes a card of the records, the bytes to be stored, and pae_read_card reads the card
 * back. pae_version says which reader this is.
 *
 * The functions work on your buffers: they allocate nothing, keep nothing between calls, so that any
 * number of threads may call at once, and write to no memory but your buffers and the stack, of which
 * a call takes less than PAE_STACK_BYTES (32 KB). Link libpae.a, which `tools/library` writes to
 * target/staticlib. C99 and C++11 or later.
 *
 * Texts are in UTF-8. Data places count the characters (Unicode scalar values) of the data from 1;
 * in field form the data are the trimmed value of the last @data: field, else they are the whole
 * text. Lines count from 1. Text offsets count bytes from 0.
 *
 * The character at a data place: count the bytes that begin one, all but those of the form 10xxxxxx.
 *
 *     size_t at = 0;
 *     while (at < data_len && ((data[at] & 0xC0) == 0x80 || --place > 0))
 *         at++;
 */
#ifndef PAE_H
#define PAE_H

#include <stddef.h>
#include <stdint.h>

#ifdef __cplusplus
extern "C" {
#endif

/* The limits of a reading. */
#define PAE_MAX_TEXT 65535        /* bytes of the text */
#define PAE_MAX_NOTES 100000      /* notes, rests and copies included */
#define PAE_MAX_WHOLE_BARS 1000   /* bars of one rest of whole bars */
#define PAE_MAX_PITCHES 8         /* pitches of a note */
#define PAE_MAX_MARKS 8           /* marks of a note */
#define PAE_DIAGNOSTIC_CELLS 1024 /* diagnostics stored, and the fewest cells of your buffer */

/* More than the stack that a call takes, in bytes. As tests/c/stack.c measures it, pae_read takes less
 * than 28 KB and another function less than 1 KB; the first call takes up to 4 KB more where the dynamic
 * linker binds memset and memcpy only then. */
#define PAE_STACK_BYTES 32768

/* The sizes of the records, in words of 32 bits. */
#define PAE_PITCH_WORDS 4
#define PAE_NOTE_WORDS (PAE_NOTE_PITCHES + PAE_MAX_PITCHES * PAE_PITCH_WORDS)
#define PAE_BAR_WORDS 10

/* The sizes of a card, in bytes. */
#define PAE_CARD_FRONT_BYTES 5 /* before the first bar */
#define PAE_CARD_BAR_BYTES 12  /* the most of a bar, without its notes */
#define PAE_CARD_NOTE_BYTES 43 /* the most of a note */
/* The most bytes of a card with so many notes and bars. */
#define PAE_CARD_BYTES(notes, bars) \
    (PAE_CARD_FRONT_BYTES + (size_t)(bars) * PAE_CARD_BAR_BYTES + (size_t)(notes) * PAE_CARD_NOTE_BYTES)

/* The positions of the words in the records, in one enum so that C++ adds them without a warning. */
enum {
    /* A note record, and a figure record. */
    PAE_NOTE_PLACE = 0,         /* data place of the token that stored it: a letter, - = f or i */
    PAE_NOTE_KIND = 1,          /* PAE_KIND_... */
    PAE_NOTE_DURATION = 2,      /* PAE_DURATION_...; 0 for a whole-bar rest, which has none */
    PAE_NOTE_DOTS = 3,          /* 0 to 3 */
    PAE_NOTE_TIES = 4,          /* PAE_TIE_START, PAE_TIE_END, both added up, or 0 */
    PAE_NOTE_BEAM = 5,          /* PAE_BEAM_... */
    PAE_NOTE_TUPLET_ACTUAL = 6, /* notes of the tuplet; 0: none */
    PAE_NOTE_TUPLET_NORMAL = 7, /* notes in whose time they are played; 0: no tuplet */
    PAE_NOTE_MARK_COUNT = 8,    /* 0 to PAE_MAX_MARKS */
    PAE_NOTE_MARKS = 9,         /* bit i is mark i in order of arrival: 1 trill, 0 fermata */
    PAE_NOTE_PITCH_COUNT = 10,  /* 0 for a rest of either kind, else 1 to PAE_MAX_PITCHES */
    PAE_NOTE_BAR = 11,          /* number of its bar, from 1 */
    PAE_NOTE_PITCHES = 12,      /* the first pitch; unused pitches are 0 */

    /* A pitch. Pitch i of a note starts at PAE_NOTE_PITCHES + i * PAE_PITCH_WORDS. */
    PAE_PITCH_PLACE = 0,  /* data place of its letter */
    PAE_PITCH_STEP = 1,   /* 0 to 6: C D E F G A B */
    PAE_PITCH_OCTAVE = 2, /* 0 to 9; 4 begins at middle C */
    PAE_PITCH_ALTER = 3,  /* semitones, -2 to 2; key and bar are accounted for */

    /* A bar record. */
    PAE_BAR_FIRST_NOTE = 0,  /* index of its first note, from 0 */
    PAE_BAR_NOTE_COUNT = 1,  /* number of its notes, at least 1 */
    PAE_BAR_CLEF = 2,        /* PAE_CLEF_... set at its start; 0: none. The first bar has one */
    PAE_BAR_KEY_SET = 3,     /* 1: a key is set at its start. The first bar has one */
    PAE_BAR_FIFTHS = 4,      /* -7 (seven flats) to 7 (seven sharps) */
    PAE_BAR_NUMERATOR = 5,   /* of the meter set at its start, 1 to 255; 0: none */
    PAE_BAR_DENOMINATOR = 6, /* a power of two, 1 to 128; 0: no meter */
    PAE_BAR_SYMBOL = 7,      /* PAE_SYMBOL_... of that meter; 0: its numbers */
    PAE_BAR_LEFT = 8,        /* PAE_BARLINE_... before it */
    PAE_BAR_RIGHT = 9        /* PAE_BARLINE_... after it */
};

enum {
    PAE_KIND_NOTE = 0,
    PAE_KIND_REST = 1,
    PAE_KIND_GRACE = 2,
    PAE_KIND_SLASHED_GRACE = 3,
    PAE_KIND_WHOLE_BAR_REST = 4 /* lasts as long as its bar; =12 stores one in each of twelve bars */
};

enum {
    PAE_DURATION_LONGA = 0, /* four whole notes */
    PAE_DURATION_BREVE = 1, /* two whole notes */
    PAE_DURATION_WHOLE = 2,
    PAE_DURATION_HALF = 3,
    PAE_DURATION_QUARTER = 4,
    PAE_DURATION_EIGHTH = 5,
    PAE_DURATION_16TH = 6,
    PAE_DURATION_32ND = 7,
    PAE_DURATION_64TH = 8,
    PAE_DURATION_128TH = 9
};

enum {
    PAE_TIE_START = 1,
    PAE_TIE_END = 2
};

/* A beam closed in a later bar than it was opened in is none; no diagnostic says so. */
enum {
    PAE_BEAM_NONE = 0,
    PAE_BEAM_BEGIN = 1,
    PAE_BEAM_CONTINUE = 2,
    PAE_BEAM_END = 3
};

enum {
    PAE_CLEF_NONE = 0,
    PAE_CLEF_TREBLE = 1,        /* G-2 */
    PAE_CLEF_TREBLE_8VB = 2,    /* g-2 */
    PAE_CLEF_BASS = 3,          /* F-4 */
    PAE_CLEF_SOPRANO = 4,       /* C-1 */
    PAE_CLEF_MEZZO_SOPRANO = 5, /* C-2 */
    PAE_CLEF_ALTO = 6,          /* C-3 */
    PAE_CLEF_TENOR = 7,         /* C-4 */
    PAE_CLEF_BARITONE = 8       /* C-5 */
};

enum {
    PAE_SYMBOL_NONE = 0,
    PAE_SYMBOL_COMMON = 1, /* c, 4/4 */
    PAE_SYMBOL_CUT = 2     /* c/, 2/2 */
};

enum {
    PAE_BARLINE_NORMAL = 0,
    PAE_BARLINE_DOUBLE = 1,
    PAE_BARLINE_REPEAT_START = 2, /* left only */
    PAE_BARLINE_REPEAT_END = 3    /* right only */
};

/* Why a text or a card is refused. */
enum {
    PAE_ACCEPTED = 0,

    /* A text: the number of a PaeReading, and what its place is. Checked in this order, 7 to 12 at
     * each token from the left; the records and barlines of a rest of whole bars in turn, all at the
     * place of its =. 6 is not given. */
    PAE_REFUSED_TOO_LARGE = 1,         /* the text is over PAE_MAX_TEXT; place 0 */
    PAE_REFUSED_DIAGNOSTIC_CELLS = 2,  /* fewer than PAE_DIAGNOSTIC_CELLS; place 0 */
    PAE_REFUSED_MALFORMED_UTF8 = 3,    /* the text is no well-formed UTF-8; place 0 */
    PAE_REFUSED_BLANK = 4,             /* the text is blank; place 0 */
    PAE_REFUSED_NO_DATA = 5,           /* field form without a data field; place 0 */
    PAE_REFUSED_TOO_MANY_NOTES = 7,    /* over PAE_MAX_NOTES; data place of the token */
    PAE_REFUSED_NOTE_RECORDS = 8,      /* over your note records; data place of the token */
    PAE_REFUSED_TOO_MANY_PITCHES = 9,  /* over PAE_MAX_PITCHES; data place of the letter */
    PAE_REFUSED_TOO_MANY_MARKS = 10,   /* over PAE_MAX_MARKS; data place of the t or ) */
    PAE_REFUSED_FIGURE_RECORDS = 11,   /* over your figure records; data place of the ! */
    PAE_REFUSED_BAR_RECORDS = 12,      /* over your bar records; data place of the barline or
                                          the =, at the end the data's length in characters plus 1 */
    PAE_REFUSED_NO_NOTES = 13,         /* the data hold no note and no rest; place 0 */

    /* A card: the number of a PaeCardWritten or PaeCardRead. */
    PAE_REFUSED_NOT_A_CARD = 14, /* not the bytes of a card; of the writer, not records of a card */
    PAE_REFUSED_CARD_ROOM = 15   /* card or records don't fit your buffers; checked after 14 */
};

/* What a diagnostic is about. acorde's code is pae.unsupported- and the word in brackets. */
enum {
    PAE_D_UNSUPPORTED_LINE = 1,      /* [line] in field form, a line that is no field */
    PAE_D_UNSUPPORTED_FIELD = 2,     /* [field] none of clef, keysig, timesig and data */
    PAE_D_MID_MEASURE_CHANGE = 3,    /* [mid-measure-change] clef, key or meter after a note */
    PAE_D_MENSURAL_CLEF = 4,         /* [clef] a + clef, read as a modern one */
    PAE_D_UNSUPPORTED_CLEF = 5,      /* [clef] another clef; it isn't taken */
    PAE_D_UNSUPPORTED_KEY = 6,       /* [key] out of the usual order; the alterations hold */
    PAE_D_UNSUPPORTED_TIME = 7,      /* [time] no meter; the old one is kept */
    PAE_D_UNSUPPORTED_OCTAVE = 8,    /* [octave] outside 0 to 9; the old one is kept */
    PAE_D_UNSUPPORTED_BARLINE = 9,   /* [barline] a lone : */
    PAE_D_GROUP_OVER_BARLINE = 10,   /* [tuplet] a ) of a group opened in an earlier bar */
    PAE_D_SMALL_TUPLET = 11,         /* [tuplet] a count below 3 */
    PAE_D_TUPLET_COUNT = 12,         /* [tuplet] a ; without a group or a count of 0 to 255 */
    PAE_D_UNMATCHED_PAREN = 13,      /* [token] a ) without ( */
    PAE_D_TRILL_WITHOUT_NOTE = 14,   /* [token] a t before the bar's first note */
    PAE_D_UNSUPPORTED_TOKEN = 15,    /* [token] a character without a meaning here */
    PAE_D_TIE_WITHOUT_NOTE = 16,     /* [tie] a + that follows no note of its bar */
    PAE_D_FIGURE_OVER_BARLINE = 17,  /* [repeat] a ! of a figure opened in an earlier bar */
    PAE_D_REPEAT_WITHOUT_FIGURE = 18, /* [repeat] an f without a figure */
    PAE_D_REPEAT_INSIDE_BAR = 19,    /* [repeat] an i that doesn't start a bar, or has none before */
    PAE_D_WHOLE_BAR_COUNT = 20       /* [measure-rest] an = with a count outside 1 to
                                        PAE_MAX_WHOLE_BARS; it stores nothing */
};

/* What the place of a diagnostic counts. */
enum {
    PAE_PLACE_LINE = 1,  /* a line of the text */
    PAE_PLACE_FIELD = 2, /* a line of the text, with a field that isn't read */
    PAE_PLACE_DATA = 3   /* a data place */
};

/* What the value of a diagnostic is. */
enum {
    PAE_VALUE_TEXT = 1,  /* the part of the text from start to end, whole characters */
    PAE_VALUE_GROUP = 2, /* the value (), which stands nowhere; start and end are 0 */
    PAE_VALUE_NUMBER = 3 /* the number in start; end is 0 */
};

typedef struct PaeDiagnostic {
    int32_t number;     /* PAE_D_... */
    int32_t place_kind; /* PAE_PLACE_... */
    int32_t place;      /* from 1 */
    int32_t value_kind; /* PAE_VALUE_... */
    int32_t start;      /* offset in bytes of the value in the text, or the number */
    int32_t end;        /* offset in bytes where the value ends */
} PaeDiagnostic;

typedef struct PaeReading {
    uint32_t number;      /* PAE_ACCEPTED or PAE_REFUSED_... */
    uint32_t place;       /* of the refusal, as said there; 0 where accepted */
    uint32_t notes;       /* stored note records; 0 after a refusal, as the next two */
    uint32_t bars;        /* stored bar records */
    uint32_t diagnostics; /* stored diagnostics; from the 1,025th on they are dropped */
} PaeReading;

/* The number of this reader. A landing after which some text, records or card may be answered otherwise
 * than before raises it: 1 the base, 2 texts in UTF-8, 3 rests of whole bars, 4 groups, beams and figures
 * closed in a later bar are dropped. Store it beside a reading or a card, to know later what read it. */
uint32_t pae_version(void);

/* Reads text_len bytes of text into your buffers.
 *
 * notes, bars and figure count in words: whole records are used, words beyond them aren't. The figure
 * is scratch: a record for each note of the longest figure (!...!). diagnostics counts in cells.
 * Any bytes and any lengths may be given. No pointer may be null, not even for length 0, and no
 * buffer may overlap another or the text. What the buffers held before doesn't matter.
 *
 * Accepted: the first records of notes, bars and diagnostics stand as counted, and every other cell of
 * your buffers is 0, all of the figure included. Refused: every cell of your buffers is 0.
 *
 * PAE_MAX_NOTES records each of notes, bars and figure rule out the refusals 8, 11 and 12. A text
 * without = f and i needs at most a note record for each letter A to G and -, a bar record for each /
 * and one more, and as many figure records as note records. An = of n bars adds n note records and
 * n - 1 bar records.
 */
PaeReading pae_read(const uint8_t *text, size_t text_len,
                    int32_t *notes, size_t notes_len,
                    int32_t *bars, size_t bars_len,
                    int32_t *figure, size_t figure_len,
                    PaeDiagnostic *diagnostics, size_t diagnostics_len);

/* A card: notes and bars as bytes, to be stored. Numbers of several bytes have the low byte first.
 *
 *     front           a bar                         a note                        a pitch
 *     1  the byte 1   1  bit map                    1  bit map                    2  place
 *     4  bar count    4  note count                 2  place                      1  step + 7 * octave
 *                     1  bit 0: clef                1  duration * 4 + dots        1  alteration + 2
 *                     1  bit 1: fifths + 7          1  bit 0: kind
 *                     3  bit 2: numerator,          1  bit 1: ties
 *                        denominator, symbol        1  bit 2: beam
 *                     1  bit 3: left                1  bit 3: tuplet actual
 *                     1  bit 4: right               2  bit 4: mark count, marks
 *                        its notes                  1  bit 5: pitch count
 *                                                      its pitches
 *
 * The bars follow the front. A field with a bit is there only where its bit stands: where its first
 * word isn't 0, for the key where it is set. Other bits are 0. What isn't there follows: first notes
 * and bar numbers run on from 0 and 1, tuplet normal is the greatest power of two below actual.
 *
 * The records of a card: at least one bar, at most PAE_MAX_NOTES notes, every word in its range as said
 * above, places from 1 to 65,535, actual 0 or from 3 to 255. Every bar has a note; a rest of either kind
 * has no pitch, another note one or more. Words of a field that isn't there, unused pitches and mark
 * bits from the count on are 0. Nothing else is asked: any barline may stand on either side, any symbol
 * with any meter, the first bar may lack clef and key, a whole-bar rest may have a duration. What
 * pae_read accepts is always such records. docs/CARD.md has a card byte by byte.
 *
 * No pointer may be null, not even for length 0, and no buffer may overlap another. What the buffers to
 * be written held before doesn't matter. */
typedef struct PaeCardWritten {
    uint32_t number; /* PAE_ACCEPTED, PAE_REFUSED_NOT_A_CARD or PAE_REFUSED_CARD_ROOM */
    uint32_t length; /* bytes of the card; 0 after a refusal */
} PaeCardWritten;

typedef struct PaeCardRead {
    uint32_t number; /* PAE_ACCEPTED, PAE_REFUSED_NOT_A_CARD or PAE_REFUSED_CARD_ROOM */
    uint32_t notes;  /* stored note records; 0 after a refusal, as the next */
    uint32_t bars;   /* stored bar records */
} PaeCardRead;

/* Writes the card of the records into your card_len bytes; PAE_CARD_BYTES are enough. The records are
 * all the words of notes and bars: give the counted ones, reading.notes * PAE_NOTE_WORDS and
 * reading.bars * PAE_BAR_WORDS. Every byte after the card is 0, after a refusal every byte. */
PaeCardWritten pae_write_card(const int32_t *notes, size_t notes_len,
                              const int32_t *bars, size_t bars_len,
                              uint8_t *card, size_t card_len);

/* Reads a card of card_len bytes into your records, of which the whole ones count. A note takes at
 * least 5 bytes and so does a bar, so that card_len / 5 note and card_len / 10 bar records are enough.
 * Every cell after the counted records is 0, after a refusal every cell. */
PaeCardRead pae_read_card(const uint8_t *card, size_t card_len,
                          int32_t *notes, size_t notes_len,
                          int32_t *bars, size_t bars_len);

#ifdef __cplusplus
}
#endif

#endif
