/* Calls each function of the static library from C, on the example of paper 01, on small books and on small models.
 * Prints what differs; the status is then 1.
 *
 *     cc -Iinclude tests/header_check.c -Ltarget/staticlib -lcurlewsong -o target/header_check && target/header_check
 */
#include "curlewsong.h"

#include <stdio.h>
#include <string.h>

static int failures = 0;

static void expect(int holds, const char *what) {
    if (!holds) {
        printf("header_check: %s\n", what);
        failures++;
    }
}

/* Six names and three blocks of `entry`. */
static const uint8_t book[] = {
    6, 0,
    12, 'c', 'o', 'n', 't', 'r', 'i', 'b', 'u', 't', 'i', 'o', 'n',
    5, 'e', 'n', 't', 'r', 'y',
    6, 'l', 'e', 'a', 'v', 'e', 'r',
    6, 'm', 'e', 'm', 'b', 'e', 'r',
    6, 'r', 'e', 'a', 's', 'o', 'n',
    5, 't', 'o', 't', 'a', 'l',
    3, 0,
    1, 0, 3, 3, 0, 5,
    1, 0, 3, 3, 2, 4,
    1, 0, 3, 3, 0, 4,
};

static const char declaration[] = "<!ELEMENT entry (member,(contribution|leaver),(reason|total))>";

static bool same(const curlewsong_model *a, const curlewsong_model *b) {
    return a->count == b->count && memcmp(a->factor, b->factor, CURLEWSONG_PLACES) == 0
        && memcmp(a->mode, b->mode, CURLEWSONG_PLACES) == 0 && a->text == b->text;
}

/* The names a, b and c; two blocks of c and two of a, by turns; none of b. */
static const uint8_t two_parents[] = {
    3, 0,
    1, 'a', 1, 'b', 1, 'c',
    4, 0,
    2, 0, 1, 0,
    0, 0, 2, 1, 1,
    2, 0, 2, 0, 1,
    0, 0, 0,
};

static const char dtd[] = "<!ELEMENT a (b*)>\n<!ELEMENT c (a,b?)>\n";

static bool all_seven(const uint8_t *bytes, size_t length) {
    size_t i = 0;
    while (i < length && bytes[i] == 7) {
        i++;
    }
    return i == length;
}

static void check_write_dtd(void) {
    const size_t length = sizeof dtd - 1, book_length = sizeof two_parents;
    static uint8_t buffer[CURLEWSONG_LONGEST_DTD];
    memset(buffer, 7, sizeof buffer);
    curlewsong_written written = curlewsong_write_dtd(two_parents, book_length - 1, buffer, sizeof buffer);
    expect(written.refusal == 2 && written.length == 0, "a cut book has no DTD");
    written = curlewsong_write_dtd(two_parents, book_length - 1, buffer, 0);
    expect(written.refusal == 2 && written.length == 0, "the book is checked before the buffer");
    written = curlewsong_write_dtd(two_parents, book_length, buffer, length - 1);
    expect(written.refusal == 12 && written.length == 0, "a buffer one byte shorter than the DTD is refused");
    expect(all_seven(buffer, sizeof buffer), "a refused call writes nothing");
    written = curlewsong_write_dtd(two_parents, book_length, buffer, length);
    expect(written.refusal == 0 && written.length == length, "a buffer of the DTD's length is long enough");
    expect(memcmp(buffer, dtd, length) == 0, "the DTD has a line for each parent with a block");
    expect(all_seven(buffer + length, sizeof buffer - length), "the bytes behind the DTD are kept");
}

/* One plain factor for each of so many names from 0 on. */
static curlewsong_model plain_names(uint8_t count) {
    curlewsong_model model = {0};
    memset(model.factor, CURLEWSONG_NONE, CURLEWSONG_PLACES);
    model.count = count;
    for (uint8_t name = 0; name < count; name++) {
        model.factor[name] = name;
    }
    return model;
}

/* Asks whether the first is within the second, with so many places of a buffer. The word that is due has the names from
 * 0 on, and all other bytes keep their values. */
static void check_inclusion(size_t names, curlewsong_model first, curlewsong_model second, size_t places,
                            curlewsong_inclusion due, const char *what) {
    uint8_t buffer[CURLEWSONG_LONGEST_COUNTEREXAMPLE + 9], expected[sizeof buffer];
    memset(buffer, 7, sizeof buffer);
    memset(expected, 7, sizeof expected);
    for (size_t i = 0; i < due.length; i++) {
        expected[i] = (uint8_t)i;
    }
    curlewsong_inclusion got = curlewsong_within(names, first, second, buffer, places);
    expect(got.refusal == due.refusal && got.yes == due.yes && got.length == due.length, what);
    expect(memcmp(buffer, expected, sizeof buffer) == 0, what);
}

static void check_within(void) {
    const size_t enough = CURLEWSONG_LONGEST_COUNTEREXAMPLE;
    const curlewsong_model empty = plain_names(0), two = plain_names(2), all = plain_names(CURLEWSONG_PLACES);
    curlewsong_model wider = two, repeated = all, bad = two;
    wider.mode[0] = 1;
    wider.mode[1] = 2;
    bad.mode[1] = 4;
    const curlewsong_inclusion yes = {0, true, 0}, empty_word = {0, false, 0}, two_names = {0, false, 2};
    check_inclusion(2, two, wider, enough, yes, "(a,b) is within (a?,b+)");
    check_inclusion(2, two, empty, enough, two_names, "(a,b) is not within EMPTY, as ab shows");
    check_inclusion(2, two, empty, enough + 9, two_names, "in a longer buffer too");
    check_inclusion(2, empty, two, enough, empty_word, "EMPTY is not within (a,b), as the empty word shows");

    const curlewsong_inclusion three = {3, false, 0}, ten = {10, false, 0}, twelve = {12, false, 0};
    check_inclusion(0, bad, bad, 0, three, "no names are too few");
    check_inclusion(65, bad, bad, 0, three, "65 names are too many");
    check_inclusion(2, bad, two, 0, ten, "the first is no chain");
    check_inclusion(2, two, bad, 0, ten, "the second is no chain");
    check_inclusion(2, two, wider, enough - 1, twelve, "64 places are too few where the answer is yes");
    check_inclusion(2, two, empty, enough - 1, twelve, "and where it is no");

    uint8_t word[CURLEWSONG_LONGEST_COUNTEREXAMPLE];
    repeated.mode[40] = 2;
    const curlewsong_inclusion longest = curlewsong_within(CURLEWSONG_PLACES, repeated, all, word, sizeof word);
    expect(longest.refusal == 0 && !longest.yes && longest.length == sizeof word, "64 factors need a word of 65 names");
    expect(curlewsong_accepts_word(CURLEWSONG_PLACES, repeated, word, longest.length).yes, "which the first accepts");
    expect(!curlewsong_accepts_word(CURLEWSONG_PLACES, all, word, longest.length).yes, "and the second does not");
}

/* The names a, b and c: a with text and the children c and b in different blocks, b with text alone, c with neither. */
static const uint8_t text_book[] = {
    3, 0,
    1, 'a', 1, 'b', 1, 'c',
    4, 0,
    0, 1, 1, 2,
    0, 0, 1, 1,
    1, 1, 0,
    2, 0, 0,
};

/* The model of this parent of `text_book`, its declaration, and both written and read back. */
static void check_text_model(size_t parent, curlewsong_model due, const char *text) {
    const size_t length = strlen(text);
    uint8_t buffer[CURLEWSONG_LONGEST_DECLARATION];
    const curlewsong_model_answer found = curlewsong_model_of_parent(text_book, sizeof text_book, parent);
    expect(found.refusal == 0 && same(&found.model, &due), text);
    memset(buffer, 7, sizeof buffer);
    curlewsong_written written =
        curlewsong_write_declaration(text_book, sizeof text_book, parent, found.model, buffer, length);
    expect(written.refusal == 0 && written.length == length && memcmp(buffer, text, length) == 0, text);
    expect(buffer[length] == 7, text);
    const curlewsong_read read = curlewsong_read_declaration(text_book, sizeof text_book, buffer, length);
    expect(read.refusal == 0 && read.parent == parent && same(&read.model, &due), text);
    memset(buffer, 7, sizeof buffer);
    written = curlewsong_write_from_sample(text_book, sizeof text_book, parent, buffer, length);
    expect(written.refusal == 0 && written.length == length && memcmp(buffer, text, length) == 0, text);
}

static void check_text_of_samples(void) {
    curlewsong_model mixed = plain_names(0), text = mixed;
    mixed.count = 1;
    mixed.factor[1] = mixed.factor[2] = 0;
    mixed.mode[0] = 3;
    mixed.text = text.text = 1;
    check_text_model(0, mixed, "<!ELEMENT a (#PCDATA|b|c)*>");
    check_text_model(1, text, "<!ELEMENT b (#PCDATA)>");
    check_text_model(2, plain_names(0), "<!ELEMENT c EMPTY>");

    uint8_t bad_book[sizeof text_book];
    memcpy(bad_book, text_book, sizeof bad_book);
    bad_book[sizeof bad_book - 2] = 2;
    const curlewsong_model_answer refused = curlewsong_model_of_parent(bad_book, sizeof bad_book, 0);
    const curlewsong_model empty = plain_names(0);
    expect(refused.refusal == 16 && same(&refused.model, &empty), "a text byte of 2 is refused");
    expect(curlewsong_model_of_parent(bad_book, sizeof bad_book - 1, 0).refusal == 16, "before the child count");
    expect(curlewsong_model_of_parent(bad_book, sizeof bad_book - 2, 0).refusal == 2, "a text byte is missing");
}

static void check_text_records(void) {
    const uint8_t back[] = {1, 0, 1}, a[] = {0};
    curlewsong_model mixed = plain_names(0), text = mixed;
    mixed.count = 1;
    mixed.factor[0] = mixed.factor[1] = 0;
    mixed.mode[0] = 3;
    mixed.text = text.text = 1;
    expect(curlewsong_accepts_word(2, mixed, back, sizeof back).yes, "mixed content is any number of its names");
    expect(curlewsong_accepts_word(2, text, back, 0).yes, "text alone accepts the empty word");
    const curlewsong_verdict child = curlewsong_accepts_word(2, text, a, sizeof a);
    expect(child.refusal == 0 && !child.yes, "and no other");
    const curlewsong_inclusion yes = {0, true, 0}, ten = {10, false, 0};
    check_inclusion(2, text, plain_names(0), 65, yes, "(#PCDATA) is within EMPTY: text is not looked at");

    curlewsong_model bad[] = {mixed, mixed, plain_names(2), plain_names(0)};
    bad[0].mode[0] = 2;
    bad[1].text = 2;
    bad[2].text = 1;
    bad[3].text = 255;
    for (size_t i = 0; i < sizeof bad / sizeof *bad; i++) {
        uint8_t buffer[99];
        const curlewsong_verdict verdict = curlewsong_accepts_word(2, bad[i], back, 0);
        expect(verdict.refusal == 10 && !verdict.yes, "this text byte does not fit");
        check_inclusion(2, bad[i], text, 0, ten, "also in the first of two records");
        check_inclusion(2, text, bad[i], 0, ten, "and in the second");
        memset(buffer, 7, sizeof buffer);
        const curlewsong_written written =
            curlewsong_write_declaration(text_book, sizeof text_book, 0, bad[i], buffer, sizeof buffer);
        expect(written.refusal == 10 && written.length == 0 && all_seven(buffer, sizeof buffer), "nor is it written");
    }
}

/* A book that is refused with this number, given to each call that finds a model or writes, with so many places of a
 * buffer. No byte of the buffer changes. */
static void check_refused_with(const uint8_t *bytes, size_t length, size_t parent, curlewsong_model model,
                               size_t places, uint8_t number, const char *what) {
    const curlewsong_model empty = plain_names(0);
    uint8_t buffer[99];
    memset(buffer, 7, sizeof buffer);
    const curlewsong_model_answer found = curlewsong_model_of_parent(bytes, length, parent);
    expect(found.refusal == number && same(&found.model, &empty), what);
    const curlewsong_written written[] = {
        curlewsong_write_declaration(bytes, length, parent, model, buffer, places),
        curlewsong_write_from_sample(bytes, length, parent, buffer, places),
        curlewsong_write_dtd(bytes, length, buffer, places),
        curlewsong_fill_models(bytes, length, buffer, places),
    };
    for (size_t i = 0; i < sizeof written / sizeof *written; i++) {
        expect(written[i].refusal == number && written[i].length == 0, what);
    }
    expect(all_seven(buffer, sizeof buffer), what);
}

/* A book that is refused with this number by each call that takes a book, whatever else the call is given: what is good
 * for other books, and what they refuse with 8, 9, 10, 12, 13, 14 and 15. */
static void check_refused_book(const uint8_t *bytes, size_t length, uint8_t number, const char *what) {
    const curlewsong_model empty = plain_names(0), bad = plain_names(CURLEWSONG_PLACES);
    const char *const texts[] = {"<!ELEMENT a EMPTY>", "<!ELEMENT a", "<!ELEMENT z EMPTY>", "<!ELEMENT a (a,a)>"};
    for (size_t parent = 0; parent < 4; parent++) {
        check_refused_with(bytes, length, parent, empty, 99, number, what);
        check_refused_with(bytes, length, parent, bad, 99, number, what);
        check_refused_with(bytes, length, parent, empty, 0, number, what);
    }
    for (size_t i = 0; i < sizeof texts / sizeof *texts; i++) {
        const curlewsong_read read =
            curlewsong_read_declaration(bytes, length, (const uint8_t *)texts[i], strlen(texts[i]));
        expect(read.refusal == number && read.parent == 0 && same(&read.model, &empty), what);
    }
}

/* The names a, b and c. One block has two of them as its parent and its child, so that the third one is used by none;
 * a second block, if it is counted, has that one as its parent. */
static void check_unused_name(uint8_t unused) {
    const uint8_t parent = unused == 0, child = unused == 2 ? 1 : 2;
    uint8_t bytes[] = {3, 0, 1, 'a', 1, 'b', 1, 'c', 1, 0, parent, 0, 1, child, unused, 0, 0};
    check_refused_book(bytes, sizeof bytes - 3, 17, "a name that no block uses is refused");
    check_refused_book(bytes, sizeof bytes, 7, "bytes left over are seen first");
    bytes[8] = 2;
    expect(curlewsong_model_of_parent(bytes, sizeof bytes, unused).refusal == 0, "a block that uses it is enough");
    expect(curlewsong_model_of_parent(bytes, sizeof bytes, child).refusal == 9, "a name may be a child alone");
}

static void check_unused_names(void) {
    const uint8_t no_block[] = {1, 0, 1, 'a', 0, 0};
    check_refused_book(no_block, sizeof no_block, 17, "a book without blocks is refused");
    for (uint8_t unused = 0; unused < 3; unused++) {
        check_unused_name(unused);
    }
}

/* Opens, closes and text of a document over the names a to z: a capital letter opens, a small one closes, # is text. */
static size_t pairs_of(const char *signs, uint8_t *document) {
    size_t length = 0;
    for (; *signs != '\0'; signs++) {
        const bool open = *signs >= 'A' && *signs <= 'Z';
        document[length++] = *signs == '#' ? 2 : open ? 0 : 1;
        document[length++] = (uint8_t)(*signs == '#' ? 0 : *signs - (open ? 'A' : 'a'));
    }
    return length;
}

/* The verdict that is due of a document by this table, over the three names of `text_book`. */
static void check_document(const uint8_t *models, size_t models_length, const char *signs, uint8_t refusal, bool yes) {
    uint8_t document[200];
    const size_t length = pairs_of(signs, document);
    const curlewsong_verdict got = curlewsong_accepts_document(3, models, models_length, document, length);
    expect(got.refusal == refusal && got.yes == yes, signs);
}

static void check_fill_models(void) {
    const size_t rows = 3 * CURLEWSONG_MODEL_ROW;
    uint8_t models[CURLEWSONG_LONGEST_MODELS], put[sizeof models];
    memset(models, 7, sizeof models);
    curlewsong_written written = curlewsong_fill_models(text_book, sizeof text_book - 1, models, sizeof models);
    expect(written.refusal == 2 && written.length == 0, "a cut book fills no table");
    written = curlewsong_fill_models(text_book, sizeof text_book, models, rows - 1);
    expect(written.refusal == 12 && written.length == 0, "a table one byte short of its rows is refused");
    expect(all_seven(models, sizeof models), "a refused call fills nothing");
    written = curlewsong_fill_models(text_book, sizeof text_book, models, rows);
    expect(written.refusal == 0 && written.length == rows, "a table of three rows is long enough for three names");
    expect(all_seven(models + rows, sizeof models - rows), "the bytes behind the rows are kept");

    memset(put, 7, sizeof put);
    for (size_t parent = 0; parent < 3; parent++) {
        const curlewsong_model model = curlewsong_model_of_parent(text_book, sizeof text_book, parent).model;
        expect(curlewsong_put_model(3, parent, model, put, rows) == 0, "a model is put into its row");
    }
    expect(memcmp(models, put, sizeof put) == 0, "the same rows, each put alone");

    static const uint8_t no_block[CURLEWSONG_MODEL_ROW];
    written = curlewsong_fill_models(two_parents, sizeof two_parents, models, sizeof models);
    expect(written.refusal == 0 && written.length == rows, "a name without a block has a row too");
    expect(memcmp(models + CURLEWSONG_MODEL_ROW, no_block, sizeof no_block) == 0, "of 131 bytes of 0");
}

static void check_put_model(void) {
    const size_t row = CURLEWSONG_MODEL_ROW;
    const curlewsong_model two = plain_names(2);
    curlewsong_model bad = two;
    bad.mode[1] = 4;
    uint8_t models[3 * CURLEWSONG_MODEL_ROW];
    memset(models, 7, sizeof models);
    expect(curlewsong_put_model(0, 9, bad, models, 0) == 3, "no names are too few for a table");
    expect(curlewsong_put_model(65, 0, two, models, sizeof models) == 3, "65 names are too many for one");
    expect(curlewsong_put_model(2, 2, bad, models, 0) == 8, "there is no parent 2 of two names");
    expect(curlewsong_put_model(2, 1, bad, models, 0) == 10, "a record that is no model is not put");
    expect(curlewsong_put_model(1, 0, two, models, sizeof models) == 10, "nor one of two names over one");
    expect(curlewsong_put_model(2, 1, two, models, 2 * row - 1) == 12, "the row has to be whole");
    expect(all_seven(models, sizeof models), "a refused call puts nothing");

    expect(curlewsong_put_model(2, 1, two, models, 2 * row) == 0, "and needs no more than that");
    const uint8_t front[] = {1, 2, 0, 0, 1, CURLEWSONG_NONE};
    expect(memcmp(models + row, front, sizeof front) == 0, "byte 0 is 1, then the count, the text and the factors");
    expect(memcmp(models + row + 67, two.mode, CURLEWSONG_PLACES) == 0, "and the modes");
    expect(all_seven(models, row) && all_seven(models + 2 * row, row), "the other rows are kept");
}

/* By the models of `text_book`: a (#PCDATA|b|c)*, b (#PCDATA), c EMPTY. */
static void check_documents(void) {
    uint8_t models[3 * CURLEWSONG_MODEL_ROW];
    const size_t length = curlewsong_fill_models(text_book, sizeof text_book, models, sizeof models).length;
    check_document(models, length, "A#CcB#b#a", 0, true);
    check_document(models, length, "B##b", 0, true);
    check_document(models, length, "C#c", 0, false);
    check_document(models, length, "ABCcba", 0, false);
    check_document(models, length, "AAaa", 0, false);
    check_document(models, length, "ABbCca", 0, true);
    check_document(models, length - 1, "ABbCca", 0, false);
    check_document(models, length - 1, "ABba", 0, true);
    check_document(models, 0, "Aa", 0, false);

    const char *const refused[] = {"", "#", "a", "A", "AB", "Ab", "ABab", "Aa#", "AaAa", "Aaa", "ADda", "ABbBba#"};
    for (size_t i = 0; i < sizeof refused / sizeof *refused; i++) {
        check_document(models, length, refused[i], 18, false);
        check_document(models, 0, refused[i], 18, false);
    }
    const char *const deepest = "AAAAAAAAAAAAAAAAAAAAAAAAAAAAAAAAaaaaaaaaaaaaaaaaaaaaaaaaaaaaaaaa";
    check_document(models, length, deepest, 0, false);
    check_document(models, length, "AAAAAAAAAAAAAAAAAAAAAAAAAAAAAAAAA", 19, false);
    check_document(models, length, "AAAAAAAAAAAAAAAAAAAAAAAAAAAAAAAAD", 18, false);
    check_document(models, length, "AAAAAAAAAAAAAAAAAAAAAAAAAAAAAAAAAb", 19, false);
}

/* The other refusals of a document, and a document of the most bytes. */
static void check_document_limits(void) {
    static uint8_t longest[CURLEWSONG_LONGEST_DOCUMENT + 2];
    uint8_t models[2 * CURLEWSONG_MODEL_ROW] = {0};
    curlewsong_model list = plain_names(0);
    list.count = 1;
    list.factor[1] = 0;
    list.mode[0] = 2;
    expect(curlewsong_put_model(2, 0, list, models, sizeof models) == 0, "(b+) of a");
    expect(curlewsong_put_model(2, 1, plain_names(0), models, sizeof models) == 0, "EMPTY of b");
    for (size_t at = 2; at + 2 < CURLEWSONG_LONGEST_DOCUMENT; at += 2) {
        longest[at] = at / 2 % 2 == 0;
        longest[at + 1] = 1;
    }
    longest[CURLEWSONG_LONGEST_DOCUMENT - 2] = 1;
    curlewsong_verdict got =
        curlewsong_accepts_document(2, models, sizeof models, longest, CURLEWSONG_LONGEST_DOCUMENT);
    expect(got.refusal == 0 && got.yes, "60,000 bytes, a word of 14,999 names");
    for (size_t more = 1; more <= 2; more++) {
        got = curlewsong_accepts_document(0, models, sizeof models, longest, CURLEWSONG_LONGEST_DOCUMENT + more);
        expect(got.refusal == 1 && !got.yes, "a longer document is refused before the count of names");
    }
    got = curlewsong_accepts_document(2, models, sizeof models, longest, CURLEWSONG_LONGEST_DOCUMENT - 1);
    expect(got.refusal == 18 && !got.yes, "an odd length");

    models[CURLEWSONG_MODEL_ROW] = 255;
    expect(curlewsong_accepts_document(2, models, sizeof models, longest, CURLEWSONG_LONGEST_DOCUMENT).yes,
           "any byte 0 other than 0 stands for a model");
    models[CURLEWSONG_MODEL_ROW + 2] = 2;
    expect(curlewsong_accepts_document(65, models, sizeof models, longest, 1).refusal == 3, "the names, then the table");
    expect(curlewsong_accepts_document(2, models, sizeof models, longest, 1).refusal == 10, "then the document");
    models[CURLEWSONG_MODEL_ROW] = 0;
    got = curlewsong_accepts_document(2, models, sizeof models, longest, CURLEWSONG_LONGEST_DOCUMENT);
    expect(got.refusal == 0 && !got.yes, "with byte 0 as 0 the record is not looked at, and b has no model");
}

int main(void) {
    const size_t length = sizeof declaration - 1;
    uint8_t buffer[CURLEWSONG_LONGEST_DECLARATION];
    const curlewsong_model empty = plain_names(0);

    curlewsong_model_answer found = curlewsong_model_of_parent(book, sizeof book, 1);
    expect(found.refusal == 0, "entry has a model");
    expect(found.model.count == 3, "of three factors");
    const uint8_t factors[] = {1, 255, 1, 0, 2, 2, 255};
    expect(memcmp(found.model.factor, factors, sizeof factors) == 0, "with its names in their factors");
    curlewsong_model_answer none = curlewsong_model_of_parent(book, sizeof book, 0);
    expect(none.refusal == 9 && same(&none.model, &empty), "contribution has no block");
    expect(curlewsong_model_of_parent(book, sizeof book, 6).refusal == 8, "there is no parent 6");
    expect(curlewsong_model_of_parent(book, sizeof book - 1, 1).refusal == 2, "a cut book is refused");

    const uint8_t sampled[] = {3, 0, 5}, both[] = {3, 0, 2, 4}, far[] = {6};
    curlewsong_verdict verdict = curlewsong_accepts_word(6, found.model, sampled, sizeof sampled);
    expect(verdict.refusal == 0 && verdict.yes, "a sample word is accepted");
    verdict = curlewsong_accepts_word(6, found.model, both, sizeof both);
    expect(verdict.refusal == 0 && !verdict.yes, "a contribution and a leaver together are not");
    verdict = curlewsong_accepts_word(6, found.model, far, sizeof far);
    expect(verdict.refusal == 11 && !verdict.yes, "there is no name 6");
    expect(curlewsong_accepts_word(65, found.model, far, 0).refusal == 3, "65 names are too many");

    memset(buffer, 7, sizeof buffer);
    curlewsong_written written = curlewsong_write_from_sample(book, sizeof book, 1, buffer, length - 1);
    expect(written.refusal == 12 && written.length == 0 && buffer[0] == 7, "a buffer one byte short is refused and kept");
    written = curlewsong_write_from_sample(book, sizeof book, 1, buffer, length);
    expect(written.refusal == 0 && written.length == length, "the exact buffer is long enough");
    expect(memcmp(buffer, declaration, length) == 0 && buffer[length] == 7, "the declaration is written, and nothing behind it");
    memset(buffer, 7, sizeof buffer);
    written = curlewsong_write_declaration(book, sizeof book, 1, found.model, buffer, sizeof buffer);
    expect(written.refusal == 0 && memcmp(buffer, declaration, length) == 0, "the record is written alike");

    curlewsong_read read = curlewsong_read_declaration(book, sizeof book, buffer, length);
    expect(read.refusal == 0 && read.parent == 1 && same(&read.model, &found.model), "it reads back as it was written");
    read = curlewsong_read_declaration(book, sizeof book, buffer, length - 1);
    expect(read.refusal == 13 && read.parent == 0 && same(&read.model, &empty), "a cut text is refused");

    check_write_dtd();
    check_within();
    check_text_of_samples();
    check_text_records();
    check_unused_names();
    check_fill_models();
    check_put_model();
    check_documents();
    check_document_limits();

    if (failures == 0) {
        printf("header_check: every call of include/curlewsong.h answers as the papers have it\n");
    }
    return failures != 0;
}
