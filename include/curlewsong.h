/* Curlewsong: DTD content models inferred from sample blocks of XML feeds, for C and C++. The static library is for
 * x86-64 Linux.
 *
 * Every call returns, for every input. No call keeps anything for the next one, and any number of threads may call at
 * once.
 *
 * refusal: 0 where the call was not refused, else one of these numbers.
 *
 *    1  the book has more than 60,000 bytes
 *    2  the book ends before one of its fields is complete
 *    3  the count of names is 0 or above 64
 *    4  a name in the book has a length other than 1 to 32, or a byte that breaks the rule for names
 *    5  a name in the book is not above the name before it
 *    6  a parent or child number in the book is not below the count of names
 *    7  the book has bytes left over after its last block
 *    8  the parent asked for is not below the count of names
 *    9  no block in the book has the parent whose model is wanted from the sample
 *   10  the model record is not a chain over the names, or its text byte does not fit the chain
 *   11  the word has more than 255 names, or a number that is not below the count of names
 *   12  the output buffer is shorter than the text to be written, or has fewer than 65 places for a word
 *   13  the text does not have the form of a declaration
 *   14  a name in the text, the parent's included, is not in the book
 *   15  the model in the text has a name twice
 *   16  a text byte in the book is above 1
 *   17  a name in the book is neither a parent nor a child in any block
 *   18  the document has an odd length, a pair with a bad kind or number, or pairs that do not form one root element
 *   19  the document opens an element at depth 33
 *
 * Several conditions may hold at once. A call makes its checks in the order that is given with it below, and answers
 * the number of the first one that fails. A book is not checked number by number. First its length is checked (1), then
 * its fields from left to right, and the first field at which a condition holds decides:
 *
 *    the count of names                   2, 3
 *    a name's length                      2, 4
 *    a name's bytes, taken whole          2, 4, 5
 *    the count of blocks                  2
 *    a block's parent                     2, 6
 *    a block's text byte                  2, 16
 *    a block's child count                2
 *    a block's children, taken whole      2, 6
 *    the end, after the last block        7
 *    all names, after the end             17
 *
 * At one field the conditions are in this order: first 2, then those on its value. So the two bytes 00 00 are refused
 * with 3, although bytes are missing further on. A book has a name, so one without blocks is always refused: with 17 if
 * nothing else is wrong with it. Nor is a document checked number by number: see curlewsong_accepts_document.
 *
 * A refused call changes nothing that it borrows. The rest of its answer is then: the model with count 0, every factor
 * 255, every mode 0 and text 0; no; length 0; parent 0. All of these are also answers of calls that were not refused,
 * so look at the refusal first.
 *
 * What a caller has to see to, since no call can check it: a pointer is not NULL, also where its length is 0. It points
 * to that many bytes that can be read (those of a buffer also written). While the call runs nobody else writes to them,
 * nor reads those of a buffer. A buffer overlaps nothing else that is passed to the same call.
 *
 * docs/FORMAT.md has the bytes of a book, the order of the checks, the text of a declaration, the rows of a table of
 * models and the pairs of a document. They are those of paper 01, with requests U1 (reading), U2 (the whole DTD), U4
 * (one model within another), U5 (fields that hold text), U6 (names that no block uses) and U7 (whole documents) of
 * paper 02; the papers decide.
 */
#ifndef CURLEWSONG_H
#define CURLEWSONG_H

#include <stdbool.h>
#include <stddef.h>
#include <stdint.h>

#ifdef __cplusplus
extern "C" {
#endif

/* The number of places of a model, which is also the most names that a book may have. */
#define CURLEWSONG_PLACES 64
/* In `factor`: no factor holds this name. */
#define CURLEWSONG_NONE 255
/* No book's declaration has more bytes: a buffer of this length is never too short. */
#define CURLEWSONG_LONGEST_DECLARATION 2253
/* No book's DTD has more bytes: 64 declarations of that length, each with a line feed. */
#define CURLEWSONG_LONGEST_DTD 144256
/* The most names of the word that shows that a model is not within another, and the places that its buffer needs. */
#define CURLEWSONG_LONGEST_COUNTEREXAMPLE 65
/* The bytes of a row in a table of models. */
#define CURLEWSONG_MODEL_ROW 131
/* The bytes of a table of models with 64 rows, the most that are ever looked at or written. */
#define CURLEWSONG_LONGEST_MODELS 8384
/* The most bytes of a document. */
#define CURLEWSONG_LONGEST_DOCUMENT 60000

/* A content model: `count` factors in order. factor[x] is the factor, from 0, that holds the name with number x, or
 * CURLEWSONG_NONE. mode[i] is the mark of factor i: 0 none, 1 '?', 2 '+', 3 '*'. `text` is 1 where text is allowed
 * and 0 where not. With text there is no factor, (#PCDATA), or one with mode 3, (#PCDATA|a|b)*.
 *
 * A call takes any values and refuses with 10 those that are no model over the N names: `count` is at most 64;
 * factor[x] is below `count` or CURLEWSONG_NONE, and CURLEWSONG_NONE for x from N on; each factor holds a name; mode[i]
 * is 0 to 3, and 0 for i from `count` on; `text` is 0, or 1 with `count` 0, or 1 with `count` 1 and mode[0] 3. */
typedef struct {
    size_t count;
    uint8_t factor[CURLEWSONG_PLACES];
    uint8_t mode[CURLEWSONG_PLACES];
    uint8_t text;
} curlewsong_model;

typedef struct {
    uint8_t refusal;
    curlewsong_model model;
} curlewsong_model_answer;

typedef struct {
    uint8_t refusal;
    bool yes;
} curlewsong_verdict;

typedef struct {
    uint8_t refusal;
    bool yes;
    size_t length;
} curlewsong_inclusion;

typedef struct {
    uint8_t refusal;
    size_t length;
} curlewsong_written;

typedef struct {
    uint8_t refusal;
    size_t parent;
    curlewsong_model model;
} curlewsong_read;

/* The model of a parent from its blocks in the book. If none of them has text it is a chain that accepts every one of
 * their words, with text 0. Every other chain over the book's names that accepts them all also accepts some word that
 * this one does not. If one of them has text, text is allowed, and any number of exactly the names that are in their
 * words, in any order. Refusals, in this order: the book's (1 to 7, 16, 17), 8, 9. */
curlewsong_model_answer curlewsong_model_of_parent(const uint8_t *book, size_t book_length, size_t parent);

/* Whether the model over `names` names accepts the word: whether the word is a joining of one part for each factor in
 * order. Each byte of the word is the number of a name. Whether text is allowed is not looked at. Refusals, in this
 * order: 3, 10, 11. */
curlewsong_verdict curlewsong_accepts_word(size_t names, curlewsong_model model, const uint8_t *word, size_t word_length);

/* Whether every word, of any length, that the first model over `names` names accepts is accepted by the second. On no,
 * a word that the first accepts and the second does not is in the front of the buffer, one byte for the number of each
 * name, and `length` is its length, 0 for the empty word. Which of these words it is, is left open. The bytes behind it
 * keep their values. On yes all bytes do, and the length is 0. The buffer needs CURLEWSONG_LONGEST_COUNTEREXAMPLE
 * places, also where the answer is yes. Whether text is allowed is not looked at. Refusals, in this order: 3, 10 (the
 * first model, then the second), 12. */
curlewsong_inclusion curlewsong_within(size_t names, curlewsong_model first, curlewsong_model second,
                                       uint8_t *buffer, size_t buffer_length);

/* Writes the declaration of the parent with this model to the front of the buffer, in canonical form (paper 01 calls it
 * the house spelling), and answers its length. The bytes behind it keep their values: no line feed and no NUL is
 * written. The parent needs no block. Refusals, in this order: the book's (1 to 7, 16, 17), 8, 10, 12. */
curlewsong_written curlewsong_write_declaration(const uint8_t *book, size_t book_length, size_t parent, curlewsong_model model,
                                                uint8_t *buffer, size_t buffer_length);

/* The same with the model of the parent from its blocks; here the parent needs a block. Refusals, in this order: the
 * book's (1 to 7, 16, 17), 8, 9, 12. */
curlewsong_written curlewsong_write_from_sample(const uint8_t *book, size_t book_length, size_t parent,
                                                uint8_t *buffer, size_t buffer_length);

/* Writes the whole DTD of the book to the front of the buffer, and answers its length: for each parent with a block, in
 * rising number, the declaration of its model from its blocks, in canonical form, and a line feed. For a book that is
 * not refused this is what the program dtd prints. The bytes behind the text keep their values, and no NUL is written.
 * The book is read once for all parents. A buffer of 2,254 bytes for each of its names, so one of
 * CURLEWSONG_LONGEST_DTD bytes, is never too short; with a shorter one the length of the text is found first, and the
 * call takes longer. Refusals, in this order: the book's (1 to 7, 16, 17), 12. */
curlewsong_written curlewsong_write_dtd(const uint8_t *book, size_t book_length, uint8_t *buffer, size_t buffer_length);

/* The parent and the model of a declaration over the names of the book. The parent needs no block. A text that
 * curlewsong_write_declaration wrote for this book reads back as the same parent and model, and one that
 * curlewsong_write_from_sample wrote as the parent and the model from its blocks. White space may be spaces, tabs,
 * carriage returns and line feeds; the names of a group may come in any order; one name may have its own brackets;
 * one group may be the whole model, as in (a|b)*; and (#PCDATA)* is read as (#PCDATA). docs/FORMAT.md has the grammar.
 * Refusals, in this order: the book's (1 to 7, 16, 17), 13, 14, 15. */
curlewsong_read curlewsong_read_declaration(const uint8_t *book, size_t book_length, const uint8_t *text, size_t text_length);

/* The three calls below take a table of models: bytes that the caller owns, with one row of CURLEWSONG_MODEL_ROW bytes
 * for each name. The row of name x begins at byte 131 * x:
 *
 *    byte 0             0: the name has no model. Any other value: the rest of the row is its model
 *    byte 1             `count`
 *    byte 2             `text`
 *    bytes 3 to 66      `factor`
 *    bytes 67 to 130    `mode`
 *
 * A name whose row is not whole in the table has no model. So curlewsong_accepts_document refuses no table for being
 * short, and takes one of length 0 (its pointer still not NULL): no name has a model then. It does not look at bytes 1
 * to 130 of a row whose byte 0 is 0, nor at anything behind the rows of the names.
 *
 * Set a new table to zeros first: then no name has a model. curlewsong_put_model writes one row, curlewsong_fill_models
 * those of all names of a book. For these two the table is a buffer: they look at no byte of it, and refuse one that is
 * too short (12). To take a model out, set byte 0 of its row to 0. */

/* Whether the document over `names` names is valid by the models of the table: every element has a model there, its
 * children in order are a word of that model, however many there are, and text stands only in elements whose model
 * allows text.
 *
 * The document is byte pairs: a kind, then a number. 0 opens the element with the name of that number, 1 closes it, and
 * 2 is text, whose number is 0. There is one root element, at depth 1, and no element is deeper than 32. An element may
 * have text in several places. What the text says is not told, and the caller leaves out white space that is not meant
 * as text. <a>x<b/></a>, with a as number 0 and b as number 1, is 0 0, 2 0, 0 1, 1 1, 1 0.
 *
 * The length is checked first (1), then the count of names (3) and every row of a name below it (10). An odd length is
 * refused with 18 before any pair is looked at. Then the pairs are taken from left to right, and the first one with a
 * fault decides. It is 18 for a kind above 2, a number that is not below `names`, text with a number other than 0, a
 * close unlike its open or with none open, text outside the root, or a second root; if none of these, 19 for an open
 * where 32 elements are open. After the last pair it is 18 if there was no root or an element is left open. An element
 * without a model is no ground for a refusal: the answer is no, once all pairs are checked. Refusals, in this order:
 * 1, 3, 10, then 18 or 19 as above. */
curlewsong_verdict curlewsong_accepts_document(size_t names, const uint8_t *models, size_t models_length,
                                               const uint8_t *document, size_t document_length);

/* Puts the model of `parent` into its row of the table, with byte 0 as 1. All other bytes of the table keep their
 * values. Answers the refusal, 0 where there was none. The table needs the whole row, so 131 * (parent + 1) bytes or
 * more; it may lack later rows. Refusals, in this order: 3, 8, 10, 12. */
uint8_t curlewsong_put_model(size_t names, size_t parent, curlewsong_model model, uint8_t *models, size_t models_length);

/* Writes the rows of all names of the book to the front of the table: for a name with a block byte 0 as 1 and the model
 * that curlewsong_model_of_parent answers, for any other name 131 bytes of 0. Answers the length of all rows, 131 for
 * each name of the book; length / CURLEWSONG_MODEL_ROW is the count of names for curlewsong_accepts_document. The bytes
 * behind them keep their values, so with a larger count rows from before would count. The table needs that many bytes;
 * one of CURLEWSONG_LONGEST_MODELS bytes is never too short. Refusals, in this order: the book's (1 to 7, 16, 17), 12. */
curlewsong_written curlewsong_fill_models(const uint8_t *book, size_t book_length, uint8_t *models, size_t models_length);

#ifdef __cplusplus
}
#endif

#endif
