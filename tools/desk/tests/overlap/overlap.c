/* overlap: calls with lent memory that overlaps, each beside the same call with memory that is apart. Both must give the same and
 * leave the same, and nothing outside the lent output may change. Then a check that lies in what is lent, NULL for every pointer,
 * and an opening over a used state; and readers of reports. It prints how many calls were compared, and how many with readers, or
 * the first difference, and ends with 1 then. */
#include <stdio.h>
#include <stdlib.h>
#include <string.h>

#include "waslidhaj.h"

enum { ARENA = 32768, OUT = 12288, FAR = 4200, PAINT = 0x5a, ROWS = 12 };

/* Where the overlapping call is made, how that was before, and the output of the other call. */
static uint8_t arena[ARENA] __attribute__((aligned(16)));
static uint8_t before[ARENA];
static uint8_t apart[ARENA] __attribute__((aligned(16)));

static const char *doing; /* of what is compared */
static long shift;
static size_t compared;

static void differs(const char *what) {
  printf("%s, shifted by %ld: %s\n", doing, shift, what);
  exit(1);
}

/* ---- Memory ---- */

static void paint(void) { memset(arena, PAINT, sizeof arena); }

/* A text where the output would be, so much further on. */
static uint8_t *place(const void *text, size_t length, long on) {
  uint8_t *at = arena + OUT + on;
  memcpy(at, text, length);
  return at;
}

/* Keeps what is there, and lends the same apart. */
static void keep(size_t length) {
  memcpy(before, arena, sizeof arena);
  memcpy(apart, arena + OUT, length);
}

/* Compares what both calls gave and left. */
static void compare(int same_given, size_t length) {
  compared++;
  if (!same_given)
    differs("another thing is given");
  if (length > 0 && memcmp(arena + OUT, apart, length) != 0)
    differs("another thing is left in the output");
  if (memcmp(arena, before, OUT) != 0 || memcmp(arena + OUT + length, before + OUT + length, ARENA - OUT - length) != 0)
    differs("memory beside the output is written");
}

static int same_refusal(waslidhaj_refusal first, waslidhaj_refusal second) {
  return first.number == second.number && first.place == second.place;
}

static int same_written(waslidhaj_written first, waslidhaj_written second) {
  return first.length == second.length && same_refusal(first.refusal, second.refusal);
}

static int same_given(waslidhaj_given first, waslidhaj_given second) {
  return first.kind == second.kind && first.walk == second.walk && first.place == second.place &&
         first.length == second.length && same_refusal(first.refusal, second.refusal) &&
         first.verdict.result == second.verdict.result && first.verdict.policy == second.verdict.policy &&
         first.verdict.disposition == second.verdict.disposition && first.verdict.begin == second.verdict.begin &&
         first.verdict.alignments == second.verdict.alignments && first.verdict.count == second.verdict.count;
}

/* Every octet up to the last array, and the numbers after it: what is between them is padding. */
static int same_state(const waslidhaj_state *first, const waslidhaj_state *second) {
  size_t end = offsetof(waslidhaj_state, stored) + sizeof first->stored;
  size_t on = offsetof(waslidhaj_state, identifiers);
  return memcmp(first, second, end) == 0 &&
         memcmp((const uint8_t *)first + on, (const uint8_t *)second + on, sizeof *first - on) == 0;
}

static int same_check_given(waslidhaj_check_given first, waslidhaj_check_given second) {
  return first.kind == second.kind && first.agreement == second.agreement && first.walk == second.walk &&
         first.place == second.place && first.begin == second.begin && first.length == second.length &&
         first.count == second.count && same_refusal(first.refusal, second.refusal);
}

/* Likewise: padding is before the count and after two flags. */
static int same_check(const waslidhaj_check *first, const waslidhaj_check *second) {
  size_t end = offsetof(waslidhaj_check, kept) + sizeof first->kept;
  size_t on = offsetof(waslidhaj_check, record_begin);
  return memcmp(first, second, end) == 0 && first->count == second->count && first->point_kind == second->point_kind &&
         first->organization == second->organization && first->found == second->found &&
         memcmp((const uint8_t *)first + on, (const uint8_t *)second + on, sizeof *first - on) == 0;
}

/* ---- Answers ---- */

static const char NAME[] = "_dmarc.example.com";

static size_t put_record(uint8_t *to, size_t at, const char *const *strings) {
  size_t begin = at;
  at += 4;
  for (; *strings != NULL; strings++) {
    size_t length = strlen(*strings);
    to[at++] = (uint8_t)length;
    memcpy(to + at, *strings, length);
    at += length;
  }
  memcpy(to + begin, "TX", 2);
  to[begin + 2] = (uint8_t)((at - begin - 4) >> 8);
  to[begin + 3] = (uint8_t)((at - begin - 4) & 255);
  return at;
}

/* A state that asks for an author's own name. */
static waslidhaj_state asked_of(const void *author, size_t length) {
  waslidhaj_called called;
  memset(&called, 0, sizeof called);
  called = waslidhaj_open(called.state, (const uint8_t *)author, length, WASLIDHAJ_EXISTS, 1);
  called = waslidhaj_next(called.state);
  if (called.given.kind != WASLIDHAJ_ASK)
    differs("no name is asked");
  return called.state;
}

static waslidhaj_state asked(void) { return asked_of("example.com", 11); }

/* What is answered: an evaluation or else a check, the name that it asks, and the most octets of a name. */
typedef struct {
  const waslidhaj_state *state;
  const waslidhaj_check *check;
  const void *name;
  size_t name_length, longest;
} subject;

/* Where the texts of an answer lie apart. */
static uint8_t *const apart_bytes = apart + 16384;
static uint8_t *const apart_name = apart + 24576;

/* One answer, the bytes or the name shifted against the scratch. */
static void answer_at(subject of, long name_on, uint8_t status, const uint8_t *bytes, size_t length, long bytes_on,
                      size_t scratch_length) {
  static waslidhaj_called first, second;
  static waslidhaj_check_called of_check;
  waslidhaj_check_given given;
  waslidhaj_check after;
  const uint8_t *own_name, *own_bytes;
  paint();
  own_bytes = place(bytes, length, bytes_on);
  own_name = place(of.name, of.name_length, name_on);
  memcpy(apart_bytes, own_bytes, length); /* the name may lie over the bytes: both calls read what then stands there */
  memcpy(apart_name, own_name, of.name_length);
  keep(scratch_length);
  if (of.state != NULL) {
    first = waslidhaj_answer_apart(*of.state, apart_name, of.name_length, status, apart_bytes, length, apart, scratch_length);
    second = waslidhaj_answer(*of.state, own_name, of.name_length, status, own_bytes, length, arena + OUT, scratch_length);
    if (!same_state(&first.state, &second.state))
      differs("another state is given");
    compare(same_given(first.given, second.given), scratch_length);
    return;
  }
  after = *of.check;
  of_check = waslidhaj_check_answer_by_value(after, apart_name, of.name_length, status, apart_bytes, length, apart,
                                             scratch_length);
  given = waslidhaj_check_answer(&after, own_name, of.name_length, status, own_bytes, length, arena + OUT, scratch_length);
  if (!same_check(&of_check.check, &after))
    differs("another check is left");
  compare(same_check_given(of_check.given, given), scratch_length);
}

/* The same of a name of so many octets. */
static subject longer(subject of, const uint8_t *name, size_t length) {
  of.name = name;
  of.name_length = length;
  return of;
}

static void answers(subject of) {
  static const char *const record[] = {"v=DMARC1; p=re", "ject; rua=mailto:a@example.com", NULL};
  static const char *const other[] = {"some other text that is no record, of more octets than a few", "and more", NULL};
  static uint8_t texts[5][4097];
  static uint8_t long_name[600];
  size_t lengths[5];
  size_t index;
  lengths[0] = put_record(texts[0], put_record(texts[0], put_record(texts[0], 0, other), record), other);
  memcpy(texts[1], "TX\x0f\xfc", 4); /* 4,092 empty strings */
  lengths[1] = 4096;
  memcpy(texts[2], "TX\x0f\xfc", 4); /* 15 strings of 255 octets and one of 251 */
  for (index = 0; index < 16; index++) {
    memset(texts[2] + 4 + 256 * index, (int)('a' + index), 256);
    texts[2][4 + 256 * index] = index < 15 ? 255 : 251;
  }
  memcpy(texts[2] + 5, "v=DMARC1;p=reject;", 18);
  lengths[2] = 4096;
  lengths[3] = 4097; /* too long */
  memcpy(texts[4], "TX\0\2\5a", 6);
  lengths[4] = 6; /* unreadable */
  memset(long_name, 'a', sizeof long_name);
  doing = "an answer's bytes and the scratch";
  for (index = 0; index < 5; index++)
    for (shift = -FAR; shift <= FAR; shift += index == 0 || index == 2 ? 1 : 7)
      answer_at(of, 2 * FAR, WASLIDHAJ_RECORDS, texts[index], lengths[index], shift, 4096);
  doing = "an answer's bytes and a longer or shorter scratch";
  for (index = 0; index < 5; index++)
    for (shift = -FAR; shift <= FAR; shift += 31) {
      answer_at(of, 2 * FAR, WASLIDHAJ_RECORDS, texts[index], lengths[index], shift, 4095);
      answer_at(of, 2 * FAR, WASLIDHAJ_RECORDS, texts[index], lengths[index], shift, 5000);
      answer_at(of, 2 * FAR, WASLIDHAJ_NO_RECORDS, texts[index], lengths[index], shift, 4096);
      answer_at(of, 2 * FAR, WASLIDHAJ_ERROR, texts[index], lengths[index], shift, 4096);
    }
  doing = "an answer's name and the scratch";
  for (shift = -FAR; shift <= FAR; shift++) {
    answer_at(of, shift, WASLIDHAJ_RECORDS, texts[0], lengths[0], 2 * FAR, 4096);
    answer_at(of, shift, WASLIDHAJ_RECORDS, texts[0], lengths[0], 3, 4096);
  }
  for (shift = -FAR; shift <= FAR; shift += 31) {
    answer_at(longer(of, long_name, of.longest + 1), shift, WASLIDHAJ_RECORDS, texts[0], lengths[0], 2 * FAR, 4096);
    answer_at(longer(of, long_name, of.longest + 2), shift, WASLIDHAJ_RECORDS, texts[0], lengths[0], 2 * FAR, 4096);
    answer_at(longer(of, long_name, sizeof long_name), shift, WASLIDHAJ_RECORDS, texts[3], lengths[3], shift, 4095);
  }
}

/* The kind of what is given for an error. */
static unsigned error_kind(subject of) {
  const uint8_t *name = (const uint8_t *)of.name;
  waslidhaj_check check;
  if (of.state != NULL)
    return waslidhaj_answer(*of.state, name, of.name_length, WASLIDHAJ_ERROR, NULL, 0, arena, 4096).given.kind;
  check = *of.check;
  return waslidhaj_check_answer(&check, name, of.name_length, WASLIDHAJ_ERROR, NULL, 0, arena, 4096).kind;
}

/* A long name by any shift, with a final dot and without: it is accepted. */
static void long_name_at(subject of, size_t expected) {
  static const uint8_t bytes[] = "TX\0\23\22v=DMARC1; p=reject";
  static uint8_t name[WASLIDHAJ_CHECK_NAME_OCTETS + 1];
  size_t dotted;
  doing = "a long name and the scratch";
  if (of.name_length != expected)
    differs("the name has another length");
  memcpy(name, of.name, of.name_length);
  name[of.name_length] = '.';
  for (dotted = 0; dotted < 2; dotted++) {
    of = longer(of, name, expected + dotted);
    for (shift = -FAR; shift <= FAR; shift += 31)
      answer_at(of, shift, WASLIDHAJ_RECORDS, bytes, sizeof bytes - 1, 2 * FAR, 4096);
    if (error_kind(of) != WASLIDHAJ_ACCEPTED)
      differs("the name is refused");
  }
}

/* The name that a state asks. */
static subject of_state(const waslidhaj_state *state) {
  static uint8_t name[WASLIDHAJ_NAME_OCTETS];
  subject of = {NULL, NULL, NULL, 0, WASLIDHAJ_NAME_OCTETS};
  of.state = state;
  of.name = name;
  of.name_length = waslidhaj_name(*state, 0, 0, name, sizeof name).length;
  return of;
}

/* The longest names: 253 octets, and 260 of a state that no call gave. */
static void long_names(void) {
  uint8_t author[246];
  waslidhaj_state state;
  size_t index;
  for (index = 0; index < sizeof author; index++)
    author[index] = index % 2 == 0 || index == sizeof author - 1 ? 'a' : '.';
  state = asked_of(author, sizeof author);
  long_name_at(of_state(&state), WASLIDHAJ_DOMAIN_OCTETS);
  memset(state.domains + sizeof author, 'b', WASLIDHAJ_DOMAIN_OCTETS - sizeof author);
  for (index = 0; index < sizeof state.numbers / sizeof *state.numbers; index++)
    if (state.numbers[index] == sizeof author)
      state.numbers[index] = WASLIDHAJ_DOMAIN_OCTETS;
  long_name_at(of_state(&state), WASLIDHAJ_NAME_OCTETS);
}

/* A record that lies in the scratch by any shift is judged: the message is rejected. */
static void verdicts(void) {
  static const char *const record[] = {"v=DMARC1; p=re", "ject; rua=mailto:a@example.com", NULL};
  static const char *const other[] = {"some other text that is no record, of more octets than a few", "and more", NULL};
  static uint8_t bytes[256];
  static waslidhaj_called called;
  waslidhaj_state state = asked();
  size_t length = put_record(bytes, put_record(bytes, put_record(bytes, 0, other), record), other);
  doing = "a verdict";
  for (shift = -FAR; shift <= FAR; shift++) {
    const uint8_t *at = place(bytes, length, shift);
    called = waslidhaj_answer(state, (const uint8_t *)NAME, 18, WASLIDHAJ_RECORDS, at, length, arena + OUT, 4096);
    called = waslidhaj_next(called.state);
    compared++;
    if (called.given.kind != WASLIDHAJ_VERDICT || called.given.verdict.disposition != WASLIDHAJ_DISPOSITION_REJECT)
      differs("it is not rejected");
  }
}

/* ---- Sheets ---- */

static void run_at(const uint8_t *sheet, size_t length, size_t out_length) {
  static uint8_t own[1024];
  const uint8_t *at;
  size_t first, second;
  memcpy(own, sheet, length);
  paint();
  at = place(sheet, length, shift);
  keep(out_length);
  first = waslidhaj_run_apart(own, length, apart, out_length);
  second = waslidhaj_run(at, length, arena + OUT, out_length);
  compare(first == second, out_length);
}

static void sheets(void) {
  static const uint8_t sheet[] = "AU\0\r\1\1example.comID\0\22\1\1mail.example.com"
                                 "AN\0\53\0\22_dmarc.example.comTX\0\23\22v=DMARC1; p=reject";
  size_t printed = waslidhaj_run_apart(sheet, sizeof sheet - 1, NULL, 0);
  doing = "a sheet and its output";
  if (printed < 80)
    differs("the sheet is refused");
  for (shift = -300; shift <= 300; shift++) {
    run_at(sheet, sizeof sheet - 1, 200);
    run_at(sheet, sizeof sheet - 1, printed);
    run_at(sheet, sizeof sheet - 1, printed - 1);
    run_at(sheet, sizeof sheet - 1, 20);
    run_at(sheet, sizeof sheet - 2, 40);
    run_at(sheet, 0, 40);
  }
}

/* ---- Rows ---- */

static int same_list(waslidhaj_list_changed first, waslidhaj_list_changed second) {
  return first.list.cleared == second.list.cleared && first.list.length == second.list.length &&
         memcmp(first.list.domain, second.list.domain, sizeof first.list.domain) == 0 &&
         same_refusal(first.refusal, second.refusal);
}

static const uint8_t AUTHORS[] = "AU\0\13example.com";
static const uint8_t SETS[] = "ST\0\55ID\0\20\1\1\2s1example.comID\0\25\0\0\0bounce.example.netST\0";

static waslidhaj_text text_of(const void *octets, size_t length) {
  waslidhaj_text text;
  text.octets = (const uint8_t *)octets;
  text.length = length;
  return text;
}

/* A list of one author, and one of two sets. */
static waslidhaj_lists both_lists(void) {
  waslidhaj_lists lists;
  lists.authors = text_of(AUTHORS, sizeof AUTHORS - 1);
  lists.sets = text_of(SETS, sizeof SETS);
  return lists;
}

static waslidhaj_entry passing(void) {
  waslidhaj_entry entry;
  memset(&entry, 0, sizeof entry);
  entry.finding.result = WASLIDHAJ_RESULT_PASS;
  return entry;
}

static waslidhaj_list named(const char *domain, size_t length) {
  return waslidhaj_clear(waslidhaj_new_list(), (const uint8_t *)domain, length, NULL, 0).list;
}

/* Free rows where the output would be. */
static waslidhaj_row *lend_rows(void) {
  waslidhaj_row *rows = (waslidhaj_row *)(void *)(arena + OUT);
  paint();
  memset(rows, 0, ROWS * sizeof *rows);
  return rows;
}

static waslidhaj_list_changed enter_apart(waslidhaj_list list, waslidhaj_entry entry, const uint8_t *domain, size_t length,
                                          size_t rows_length) {
  return waslidhaj_enter_apart(list, entry, domain, length, AUTHORS, sizeof AUTHORS - 1, SETS, sizeof SETS,
                               (waslidhaj_row *)(void *)apart, rows_length);
}

/* A domain shifted against rows: cleared, or entered in a list that is named so. */
static void rows_at(const char *domain, size_t length, waslidhaj_list list, int enters) {
  static uint8_t own[300];
  waslidhaj_row *rows = lend_rows();
  waslidhaj_list_changed first, second;
  const uint8_t *at = place(domain, length, shift);
  memcpy(own, domain, length);
  keep(ROWS * sizeof *rows);
  if (enters) {
    first = enter_apart(list, passing(), own, length, ROWS);
    second = waslidhaj_enter(list, passing(), at, length, both_lists(), rows, ROWS);
  } else {
    first = waslidhaj_clear_apart(list, own, length, (waslidhaj_row *)(void *)apart, ROWS);
    second = waslidhaj_clear(list, at, length, rows, ROWS);
  }
  compare(same_list(first, second), ROWS * sizeof *rows);
}

/* Whether a text so shifted has an octet in common with so many octets of output. */
static int overlaps(waslidhaj_text text, size_t octets) { return shift > -(long)text.length && shift < (long)octets; }

/* The authors or the sets shifted against rows: where they overlap there are no rows, and what is refused before 12 is refused as
 * without an overlap. */
static void lists_at(int of_sets, waslidhaj_list list, waslidhaj_entry entry, unsigned number) {
  static const uint8_t domain[] = "example.com";
  waslidhaj_row *rows = lend_rows();
  waslidhaj_lists lists = both_lists();
  waslidhaj_text *text = of_sets ? &lists.sets : &lists.authors;
  waslidhaj_list_changed first, second;
  int without = overlaps(*text, ROWS * sizeof *rows);
  text->octets = place(text->octets, text->length, shift);
  keep(ROWS * sizeof *rows);
  first = enter_apart(list, entry, domain, 11, without ? 0 : ROWS);
  second = waslidhaj_enter(list, entry, domain, 11, lists, rows, ROWS);
  if (second.refusal.number != (without && number == 0 ? 12u : number))
    differs("another refusal than is due");
  compare(same_list(first, second), ROWS * sizeof *rows);
}

static void lists(void) {
  waslidhaj_list list = named("example.com", 11);
  waslidhaj_entry failing = passing(), past_authors = passing(), past_sets = passing();
  int of_sets;
  failing.finding.result = WASLIDHAJ_RESULT_NONE;
  past_authors.author = 1;
  past_sets.set = 2;
  doing = "a list and the rows";
  for (of_sets = 0; of_sets < 2; of_sets++)
    for (shift = -(long)sizeof SETS - 1; shift <= (long)(ROWS * sizeof(waslidhaj_row)) + 1; shift++) {
      lists_at(of_sets, list, passing(), 0);
      lists_at(of_sets, list, failing, 14);
      lists_at(of_sets, named("example.net", 11), passing(), 27);
      lists_at(of_sets, list, past_authors, 28);
      lists_at(of_sets, list, past_sets, 28);
    }
}

static void rows(void) {
  static char longest[300];
  waslidhaj_list list;
  size_t index;
  for (index = 0; index < sizeof longest; index++)
    longest[index] = index % 2 == 0 ? 'a' : '.';
  list = named(longest, 254);
  doing = "a domain and the rows";
  for (shift = -310; shift <= 400; shift++) {
    rows_at("example.com", 11, waslidhaj_new_list(), 0);
    rows_at("a..b", 4, list, 0);
    for (index = 252; index <= 256; index++) {
      rows_at(longest, index, waslidhaj_new_list(), 0);
      rows_at(longest, index, list, 1);
    }
    rows_at(longest, sizeof longest, list, 0);
    rows_at(longest, sizeof longest, list, 1);
    rows_at("example.com", 11, list, 1);
  }
}

/* ---- Writers ---- */

/* A receiver, a domain and an id, one of them shifted against the output. */
static uint8_t names[3][300];

static void lend_names(const size_t *lengths, const uint8_t **at, int which, size_t out_length) {
  size_t index;
  for (index = 0; index < sizeof names[0]; index++) {
    names[0][index] = index % 2 == 0 ? 'A' : '.';
    names[1][index] = index % 2 == 0 ? 'b' : '.';
    names[2][index] = 'c';
  }
  paint();
  for (index = 0; index < 3; index++)
    at[index] = (int)index == which ? place(names[index], lengths[index], shift) : names[index];
  keep(out_length);
}

static void file_name_at(const size_t *lengths, int which, uint8_t has_id, size_t out_length) {
  const uint8_t *at[3];
  waslidhaj_written first, second;
  lend_names(lengths, at, which, out_length);
  first = waslidhaj_file_name_apart(names[0], lengths[0], names[1], lengths[1], 1, UINT64_MAX, has_id, names[2], lengths[2],
                                    apart, out_length);
  second = waslidhaj_file_name(at[0], lengths[0], at[1], lengths[1], 1, UINT64_MAX, has_id, at[2], lengths[2], arena + OUT,
                               out_length);
  compare(same_written(first, second), out_length);
}

static void subject_at(const size_t *lengths, int which, size_t out_length) {
  const uint8_t *at[3];
  waslidhaj_written first, second;
  lend_names(lengths, at, which, out_length);
  first = waslidhaj_subject_apart(names[0], lengths[0], names[1], lengths[1], names[2], lengths[2], apart, out_length);
  second = waslidhaj_subject(at[0], lengths[0], at[1], lengths[1], at[2], lengths[2], arena + OUT, out_length);
  compare(same_written(first, second), out_length);
}

static void named_texts(void) {
  static const size_t few[] = {11, 13, 5}, most[] = {254, 253, 64}, receiver[] = {255, 253, 64}, domain[] = {253, 255, 64},
                      id[] = {253, 253, 65}, no_id[] = {253, 253, 300};
  int which;
  doing = "a text of a file name or a subject and its output";
  for (which = 0; which < 3; which++)
    for (shift = -320; shift <= 700; shift++) {
      file_name_at(few, which, 1, 60);
      file_name_at(most, which, 1, 620);
      file_name_at(receiver, which, 1, 620);
      file_name_at(domain, which, 1, 620);
      file_name_at(id, which, 1, 20);
      file_name_at(no_id, which, 0, 620);
      subject_at(few, which, 70);
      subject_at(few, which, 69);
      subject_at(most, which, WASLIDHAJ_SUBJECT_OCTETS);
      subject_at(receiver, which, 620);
      subject_at(domain, which, 620);
      subject_at(id, which, 620);
    }
}

static void record_at(const uint8_t *rua, size_t length, uint8_t p, size_t out_length) {
  static uint8_t own[4200];
  waslidhaj_settings settings = {0, 2, 1, 1, 1, 1, 1};
  waslidhaj_written first, second;
  const uint8_t *at;
  settings.p = p;
  memcpy(own, rua, length);
  paint();
  at = place(rua, length, shift);
  keep(out_length);
  first = waslidhaj_write_record_apart(settings, own, length, apart, out_length);
  second = waslidhaj_write_record(settings, at, length, arena + OUT, out_length);
  compare(same_written(first, second), out_length);
}

static void records(void) {
  static uint8_t longest[4100];
  doing = "a rua text and its output";
  memset(longest, 'a', sizeof longest);
  memcpy(longest, "mailto:", 7);
  for (shift = -FAR; shift <= FAR; shift++) {
    record_at((const uint8_t *)"mailto:a@example.com,mailto:b@example.com", 41, 2, 200);
    if (shift % 37 == 0) {
      record_at(longest, 4096, 2, 4300);
      record_at(longest, 4096, 2, 4100);
      record_at(longest, 4097, 2, 4300);
      record_at(longest, 4097, 9, 4300);
      record_at((const uint8_t *)"mailto:a@example.com;", 21, 2, 20);
    }
  }
}

/* ---- Reports ---- */

static const waslidhaj_settings SETTINGS = {2, 3, 3, 0, 0, 0, 0};

static waslidhaj_reporter reporting(void) {
  waslidhaj_reporter reporter;
  reporter.organization = text_of("Gate & Sons", 11);
  reporter.email = text_of("dmarc@gate.example", 18);
  reporter.contact = text_of("https://gate.example/dmarc", 26);
  reporter.id = text_of("r7", 2);
  reporter.begin = 1700000000;
  reporter.end = 1700086399;
  return reporter;
}

static waslidhaj_row counted(void) {
  waslidhaj_row row;
  memset(&row, 0, sizeof row);
  row.count = 5;
  row.seen.dkim = 255;
  row.seen.spare = 9;
  return row;
}

static waslidhaj_written report_apart(const waslidhaj_row *rows, size_t rows_length, waslidhaj_reporter reporter,
                                      size_t out_length) {
  return waslidhaj_report_apart(named("example.com", 11), waslidhaj_gather(rows, rows_length), SETTINGS, AUTHORS,
                                sizeof AUTHORS - 1, SETS, sizeof SETS, reporter.organization.octets,
                                reporter.organization.length, reporter.email.octets, reporter.email.length,
                                reporter.contact.octets, reporter.contact.length, reporter.id.octets, reporter.id.length,
                                reporter.begin, reporter.end, apart, out_length);
}

/* A list or a text of a report shifted against its output: where they overlap, there is no output, and what is refused before 10
 * is refused as without an overlap. */
static void report_at(int which, waslidhaj_reporter reporter, size_t out_length, unsigned number) {
  waslidhaj_row row = counted();
  waslidhaj_lists lists = both_lists();
  waslidhaj_text *texts[] = {&lists.authors,  &lists.sets,       &reporter.organization,
                             &reporter.email, &reporter.contact, &reporter.id};
  waslidhaj_text *text = texts[which];
  waslidhaj_written first, second;
  int without = overlaps(*text, out_length);
  const uint8_t *at;
  paint();
  at = place(text->octets, text->length, shift);
  keep(out_length);
  first = report_apart(&row, 1, reporter, without ? 0 : out_length);
  text->octets = at;
  second = waslidhaj_report(named("example.com", 11), &row, 1, SETTINGS, lists, reporter, arena + OUT, out_length);
  if (second.refusal.number != (without && number == 0 ? 10u : number))
    differs("another refusal than is due");
  compare(same_written(first, second), out_length);
}

/* Rows that lie in the output, which is written over them. */
static void report_over_rows(size_t rows_length, size_t out_length) {
  waslidhaj_row rows[ROWS];
  waslidhaj_written first, second;
  size_t index;
  uint8_t *at;
  for (index = 0; index < ROWS; index++) {
    rows[index] = counted();
    rows[index].seen.source[15] = (uint8_t)index;
  }
  paint();
  at = place(rows, sizeof rows, shift);
  keep(out_length);
  first = report_apart(rows, rows_length, reporting(), out_length);
  second = waslidhaj_report(named("example.com", 11), (waslidhaj_row *)(void *)at, rows_length, SETTINGS, both_lists(),
                            reporting(), arena + OUT, out_length);
  if (second.refusal.number != (out_length < FAR ? 10 : 0))
    differs("another refusal than is due");
  compare(same_written(first, second), out_length);
}

static void reports(void) {
  static uint8_t longest[4097];
  waslidhaj_row row = counted();
  waslidhaj_reporter long_contact = reporting(), too_long = reporting(), no_id = reporting();
  size_t needed = report_apart(&row, 1, reporting(), 0).refusal.place;
  int which;
  memset(longest, '&', sizeof longest);
  long_contact.contact = text_of(longest, 4096);
  too_long.contact = text_of(longest, 4097);
  no_id.id.length = 0;
  doing = "a list or a text of a report and its output";
  for (which = 0; which < 6; which++)
    for (shift = -(long)sizeof SETS - 1; shift <= (long)needed + 1; shift++) {
      report_at(which, reporting(), needed, 0);
      report_at(which, reporting(), needed - 1, 10);
      report_at(which, no_id, needed, 11);
    }
  for (shift = -FAR; shift <= FAR; shift += 7) {
    report_at(4, long_contact, 4100, 10);
    report_at(4, too_long, 4100, 19);
  }
  doing = "the rows of a report and its output";
  for (shift = -FAR / 32 * 32; shift <= 2 * FAR; shift += 4) {
    report_over_rows(1, 100);
    report_over_rows(ROWS, 2 * FAR);
  }
}

/* ---- Checks ---- */

static waslidhaj_check_given started(waslidhaj_check *check, const void *policy, size_t policy_length, const char *entry) {
  return waslidhaj_check_start(check, (const uint8_t *)policy, policy_length, (const uint8_t *)entry, strlen(entry));
}

/* The name that a check asks: its first, or the confirming one, no other having a record. */
static subject of_check(waslidhaj_check *check, int confirming) {
  static uint8_t name[WASLIDHAJ_CHECK_NAME_OCTETS];
  subject of = {NULL, NULL, NULL, 0, WASLIDHAJ_CHECK_NAME_OCTETS};
  int turns = WASLIDHAJ_CHECK_NAMES;
  waslidhaj_check_given given;
  of.check = check;
  of.name = name;
  do {
    given = waslidhaj_check_next(check);
    of.name_length = waslidhaj_check_name(check, given.walk, given.place, name, sizeof name).length;
    if (given.kind != WASLIDHAJ_ASK || turns-- == 0)
      differs("no name is asked");
    if (!confirming || given.walk == 2)
      return of;
    given = waslidhaj_check_answer(check, name, of.name_length, WASLIDHAJ_NO_RECORDS, NULL, 0, arena, 4096);
  } while (given.kind == WASLIDHAJ_ACCEPTED);
  differs("an answer is refused");
  return of;
}

/* Every answer, and the longest names: 253 octets, and 522 of a check that no call gave. */
static void check_answers(void) {
  char policy[118], entry[9 + 119 + 1];
  waslidhaj_check check;
  size_t index;
  memset(&check, 0, sizeof check);
  started(&check, "a.test", 6, "mailto:x@example.com");
  answers(of_check(&check, 0));
  answers(of_check(&check, 1));
  for (index = 0; index < sizeof policy; index++)
    policy[index] = index % 2 == 0 || index == sizeof policy - 1 ? 'a' : '.';
  for (index = 0; index < sizeof entry - 1; index++)
    entry[index] = index % 2 == 0 ? '.' : 'b';
  memcpy(entry, "mailto:x@", 9);
  entry[index] = 0;
  started(&check, policy, sizeof policy, entry);
  long_name_at(of_check(&check, 1), WASLIDHAJ_DOMAIN_OCTETS);
  memset(check.domains, 'c', sizeof check.domains);
  check.numbers[0] = check.numbers[1] = WASLIDHAJ_DOMAIN_OCTETS;
  long_name_at(of_check(&check, 1), WASLIDHAJ_CHECK_NAME_OCTETS);
}

/* Whether the arena is as before, but for a scratch as it is apart, and the check that lies over it. */
static void compare_check(const waslidhaj_check *first, const waslidhaj_check *check, size_t scratch_length) {
  compared++;
  if (!same_check(first, check))
    differs("another check is left");
  memcpy(before + OUT, apart, scratch_length);
  memcpy(before + OUT + shift, check, sizeof *check);
  if (memcmp(arena, before, sizeof arena) != 0)
    differs("memory beside the check is written");
}

/* A check that lies in the scratch, or a text that lies in the check, is read as it was handed over; the check is written last. */
static void check_at(const waslidhaj_check *from, subject of) {
  static const char *const record[] = {"v=DMARC1; rua=mailto:a@example.com", NULL};
  static uint8_t bytes[64];
  waslidhaj_check *check = (waslidhaj_check *)(void *)(arena + OUT + shift);
  waslidhaj_check_called first;
  waslidhaj_check_given given;
  size_t length = put_record(bytes, 0, record), free_octet = offsetof(waslidhaj_check, domains) + 60, size;
  for (size = 4095; size <= 4096; size++) {
    paint();
    memcpy(check, from, sizeof *check);
    memcpy((uint8_t *)check + free_octet, of.name, of.name_length); /* past the end of the policy domain */
    keep(size);
    first = waslidhaj_check_answer_by_value(*check, (const uint8_t *)of.name, of.name_length, WASLIDHAJ_RECORDS, bytes, length,
                                            apart, size);
    given = waslidhaj_check_answer(check, (uint8_t *)check + free_octet, of.name_length, WASLIDHAJ_RECORDS, bytes, length,
                                   arena + OUT, size);
    if (!same_check_given(first.given, given) || (given.kind == WASLIDHAJ_ACCEPTED) != (size == 4096))
      differs("another thing is given");
    compare_check(&first.check, check, size);
  }
}

/* A policy domain and an entry in any octets of the check that is started over them. */
static void start_at(size_t on) {
  static const char text[] = "b.testmailto:x@c.test";
  waslidhaj_check *check = (waslidhaj_check *)(void *)(arena + OUT);
  waslidhaj_check_called first;
  waslidhaj_check_given given;
  paint();
  place(text, sizeof text - 1, (long)on);
  keep(0);
  first = waslidhaj_check_start_by_value(*check, (const uint8_t *)text, 6, (const uint8_t *)text + 6, 15);
  given = waslidhaj_check_start(check, (uint8_t *)check + on, 6, (uint8_t *)check + on + 6, 15);
  if (!same_check_given(first.given, given) || given.kind != WASLIDHAJ_ACCEPTED)
    differs("another thing is given");
  compare_check(&first.check, check, 0);
}

/* A name that is written over its own check. */
static void name_at(const waslidhaj_check *from, subject of, size_t on) {
  waslidhaj_check *check = (waslidhaj_check *)(void *)arena;
  waslidhaj_written written;
  memcpy(check, from, sizeof *check);
  written = waslidhaj_check_name(check, 2, 0, arena + on, of.name_length);
  compared++;
  if (written.length != of.name_length || memcmp(arena + on, of.name, of.name_length) != 0)
    differs("another name is written");
}

static void checks(void) {
  waslidhaj_check check;
  subject of;
  size_t on;
  memset(&check, 0, sizeof check);
  started(&check, "a.test", 6, "mailto:x@example.com");
  of = of_check(&check, 1);
  doing = "a check and the scratch";
  for (shift = -FAR / 8 * 8; shift <= FAR; shift += 8)
    check_at(&check, of);
  doing = "a text and its check";
  shift = 0;
  for (on = 0; on + 21 <= sizeof check; on++)
    start_at(on);
  for (on = 0; on <= sizeof check; on++)
    name_at(&check, of, on);
}

/* ---- Readers ---- */

static int same_read(waslidhaj_read_given first, waslidhaj_read_given second) {
  return first.event == second.event && first.used == second.used && first.count == second.count &&
         same_refusal(first.refusal, second.refusal);
}

/* A part of the front of a report, over a started reader or beside it: over it, nothing is read and nothing changes. */
static void part_at(const uint8_t *text, size_t length) {
  static waslidhaj_reader fresh;
  waslidhaj_read_given first = {WASLIDHAJ_READ_REFUSED, 0, {10, 0}, 0}, second;
  const uint8_t *part;
  waslidhaj_read_start(&fresh);
  paint();
  place(&fresh, sizeof fresh, 0);
  part = place(text, length, shift);
  keep(sizeof fresh);
  if (length == 0 || !overlaps(text_of(text, length), sizeof fresh))
    first = waslidhaj_read((waslidhaj_reader *)apart, text, length);
  second = waslidhaj_read((waslidhaj_reader *)(arena + OUT), part, length);
  compare(same_read(first, second), sizeof fresh);
}

static void readers(void) {
  static const char front[] = "<?xml version=\"1.0\" encoding=\"UTF-8\"?><feedback xmlns=\"urn:ietf:params:xml:ns:dmarc-2.0\">";
  doing = "a part of a report and its reader";
  for (shift = -200; shift <= (long)sizeof(waslidhaj_reader) + 50; shift++) {
    part_at((const uint8_t *)front, sizeof front - 1);
    part_at((const uint8_t *)front, 1);
    part_at((const uint8_t *)front, 0);
  }
}

/* Of a reader. */
static void no_part_lent(void) {
  static waslidhaj_reader reader;
  waslidhaj_read_start(&reader);
  doing = "NULL and length 0";
  shift = 0;
  compared++;
  if (waslidhaj_read(&reader, NULL, 0).event != WASLIDHAJ_READ_MORE)
    differs("another thing is given");
}

/* ---- NULL, ranges, an opening over a used state ---- */

static void nothing_lent(void) {
  static const uint8_t none[1] = {0};
  static uint8_t out[1];
  static waslidhaj_row row;
  waslidhaj_called first, second;
  waslidhaj_state state = asked();
  waslidhaj_list list = waslidhaj_new_list();
  waslidhaj_check check;
  int same = 1;
  memset(&check, 0, sizeof check);
  doing = "NULL and length 0";
  shift = 0;
  first = waslidhaj_open(state, NULL, 0, 1, 1);
  second = waslidhaj_open(state, none, 0, 1, 1);
  same &= same_given(first.given, second.given) && first.given.refusal.number == 1;
  first = waslidhaj_open(state, (const uint8_t *)"example.com", 11, 1, 1);
  second = waslidhaj_add(first.state, 1, 1, none, 0);
  first = waslidhaj_add(first.state, 1, 1, NULL, 0);
  same &= same_given(first.given, second.given) && first.given.refusal.number == 2;
  first = waslidhaj_answer(state, NULL, 0, 0, NULL, 0, NULL, 0);
  same &= first.given.refusal.number == 5;
  first = waslidhaj_answer(state, (const uint8_t *)NAME, 18, 0, NULL, 0, NULL, 0);
  same &= first.given.refusal.number == 10;
  first = waslidhaj_answer(state, (const uint8_t *)NAME, 18, 0, NULL, 0, arena, 4096);
  same &= first.given.kind == WASLIDHAJ_ACCEPTED;
  same &= waslidhaj_name(state, 0, 0, NULL, 0).refusal.place == 18;
  same &= waslidhaj_domain(state, 0, NULL, 0).refusal.place == 11;
  same &= waslidhaj_field(state, NULL, 0).refusal.number == 7;
  same &= waslidhaj_run(NULL, 0, NULL, 0) == waslidhaj_run(none, 0, out, 0);
  same &= waslidhaj_clear(list, NULL, 0, NULL, 0).refusal.number == 11;
  same &= waslidhaj_clear(list, (const uint8_t *)"a", 1, NULL, 0).refusal.number == 0;
  list = waslidhaj_clear(list, (const uint8_t *)"a", 1, &row, 0).list;
  same &= waslidhaj_enter(list, passing(), NULL, 0, both_lists(), NULL, 0).refusal.number == 27;
  same &= waslidhaj_enter(list, passing(), (const uint8_t *)"a", 1, both_lists(), NULL, 0).refusal.number == 12;
  same &= waslidhaj_file_name(NULL, 0, NULL, 0, 0, 0, 1, NULL, 0, NULL, 0).refusal.number == 11;
  same &= waslidhaj_file_name((const uint8_t *)"a", 1, (const uint8_t *)"b", 1, 0, 0, 0, NULL, 0, NULL, 0).refusal.place == 11;
  same &= waslidhaj_write_record(SETTINGS, NULL, 0, NULL, 0).refusal.place == 18;
  same &= waslidhaj_write_record(SETTINGS, NULL, 0, arena, 18).length == 18;
  same &= waslidhaj_read_record(NULL, 0).is_record == 0;
  same &= waslidhaj_check_start(&check, NULL, 0, NULL, 0).refusal.number == 11;
  same &= waslidhaj_check_start(&check, (const uint8_t *)"a", 1, NULL, 0).refusal.number == 23;
  same &= started(&check, "a", 1, "mailto:x@b").kind == WASLIDHAJ_ACCEPTED;
  same &= waslidhaj_check_next(&check).kind == WASLIDHAJ_ASK;
  same &= waslidhaj_check_answer(&check, NULL, 0, 0, NULL, 0, NULL, 0).refusal.number == 5;
  same &= waslidhaj_check_answer(&check, (const uint8_t *)"_dmarc.a", 8, 0, NULL, 0, NULL, 0).refusal.number == 10;
  same &= waslidhaj_check_answer(&check, (const uint8_t *)"_dmarc.a", 8, 0, NULL, 0, arena, 4096).kind == WASLIDHAJ_ACCEPTED;
  same &= waslidhaj_check_name(&check, 0, 0, NULL, 0).refusal.place == 8;
  compared += 28;
  if (!same)
    differs("another thing is given");
}

/* The same of a list, of a report and of its subject. */
static void no_report_lent(void) {
  waslidhaj_row row = counted();
  waslidhaj_list list = named("example.com", 11);
  waslidhaj_lists lists = both_lists(), no_lists;
  waslidhaj_reporter reporter;
  int same = 1;
  memset(&no_lists, 0, sizeof no_lists);
  memset(&reporter, 0, sizeof reporter);
  same &= waslidhaj_enter(list, passing(), (const uint8_t *)"example.com", 11, no_lists, &row, 1).refusal.number == 28;
  same &= waslidhaj_report(waslidhaj_new_list(), NULL, 0, SETTINGS, no_lists, reporter, NULL, 0).refusal.number == 27;
  same &= waslidhaj_report(list, NULL, 0, SETTINGS, no_lists, reporter, NULL, 0).refusal.number == 18;
  same &= waslidhaj_report(list, &row, 1, SETTINGS, no_lists, reporter, NULL, 0).refusal.number == 28;
  same &= waslidhaj_report(list, &row, 1, SETTINGS, lists, reporter, NULL, 0).refusal.number == 19;
  same &= waslidhaj_report(list, &row, 1, SETTINGS, lists, reporting(), NULL, 0).refusal.number == 10;
  same &= waslidhaj_subject(NULL, 0, NULL, 0, NULL, 0, NULL, 0).refusal.number == 11;
  same &= waslidhaj_subject(AUTHORS, 1, AUTHORS, 1, AUTHORS, 1, NULL, 0).refusal.place == 44;
  compared += 8;
  if (!same)
    differs("another thing is given for a report");
}

static void ranges(void) {
  const uint8_t *high = (const uint8_t *)(UINTPTR_MAX - 9);
  int right = 1;
  doing = "two ranges";
  shift = 0;
  right &= !waslidhaj_overlap(arena, 10, arena + 10, 10) && !waslidhaj_overlap(arena + 10, 10, arena, 10);
  right &= waslidhaj_overlap(arena, 11, arena + 10, 10) && waslidhaj_overlap(arena + 9, 10, arena, 10);
  right &= waslidhaj_overlap(arena, 30, arena + 10, 10) && waslidhaj_overlap(arena + 10, 10, arena, 30);
  right &= waslidhaj_overlap(arena, 1, arena, 1);
  right &= !waslidhaj_overlap(arena, 0, arena, 10) && !waslidhaj_overlap(arena + 5, 0, arena, 10);
  right &= !waslidhaj_overlap(arena, 10, arena, 0) && !waslidhaj_overlap(NULL, 0, NULL, 0);
  right &= waslidhaj_overlap(arena, SIZE_MAX, arena + 10, 10) && waslidhaj_overlap(arena + 10, 10, arena, SIZE_MAX);
  right &= waslidhaj_overlap(high, 10, high + 9, SIZE_MAX) && !waslidhaj_overlap(high, SIZE_MAX, arena, 10);
  right &= waslidhaj_overlap_rows(arena + 63, 1, (const waslidhaj_row *)(const void *)arena, 2);
  right &= !waslidhaj_overlap_rows(arena + 64, 1, (const waslidhaj_row *)(const void *)arena, 2);
  right &= waslidhaj_overlap_rows(arena + 64, 1, (const waslidhaj_row *)(const void *)arena, SIZE_MAX / 32 + 2);
  compared += 11;
  if (!right)
    differs("the ranges are told apart wrongly");
}

static waslidhaj_called answered(waslidhaj_called called, const char *name, const char *record) {
  static const uint8_t bytes[] = "TX\0\23\22v=DMARC1; p=reject";
  return waslidhaj_answer(called.state, (const uint8_t *)name, strlen(name),
                          record != NULL ? WASLIDHAJ_RECORDS : WASLIDHAJ_NO_RECORDS, bytes, sizeof bytes - 1, arena, 4096);
}

static int none_stored(waslidhaj_called called) {
  static const uint16_t nothing[17] = {0};
  return memcmp(called.state.stored, nothing, sizeof nothing) == 0;
}

/* After an opening over a used state nothing of the earlier message is stored. */
static void opened_again(void) {
  waslidhaj_called called;
  memset(&called, 0, sizeof called);
  doing = "an opening over a used state";
  shift = 0;
  called = waslidhaj_open(called.state, (const uint8_t *)"news.example.com", 16, 1, 1);
  called = waslidhaj_add(called.state, 1, 1, (const uint8_t *)"mail.example.com", 16);
  if (!none_stored(called))
    differs("something is stored before the first step");
  called = answered(waslidhaj_next(called.state), "_dmarc.news.example.com", NULL);
  called = answered(waslidhaj_next(called.state), "_dmarc.example.com", "v=DMARC1; p=reject");
  called = answered(waslidhaj_next(called.state), "_dmarc.com", NULL);
  called = answered(waslidhaj_next(called.state), "_dmarc.mail.example.com", NULL);
  called = waslidhaj_next(called.state);
  if (called.given.kind != WASLIDHAJ_VERDICT || called.state.stored[0] == 0 || called.state.stored[1] == 0)
    differs("nothing is stored at the verdict");
  called = waslidhaj_open(called.state, (const uint8_t *)"a.test", 6, 1, 1);
  if (called.given.kind != WASLIDHAJ_ACCEPTED || !none_stored(called))
    differs("something of the earlier message is stored");
  called = waslidhaj_add(called.state, 1, 1, (const uint8_t *)"b.test", 6);
  if (!none_stored(called))
    differs("something of the earlier message is stored after an adding");
  called = waslidhaj_next(called.state);
  if (called.given.kind != WASLIDHAJ_ASK || !none_stored(called))
    differs("something is stored while the author's walk is open");
  compared += 4;
}

int main(void) {
  waslidhaj_state state = asked();
  ranges();
  answers(of_state(&state));
  long_names();
  verdicts();
  sheets();
  rows();
  lists();
  named_texts();
  records();
  reports();
  check_answers();
  checks();
  nothing_lent();
  no_report_lent();
  opened_again();
  printf("%zu calls, all the same\n", compared);
  compared = 0;
  readers();
  no_part_lent();
  printf("%zu calls with readers, all the same\n", compared);
  return 0;
}
