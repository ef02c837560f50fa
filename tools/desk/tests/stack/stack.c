/* stack: the stack that each call needs, on hostile input.
 *
 *   stack measure        prints, for each call, the octets of stack that it needed; an `overlapping` line is of lent memory that
 *                        overlaps
 *   stack small OCTETS   makes every call on a thread of so many octets, but waslidhaj_run of memory that overlaps
 *   stack whole OCTETS   makes every call, likewise */
#define _DEFAULT_SOURCE 1

#include <pthread.h>
#include <stdio.h>
#include <stdlib.h>
#include <string.h>

#include "waslidhaj.h"

enum { STATES = 800, CHECKS = 400, STACK = 512 * 1024, PAINT = 0xa5, SHEET = 65536 };

/* ---- Input ---- */

typedef struct {
  uint8_t octets[SHEET + 1];
  size_t length;
} text;

/* A state, and the name that it asks. */
typedef struct {
  waslidhaj_state state;
  size_t walk, place;
  uint8_t name[WASLIDHAJ_NAME_OCTETS];
  size_t name_length;
} stage;

/* A check, likewise. */
typedef struct {
  waslidhaj_check check;
  size_t walk, place;
  uint8_t name[WASLIDHAJ_CHECK_NAME_OCTETS];
  size_t name_length;
} check_stage;

/* The domains of a check that asks as many names as any can. */
#define POLICY "a.b.c.d.e.f.g.h.one"
#define HOST "a.b.c.d.e.f.g.h.two"

static stage stages[STATES];
static size_t stage_count;
static check_stage checks[CHECKS];
static size_t check_count;
static text answers[12], policies[11], sheets[8], entries[3];
static text domain_longest, rua_longest, reporter_longest;
static text authors[3], sets[4];

static uint64_t seed = 1;

static uint8_t random_octet(void) {
  seed = seed * 6364136223846793005u + 1442695040888963407u;
  return (uint8_t)(seed >> 56);
}

static void put(text *to, const void *from, size_t length) {
  if (to->length + length > sizeof to->octets)
    abort();
  if (length > 0)
    memcpy(to->octets + to->length, from, length);
  to->length += length;
}

static void put_text(text *to, const char *from) { put(to, from, strlen(from)); }

/* A mark, a length and a body. */
static void put_record(text *to, const char *mark, const uint8_t *body, size_t length) {
  uint8_t head[4] = {(uint8_t)mark[0], (uint8_t)mark[1], (uint8_t)(length >> 8), (uint8_t)(length & 255)};
  put(to, head, sizeof head);
  put(to, body, length);
}

/* An answer of one TXT record with a text in strings of 255 octets. */
static void put_answer(text *to, const text *from) {
  static text rdata;
  size_t at = 0;
  rdata.length = 0;
  do {
    size_t length = from->length - at < 255 ? from->length - at : 255;
    uint8_t octet = (uint8_t)length;
    put(&rdata, &octet, 1);
    put(&rdata, from->octets + at, length);
    at += length;
  } while (at < from->length);
  put_record(to, "TX", rdata.octets, rdata.length);
}

/* Policy texts of up to 4,000 octets. */
static void make_policies(void) {
  char part[64];
  int index;
  for (index = 0; policies[0].length < 3990; index++) { /* unknown tags by the hundred, each of another name */
    sprintf(part, "%s%c%c%c=1", index == 0 ? "v=DMARC1;p=none;" : ";", 'a' + index / 676, 'a' + index / 26 % 26, 'a' + index % 26);
    put_text(&policies[0], part);
  }
  put_text(&policies[1], "v=DMARC1;p=none");
  while (policies[1].length < 3990)
    put_text(&policies[1], ";x=1");
  put_text(&policies[2], "v=DMARC1; p=reject; rua=a:b");
  while (policies[2].length < 3990)
    put_text(&policies[2], ",a:b");
  put_text(&policies[3], "v=DMARC1; p=reject; rua=mailto:");
  while (policies[3].length < 4000)
    put_text(&policies[3], "%41");
  put_text(&policies[4], "v=DMARC1; p=bad; sp=bad; np=bad; ");
  while (policies[4].length < 4000)
    put_text(&policies[4], ";");
  put_text(&policies[5], "v=DMARC1; p=reject; ");
  while (policies[5].length < 4000)
    put_text(&policies[5], "a");
  put_text(&policies[6], "v=DMARC1; p=reject; sp=quarantine; np=none; adkim=s; aspf=s; psd=n; t=y; rua=mailto:a@example.com");
  while (policies[7].length < 65000) /* longer than any answer */
    put(&policies[7], policies[7].length == 0 ? "v=DMARC1;" : "b=xy;    ", 9);
  put_text(&policies[8], "v=DMARC1; rua=mailto:a@" HOST);
  while (policies[8].length < 3960)
    put_text(&policies[8], ",mailto:a@" HOST);
  put_text(&policies[9], "v=DMARC1; rua=");
  while (policies[9].length < 4000)
    put_text(&policies[9], ",");
  put_text(&policies[10], "v=DMARC1; rua=mailto:");
  while (policies[10].length < 3960)
    put_text(&policies[10], "@");
  put_text(&policies[10], "a@" HOST);
}

static void make_answers(void) {
  static uint8_t empty[4092];
  int index;
  put_record(&answers[0], "TX", empty, sizeof empty); /* 4,092 empty character-strings */
  for (index = 0; index < 16; index++)
    put_answer(&answers[1], &policies[6]);
  for (index = 0; index < 6; index++)
    put_answer(&answers[2 + index], &policies[index]);
  for (index = 0; index < 16; index++)
    put_record(&answers[8], "TX", empty, 1);
  for (index = 0; index < 3; index++)
    put_answer(&answers[9 + index], &policies[8 + index]);
}

/* A domain of thirteen labels and 245 octets, another for each index: a walk from it asks eight names. */
static void make_domain(uint8_t *to, int index) {
  memset(to, 'a', 245);
  to[56] = to[113] = to[170] = '.';
  for (int at = 227; at < 245; at += 2)
    to[at] = '.';
  to[244] = (uint8_t)('a' + index);
}

static void keep_stage(waslidhaj_called called) {
  stage *to = &stages[stage_count];
  if (stage_count == STATES)
    return;
  stage_count++;
  to->state = called.state;
  to->walk = called.given.walk;
  to->place = called.given.place;
  to->name_length = waslidhaj_name(to->state, to->walk, to->place, to->name, sizeof to->name).length;
}

static void put_author(text *to, const char *mark, int index) {
  uint8_t body[247] = {1, 1};
  make_domain(body + 2, index);
  put_record(to, mark, body, sizeof body);
}

static void put_answered(text *to, const uint8_t *name, size_t length, const text *bytes) {
  static text body;
  uint8_t head[2] = {bytes != NULL ? WASLIDHAJ_RECORDS : WASLIDHAJ_NO_RECORDS, (uint8_t)length};
  body.length = 0;
  put(&body, head, sizeof head);
  put(&body, name, length);
  if (bytes != NULL)
    put(&body, bytes->octets, bytes->length);
  put_record(to, "AN", body.octets, body.length);
}

/* A message of sixteen identifiers, each with a walk of eight names: every state on its way is kept, and its sheet is made. The
 * author's own name gets one answer, every other name another. */
static void run_message(const text *own, const text *other, text *sheet) {
  static uint8_t scratch[WASLIDHAJ_SCRATCH_OCTETS];
  static waslidhaj_called called;
  uint8_t domain[245];
  memset(&called, 0, sizeof called);
  keep_stage(called);
  make_domain(domain, 0);
  put_author(sheet, "AU", 0);
  called = waslidhaj_open(called.state, domain, sizeof domain, WASLIDHAJ_EXISTS, 1);
  for (int index = 1; index <= 16; index++) {
    make_domain(domain, index);
    put_author(sheet, "ID", index);
    called = waslidhaj_add(called.state, WASLIDHAJ_DKIM, WASLIDHAJ_PASSING, domain, sizeof domain);
    keep_stage(called);
  }
  for (int turn = 0; turn <= WASLIDHAJ_NAMES; turn++) {
    const stage *last = &stages[stage_count];
    const text *bytes = turn == 0 ? own : other;
    called = waslidhaj_next(called.state);
    keep_stage(called);
    if (called.given.kind != WASLIDHAJ_ASK)
      break;
    put_answered(sheet, last->name, last->name_length, bytes);
    called = waslidhaj_answer(called.state, last->name, last->name_length,
                              bytes != NULL ? WASLIDHAJ_RECORDS : WASLIDHAJ_NO_RECORDS, bytes != NULL ? bytes->octets : NULL,
                              bytes != NULL ? bytes->length : 0, scratch, sizeof scratch);
    if (called.given.kind != WASLIDHAJ_ACCEPTED)
      abort();
  }
  if (called.given.kind != WASLIDHAJ_VERDICT || called.given.verdict.count != WASLIDHAJ_NAMES)
    abort();
}

/* The states and sheets of whole messages; then states of random octets, and states with some octets changed. */
static void make_states(void) {
  static text plain, record, many;
  size_t made;
  put_text(&plain, "v=DMARC1; p=reject; rua=mailto:a@example.com");
  put_answer(&record, &plain);
  plain.length = 0;
  memset(plain.octets, 0, 180);
  put_record(&many, "TX", plain.octets, 180); /* 180 empty character-strings */
  run_message(&record, &many, &sheets[1]);
  run_message(&answers[2], NULL, &sheets[2]);
  run_message(&answers[5], NULL, &sheets[3]);
  made = stage_count;
  while (stage_count < STATES) {
    stage *to = &stages[stage_count++];
    size_t changes = stage_count % 2 == 0 ? 5 : sizeof to->state;
    *to = stages[stage_count % made];
    while (changes-- > 0) {
      size_t at = changes < 5 ? ((size_t)random_octet() << 8 | random_octet()) % sizeof to->state : changes;
      ((uint8_t *)&to->state)[at] = random_octet();
    }
    to->walk = random_octet() % 20;
    to->place = random_octet();
    to->name_length = waslidhaj_name(to->state, to->walk, to->place, to->name, sizeof to->name).length;
  }
}

static void keep_check(const waslidhaj_check *check, waslidhaj_check_given given) {
  check_stage *to = &checks[check_count];
  if (check_count == CHECKS)
    abort();
  check_count++;
  to->check = *check;
  to->walk = given.walk;
  to->place = given.place;
  to->name_length = waslidhaj_check_name(check, to->walk, to->place, to->name, sizeof to->name).length;
}

/* A check of an entry, none of whose names has a record: every check on its way is kept. */
static void run_check(const char *entry, size_t names) {
  static uint8_t scratch[WASLIDHAJ_SCRATCH_OCTETS];
  waslidhaj_check check;
  waslidhaj_check_given given;
  memset(&check, 0, sizeof check);
  given = waslidhaj_check_start(&check, (const uint8_t *)POLICY, strlen(POLICY), (const uint8_t *)entry, strlen(entry));
  keep_check(&check, given);
  for (given = waslidhaj_check_next(&check); given.kind == WASLIDHAJ_ASK; given = waslidhaj_check_next(&check)) {
    const check_stage *last = &checks[check_count];
    keep_check(&check, given);
    given = waslidhaj_check_answer(&check, last->name, last->name_length, WASLIDHAJ_NO_RECORDS, NULL, 0, scratch,
                                   sizeof scratch);
    keep_check(&check, given);
  }
  if (given.kind != WASLIDHAJ_OUTCOME || given.count != names)
    abort();
  keep_check(&check, given);
}

/* The checks of whole runs; then checks of random octets, and checks with some octets changed. */
static void make_checks(void) {
  size_t made;
  run_check("mailto:a@" HOST, WASLIDHAJ_CHECK_NAMES);
  run_check("mailto:a@" POLICY, 0);
  made = check_count;
  while (check_count < CHECKS) {
    waslidhaj_check check = checks[check_count % made].check;
    waslidhaj_check_given given;
    size_t changes = check_count % 2 == 0 ? 5 : sizeof check;
    while (changes-- > 0) {
      size_t at = changes < 5 ? ((size_t)random_octet() << 8 | random_octet()) % sizeof check : changes;
      ((uint8_t *)&check)[at] = random_octet();
    }
    memset(&given, 0, sizeof given);
    given.walk = random_octet() % 3;
    given.place = random_octet();
    keep_check(&check, given);
  }
}

/* The other sheets: answers by the thousand, the hostile record alone, random octets, one octet too many, none. */
static void make_sheets(void) {
  static const char digits[] = "abcdefghijklmnopqrstuvwxyz0123456789";
  uint8_t name[3];
  put_record(&sheets[0], "AU", (const uint8_t *)"\1\1a", 3);
  for (int index = 0; sheets[0].length + 9 <= SHEET; index++) {
    name[0] = (uint8_t)digits[index / 1296];
    name[1] = (uint8_t)digits[index / 36 % 36];
    name[2] = (uint8_t)digits[index % 36];
    put_answered(&sheets[0], name, sizeof name, NULL);
  }
  put_record(&sheets[4], "AU", (const uint8_t *)"\1\1a", 3);
  put_answered(&sheets[4], (const uint8_t *)"_dmarc.a", 8, &answers[0]);
  while (sheets[5].length < SHEET) {
    uint8_t octet = random_octet();
    put(&sheets[5], &octet, 1);
  }
  put(&sheets[6], sheets[1].octets, sheets[1].length);
  while (sheets[6].length <= SHEET)
    put_text(&sheets[6], "A");
}

static void make_texts(void) {
  uint8_t domain[WASLIDHAJ_DOMAIN_OCTETS + 1];
  memset(domain, 'a', sizeof domain);
  for (size_t at = 1; at < sizeof domain; at += 2)
    domain[at] = '.';
  put(&domain_longest, domain, sizeof domain);
  put_text(&rua_longest, "a:b");
  while (rua_longest.length < WASLIDHAJ_SCRATCH_OCTETS - 4)
    put_text(&rua_longest, ",a:b");
  put_text(&entries[0], "mailto:a@");
  put(&entries[0], domain, sizeof domain);
  put_text(&entries[1], "mailto:");
  put_text(&entries[2], " mailto:");
  while (entries[2].length < 30000) {
    put_text(&entries[1], "@");
    put_text(&entries[2], "%41");
  }
  put_text(&entries[1], "a");
  put_text(&entries[2], "@a ");
}

static waslidhaj_lists lists_of(size_t which) {
  waslidhaj_lists lists;
  lists.authors.octets = authors[which % 3].octets;
  lists.authors.length = authors[which % 3].length;
  lists.sets.octets = sets[which % 4].octets;
  lists.sets.length = sets[which % 4].length;
  return lists;
}

/* The longest author and the longest set; as many of none as there is room for; one set of as many identifiers; random octets. */
static void make_lists(void) {
  static text set;
  const text *domain = &domain_longest;
  uint8_t octet;
  put_record(&authors[0], "AU", domain->octets, domain->length);
  while (waslidhaj_pack_identifier(set.octets, &set.length, 16 * 515, WASLIDHAJ_DKIM, WASLIDHAJ_TEMPORARY_ERROR, domain->octets,
                                   domain->length, domain->octets, domain->length))
    ;
  if (set.length != WASLIDHAJ_SET_OCTETS)
    abort();
  put_record(&sets[0], "ST", set.octets, set.length);
  for (set.length = 0; set.length + 4 <= SHEET;) {
    put_record(&authors[1], "AU", NULL, 0);
    put_record(&sets[1], "ST", NULL, 0);
    put_record(&set, "ID", NULL, 0);
  }
  put_record(&sets[2], "ST", set.octets, set.length - 8);
  while (authors[2].length < SHEET) {
    octet = random_octet();
    put(&authors[2], &octet, 1);
    octet = random_octet();
    put(&sets[3], &octet, 1);
  }
  memset(reporter_longest.octets, '&', 4097);
  reporter_longest.length = 4096;
}

/* ---- The calls ---- */

/* Where each call leaves what it gives, and memory that is lent to it. */
static waslidhaj_called called;
static waslidhaj_given given;
static waslidhaj_written written;
static waslidhaj_found found;
static waslidhaj_list_changed changed;
static waslidhaj_record_read read;
static waslidhaj_field_read read_methods;
static waslidhaj_check_given given_of_check;
static waslidhaj_check check;
static size_t printed;
static uint8_t lent[SHEET + 2 * WASLIDHAJ_PRINTED_OCTETS];
static waslidhaj_row rows[WASLIDHAJ_ROWS + 4];
static waslidhaj_gathered gathered;
static uint8_t report[WASLIDHAJ_REPORT_OCTETS];
static uint8_t received[WASLIDHAJ_REPORT_OCTETS]; /* the longest report, to be read */
static waslidhaj_reader reader;
static waslidhaj_read_given given_of_reader;

static void call_open(void) {
  for (size_t index = 0; index < stage_count; index++)
    called = waslidhaj_open(stages[index].state, domain_longest.octets, domain_longest.length - index % 3, 1, 1);
}

static void call_add(void) {
  for (size_t index = 0; index < stage_count; index++)
    called = waslidhaj_add(stages[index].state, 1, 1, domain_longest.octets, domain_longest.length - index % 3);
}

static void call_next(void) {
  for (size_t index = 0; index < stage_count; index++)
    called = waslidhaj_next(stages[index].state);
}

static void call_answer(void) {
  for (size_t index = 0; index < stage_count; index++)
    for (size_t which = 0; which < sizeof answers / sizeof *answers; which++)
      called = waslidhaj_answer(stages[index].state, stages[index].name, stages[index].name_length, WASLIDHAJ_RECORDS,
                                answers[which].octets, answers[which].length, lent, WASLIDHAJ_SCRATCH_OCTETS);
}

static void call_answer_overlapping(void) {
  for (size_t index = 0; index < stage_count; index += 7)
    for (size_t which = 0; which < sizeof answers / sizeof *answers; which++) {
      memcpy(lent + 1, answers[which].octets, answers[which].length);
      called = waslidhaj_answer(stages[index].state, stages[index].name, stages[index].name_length, WASLIDHAJ_RECORDS,
                                lent + 1, answers[which].length, lent, WASLIDHAJ_SCRATCH_OCTETS);
    }
}

static void call_result(void) {
  for (size_t index = 0; index < stage_count; index++)
    given = waslidhaj_result(stages[index].state);
}

static void call_field(void) {
  for (size_t index = 0; index < stage_count; index++)
    given = waslidhaj_field(stages[index].state, lent, 100);
}

static void call_name(void) {
  for (size_t index = 0; index < stage_count; index++)
    written = waslidhaj_name(stages[index].state, stages[index].walk, stages[index].place, lent, WASLIDHAJ_NAME_OCTETS);
}

static void call_domain(void) {
  for (size_t index = 0; index < stage_count; index++)
    written = waslidhaj_domain(stages[index].state, stages[index].place, lent, WASLIDHAJ_NAME_OCTETS);
}

static void call_finding(void) {
  for (size_t index = 0; index < stage_count; index++)
    found = waslidhaj_finding(stages[index].state);
}

static void call_run(void) {
  for (size_t index = 0; index < sizeof sheets / sizeof *sheets; index++)
    printed = waslidhaj_run(sheets[index].octets, sheets[index].length, lent, WASLIDHAJ_PRINTED_OCTETS);
}

static void call_run_overlapping(void) {
  for (size_t index = 0; index < sizeof sheets / sizeof *sheets; index++) {
    memcpy(lent, sheets[index].octets, sheets[index].length);
    printed = waslidhaj_run(lent, sheets[index].length, lent, sizeof lent);
  }
}

static void call_new_list(void) { changed.list = waslidhaj_new_list(); }

static void call_clear(void) {
  for (size_t less = 3; less-- > 0;)
    changed = waslidhaj_clear(changed.list, domain_longest.octets, domain_longest.length - less, rows, WASLIDHAJ_ROWS + 4);
}

static void call_clear_overlapping(void) {
  memcpy(rows, domain_longest.octets, domain_longest.length);
  changed = waslidhaj_clear(changed.list, (const uint8_t *)rows, domain_longest.length, rows, WASLIDHAJ_ROWS);
}

static waslidhaj_entry passing(void) {
  waslidhaj_entry entry;
  memset(&entry, 0, sizeof entry);
  entry.finding.result = WASLIDHAJ_RESULT_PASS;
  return entry;
}

/* The first free row, and a 257th source; places past a list, and at its far end. */
static void call_enter(void) {
  const text *domain = &domain_longest;
  waslidhaj_entry entry = passing();
  for (int index = 0; index < 300; index++) {
    entry.source[0] = (uint8_t)index;
    entry.source[1] = (uint8_t)(index >> 8);
    changed = waslidhaj_enter(changed.list, entry, domain->octets, domain->length, lists_of(0), rows, WASLIDHAJ_ROWS);
  }
  for (size_t index = 1; index < 12; index++) {
    entry.author = index % 3 == 1 ? SHEET / 4 - 1 : (uint32_t)index;
    entry.set = index % 4 == 1 ? SHEET / 4 - 1 : 0;
    changed = waslidhaj_enter(changed.list, entry, domain->octets, domain->length, lists_of(index), rows, WASLIDHAJ_ROWS);
  }
}

static void call_enter_overlapping(void) {
  const text *domain = &domain_longest;
  memcpy(rows, domain->octets, domain->length);
  changed = waslidhaj_enter(changed.list, passing(), (const uint8_t *)rows, domain->length, lists_of(0), rows, WASLIDHAJ_ROWS);
}

/* Every row has a count, all that it has is the longest, and its places are these. */
static void fill_rows(uint32_t place) {
  memset(rows, 0, sizeof rows);
  for (size_t index = 0; index < sizeof rows / sizeof *rows; index++) {
    memset(rows[index].seen.source, 0x11, sizeof rows[index].seen.source);
    rows[index].seen.disposition = WASLIDHAJ_DISPOSITION_QUARANTINE;
    rows[index].seen.author = rows[index].seen.set = place;
    rows[index].count = UINT32_MAX;
  }
}

/* Of rows that all have a count, and of random octets. */
static void call_gather(void) {
  fill_rows(0);
  for (int turn = 0; turn < 2; turn++) {
    gathered = waslidhaj_gather(rows, sizeof rows / sizeof *rows);
    for (size_t index = 0; index < sizeof rows; index++)
      ((uint8_t *)rows)[index] = random_octet();
  }
}

/* The report of all rows, by a reporter whose texts have so many octets. */
static void write_report(const uint8_t *contact, size_t length, size_t which, size_t room) {
  waslidhaj_settings settings = {1, 1, 1, 1, 1, 1, 1};
  const text *domain = &domain_longest;
  waslidhaj_reporter reporter;
  reporter.organization.octets = reporter.email.octets = reporter_longest.octets;
  reporter.organization.length = reporter.email.length = length;
  reporter.contact.octets = contact;
  reporter.contact.length = length;
  reporter.id.octets = (const uint8_t *)"0123456789012345678901234567890123456789012345678901234567890123";
  reporter.id.length = 64;
  reporter.begin = reporter.end = UINT64_MAX;
  changed = waslidhaj_clear(changed.list, domain->octets, domain->length, NULL, 0);
  written = waslidhaj_report(changed.list, rows, WASLIDHAJ_ROWS, settings, lists_of(which), reporter, report, room);
}

/* With lists of every kind, and places at their begin and far on; the last report is the longest. */
static void call_report(void) {
  for (size_t which = 24; which-- > 0;) {
    fill_rows(which < 12 ? 0 : SHEET / 4 - 1);
    write_report(reporter_longest.octets, 4097, which, sizeof report);
    write_report(reporter_longest.octets, 4096, which, sizeof report - 1);
    write_report(reporter_longest.octets, 4096, which, sizeof report);
  }
  if (written.length != sizeof report)
    abort();
}

static void make_received(void) {
  fill_rows(0);
  write_report(reporter_longest.octets, reporter_longest.length, 0, sizeof report);
  if (written.length != sizeof received)
    abort();
  memcpy(received, report, sizeof received);
}

static void call_report_overlapping(void) {
  fill_rows(0);
  write_report(report + 1, reporter_longest.length, 0, sizeof report);
  memcpy(report + 1, reporter_longest.octets, reporter_longest.length);
  write_report(report + 1, reporter_longest.length, 0, sizeof report);
  if (written.refusal.place != sizeof report)
    abort();
}

static void call_subject(void) {
  const text *domain = &domain_longest;
  written = waslidhaj_subject(domain->octets, domain->length, domain->octets, domain->length, (const uint8_t *)"a1", 2, lent,
                              WASLIDHAJ_SUBJECT_OCTETS);
}

static void call_subject_overlapping(void) {
  const text *domain = &domain_longest;
  memcpy(lent, domain->octets, domain->length);
  written = waslidhaj_subject(lent, domain->length, lent, domain->length, (const uint8_t *)"a1", 2, lent,
                              WASLIDHAJ_SUBJECT_OCTETS);
}

static void call_file_name(void) {
  const text *domain = &domain_longest;
  written = waslidhaj_file_name(domain->octets, domain->length, domain->octets, domain->length, 1, UINT64_MAX, 1,
                                (const uint8_t *)"a1", 2, lent, 700);
}

static void call_file_name_overlapping(void) {
  const text *domain = &domain_longest;
  memcpy(lent, domain->octets, domain->length);
  written = waslidhaj_file_name(lent, domain->length, lent, domain->length, 1, UINT64_MAX, 1, (const uint8_t *)"a1", 2, lent, 700);
}

static void call_write_record(void) {
  waslidhaj_settings settings = {2, 2, 2, 1, 1, 1, 1};
  for (settings.p = 4; settings.p-- > 0;)
    written = waslidhaj_write_record(settings, rua_longest.octets, rua_longest.length, lent, sizeof lent);
}

static void call_write_record_overlapping(void) {
  waslidhaj_settings settings = {2, 2, 2, 1, 1, 1, 1};
  memcpy(lent, rua_longest.octets, rua_longest.length);
  written = waslidhaj_write_record(settings, lent, rua_longest.length, lent, sizeof lent);
}

static void call_read_record(void) {
  for (size_t index = 0; index < sizeof policies / sizeof *policies; index++)
    read = waslidhaj_read_record(policies[index].octets, policies[index].length);
}

/* A good field, one of nothing but comments, and one that is refused at its end. */
static void call_read_field(void) {
  static const char *const fields[] = {"Identity-Alignment: dkim, spf\r\n", "Identity-Alignment: ((((((((", "Identity-Alignment: dkim, dkim"};
  for (size_t index = 0; index < sizeof fields / sizeof *fields; index++)
    read_methods = waslidhaj_read_field((const uint8_t *)fields[index], strlen(fields[index]));
  memset(lent, '(', sizeof lent);
  read_methods = waslidhaj_read_field(lent, sizeof lent);
}

static void call_check_start(void) {
  const text *domain = &domain_longest;
  for (size_t index = 0; index < check_count; index++) {
    const text *entry = &entries[index % 3];
    check = checks[index].check;
    given_of_check = waslidhaj_check_start(&check, domain->octets, domain->length - index % 3, entry->octets, entry->length);
  }
}

static void call_check_next(void) {
  for (size_t index = 0; index < check_count; index++) {
    check = checks[index].check;
    given_of_check = waslidhaj_check_next(&check);
  }
}

static void answer_checks(int overlapping) {
  for (size_t index = 0; index < check_count; index++)
    for (size_t which = 0; which < sizeof answers / sizeof *answers; which++) {
      const uint8_t *bytes = overlapping ? lent + 1 : answers[which].octets;
      if (overlapping)
        memcpy(lent + 1, answers[which].octets, answers[which].length);
      check = checks[index].check;
      given_of_check = waslidhaj_check_answer(&check, checks[index].name, checks[index].name_length, WASLIDHAJ_RECORDS, bytes,
                                              answers[which].length, lent, WASLIDHAJ_SCRATCH_OCTETS);
    }
}

static void call_check_answer(void) { answer_checks(0); }

static void call_check_answer_overlapping(void) { answer_checks(1); }

static void call_check_result(void) {
  for (size_t index = 0; index < check_count; index++)
    given_of_check = waslidhaj_check_result(&checks[index].check);
}

static void call_check_name(void) {
  for (size_t index = 0; index < check_count; index++)
    written = waslidhaj_check_name(&checks[index].check, checks[index].walk, checks[index].place, lent,
                                   WASLIDHAJ_CHECK_NAME_OCTETS);
}

static void call_new_reader(void) { reader.state = waslidhaj_new_reader(); }

/* Reads the longest report, up to a length, in parts of so many octets. */
static void read_parts(size_t most, size_t part_length) {
  size_t at = 0;
  waslidhaj_read_start(&reader);
  while (at < most) {
    size_t length = most - at < part_length ? most - at : part_length;
    given_of_reader = waslidhaj_read(&reader, received + at, length);
    if (given_of_reader.event == WASLIDHAJ_READ_REFUSED)
      abort();
    at += given_of_reader.used;
  }
}

/* A reader of random octets, or one with a few of them; mostly one that is not refused, at a place of the form. */
static void damage_reader(size_t turn) {
  size_t changes = turn % 2 == 0 ? 5 : sizeof reader.state;
  while (changes-- > 0)
    ((uint8_t *)&reader.state)[turn % 2 == 0 ? random_octet() % sizeof reader.state : changes] = random_octet();
  if (turn % 8 == 7)
    return;
  reader.state.refused = 0;
  reader.state.node %= 67;
}

static void call_read(void) {
  read_parts(sizeof received, sizeof received);
  read_parts(sizeof received, 4096);
  read_parts(100000, 1);
  for (size_t turn = 0; turn < 10 * CHECKS; turn++) {
    damage_reader(turn);
    given_of_reader = waslidhaj_read(&reader, received + 97 * turn, 4096);
  }
}

static void call_read_overlapping(void) { given_of_reader = waslidhaj_read(&reader, reader.row, sizeof reader.row); }

static void call_end(void) {
  waslidhaj_read_start(&reader);
  for (size_t turn = 0; turn < CHECKS; turn++) {
    given_of_reader = waslidhaj_read_end(&reader);
    damage_reader(turn);
  }
}

/* ---- Threads ---- */

typedef struct {
  const char *name;
  void (*call)(void);
} entry;

static const entry calls[] = {
    {"waslidhaj_open", call_open},
    {"waslidhaj_add", call_add},
    {"waslidhaj_next", call_next},
    {"waslidhaj_answer", call_answer},
    {"waslidhaj_answer overlapping", call_answer_overlapping},
    {"waslidhaj_result", call_result},
    {"waslidhaj_field", call_field},
    {"waslidhaj_name", call_name},
    {"waslidhaj_domain", call_domain},
    {"waslidhaj_run", call_run},
    {"waslidhaj_run overlapping", call_run_overlapping},
    {"waslidhaj_finding", call_finding},
    {"waslidhaj_new_list", call_new_list},
    {"waslidhaj_clear", call_clear},
    {"waslidhaj_clear overlapping", call_clear_overlapping},
    {"waslidhaj_enter", call_enter},
    {"waslidhaj_enter overlapping", call_enter_overlapping},
    {"waslidhaj_file_name", call_file_name},
    {"waslidhaj_file_name overlapping", call_file_name_overlapping},
    {"waslidhaj_write_record", call_write_record},
    {"waslidhaj_write_record overlapping", call_write_record_overlapping},
    {"waslidhaj_read_record", call_read_record},
    {"waslidhaj_gather", call_gather},
    {"waslidhaj_report", call_report},
    {"waslidhaj_report overlapping", call_report_overlapping},
    {"waslidhaj_subject", call_subject},
    {"waslidhaj_subject overlapping", call_subject_overlapping},
    {"waslidhaj_read_field", call_read_field},
    {"waslidhaj_check_start", call_check_start},
    {"waslidhaj_check_next", call_check_next},
    {"waslidhaj_check_answer", call_check_answer},
    {"waslidhaj_check_answer overlapping", call_check_answer_overlapping},
    {"waslidhaj_check_result", call_check_result},
    {"waslidhaj_check_name", call_check_name},
    {"waslidhaj_new_reader", call_new_reader},
    {"waslidhaj_read", call_read},
    {"waslidhaj_read overlapping", call_read_overlapping},
    {"waslidhaj_end", call_end},
};

static const uint8_t *begin; /* where the stack of a call begins; it grows downwards */

static void *on_thread(void *which) {
  begin = (const uint8_t *)__builtin_frame_address(0);
  ((const entry *)which)->call();
  return NULL;
}

static void run_thread(const pthread_attr_t *attributes, const entry *which) {
  pthread_t thread;
  if (pthread_create(&thread, attributes, on_thread, (void *)which) != 0 || pthread_join(thread, NULL) != 0)
    abort();
}

/* Prints how far down a call wrote on a painted stack. */
static void measure(const entry *which) {
  static uint8_t stack[STACK] __attribute__((aligned(4096)));
  pthread_attr_t attributes;
  size_t lowest = 0;
  memset(stack, PAINT, sizeof stack);
  if (pthread_attr_init(&attributes) != 0 || pthread_attr_setstack(&attributes, stack, sizeof stack) != 0)
    abort();
  run_thread(&attributes, which);
  while (stack[lowest] == PAINT)
    lowest++;
  printf("%s %zu\n", which->name, (size_t)(begin - (stack + lowest)));
}

/* Makes a call on a thread of so many octets, past which nothing may be touched. */
static void try_small(const entry *which, size_t octets) {
  pthread_attr_t attributes;
  if (pthread_attr_init(&attributes) != 0 || pthread_attr_setstacksize(&attributes, octets) != 0)
    abort();
  run_thread(&attributes, which);
  printf("%s\n", which->name);
  fflush(stdout);
}

int main(int argc, char **argv) {
  const char *mode = argc > 1 ? argv[1] : "";
  size_t octets = argc > 2 ? (size_t)atol(argv[2]) : 0;
  make_policies();
  make_answers();
  make_states();
  make_checks();
  make_sheets();
  make_texts();
  make_lists();
  make_received();
  for (size_t index = 0; index < sizeof calls / sizeof *calls; index++) {
    if (strcmp(mode, "measure") == 0)
      measure(&calls[index]);
    else if (strcmp(mode, "whole") == 0 || strcmp(calls[index].name, "waslidhaj_run overlapping") != 0)
      try_small(&calls[index], octets);
  }
  return 0;
}
