/* Waslidhaj: a proved DMARC evaluator (RFC 9989), for programs in C and C++ that send their own DNS lookups.
 *
 * An evaluation is a value of 5,352 octets. There is no allocation, no global, no lock and no callback: copy an evaluation,
 * keep it in a queue file, drop it. Each call takes one by value and gives the one to go on with. Any octets in a state and any
 * arguments get an answer; a refused call gives back the very state that it got and leaves lent memory as it was.
 *
 * Lent memory is the caller's own and as long as it says, and the caller's again when the call returns. It may overlap: every
 * text is read as it was handed over. Memory to write that lies over a list or over a report's texts, which are not copied, is
 * no room, and a part of a report that lies over its reader is not read. NULL may be lent with length 0.
 *
 * A message:  open, add an identifier for each SPF or DKIM outcome, then in turn: next, and an answer for the name that it
 * gives, until next gives the verdict. README.md has a whole program.
 *
 * Look at the kind of what each call gives. Without a verdict its numbers read temperror, unknown and defer, so that a program
 * that stops at any refusal defers. The one refusal to go on from is an answer's 6 (over a limit, or unreadable): its name is
 * still asked, so hand it in again as WASLIDHAJ_ERROR, never as WASLIDHAJ_NO_RECORDS, and stop if that is refused too. A lookup
 * that failed or timed out is an error. Only NXDOMAIN and an answer without TXT records are WASLIDHAJ_NO_RECORDS.
 *
 * A state that is kept in a file is of one build only: keep WASLIDHAJ_VERSION beside it, and open the message afresh where it
 * is another. So are a day's list and its rows, a check and a reader.
 *
 * Link with libwaslidhaj.a, which `./library` makes, for x86-64 Linux. */
#ifndef WASLIDHAJ_H
#define WASLIDHAJ_H

#include <stddef.h>
#include <stdint.h>
#include <string.h>

#ifdef __cplusplus
extern "C" {
#endif

/* ---- Sizes ---- */

enum {
  WASLIDHAJ_VERSION = 10,            /* of all that may be kept: another whenever a layout or a meaning changes */
  WASLIDHAJ_DOMAIN_OCTETS = 253,     /* the most octets of a domain */
  WASLIDHAJ_NAME_OCTETS = 260,       /* enough for the name that any state gives */
  WASLIDHAJ_CHECK_NAME_OCTETS = 522, /* enough for the name that any check of an address gives */
  WASLIDHAJ_SCRATCH_OCTETS = 4096,   /* the scratch that an answer needs, and the most octets of an answer */
  WASLIDHAJ_PRINTED_OCTETS = 36864,  /* the most octets printed for a sheet */
  WASLIDHAJ_IDENTIFIERS = 16,        /* the most identifiers of a message */
  WASLIDHAJ_NAMES = 136,             /* the most names that a message asks */
  WASLIDHAJ_ROWS = 256,              /* the most rows of a day's list */
  WASLIDHAJ_SET_OCTETS = 8240,       /* the most octets of a packed set of identifiers that a report has */
  WASLIDHAJ_REPORT_OCTETS = 2592802, /* the most octets of a report */
  WASLIDHAJ_SUBJECT_OCTETS = 611,    /* the most octets of a report's subject */
  WASLIDHAJ_ROW_OCTETS = 8432        /* in which a reader of reports keeps the open row */
};

/* ---- Stack ---- */

/* The octets of stack that a call needs at the most, with what it is handed and what it gives; and where lent memory overlaps,
 * since that is copied:
 *
 *   call                      apart   overlapping
 *   waslidhaj_open            29696
 *   waslidhaj_add             38912
 *   waslidhaj_next            52224
 *   waslidhaj_answer          87040         97280
 *   waslidhaj_result          17408
 *   waslidhaj_field           23552
 *   waslidhaj_name            12288
 *   waslidhaj_domain          12288
 *   waslidhaj_run            114688        151552
 *   waslidhaj_finding         22528
 *   waslidhaj_new_list         1024
 *   waslidhaj_clear            3072          3072
 *   waslidhaj_enter            3072          3072
 *   waslidhaj_file_name        2048          2048
 *   waslidhaj_write_record     1024          6144
 *   waslidhaj_read_record     18432
 *   waslidhaj_gather          33792
 *   waslidhaj_report          35840         35840
 *   waslidhaj_subject          1024          2048
 *   waslidhaj_read_field       1024
 *   waslidhaj_check_start      8192
 *   waslidhaj_check_next       4096
 *   waslidhaj_check_answer    31744         36864
 *   waslidhaj_check_result     2048
 *   waslidhaj_check_name       3072
 *   waslidhaj_new_reader       1024
 *   waslidhaj_read             4096          1024
 *   waslidhaj_end              1024
 *
 * Add 4,096 where a program binds memcpy at its first call. Every call fits a thread of 128 KiB, but waslidhaj_run where its
 * memory overlaps. Enough for every call but waslidhaj_run, and for that one, is: */
enum { WASLIDHAJ_STACK_OCTETS = 102400, WASLIDHAJ_RUN_STACK_OCTETS = 163840 };

/* ---- Numbers of document 01 ---- */

enum { WASLIDHAJ_MISSING, WASLIDHAJ_EXISTS, WASLIDHAJ_NOT_KNOWN };              /* existence of the author domain */
enum { WASLIDHAJ_SPF, WASLIDHAJ_DKIM };                                         /* kind of an identifier */
enum { WASLIDHAJ_NOT_PASSING, WASLIDHAJ_PASSING, WASLIDHAJ_TEMPORARY_ERROR };   /* outcome of an identifier */
enum { WASLIDHAJ_RECORDS, WASLIDHAJ_NO_RECORDS, WASLIDHAJ_ERROR };              /* status of an answer; any other is an error */

/* ---- Numbers of a verdict ---- */

enum {
  WASLIDHAJ_RESULT_NONE,
  WASLIDHAJ_RESULT_PASS,
  WASLIDHAJ_RESULT_FAIL,
  WASLIDHAJ_RESULT_TEMPERROR,
  WASLIDHAJ_RESULT_PERMERROR
};
enum { WASLIDHAJ_POLICY_NONE, WASLIDHAJ_POLICY_QUARANTINE, WASLIDHAJ_POLICY_REJECT, WASLIDHAJ_POLICY_UNKNOWN };
enum {
  WASLIDHAJ_DISPOSITION_NONE,
  WASLIDHAJ_DISPOSITION_QUARANTINE,
  WASLIDHAJ_DISPOSITION_REJECT,
  WASLIDHAJ_DISPOSITION_DEFER
};
enum { WASLIDHAJ_NOT_JUDGED, WASLIDHAJ_ALIGNED, WASLIDHAJ_NOT_ALIGNED, WASLIDHAJ_ALIGNMENT_UNKNOWN };

/* ---- What a call gives ---- */

/* A refusal: its number and its place, as the README lists them. Number 0 is no refusal. */
typedef struct {
  uint8_t number;
  size_t place;
} waslidhaj_refusal;

/* What a writer gives: how many octets it wrote into the front of lent memory, or the refusal; the length is 0 then. */
typedef struct {
  waslidhaj_refusal refusal;
  size_t length;
} waslidhaj_written;

/* A verdict. `begin` is where the domain of the applied record begins in the author domain (its end where there is none):
 * waslidhaj_domain writes it out. `alignments` has two bits an identifier, the first one's lowest; `count` is how many names
 * were asked. */
typedef struct {
  uint8_t result;
  uint8_t policy;
  uint8_t disposition;
  size_t begin;
  size_t alignments;
  size_t count;
} waslidhaj_verdict;

/* The alignment of an identifier of a verdict, by its index from 0. */
static inline unsigned waslidhaj_alignment(waslidhaj_verdict verdict, unsigned index) {
  return index < WASLIDHAJ_IDENTIFIERS ? (unsigned)(verdict.alignments >> (2 * index)) & 3u : 0u;
}

enum { WASLIDHAJ_ACCEPTED, WASLIDHAJ_ASK, WASLIDHAJ_VERDICT, WASLIDHAJ_REFUSED };

/* What a call gives, by its kind. Accepted: `length`, how many octets were written, for the field. Ask: the name to
 * ask, marked by `walk` and `place`; waslidhaj_name writes it out. Verdict: `verdict`. Refused: `refusal`. Without a verdict its
 * result, policy and disposition are temperror, unknown and defer (3, 3, 3); all else that its kind does not have is 0. */
typedef struct {
  uint8_t kind;
  size_t walk;
  size_t place;
  size_t length;
  waslidhaj_verdict verdict;
  waslidhaj_refusal refusal;
} waslidhaj_given;

/* ---- Lent memory ---- */

/* Whether two stretches of memory have an octet in common. Nothing is added up, so no length is too long. */
static inline int waslidhaj_overlap(const void *first, size_t first_length, const void *second, size_t second_length) {
  uintptr_t one = (uintptr_t)first;
  uintptr_t other = (uintptr_t)second;
  if (first_length == 0 || second_length == 0)
    return 0;
  return one <= other ? other - one < first_length : one - other < second_length;
}

/* Copies octets to memory apart from them. */
static inline void waslidhaj_copy(uint8_t *to, const uint8_t *from, size_t length) {
  if (length > 0)
    memcpy(to, from, length);
}

/* Of the functions below that copy: none is made part of another one's stack frame. Each has room for the longest text that its
 * call accepts, a final dot included. A longer one is refused before the output is looked at, so that is lent with length 0, and
 * then nothing overlaps. */
#define WASLIDHAJ_OWN_FRAME __attribute__((noinline, unused))

/* ---- An evaluation ---- */

/* An evaluation between two calls. Fill it with zeros and open it; look into none of it. */
typedef struct {
  uint8_t started, handed, asked, existence, support, place_kind, found;
  uint8_t domains[4301];
  uint16_t numbers[51];
  uint16_t kept[408];
  uint16_t stored[17];
  size_t identifiers, count;
  size_t ruling_begin, ruling_settings, ruling_policy;
  size_t walk;
  size_t record_begin, record_settings, target_begin, target_wider, more;
} waslidhaj_state;

/* The evaluation to go on with, and what the call gives. */
typedef struct {
  waslidhaj_state state;
  waslidhaj_given given;
} waslidhaj_called;

/* Opens an evaluation of a message: its author domain, whether that exists in the DNS, and whether other analysis supports
 * rejecting (0, 1). Over a running evaluation it begins afresh. Accepted, or refused 1, 3. */
waslidhaj_called waslidhaj_open(waslidhaj_state state, const uint8_t *author, size_t author_length, uint8_t existence,
                                uint8_t support);

/* Adds an identifier: SPF's or DKIM's outcome for a domain. Accepted, or refused 17 (nothing was opened, or a name or the
 * verdict was given already), 3, 4, 2. */
waslidhaj_called waslidhaj_add(waslidhaj_state state, uint8_t kind, uint8_t outcome, const uint8_t *domain,
                               size_t domain_length);

/* The next step: ask, the verdict, or refused 7 (nothing was opened). */
waslidhaj_called waslidhaj_next(waslidhaj_state state);

/* As waslidhaj_answer, of lent memory that nowhere overlaps. */
waslidhaj_called waslidhaj_answer_apart(waslidhaj_state state, const uint8_t *name, size_t name_length, uint8_t status,
                                        const uint8_t *bytes, size_t bytes_length, uint8_t *scratch, size_t scratch_length);

/* As waslidhaj_answer, of copies. Refused are 5, 6 and 10, in this order: too long a name is 5, too long an answer 6. */
static WASLIDHAJ_OWN_FRAME waslidhaj_called waslidhaj_answer_copied(waslidhaj_state state, const uint8_t *name,
                                                                    size_t name_length, uint8_t status, const uint8_t *bytes,
                                                                    size_t bytes_length, uint8_t *scratch,
                                                                    size_t scratch_length) {
  uint8_t own_name[WASLIDHAJ_NAME_OCTETS + 1];
  uint8_t own_bytes[WASLIDHAJ_SCRATCH_OCTETS];
  if (name_length > sizeof own_name || bytes_length > sizeof own_bytes)
    return waslidhaj_answer_apart(state, name, name_length, status, bytes, bytes_length, scratch, 0);
  waslidhaj_copy(own_name, name, name_length);
  waslidhaj_copy(own_bytes, bytes, bytes_length);
  return waslidhaj_answer_apart(state, own_name, name_length, status, own_bytes, bytes_length, scratch, scratch_length);
}

/* An answer for the name now asked, `_dmarc.` included. With WASLIDHAJ_RECORDS, `bytes` has for each TXT record the two octets
 * TX, a 16-bit length (high octet first) and the RDATA. `scratch` is lent for the texts. Accepted, or refused 5 (not the name
 * now asked), 6 (over a limit or unreadable), 10 (scratch under 4,096 octets). */
static inline waslidhaj_called waslidhaj_answer(waslidhaj_state state, const uint8_t *name, size_t name_length,
                                                uint8_t status, const uint8_t *bytes, size_t bytes_length, uint8_t *scratch,
                                                size_t scratch_length) {
  if (status != WASLIDHAJ_RECORDS) /* the bytes are not read */
    bytes_length = 0;
  if (waslidhaj_overlap(name, name_length, scratch, scratch_length) ||
      waslidhaj_overlap(bytes, bytes_length, scratch, scratch_length))
    return waslidhaj_answer_copied(state, name, name_length, status, bytes, bytes_length, scratch, scratch_length);
  return waslidhaj_answer_apart(state, name, name_length, status, bytes, bytes_length, scratch, scratch_length);
}

/* The verdict again, or refused 7. */
waslidhaj_given waslidhaj_result(waslidhaj_state state);

/* Writes the Identity-Alignment field of the verdict, CR LF included. Accepted with its length, or refused 7, 9, 10. */
waslidhaj_given waslidhaj_field(waslidhaj_state state, uint8_t *out, size_t out_length);

/* Writes the name that a walk and a place mark. WASLIDHAJ_NAME_OCTETS are enough for any state, walk and place; the names of an
 * evaluation that was opened have 253 octets at the most. Refused 10. */
waslidhaj_written waslidhaj_name(waslidhaj_state state, size_t walk, size_t place, uint8_t *out, size_t out_length);

/* Writes the domain of the applied record by a verdict's `begin`. 253 octets are always enough. Refused 10. */
waslidhaj_written waslidhaj_domain(waslidhaj_state state, size_t begin, uint8_t *out, size_t out_length);

/* ---- A whole sheet ---- */

/* As waslidhaj_run, of lent memory that nowhere overlaps. */
size_t waslidhaj_run_apart(const uint8_t *sheet, size_t sheet_length, uint8_t *out, size_t out_length);

/* As waslidhaj_run, by way of memory of its own. */
static WASLIDHAJ_OWN_FRAME size_t waslidhaj_run_copied(const uint8_t *sheet, size_t sheet_length, uint8_t *out,
                                                       size_t out_length) {
  uint8_t own_out[WASLIDHAJ_PRINTED_OCTETS];
  size_t length = waslidhaj_run_apart(sheet, sheet_length, own_out, sizeof own_out);
  if (length <= out_length)
    waslidhaj_copy(out, own_out, length);
  return length;
}

/* Runs a sheet: gives the length of what is printed for it, which stands in `out` if there is room
 * (WASLIDHAJ_PRINTED_OCTETS are always enough); else `out` is as it was. */
static inline size_t waslidhaj_run(const uint8_t *sheet, size_t sheet_length, uint8_t *out, size_t out_length) {
  if (waslidhaj_overlap(sheet, sheet_length, out, out_length))
    return waslidhaj_run_copied(sheet, sheet_length, out, out_length);
  return waslidhaj_run_apart(sheet, sheet_length, out, out_length);
}

/* ---- A day's rows ---- */

/* What a row counts: verdicts that have all this in common. `author` and `set` are places in the two lists beside the rows. A
 * flag is set where it is not 0, here and below. `spare` is not read. A lent disposition over 2 is reported as none. */
typedef struct {
  uint8_t source[16];
  uint8_t disposition;
  uint8_t dkim;
  uint8_t spf;
  uint8_t spare;
  uint32_t author;
  uint32_t set;
} waslidhaj_seen;

/* One with count 0 is free. */
typedef struct {
  waslidhaj_seen seen;
  uint32_t count;
} waslidhaj_row;

/* A day's list. Its policy domain is the first `length` octets of `domain`, all 253 at the most, once `cleared` is set. */
typedef struct {
  uint8_t cleared;
  uint8_t domain[253];
  uint16_t length;
} waslidhaj_list;

/* What a verdict says to a list: its result and disposition by their numbers, and whether each method aligned. */
typedef struct {
  uint8_t result;
  uint8_t disposition;
  uint8_t dkim;
  uint8_t spf;
} waslidhaj_finding_numbers;

/* What is entered: where the message came from (16 octets, IPv4 mapped), what was found, and the places of its author domain and
 * of its set of identifiers. */
typedef struct {
  uint8_t source[16];
  waslidhaj_finding_numbers finding;
  uint32_t author;
  uint32_t set;
} waslidhaj_entry;

/* The list to go on with, and the refusal. */
typedef struct {
  waslidhaj_list list;
  waslidhaj_refusal refusal;
} waslidhaj_list_changed;

/* What an evaluation enters at its verdict: of kind WASLIDHAJ_VERDICT, `finding`, and in `begin` where the domain of the
 * applied record begins; or refused. */
typedef struct {
  uint8_t kind;
  waslidhaj_finding_numbers finding;
  size_t begin;
  waslidhaj_refusal refusal;
} waslidhaj_found;

/* What is entered of an evaluation at its verdict, or refused 7. */
waslidhaj_found waslidhaj_finding(waslidhaj_state state);

/* A list that was never cleared: every octet is 0. */
waslidhaj_list waslidhaj_new_list(void);

/* Whether a text and rows have an octet in common. */
static inline int waslidhaj_overlap_rows(const uint8_t *text, size_t length, const waslidhaj_row *rows, size_t rows_length) {
  size_t octets = rows_length > SIZE_MAX / sizeof *rows ? SIZE_MAX : rows_length * sizeof *rows;
  return waslidhaj_overlap(text, length, rows, octets);
}

/* As waslidhaj_clear, of lent memory that nowhere overlaps. */
waslidhaj_list_changed waslidhaj_clear_apart(waslidhaj_list list, const uint8_t *domain, size_t domain_length,
                                             waslidhaj_row *rows, size_t rows_length);

/* A day's end: the counts go to 0, and the list is named for a policy domain. Refused 11. */
static inline waslidhaj_list_changed waslidhaj_clear(waslidhaj_list list, const uint8_t *domain, size_t domain_length,
                                                     waslidhaj_row *rows, size_t rows_length) {
  uint8_t own_domain[WASLIDHAJ_DOMAIN_OCTETS + 1];
  if (!waslidhaj_overlap_rows(domain, domain_length, rows, rows_length))
    return waslidhaj_clear_apart(list, domain, domain_length, rows, rows_length);
  if (domain_length > sizeof own_domain)
    return waslidhaj_clear_apart(list, domain, domain_length, rows, 0);
  waslidhaj_copy(own_domain, domain, domain_length);
  return waslidhaj_clear_apart(list, own_domain, domain_length, rows, rows_length);
}

/* ---- The two lists beside the rows ---- */

/* A lent text. */
typedef struct {
  const uint8_t *octets;
  size_t length;
} waslidhaj_text;

/* The author domains, and the sets of identifiers. Each list is one text of records: two octets that are not read, a 16-bit
 * length (high octet first) and the body. Places count from 0; a record that runs past the end of the text is none, and ends the
 * list. An author's body is the domain. A set's body is again such records, one for each identifier: its kind, its outcome, the
 * length of its selector (one octet), the selector, and the domain, which fills the rest. SPF's selector is not looked at. A
 * domain or a selector may end in one dot. For example, a list of one author, and one of a set of two identifiers and a set of
 * none:
 *
 *   "AU" 0 11 "example.com"
 *   "ST" 0 45 "ID" 0 16 1 1 2 "s1" "example.com" "ID" 0 21 0 0 0 "bounce.example.net" "ST" 0 0 */
typedef struct {
  waslidhaj_text authors, sets;
} waslidhaj_lists;

/* The functions below pack the lists into memory that the caller lends: `room` octets, of which *length, at first 0, are packed.
 * They give 1, or 0 where there is no room in that memory or in a record (65,535 octets), or where a text overlaps that memory;
 * nothing is written then. An author or a set that is there already is not added again: its place comes into *place, and rows
 * match only where their places are equal. */

/* Writes the head of a record, if there is room for all of it. */
static inline int waslidhaj_pack_head(uint8_t *to, size_t *length, size_t room, const char *mark, size_t body_length) {
  if (body_length > 65535 || *length > room || room - *length < 4 + body_length)
    return 0;
  to += *length;
  to[0] = (uint8_t)mark[0];
  to[1] = (uint8_t)mark[1];
  to[2] = (uint8_t)(body_length >> 8);
  to[3] = (uint8_t)(body_length & 255);
  *length += 4;
  return 1;
}

static inline void waslidhaj_pack_body(uint8_t *to, size_t *length, const uint8_t *from, size_t from_length) {
  waslidhaj_copy(to + *length, from, from_length);
  *length += from_length;
}

/* Packs a record, unless one with an equal body is there. */
static inline int waslidhaj_pack_once(uint8_t *list, size_t *length, size_t room, const char *mark, const uint8_t *body,
                                      size_t body_length, uint32_t *place) {
  size_t at = 0, own_length;
  uint32_t count;
  if (waslidhaj_overlap(body, body_length, list, room))
    return 0;
  for (count = 0; *length - at >= 4; count++) {
    own_length = (size_t)list[at + 2] << 8 | list[at + 3];
    at += 4;
    if (own_length > *length - at)
      return 0;
    if (own_length == body_length && (own_length == 0 || memcmp(list + at, body, own_length) == 0)) {
      *place = count;
      return 1;
    }
    at += own_length;
  }
  if (at != *length || !waslidhaj_pack_head(list, length, room, mark, body_length))
    return 0;
  waslidhaj_pack_body(list, length, body, body_length);
  *place = count;
  return 1;
}

/* Packs an author domain into the list of authors. */
static inline int waslidhaj_pack_author(uint8_t *authors, size_t *length, size_t room, const uint8_t *domain,
                                        size_t domain_length, uint32_t *place) {
  return waslidhaj_pack_once(authors, length, room, "AU", domain, domain_length, place);
}

/* Packs an identifier into the body of a set. WASLIDHAJ_SET_OCTETS are enough for any set that a report has. */
static inline int waslidhaj_pack_identifier(uint8_t *set, size_t *length, size_t room, uint8_t kind, uint8_t outcome,
                                            const uint8_t *selector, size_t selector_length, const uint8_t *domain,
                                            size_t domain_length) {
  uint8_t numbers[3];
  if (selector_length > 255 || domain_length > 65535 || waslidhaj_overlap(selector, selector_length, set, room) ||
      waslidhaj_overlap(domain, domain_length, set, room) ||
      !waslidhaj_pack_head(set, length, room, "ID", sizeof numbers + selector_length + domain_length))
    return 0;
  numbers[0] = kind;
  numbers[1] = outcome;
  numbers[2] = (uint8_t)selector_length;
  waslidhaj_pack_body(set, length, numbers, sizeof numbers);
  waslidhaj_pack_body(set, length, selector, selector_length);
  waslidhaj_pack_body(set, length, domain, domain_length);
  return 1;
}

/* Packs a set, whose identifiers are packed, into the list of sets. */
static inline int waslidhaj_pack_set(uint8_t *sets, size_t *length, size_t room, const uint8_t *set, size_t set_length,
                                     uint32_t *place) {
  return waslidhaj_pack_once(sets, length, room, "ST", set, set_length, place);
}

/* As waslidhaj_enter, of lent memory that nowhere overlaps. */
waslidhaj_list_changed waslidhaj_enter_apart(waslidhaj_list list, waslidhaj_entry entry, const uint8_t *domain,
                                             size_t domain_length, const uint8_t *authors, size_t authors_length,
                                             const uint8_t *sets, size_t sets_length, waslidhaj_row *rows,
                                             size_t rows_length);

/* Enters a verdict, with the domain of its applied record. Refused 14, 27, 28, 12, 13, in this order and at place 0: too long a
 * domain is 14 or 27; 28 is a place past its list, or a set with a kind or an outcome that is not listed, a 17th identifier or a
 * second SPF. Rows that overlap a list are no rows: 12, unless 14, 27 or 28 is due. */
static inline waslidhaj_list_changed waslidhaj_enter(waslidhaj_list list, waslidhaj_entry entry, const uint8_t *domain,
                                                     size_t domain_length, waslidhaj_lists lists, waslidhaj_row *rows,
                                                     size_t rows_length) {
  uint8_t own_domain[WASLIDHAJ_DOMAIN_OCTETS + 1];
  if (waslidhaj_overlap_rows(lists.authors.octets, lists.authors.length, rows, rows_length) ||
      waslidhaj_overlap_rows(lists.sets.octets, lists.sets.length, rows, rows_length) ||
      (domain_length > sizeof own_domain && waslidhaj_overlap_rows(domain, domain_length, rows, rows_length)))
    rows_length = 0;
  if (waslidhaj_overlap_rows(domain, domain_length, rows, rows_length)) {
    waslidhaj_copy(own_domain, domain, domain_length);
    domain = own_domain;
  }
  return waslidhaj_enter_apart(list, entry, domain, domain_length, lists.authors.octets, lists.authors.length,
                               lists.sets.octets, lists.sets.length, rows, rows_length);
}

/* ---- The names of a report ---- */

/* As waslidhaj_file_name, of lent memory that nowhere overlaps. */
waslidhaj_written waslidhaj_file_name_apart(const uint8_t *receiver, size_t receiver_length, const uint8_t *domain,
                                            size_t domain_length, uint64_t begin, uint64_t end, uint8_t has_id,
                                            const uint8_t *id, size_t id_length, uint8_t *out, size_t out_length);

/* As waslidhaj_file_name, of copies. Too long a text is 11. */
static WASLIDHAJ_OWN_FRAME waslidhaj_written
waslidhaj_file_name_copied(const uint8_t *receiver, size_t receiver_length, const uint8_t *domain, size_t domain_length,
                           uint64_t begin, uint64_t end, uint8_t has_id, const uint8_t *id, size_t id_length, uint8_t *out,
                           size_t out_length) {
  uint8_t own_receiver[WASLIDHAJ_DOMAIN_OCTETS + 1];
  uint8_t own_domain[WASLIDHAJ_DOMAIN_OCTETS + 1];
  uint8_t own_id[64];
  if (receiver_length > sizeof own_receiver || domain_length > sizeof own_domain || id_length > sizeof own_id)
    return waslidhaj_file_name_apart(receiver, receiver_length, domain, domain_length, begin, end, has_id, id, id_length, out,
                                     0);
  waslidhaj_copy(own_receiver, receiver, receiver_length);
  waslidhaj_copy(own_domain, domain, domain_length);
  waslidhaj_copy(own_id, id, id_length);
  return waslidhaj_file_name_apart(own_receiver, receiver_length, own_domain, domain_length, begin, end, has_id, own_id,
                                   id_length, out, out_length);
}

/* Writes the file name of an aggregate report (RFC 9990, 3.5.2). The id is given where `has_id` is not 0. Refused 11, 10. */
static inline waslidhaj_written waslidhaj_file_name(const uint8_t *receiver, size_t receiver_length, const uint8_t *domain,
                                                    size_t domain_length, uint64_t begin, uint64_t end, uint8_t has_id,
                                                    const uint8_t *id, size_t id_length, uint8_t *out, size_t out_length) {
  if (has_id == 0) /* the id is not read */
    id_length = 0;
  if (waslidhaj_overlap(receiver, receiver_length, out, out_length) ||
      waslidhaj_overlap(domain, domain_length, out, out_length) || waslidhaj_overlap(id, id_length, out, out_length))
    return waslidhaj_file_name_copied(receiver, receiver_length, domain, domain_length, begin, end, has_id, id, id_length, out,
                                      out_length);
  return waslidhaj_file_name_apart(receiver, receiver_length, domain, domain_length, begin, end, has_id, id, id_length, out,
                                   out_length);
}

/* As waslidhaj_subject, of lent memory that nowhere overlaps. */
waslidhaj_written waslidhaj_subject_apart(const uint8_t *receiver, size_t receiver_length, const uint8_t *domain,
                                          size_t domain_length, const uint8_t *id, size_t id_length, uint8_t *out,
                                          size_t out_length);

/* As waslidhaj_subject, of copies. Too long a text is 11. */
static WASLIDHAJ_OWN_FRAME waslidhaj_written waslidhaj_subject_copied(const uint8_t *receiver, size_t receiver_length,
                                                                      const uint8_t *domain, size_t domain_length,
                                                                      const uint8_t *id, size_t id_length, uint8_t *out,
                                                                      size_t out_length) {
  uint8_t own_receiver[WASLIDHAJ_DOMAIN_OCTETS + 1];
  uint8_t own_domain[WASLIDHAJ_DOMAIN_OCTETS + 1];
  uint8_t own_id[64];
  if (receiver_length > sizeof own_receiver || domain_length > sizeof own_domain || id_length > sizeof own_id)
    return waslidhaj_subject_apart(receiver, receiver_length, domain, domain_length, id, id_length, out, 0);
  waslidhaj_copy(own_receiver, receiver, receiver_length);
  waslidhaj_copy(own_domain, domain, domain_length);
  waslidhaj_copy(own_id, id, id_length);
  return waslidhaj_subject_apart(own_receiver, receiver_length, own_domain, domain_length, own_id, id_length, out, out_length);
}

/* Writes the subject of the mail with an aggregate report (RFC 9990, 3.5.2), without the field's name and a line end.
 * WASLIDHAJ_SUBJECT_OCTETS are always enough. Refused 11 (the receiver, the domain, or an id that is not 1 to 64 letters and
 * digits), 10. */
static inline waslidhaj_written waslidhaj_subject(const uint8_t *receiver, size_t receiver_length, const uint8_t *domain,
                                                  size_t domain_length, const uint8_t *id, size_t id_length, uint8_t *out,
                                                  size_t out_length) {
  if (waslidhaj_overlap(receiver, receiver_length, out, out_length) ||
      waslidhaj_overlap(domain, domain_length, out, out_length) || waslidhaj_overlap(id, id_length, out, out_length))
    return waslidhaj_subject_copied(receiver, receiver_length, domain, domain_length, id, id_length, out, out_length);
  return waslidhaj_subject_apart(receiver, receiver_length, domain, domain_length, id, id_length, out, out_length);
}

/* ---- Policy records ---- */

/* Settings by numbers. p, sp, np: none 0, quarantine 1, reject 2, absent 3, any other invalid; adkim, aspf: r 0, s 1;
 * psd: u 0, y 1, n 2; t: n 0, y 1. */
typedef struct {
  uint8_t p, sp, np, adkim, aspf, psd, t;
} waslidhaj_settings;

/* Whether the text is a policy record; its settings; whether rua has a valid entry; where the rua text stands. */
typedef struct {
  uint8_t is_record;
  waslidhaj_settings settings;
  uint8_t reports;
  size_t rua_begin;
  size_t rua_length;
} waslidhaj_record_read;

/* As waslidhaj_write_record, of lent memory that nowhere overlaps. */
waslidhaj_written waslidhaj_write_record_apart(waslidhaj_settings settings, const uint8_t *rua, size_t rua_length,
                                               uint8_t *out, size_t out_length);

/* As waslidhaj_write_record, of a copy. Too long a text is 15 or 16. */
static WASLIDHAJ_OWN_FRAME waslidhaj_written waslidhaj_write_record_copied(waslidhaj_settings settings, const uint8_t *rua,
                                                                           size_t rua_length, uint8_t *out,
                                                                           size_t out_length) {
  uint8_t own_rua[WASLIDHAJ_SCRATCH_OCTETS];
  if (rua_length > sizeof own_rua)
    return waslidhaj_write_record_apart(settings, rua, rua_length, out, 0);
  waslidhaj_copy(own_rua, rua, rua_length);
  return waslidhaj_write_record_apart(settings, own_rua, rua_length, out, out_length);
}

/* Writes a policy record. Refused 15, 16, 10. */
static inline waslidhaj_written waslidhaj_write_record(waslidhaj_settings settings, const uint8_t *rua, size_t rua_length,
                                                       uint8_t *out, size_t out_length) {
  if (waslidhaj_overlap(rua, rua_length, out, out_length))
    return waslidhaj_write_record_copied(settings, rua, rua_length, out, out_length);
  return waslidhaj_write_record_apart(settings, rua, rua_length, out, out_length);
}

/* Reads a text as a policy record. */
waslidhaj_record_read waslidhaj_read_record(const uint8_t *text, size_t text_length);

/* ---- The aggregate report ---- */

/* Who reports, on which seconds: `contact` may be empty, `id` has 1 to 64 letters and digits. */
typedef struct {
  waslidhaj_text organization, email, contact, id;
  uint64_t begin, end;
} waslidhaj_reporter;

/* The rows of a report: look into none of it. */
typedef struct {
  size_t count;
  uint8_t octets[8192];
} waslidhaj_gathered;

/* Gathers the rows that a report is written from, those with a count of the first 256. */
waslidhaj_gathered waslidhaj_gather(const waslidhaj_row *rows, size_t rows_length);

/* As waslidhaj_report, of rows that are gathered and of lent memory that nowhere overlaps. */
waslidhaj_written waslidhaj_report_apart(waslidhaj_list list, waslidhaj_gathered gathered, waslidhaj_settings settings,
                                         const uint8_t *authors, size_t authors_length, const uint8_t *sets,
                                         size_t sets_length, const uint8_t *organization, size_t organization_length,
                                         const uint8_t *email, size_t email_length, const uint8_t *contact,
                                         size_t contact_length, const uint8_t *id, size_t id_length, uint64_t begin,
                                         uint64_t end, uint8_t *out, size_t out_length);

static inline int waslidhaj_overlap_text(waslidhaj_text text, const uint8_t *out, size_t out_length) {
  return waslidhaj_overlap(text.octets, text.length, out, out_length);
}

static inline int waslidhaj_overlap_report(waslidhaj_lists lists, waslidhaj_reporter reporter, const uint8_t *out,
                                           size_t out_length) {
  return waslidhaj_overlap_text(lists.authors, out, out_length) || waslidhaj_overlap_text(lists.sets, out, out_length) ||
         waslidhaj_overlap_text(reporter.organization, out, out_length) ||
         waslidhaj_overlap_text(reporter.email, out, out_length) ||
         waslidhaj_overlap_text(reporter.contact, out, out_length) || waslidhaj_overlap_text(reporter.id, out, out_length);
}

/* Writes the aggregate report of a day's rows as XML (RFC 9990, 3.1.1). `settings` are those of the policy record at the list's
 * domain, as waslidhaj_read_record gives them; where p is absent or one of p, sp, np invalid, all three are written none.
 * WASLIDHAJ_REPORT_OCTETS are always enough; lend none to be told how many are needed. It needs no other memory but the gathered
 * rows, 8,200 octets, on the stack, among those of the table.
 *
 * Refused at place 0, in this order: 27 (the list was never cleared), 18 (no row with a count), 28 (as waslidhaj_enter, of every
 * row with a count), 19 (organization or email empty, or one of the three texts over 4,096 octets or with one outside 32 to
 * 126), 11 (the list's domain, the id, an end before the begin, or of a row with a count its author domain, an identifier's
 * domain or a DKIM selector); then 10 at the octets needed. An output that overlaps a list or a text is no room: 10, unless
 * another refusal is due. It may overlap the rows. */
static WASLIDHAJ_OWN_FRAME waslidhaj_written waslidhaj_report(waslidhaj_list list, const waslidhaj_row *rows,
                                                              size_t rows_length, waslidhaj_settings settings,
                                                              waslidhaj_lists lists, waslidhaj_reporter reporter,
                                                              uint8_t *out, size_t out_length) {
  if (waslidhaj_overlap_report(lists, reporter, out, out_length))
    out_length = 0;
  return waslidhaj_report_apart(list, waslidhaj_gather(rows, rows_length), settings, lists.authors.octets,
                                lists.authors.length, lists.sets.octets, lists.sets.length, reporter.organization.octets,
                                reporter.organization.length, reporter.email.octets, reporter.email.length,
                                reporter.contact.octets, reporter.contact.length, reporter.id.octets, reporter.id.length,
                                reporter.begin, reporter.end, out, out_length);
}

/* ---- The Identity-Alignment field ---- */

/* The methods that a field names, 1 or 0: those that failed to authenticate an aligned identity (RFC 9991); neither for `none`.
 * Refused, both are 1, so that a field that was not read never says that all went well. */
typedef struct {
  waslidhaj_refusal refusal;
  uint8_t dkim;
  uint8_t spf;
} waslidhaj_field_read;

/* Reads a field, its name and its closing CR LF included. Refused 24 (not the grammar: at the first octet that it cannot have
 * there, or at the length), 25 (at the ninth parenthesis open at once), 26 (where a method that it named already begins). */
waslidhaj_field_read waslidhaj_read_field(const uint8_t *text, size_t text_length);

/* ---- A report address ---- */

/* Whether an address outside the policy domain agreed to receive reports (RFC 9990, section 4): start a check of a rua entry for
 * a policy domain, then in turn: next, and an answer for the name that it gives, until next gives the outcome. Without an outcome
 * its number reads not known: do not send. After an answer's 6, go on as with a message.
 *
 * The host that is checked follows the last `@` of the entry. A mailer may find another one in an entry with a second `@`, a `?`,
 * a `#` or a `%`, as in `mailto:x@victim.example?y=@own.example`: send to such an entry only if yours finds the host that was
 * checked. */
enum {
  WASLIDHAJ_ADDRESS_NOT_KNOWN, /* a lookup failed: do not send, ask again later */
  WASLIDHAJ_ADDRESS_NO,        /* it did not agree: do not send */
  WASLIDHAJ_ADDRESS_INSIDE,    /* it is the policy domain's own, or of its organizational domain */
  WASLIDHAJ_ADDRESS_CONFIRMED, /* it agreed */
  WASLIDHAJ_ADDRESS_REPLACED   /* it agreed to another text alone: do not send to the entry itself */
};

enum { WASLIDHAJ_OUTCOME = WASLIDHAJ_VERDICT, WASLIDHAJ_CHECK_NAMES = 17 /* the most names that a started check asks */ };

/* A check, in the caller's memory: fill it with zeros, and start it; look into none of it. Any octets get an answer. It may lie in
 * lent memory: it is read first and written last. Kept in a file, it is of one build only (WASLIDHAJ_VERSION). */
typedef struct {
  uint8_t started, asked, confirmed;
  uint8_t domains[506];
  uint16_t numbers[2];
  uint16_t kept[48];
  size_t count;
  uint8_t point_kind;
  size_t organization;
  uint8_t found;
  size_t record_begin, record_settings, target_begin, target_wider, more;
  size_t instead_begin, instead_length;
} waslidhaj_check;

/* What a call gives, by its kind. Ask: the name to ask, marked by `walk` and `place`; waslidhaj_check_name writes it out.
 * Outcome: `agreement`, how many names were asked in `count`, and of a replaced address where the text that takes its place
 * stands in the scratch, as the answer for the confirming name left that: `length` octets from `begin` on. Copy them before the
 * scratch is lent again. Refused: `refusal`. What its kind does not have is 0.
 *
 * That text is a comma list. Every host in it that was judged is the first address's; entries that are no `mailto:` with a domain,
 * or have a `!`, were passed over. Send to those alone for which waslidhaj_check_start is not refused 23. */
typedef struct {
  uint8_t kind;
  uint8_t agreement;
  size_t walk;
  size_t place;
  size_t begin;
  size_t length;
  size_t count;
  waslidhaj_refusal refusal;
} waslidhaj_check_given;

/* The check to go on with, and what the call gives. */
typedef struct {
  waslidhaj_check check;
  waslidhaj_check_given given;
} waslidhaj_check_called;

/* The calls, of a check by value and of lent memory that nowhere overlaps. */
waslidhaj_check_called waslidhaj_check_start_by_value(waslidhaj_check check, const uint8_t *policy, size_t policy_length,
                                                      const uint8_t *entry, size_t entry_length);
waslidhaj_check_called waslidhaj_check_next_by_value(waslidhaj_check check);
waslidhaj_check_called waslidhaj_check_answer_by_value(waslidhaj_check check, const uint8_t *name, size_t name_length,
                                                       uint8_t status, const uint8_t *bytes, size_t bytes_length,
                                                       uint8_t *scratch, size_t scratch_length);
waslidhaj_check_given waslidhaj_check_result_by_value(waslidhaj_check check);
waslidhaj_written waslidhaj_check_name_by_value(waslidhaj_check check, size_t walk, size_t place, uint8_t *out,
                                                size_t out_length);

/* A call that changed the check is of kind accepted or ask; any other leaves every octet of it. */
static inline waslidhaj_check_given waslidhaj_check_go_on(waslidhaj_check *check, waslidhaj_check_called called) {
  if (called.given.kind == WASLIDHAJ_ACCEPTED || called.given.kind == WASLIDHAJ_ASK)
    *check = called.check;
  return called.given;
}

/* Starts the check of a rua entry for a policy domain, over whatever check there was. Accepted, or refused 11 (a bad policy
 * domain), 23 (an entry with a comma, or no valid `mailto:` with a domain after its last `@`). Refused, that check stays, with
 * the outcome that it may have of another address. */
static inline waslidhaj_check_given waslidhaj_check_start(waslidhaj_check *check, const uint8_t *policy, size_t policy_length,
                                                          const uint8_t *entry, size_t entry_length) {
  return waslidhaj_check_go_on(check,
                               waslidhaj_check_start_by_value(*check, policy, policy_length, entry, entry_length));
}

/* The next step: ask, the outcome, or refused 7 (nothing was started). */
static inline waslidhaj_check_given waslidhaj_check_next(waslidhaj_check *check) {
  return waslidhaj_check_go_on(check, waslidhaj_check_next_by_value(*check));
}

/* As waslidhaj_check_answer, of copies. Refused are 5, 6 and 10, in this order: too long a name is 5, too long an answer 6. */
static WASLIDHAJ_OWN_FRAME waslidhaj_check_called
waslidhaj_check_answer_copied(waslidhaj_check check, const uint8_t *name, size_t name_length, uint8_t status,
                              const uint8_t *bytes, size_t bytes_length, uint8_t *scratch, size_t scratch_length) {
  uint8_t own_name[WASLIDHAJ_CHECK_NAME_OCTETS + 1];
  uint8_t own_bytes[WASLIDHAJ_SCRATCH_OCTETS];
  if (name_length > sizeof own_name || bytes_length > sizeof own_bytes)
    return waslidhaj_check_answer_by_value(check, name, name_length, status, bytes, bytes_length, scratch, 0);
  waslidhaj_copy(own_name, name, name_length);
  waslidhaj_copy(own_bytes, bytes, bytes_length);
  return waslidhaj_check_answer_by_value(check, own_name, name_length, status, own_bytes, bytes_length, scratch,
                                         scratch_length);
}

/* An answer for the name now asked, as waslidhaj_answer takes one. Accepted, or refused 5, 6, 10. */
static inline waslidhaj_check_given waslidhaj_check_answer(waslidhaj_check *check, const uint8_t *name, size_t name_length,
                                                           uint8_t status, const uint8_t *bytes, size_t bytes_length,
                                                           uint8_t *scratch, size_t scratch_length) {
  if (status != WASLIDHAJ_RECORDS) /* the bytes are not read */
    bytes_length = 0;
  if (waslidhaj_overlap(name, name_length, scratch, scratch_length) ||
      waslidhaj_overlap(bytes, bytes_length, scratch, scratch_length))
    return waslidhaj_check_go_on(check, waslidhaj_check_answer_copied(*check, name, name_length, status, bytes, bytes_length,
                                                                      scratch, scratch_length));
  return waslidhaj_check_go_on(check, waslidhaj_check_answer_by_value(*check, name, name_length, status, bytes, bytes_length,
                                                                      scratch, scratch_length));
}

/* The outcome again, or refused 7. */
static inline waslidhaj_check_given waslidhaj_check_result(const waslidhaj_check *check) {
  return waslidhaj_check_result_by_value(*check);
}

/* Writes the name that a walk and a place mark. WASLIDHAJ_CHECK_NAME_OCTETS are enough for any check, walk and place; the names
 * of a check that was started have 253 octets at the most. Refused 10. */
static inline waslidhaj_written waslidhaj_check_name(const waslidhaj_check *check, size_t walk, size_t place, uint8_t *out,
                                                     size_t out_length) {
  return waslidhaj_check_name_by_value(*check, walk, place, out, out_length);
}

/* ---- Reading a report ---- */

/* Reads an aggregate report as waslidhaj_report writes it, in parts cut anywhere: start a reader, hand it the parts in turn, and
 * declare the end. The rows, the refusal and its place are those of the uncut text. Look at the event of what each call gives:
 *
 *   waslidhaj_read_start(&reader);
 *   while (there is a part)
 *     do {
 *       given = waslidhaj_read(&reader, part, part_length);
 *       part += given.used, part_length -= given.used;
 *       if (given.event == WASLIDHAJ_READ_ROW)
 *         ..; waslidhaj_received_row(&reader, given) is the row
 *     } while (given.event == WASLIDHAJ_READ_ROW);
 *   given = waslidhaj_read_end(&reader);
 *
 * Rows that were handed out before a refusal stand. Only where the end is accepted was all of the report there. */
enum {
  WASLIDHAJ_READ_MORE,   /* the part is used up: go on with the next one, or declare the end; of an end, it is accepted */
  WASLIDHAJ_READ_ROW,    /* a row is handed out: its record ended with the last octet used; go on with the rest of the part */
  WASLIDHAJ_READ_REFUSED /* refused: every later part and the end get the same refusal */
};

/* The numbers of a reader; look into none of it. */
typedef struct {
  uint64_t taken, refused, value, begin, count;
  uint16_t length, left, ten, sixteen;
  uint8_t node, which, at, label, some, disposition, dkim, spf, kind, digits, numbers, author, identifiers;
  uint8_t domain, selector, outcome;
} waslidhaj_reader_state;

/* A reader, in the caller's memory: start it; look into none of it. It is all that is kept between two parts, however long the
 * report is. Any octets get an answer. Kept in a file, it is of one build only (WASLIDHAJ_VERSION). */
typedef struct {
  waslidhaj_reader_state state;
  uint8_t row[8432];
} waslidhaj_reader;

/* What a call tells: the event; of one that is refused, the refusal's number and place; of a row that is handed out, its count of
 * messages. All else is 0. */
typedef struct {
  uint64_t event, number, place, count;
} waslidhaj_told;

/* The numbers to go on with, how many octets of the part are used, and what there is to tell. */
typedef struct {
  waslidhaj_reader_state state;
  size_t used;
  waslidhaj_told told;
} waslidhaj_fed;

/* The same of a declared end. */
typedef struct {
  waslidhaj_reader_state state;
  waslidhaj_told told;
} waslidhaj_ended;

/* Where the parts of the open row stand in its octets, and those of an identifier in its own; then numbers of a reader: for the
 * functions below alone. Of a dotted source the last four octets are written alone; a disposition is as the report spells it,
 * pass and none before these. */
enum {
  WASLIDHAJ_ROW_SOURCE = 0,
  WASLIDHAJ_ROW_AUTHOR = 16,
  WASLIDHAJ_ROW_IDENTIFIERS = 272,
  WASLIDHAJ_ROW_IDENTIFIER_OCTETS = 510,
  WASLIDHAJ_ROW_DOMAIN = 0,
  WASLIDHAJ_ROW_SELECTOR = 253,
  WASLIDHAJ_ROW_DOMAIN_LENGTH = 506,
  WASLIDHAJ_ROW_SELECTOR_LENGTH = 507,
  WASLIDHAJ_ROW_OUTCOME = 508,
  WASLIDHAJ_ROW_KIND = 509,
  WASLIDHAJ_ROW_IS_DOTTED = 1,
  WASLIDHAJ_ROW_QUARANTINE = 2,
  WASLIDHAJ_ROW_REJECT = 3
};

/* The numbers of a reader that has read nothing. */
waslidhaj_reader_state waslidhaj_new_reader(void);

/* As waslidhaj_read, of a reader in two and of a part that is apart from its row, which has WASLIDHAJ_ROW_OCTETS octets. */
waslidhaj_fed waslidhaj_read_apart(waslidhaj_reader_state state, const uint8_t *part, size_t part_length, uint8_t *row);

/* As waslidhaj_read_end, of the numbers alone. */
waslidhaj_ended waslidhaj_end(waslidhaj_reader_state state);

/* What a call gives: the event, how many octets of the part are used (up to the end of a record, or all), the refusal of an event
 * that is refused, and the count of a row that is handed out; else number 0 and count 0. */
typedef struct {
  uint8_t event;
  size_t used;
  waslidhaj_refusal refusal;
  uint32_t count;
} waslidhaj_read_given;

static inline waslidhaj_read_given waslidhaj_read_go_on(waslidhaj_reader *reader, waslidhaj_reader_state state, size_t used,
                                                        waslidhaj_told told) {
  waslidhaj_read_given given;
  given.event = (uint8_t)told.event;
  given.used = used;
  given.refusal.number = told.number < 255 ? (uint8_t)told.number : 255;
  given.refusal.place = (size_t)told.place;
  given.count = told.count < UINT32_MAX ? (uint32_t)told.count : UINT32_MAX;
  reader->state = state;
  return given;
}

/* Starts a reader, over whatever it has. */
static inline void waslidhaj_read_start(waslidhaj_reader *reader) {
  memset(reader->row, 0, sizeof reader->row);
  reader->state = waslidhaj_new_reader();
}

/* Reads a part, up to the end of its first record. Refused 20 (text outside the form; of an end before the begin, at the `<`
 * after it), 21 (a digit that takes a begin, an end or a count over its width), both at the octet's place from the start of the
 * report.
 *
 * A part that overlaps the reader is not read, since the open row would be kept over octets that are still to be read: event
 * refused, by 10 at place 0, with nothing used and the reader as it was. No other part is refused 10. */
static inline waslidhaj_read_given waslidhaj_read(waslidhaj_reader *reader, const uint8_t *part, size_t part_length) {
  waslidhaj_read_given overlapping = {WASLIDHAJ_READ_REFUSED, 0, {10, 0}, 0};
  waslidhaj_fed fed;
  if (waslidhaj_overlap(part, part_length, reader, sizeof *reader))
    return overlapping;
  fed = waslidhaj_read_apart(reader->state, part, part_length, reader->row);
  return waslidhaj_read_go_on(reader, fed.state, fed.used, fed.told);
}

/* Declares the end of the report. Accepted with event more, refused 22 at the report's length (it ends early), or as before. */
static inline waslidhaj_read_given waslidhaj_read_end(waslidhaj_reader *reader) {
  waslidhaj_ended ended = waslidhaj_end(reader->state);
  return waslidhaj_read_go_on(reader, ended.state, 0, ended.told);
}

/* The row that was handed out: source (16 octets, IPv4 mapped), count, disposition, whether each method aligned, author domain,
 * and how many identifiers it has. The domain stands in the reader: copy it before the next part is read. */
typedef struct {
  uint8_t source[16];
  uint32_t count;
  uint8_t disposition;
  uint8_t dkim;
  uint8_t spf;
  waslidhaj_text author;
  size_t identifiers;
} waslidhaj_received;

/* An identifier of that row, likewise; SPF's has no selector. */
typedef struct {
  uint8_t kind;
  uint8_t outcome;
  waslidhaj_text domain;
  waslidhaj_text selector;
} waslidhaj_received_identifier;

/* A domain or a selector in the open row, no longer than any is. */
static inline waslidhaj_text waslidhaj_row_text(const uint8_t *octets, size_t length) {
  waslidhaj_text text;
  text.octets = octets;
  text.length = length;
  if (text.length > WASLIDHAJ_DOMAIN_OCTETS)
    text.length = WASLIDHAJ_DOMAIN_OCTETS;
  return text;
}

static inline size_t waslidhaj_row_identifiers(const waslidhaj_reader *reader) {
  size_t identifiers = reader->state.identifiers;
  return identifiers < WASLIDHAJ_IDENTIFIERS ? identifiers : (size_t)WASLIDHAJ_IDENTIFIERS;
}

/* The row of a reader by what its last call gave. Without a row that is handed out there is none: its count is 0, and what else
 * it has is of no row. */
static inline waslidhaj_received waslidhaj_received_row(const waslidhaj_reader *reader, waslidhaj_read_given given) {
  static const uint8_t mapped[] = {0, 0, 0, 0, 0, 0, 0, 0, 0, 0, 255, 255};
  const waslidhaj_reader_state *state = &reader->state;
  waslidhaj_received row;
  memcpy(row.source, reader->row + WASLIDHAJ_ROW_SOURCE, sizeof row.source);
  if (state->kind == WASLIDHAJ_ROW_IS_DOTTED)
    memcpy(row.source, mapped, sizeof mapped);
  row.count = given.count;
  row.disposition = WASLIDHAJ_DISPOSITION_NONE;
  if (state->disposition == WASLIDHAJ_ROW_QUARANTINE)
    row.disposition = WASLIDHAJ_DISPOSITION_QUARANTINE;
  if (state->disposition == WASLIDHAJ_ROW_REJECT)
    row.disposition = WASLIDHAJ_DISPOSITION_REJECT;
  row.dkim = state->dkim;
  row.spf = state->spf;
  row.author = waslidhaj_row_text(reader->row + WASLIDHAJ_ROW_AUTHOR, state->author);
  row.identifiers = waslidhaj_row_identifiers(reader);
  return row;
}

/* An identifier of the row by its index from 0, DKIM's before SPF's; past the last one, SPF of an empty domain. */
static inline waslidhaj_received_identifier waslidhaj_received_at(const waslidhaj_reader *reader, size_t index) {
  waslidhaj_received_identifier identifier = {0, 0, {NULL, 0}, {NULL, 0}};
  const uint8_t *own = reader->row + WASLIDHAJ_ROW_IDENTIFIERS;
  if (index >= waslidhaj_row_identifiers(reader))
    return identifier;
  own += index * WASLIDHAJ_ROW_IDENTIFIER_OCTETS;
  identifier.kind = own[WASLIDHAJ_ROW_KIND];
  identifier.outcome = own[WASLIDHAJ_ROW_OUTCOME];
  identifier.domain = waslidhaj_row_text(own + WASLIDHAJ_ROW_DOMAIN, own[WASLIDHAJ_ROW_DOMAIN_LENGTH]);
  if (identifier.kind == WASLIDHAJ_DKIM)
    identifier.selector = waslidhaj_row_text(own + WASLIDHAJ_ROW_SELECTOR, own[WASLIDHAJ_ROW_SELECTOR_LENGTH]);
  return identifier;
}

#ifdef __cplusplus
}
#endif

#endif
