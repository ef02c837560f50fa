/* check: one message checked live, or one report address, by the proved evaluator's calls and DNS lookups over libresolv.
 *
 *   gcc -std=c99 -Iinclude examples/live/check.c target/lib/libwaslidhaj.a -lresolv -o check
 *   ./check example.com exists supported dkim=pass:mail.example.com
 *   ./check --address blue.example.com mailto:reports@red.example.net
 *
 * To copy from, into a milter say: the lookups and the evaluation are all that DMARC needs; the rest reads words and prints.
 * It ends with 0 after a verdict or an outcome, 1 if it could not be run, 2 for a mistake in the words, 3 if there is none:
 * then the message is to be deferred, and no report is to be sent. */
#define _DEFAULT_SOURCE 1 /* resolv.h needs more than C99 */

#include <sys/types.h>

#include <netinet/in.h>

#include <arpa/inet.h>
#include <arpa/nameser.h>
#include <netdb.h>
#include <resolv.h>
#include <stdio.h>
#include <stdlib.h>
#include <string.h>

#include "waslidhaj.h"

/* ---- Lookups ---- */

/* What a lookup came to, as waslidhaj_answer takes it. Records are shorter here than in a reply, so they have room. */
typedef struct {
  uint8_t status;
  size_t length;
  uint8_t bytes[NS_MAXMSG];
} answer;

/* Appends a TXT record: the mark TX, the length of its RDATA (high octet first), its RDATA. */
static int append(answer *to, ns_rr record) {
  size_t length = ns_rr_rdlen(record);
  uint8_t *end = to->bytes + to->length;
  if (sizeof to->bytes - to->length < length + 4)
    return 0;
  end[0] = 'T';
  end[1] = 'X';
  end[2] = (uint8_t)(length >> 8);
  end[3] = (uint8_t)(length & 255);
  memcpy(end + 4, ns_rr_rdata(record), length);
  to->length += length + 4;
  return 1;
}

/* Whether a reply is whole, not cut off (TC), and no referral: its server has authority (AA) or asks on for us (RA). */
static int is_answer(const uint8_t *reply) {
  return (reply[2] & 2) == 0 && ((reply[2] & 4) != 0 || (reply[3] & 128) != 0);
}

/* Takes the TXT records out of a reply. Any others are CNAMEs on the way to them. */
static uint8_t read_reply(const uint8_t *reply, int length, answer *to) {
  ns_msg message;
  ns_rr record;
  int index;
  if (length > NS_MAXMSG || !is_answer(reply) || ns_initparse(reply, length, &message) != 0)
    return WASLIDHAJ_ERROR;
  for (index = 0; index < ns_msg_count(message, ns_s_an); index++) {
    if (ns_parserr(&message, ns_s_an, index, &record) != 0)
      return WASLIDHAJ_ERROR;
    if (ns_rr_type(record) == ns_t_txt && !append(to, record))
      return WASLIDHAJ_ERROR;
  }
  return to->length > 0 ? WASLIDHAJ_RECORDS : WASLIDHAJ_NO_RECORDS;
}

/* Looks a name up, once. NXDOMAIN and a reply without TXT records are no records. Whatever else goes wrong, a time-out too, is
 * an error: read as no records it would let forged mail in. */
static void look_up(res_state resolver, const char *name, answer *to) {
  uint8_t reply[NS_MAXMSG];
  int length, why;
  memset(reply, 0, NS_HFIXEDSZ);
  length = res_nquery(resolver, name, ns_c_in, ns_t_txt, reply, sizeof reply);
  why = resolver->res_h_errno;
  to->length = 0;
  if (length >= 0)
    to->status = read_reply(reply, length, to);
  else if ((why == HOST_NOT_FOUND || why == NO_DATA) && is_answer(reply))
    to->status = WASLIDHAJ_NO_RECORDS;
  else
    to->status = WASLIDHAJ_ERROR;
}

/* Names one server, ADDRESS or ADDRESS:PORT with an IPv4 address, in place of those of resolv.conf. */
static int set_server(res_state resolver, const char *text) {
  struct sockaddr_in *server = &resolver->nsaddr_list[0];
  char address[INET_ADDRSTRLEN];
  size_t length = strcspn(text, ":");
  int port = text[length] == ':' ? atoi(text + length + 1) : NS_DEFAULTPORT;
  if (length >= sizeof address || port < 1 || port > 65535)
    return 0;
  memcpy(address, text, length);
  address[length] = '\0';
  server->sin_family = AF_INET;
  server->sin_port = htons((uint16_t)port);
  resolver->nscount = 1;
  return inet_pton(AF_INET, address, &server->sin_addr) == 1;
}

/* One try, names as they are, EDNS0. The seconds are UDP's. Where a reply is cut off libresolv asks again over TCP, and waits
 * there for as long as the connection stands: a milter bounds that itself, or sets RES_IGNTC, and then it is an error. */
static int set_up(res_state resolver, const char *server, int seconds) {
  resolver->retrans = seconds;
  resolver->retry = 1;
  resolver->options |= RES_USE_EDNS0;
  resolver->options &= ~(unsigned long)(RES_DNSRCH | RES_DEFNAMES);
  return server == NULL || set_server(resolver, server);
}

/* ---- The evaluation ---- */

/* What is lent for the texts of an answer. */
typedef uint8_t texts[WASLIDHAJ_SCRATCH_OCTETS];

/* Says that the answer for a name was refused 6. */
static void say_error(const char *name) {
  fprintf(stderr, "check: %s: the answer is over a limit or unreadable, so it is taken as an error\n", name);
}

/* Whether a name that was written out can be looked up, as a C string. One of a damaged state may have a zero in it. */
static int is_name(uint8_t *name, waslidhaj_written written) {
  name[written.length] = '\0';
  return written.refusal.number == 0 && strlen((const char *)name) == written.length;
}

/* Hands in the answer for a name. Refused 6, it is over a limit or unreadable: the name is still asked, and it is an error. Any
 * other refusal ends the evaluation, and so does one of that error. */
static waslidhaj_called hand_in(waslidhaj_state state, const char *name, const answer *found) {
  texts scratch;
  const uint8_t *octets = (const uint8_t *)name;
  size_t length = strlen(name);
  waslidhaj_called called =
      waslidhaj_answer(state, octets, length, found->status, found->bytes, found->length, scratch, sizeof scratch);
  if (called.given.kind == WASLIDHAJ_REFUSED && called.given.refusal.number == 6) {
    say_error(name);
    called = waslidhaj_answer(called.state, octets, length, WASLIDHAJ_ERROR, NULL, 0, scratch, sizeof scratch);
  }
  return called;
}

/* Asks the name that an evaluation gives, and hands in what comes. One that cannot be looked up stays asked. */
static waslidhaj_called ask(waslidhaj_called called, res_state resolver) {
  uint8_t name[WASLIDHAJ_NAME_OCTETS + 1];
  answer found;
  waslidhaj_written written =
      waslidhaj_name(called.state, called.given.walk, called.given.place, name, WASLIDHAJ_NAME_OCTETS);
  if (!is_name(name, written))
    return called;
  printf("ask %s\n", (const char *)name);
  look_up(resolver, (const char *)name, &found);
  return hand_in(called.state, (const char *)name, &found);
}

/* Runs an evaluation on as long as all is accepted: up to the verdict, or to a refusal. */
static waslidhaj_called evaluate(waslidhaj_called called, res_state resolver) {
  int turn;
  for (turn = 0; turn <= WASLIDHAJ_NAMES && called.given.kind == WASLIDHAJ_ACCEPTED; turn++) {
    called = waslidhaj_next(called.state);
    if (called.given.kind == WASLIDHAJ_ASK)
      called = ask(called, resolver);
  }
  return called;
}

/* ---- The check of an address ---- */

/* A check under way, what its last call gave, and the texts of the last answer: one of them may take the address's place. */
typedef struct {
  waslidhaj_check check;
  waslidhaj_check_given given;
  texts scratch;
} address_check;

/* Hands in the answer for a name, as hand_in does. */
static void hand_to_check(address_check *own, const char *name, const answer *found) {
  const uint8_t *octets = (const uint8_t *)name;
  size_t length = strlen(name);
  own->given = waslidhaj_check_answer(&own->check, octets, length, found->status, found->bytes, found->length, own->scratch,
                                      sizeof own->scratch);
  if (own->given.kind == WASLIDHAJ_REFUSED && own->given.refusal.number == 6) {
    say_error(name);
    own->given = waslidhaj_check_answer(&own->check, octets, length, WASLIDHAJ_ERROR, NULL, 0, own->scratch,
                                        sizeof own->scratch);
  }
}

/* Asks the name that a check gives, as ask does. */
static void ask_for_check(address_check *own, res_state resolver) {
  uint8_t name[WASLIDHAJ_CHECK_NAME_OCTETS + 1];
  answer found;
  waslidhaj_written written =
      waslidhaj_check_name(&own->check, own->given.walk, own->given.place, name, WASLIDHAJ_CHECK_NAME_OCTETS);
  if (!is_name(name, written))
    return;
  printf("ask %s\n", (const char *)name);
  look_up(resolver, (const char *)name, &found);
  hand_to_check(own, (const char *)name, &found);
}

/* Runs a check on as long as all is accepted: up to the outcome, or to a refusal. */
static void run_check(address_check *own, res_state resolver) {
  int turn;
  for (turn = 0; turn <= WASLIDHAJ_CHECK_NAMES && own->given.kind == WASLIDHAJ_ACCEPTED; turn++) {
    own->given = waslidhaj_check_next(&own->check);
    if (own->given.kind == WASLIDHAJ_ASK)
      ask_for_check(own, resolver);
  }
}

/* Whether what takes the place of the address lies in the scratch; after another outcome it is empty. Of a damaged check it may
 * not. */
static int is_whole(const address_check *own) {
  size_t begin = own->given.begin;
  return begin <= sizeof own->scratch && own->given.length <= sizeof own->scratch - begin;
}

/* ---- Words ---- */

/* The words of the numbers, each at its number. */
static const char *const EXISTENCES[] = {"missing", "exists", "unknown", NULL};
static const char *const SUPPORTS[] = {"unsupported", "supported", NULL};
static const char *const KINDS[] = {"spf", "dkim", NULL};
static const char *const OUTCOMES[] = {"fail", "pass", "temperror", NULL};
static const char *const RESULTS[] = {"none", "pass", "fail", "temperror", "permerror"};
static const char *const POLICIES[] = {"none", "quarantine", "reject", "unknown"};
static const char *const DISPOSITIONS[] = {"none", "quarantine", "reject", "defer"};
static const char *const ALIGNMENTS[] = {"not judged", "aligned", "not aligned", "unknown"};
static const char *const AGREEMENTS[] = {"not known", "no", "inside", "confirmed", "replaced"};

/* An identifier: SPF's or DKIM's outcome for a domain. */
typedef struct {
  int kind, outcome;
  const char *domain;
} identifier;

/* Ends the program, at a mistake in its words. */
static void misused(void) {
  fputs("usage: check [--server ADDRESS[:PORT]] [--timeout SECONDS] AUTHOR exists|missing|unknown supported|unsupported\n"
        "             [spf|dkim=pass|fail|temperror:DOMAIN]...\n"
        "       check [--server ADDRESS[:PORT]] [--timeout SECONDS] --address DOMAIN ENTRY\n",
        stderr);
  exit(2);
}

/* The number of the word that is the first `length` octets of a text. */
static int number_of(const char *const *words, const char *text, size_t length) {
  int number;
  for (number = 0; words[number] != NULL; number++)
    if (strlen(words[number]) == length && strncmp(words[number], text, length) == 0)
      return number;
  misused();
  return -1;
}

/* KIND=OUTCOME:DOMAIN */
static identifier read_identifier(const char *text) {
  identifier read;
  size_t kind = strcspn(text, "=");
  const char *outcome = text + kind + (text[kind] == '=');
  size_t length = strcspn(outcome, ":");
  read.kind = number_of(KINDS, text, kind);
  read.outcome = number_of(OUTCOMES, outcome, length);
  if (outcome[length] != ':')
    misused();
  read.domain = outcome + length + 1;
  return read;
}

/* ---- One message ---- */

/* Opens a message by its words, AUTHOR, existence, support and its identifiers, up to a refusal. */
static waslidhaj_called open_message(char **words) {
  waslidhaj_state state;
  waslidhaj_called called;
  int existence = number_of(EXISTENCES, words[1], strlen(words[1]));
  int support = number_of(SUPPORTS, words[2], strlen(words[2]));
  memset(&state, 0, sizeof state);
  called = waslidhaj_open(state, (const uint8_t *)words[0], strlen(words[0]), (uint8_t)existence, (uint8_t)support);
  for (words += 3; *words != NULL && called.given.kind == WASLIDHAJ_ACCEPTED; words++) {
    identifier read = read_identifier(*words);
    called = waslidhaj_add(called.state, (uint8_t)read.kind, (uint8_t)read.outcome, (const uint8_t *)read.domain,
                           strlen(read.domain));
  }
  return called;
}

/* The verdict, then, as far as there are any, the domain of the applied record, the identifiers and the field. */
static void print_verdict(waslidhaj_called called, char **identifiers) {
  uint8_t out[WASLIDHAJ_DOMAIN_OCTETS];
  waslidhaj_verdict verdict = called.given.verdict;
  waslidhaj_written domain = waslidhaj_domain(called.state, verdict.begin, out, sizeof out);
  waslidhaj_given field;
  unsigned index;
  printf("result %s\npolicy %s\n", RESULTS[verdict.result], POLICIES[verdict.policy]);
  printf("disposition %s\nasked %zu\n", DISPOSITIONS[verdict.disposition], verdict.count);
  if (domain.length > 0)
    printf("record %.*s\n", (int)domain.length, (const char *)out);
  for (index = 0; identifiers[index] != NULL; index++)
    printf("%s: %s\n", identifiers[index], ALIGNMENTS[waslidhaj_alignment(verdict, index)]);
  field = waslidhaj_field(called.state, out, sizeof out);
  if (field.kind == WASLIDHAJ_ACCEPTED)
    printf("%.*s\n", (int)field.length - 2, (const char *)out); /* without its CR LF */
}

/* Prints a refusal, or says that there is none and yet it did not go on. */
static void print_stop(uint8_t kind, waslidhaj_refusal refusal) {
  if (kind == WASLIDHAJ_REFUSED)
    printf("refused %u at %zu\n", refusal.number, refusal.place);
  else
    fputs("check: a name is asked that cannot be looked up\n", stderr);
}

/* Checks a message by its words, and gives the exit status. Without a verdict the message is to be deferred. */
static int check(char **words, res_state resolver) {
  waslidhaj_called called = evaluate(open_message(words), resolver);
  if (called.given.kind == WASLIDHAJ_VERDICT) {
    print_verdict(called, words + 3);
    return 0;
  }
  print_stop(called.given.kind, called.given.refusal);
  return 3;
}

/* ---- One address ---- */

/* Whether a mailer may find another host in an entry than the one that was checked, which follows the last `@`. */
static int is_odd(const char *entry, size_t length) {
  const char *at = (const char *)memchr(entry, '@', length);
  size_t rest = at == NULL ? 0 : length - (size_t)(at - entry) - 1;
  if (rest > 0 && memchr(at + 1, '@', rest) != NULL)
    return 1;
  return memchr(entry, '?', length) != NULL || memchr(entry, '#', length) != NULL || memchr(entry, '%', length) != NULL;
}

/* Prints an entry of a list, without the blanks around it, if a report may be sent to it: 23 lets it through. */
static void print_entry(const char *policy, const char *entry, size_t length) {
  waslidhaj_check probe;
  waslidhaj_check_given given;
  memset(&probe, 0, sizeof probe);
  given = waslidhaj_check_start(&probe, (const uint8_t *)policy, strlen(policy), (const uint8_t *)entry, length);
  if (given.kind != WASLIDHAJ_ACCEPTED)
    return;
  for (; *entry == ' ' || *entry == '\t'; entry++)
    length--;
  while (entry[length - 1] == ' ' || entry[length - 1] == '\t')
    length--;
  printf("send %.*s\n", (int)length, entry);
  if (is_odd(entry, length))
    fprintf(stderr, "check: a mailer may find another host in %.*s\n", (int)length, entry);
}

/* Prints to which entries of a comma list a report may be sent. */
static void print_list(const char *policy, const char *list, size_t length) {
  const char *comma;
  while ((comma = (const char *)memchr(list, ',', length)) != NULL) {
    size_t entry = (size_t)(comma - list);
    print_entry(policy, list, entry);
    list += entry + 1;
    length -= entry + 1;
  }
  print_entry(policy, list, length);
}

/* The outcome of a check for a policy domain and an entry, and where a report may be sent. A rua text has octets 32 to 126. */
static void print_outcome(const address_check *own, char **words) {
  waslidhaj_check_given given = own->given;
  const char *instead = (const char *)own->scratch + given.begin;
  printf("agreement %s\n", AGREEMENTS[given.agreement]);
  if (given.agreement == WASLIDHAJ_ADDRESS_REPLACED)
    printf("rua %.*s\n", (int)given.length, instead);
  printf("asked %zu\n", given.count);
  if (given.agreement == WASLIDHAJ_ADDRESS_REPLACED)
    print_list(words[0], instead, given.length);
  else if (given.agreement == WASLIDHAJ_ADDRESS_INSIDE || given.agreement == WASLIDHAJ_ADDRESS_CONFIRMED)
    print_list(words[0], words[1], strlen(words[1]));
}

/* Checks an address by its words, DOMAIN and ENTRY, and gives the exit status. Without an outcome it is not known whether it
 * agreed, and no report is to be sent. */
static int check_address(char **words, res_state resolver) {
  address_check own;
  memset(&own, 0, sizeof own);
  own.given = waslidhaj_check_start(&own.check, (const uint8_t *)words[0], strlen(words[0]), (const uint8_t *)words[1],
                                    strlen(words[1]));
  run_check(&own, resolver);
  if (own.given.kind == WASLIDHAJ_OUTCOME && is_whole(&own)) {
    print_outcome(&own, words);
    return 0;
  }
  print_stop(own.given.kind, own.given.refusal);
  puts("agreement not known");
  return 3;
}

int main(int argc, char **argv) {
  struct __res_state resolver;
  const char *server = NULL;
  int seconds = 5;
  int status, of_address;
  for (argv++; argc > 2 && strncmp(*argv, "--", 2) == 0 && strcmp(*argv, "--address") != 0; argv += 2, argc -= 2) {
    if (strcmp(*argv, "--server") == 0)
      server = argv[1];
    else if (strcmp(*argv, "--timeout") == 0)
      seconds = atoi(argv[1]);
    else
      misused();
  }
  of_address = argc > 1 && strcmp(*argv, "--address") == 0;
  memset(&resolver, 0, sizeof resolver);
  if (res_ninit(&resolver) != 0) {
    fputs("check: the resolver cannot be set up\n", stderr);
    return 1;
  }
  if (argc < 4 || (of_address && argc > 4) || seconds < 1 || !set_up(&resolver, server, seconds))
    misused();
  status = of_address ? check_address(argv + 1, &resolver) : check(argv, &resolver);
  res_nclose(&resolver);
  if (fflush(stdout) != 0 || ferror(stdout)) {
    fputs("check: the output cannot be written\n", stderr);
    return 1;
  }
  return status;
}
