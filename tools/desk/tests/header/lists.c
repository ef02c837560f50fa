/* lists: packs the two lists as a program does, and prints the places and the octets. Each step is tried in memory of every room
 * that is too short first: nothing may be written then. Then come texts and lists that cannot be packed, and texts that overlap
 * the list. It ends with 1 where something else is given or left. */
#include <stdio.h>
#include <stdlib.h>
#include <string.h>

#include "waslidhaj.h"

enum { ROOM = 512, PAINT = 0x5a };

/* Memory that is lent, and what of it is packed. */
typedef struct {
  uint8_t octets[ROOM];
  size_t length;
} lent;

static lent authors, sets;
static uint8_t longest[65536];

static void require(int right, const char *what) {
  if (!right) {
    printf("%s\n", what);
    exit(1);
  }
}

static int same(const lent *first, const lent *second) {
  return first->length == second->length && memcmp(first->octets, second->octets, sizeof first->octets) == 0;
}

/* The steps: an author, a set, an identifier of a set. */
typedef struct {
  int which;
  const uint8_t *text;
  size_t length;
  uint8_t kind, outcome;
  const char *selector;
} step;

static int pack(lent *to, size_t room, const step *of, uint32_t *place) {
  if (of->which == 0)
    return waslidhaj_pack_author(to->octets, &to->length, room, of->text, of->length, place);
  if (of->which == 1)
    return waslidhaj_pack_set(to->octets, &to->length, room, of->text, of->length, place);
  return waslidhaj_pack_identifier(to->octets, &to->length, room, of->kind, of->outcome, (const uint8_t *)of->selector,
                                   strlen(of->selector), of->text, of->length);
}

/* One step, after the same in every room that is too short; past what it packs it writes nothing. */
static uint32_t take(lent *to, const step *of) {
  lent before = *to;
  size_t room = before.length;
  uint32_t place = 99;
  while (!pack(to, room, of, &place)) {
    require(same(to, &before) && place == 99, "something is written without room");
    require(++room <= ROOM, "there is never room");
  }
  require(to->length == room, "there was room before");
  require(memcmp(to->octets, before.octets, before.length) == 0, "what was packed is written over");
  require(memcmp(to->octets + room, before.octets + room, ROOM - room) == 0, "memory past the list is written");
  return place;
}

static void take_author(const char *domain) {
  step of = {0, NULL, 0, 0, 0, ""};
  of.text = (const uint8_t *)domain;
  of.length = strlen(domain);
  printf("%u ", (unsigned)take(&authors, &of));
}

static void take_identifier(lent *set, uint8_t kind, uint8_t outcome, const char *selector, const char *domain) {
  step of = {2, NULL, 0, 0, 0, ""};
  of.text = (const uint8_t *)domain;
  of.length = strlen(domain);
  of.kind = kind;
  of.outcome = outcome;
  of.selector = selector;
  take(set, &of);
}

static void take_set(const lent *set) {
  step of = {1, NULL, 0, 0, 0, ""};
  of.text = set->octets;
  of.length = set->length;
  printf("%u ", (unsigned)take(&sets, &of));
}

/* A record of 65,535 octets is the longest, and a selector of 255. A list that is cut off takes no more. */
static void refused(void) {
  static uint8_t memory[65536 + 4], before[sizeof memory];
  size_t length = 0;
  uint32_t place = 99;
  memset(longest, 'a', sizeof longest);
  require(!waslidhaj_pack_author(memory, &length, sizeof memory, longest, 65536, &place), "too long a domain is packed");
  require(!waslidhaj_pack_identifier(memory, &length, sizeof memory, 1, 1, longest, 256, longest, 1), "too long a selector");
  require(!waslidhaj_pack_identifier(memory, &length, sizeof memory, 1, 1, longest, 2, longest, 65531), "too long a body");
  require(!waslidhaj_pack_identifier(memory, &length, sizeof memory, 1, 1, longest, 2, longest, SIZE_MAX), "no such length");
  require(memcmp(memory, before, sizeof memory) == 0 && length == 0 && place == 99, "something is written");
  require(waslidhaj_pack_identifier(memory, &length, sizeof memory, 1, 1, longest, 255, longest, 65277), "a long identifier");
  require(length == 65539 && memory[2] == 255 && memory[3] == 255 && memory[6] == 255, "it has another length");
  length = 0;
  require(waslidhaj_pack_author(memory, &length, sizeof memory, longest, 65535, &place) && place == 0, "a long domain");
  for (length = 65538; length > 65535; length--)
    require(!waslidhaj_pack_author(memory, &length, sizeof memory, longest, 0, &place), "a list that is cut off takes more");
  for (length = 3; length > 0; length--)
    require(!waslidhaj_pack_author(memory, &length, sizeof memory, longest, 0, &place), "a head that is cut off is packed");
}

/* Texts that lie in the memory into which they would be packed, or reach into it by one octet. */
static void overlapping(void) {
  static uint8_t memory[64], before[sizeof memory];
  size_t length = 0, shift;
  uint32_t place = 99;
  uint8_t *list = memory + 8;
  for (shift = 1; shift < 40; shift++) {
    require(!waslidhaj_pack_author(list, &length, 32, memory + shift, 8, &place), "an author in the list is packed");
    require(!waslidhaj_pack_set(list, &length, 32, memory + shift, 8, &place), "a set in the list is packed");
    require(!waslidhaj_pack_identifier(list, &length, 32, 1, 1, memory + shift, 8, memory, 1), "a selector in the set is packed");
    require(!waslidhaj_pack_identifier(list, &length, 32, 1, 1, memory, 1, memory + shift, 8), "a domain in the set is packed");
    require(memcmp(memory, before, sizeof memory) == 0 && length == 0 && place == 99, "something is written");
  }
  require(waslidhaj_pack_author(list, &length, 32, memory, 8, &place) && place == 0, "a text before the list is not packed");
}

static void print_list(const lent *list) {
  size_t index;
  for (index = 0; index < list->length; index++)
    printf("%02x", list->octets[index]);
  printf("\n");
}

int main(void) {
  lent both, none, spf;
  memset(&authors, PAINT, sizeof authors);
  sets = both = none = spf = authors;
  authors.length = sets.length = both.length = none.length = spf.length = 0;
  refused();
  overlapping();
  take_author("example.com");
  take_author("news.example.com");
  take_author("example.com");
  take_author("");
  take_identifier(&both, WASLIDHAJ_DKIM, WASLIDHAJ_PASSING, "s1", "example.com");
  take_identifier(&both, WASLIDHAJ_SPF, WASLIDHAJ_NOT_PASSING, "", "bounce.example.net");
  take_identifier(&spf, WASLIDHAJ_SPF, WASLIDHAJ_NOT_PASSING, "", "bounce.example.net");
  take_set(&both);
  take_set(&none);
  take_set(&both);
  take_set(&spf);
  printf("\n");
  print_list(&authors);
  print_list(&sets);
  return 0;
}
