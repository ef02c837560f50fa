//! What is read of a day, and what it is refused for.

use super::{Asked, Refusal, Row, Twin, Wrong::*};
use crate::histories::code::read_row;
use evaluator::domain::fault;
use evaluator::lists::{Lists, Meant, Member};
use evaluator::message::Kind;

/// A day as it is read.
pub struct Read<'a> {
    pub asked: Asked<'a>,
    /// The policy domain of a list that was cleared.
    pub domain: Option<Vec<u8>>,
    /// Rows that are reported, each with what its numbers stand for.
    pub rows: Vec<(Row, Option<Meant<'a>>)>,
}

impl Twin {
    pub fn read<'a>(&self, asked: &Asked<'a>) -> Read<'a> {
        let lists = Lists {
            authors: asked.lists.authors,
            sets: asked.lists.sets,
        };
        let listed = lists.read();
        let most = 256 + usize::from(self.is(OneRowMore)) - usize::from(self.is(OneRowFewer));
        let own = asked.rows.iter().take(most);
        let counted = |row: &&Row| row.count > 0 || self.is(FreeRowsWritten);
        let meant = |row: &Row| (*row, listed.meant(&read_row(row).seen));
        let mut rows: Vec<_> = own.filter(counted).map(meant).collect();
        match self.0 {
            RowsBySource => rows.sort_by_key(|(row, _)| row.seen.source),
            EqualRowsJoined => rows.dedup_by_key(|(row, _)| (row.seen, row.count)),
            _ => {}
        }
        let list = &asked.list;
        let length = usize::from(list.length).min(253);
        let cleared = list.cleared != 0 || self.is(NeverClearedIsWritten);
        Read {
            asked: *asked,
            domain: cleared.then(|| list.domain[..length].to_vec()),
            rows,
        }
    }

    /// The first refusal but for 10.
    pub fn refusal(&self, day: &Read) -> Option<Refusal> {
        let free = day.asked.rows.iter().all(|row| row.count == 0);
        let counts = day.rows.is_empty() || free;
        let lists = self.bad_lists(day);
        let refusals = [
            (27, day.domain.is_none()),
            (18, counts),
            (28, lists.is_some()),
            (19, self.bad_texts(day)),
            (11, self.bad_domains(day)),
        ];
        let order = match self.0 {
            CountsFirst => [1, 0, 2, 3, 4],
            TextsBeforeLists => [0, 1, 3, 2, 4],
            DomainsBeforeTexts => [0, 1, 2, 4, 3],
            DomainsBeforeLists => [0, 1, 4, 2, 3],
            _ => [0, 1, 2, 3, 4],
        };
        let (number, _) = order
            .map(|at| refusals[at])
            .into_iter()
            .find(|(_, due)| *due)?;
        let place = match number {
            28 if self.is(NumberAtItsRow) => lists.unwrap_or_default(),
            _ => 0,
        };
        Some(Refusal::new(number, place))
    }

    /// The first row whose numbers stand for nothing.
    fn bad_lists(&self, day: &Read) -> Option<usize> {
        if self.is(FreeRowsJudged) {
            let whole = Twin(FreeRowsWritten).read(&day.asked);
            return whole.rows.iter().position(|(_, meant)| meant.is_none());
        }
        day.rows.iter().position(|(_, meant)| meant.is_none())
    }

    fn bad_texts(&self, day: &Read) -> bool {
        let by = &day.asked.reporter;
        let empty = by.organization.is_empty()
            || by.email.is_empty() && !self.is(EmptyEmailAllowed)
            || by.contact.is_empty() && self.is(EmptyContactRefused);
        let contact = by.contact;
        let id = self.is(IdIsAText) && self.bad_id(by.id);
        let judged = !self.is(ContactNotJudged) && self.bad_text(contact);
        empty
            || judged
            || id
            || [by.organization, by.email]
                .iter()
                .any(|text| self.bad_text(text))
    }

    fn bad_text(&self, text: &[u8]) -> bool {
        let most = match self.0 {
            LimitOneLower => 4095,
            LimitOneHigher => 4097,
            _ => 4096,
        };
        let length = match self.0 {
            LimitAfterEntities => self.escaped(text).len(),
            _ => text.len(),
        };
        let good = |octet: &u8| match octet {
            127 => self.is(DeleteAllowed),
            9 => self.is(TabAllowed),
            32 => !self.is(BlankRefused),
            _ => (32..127).contains(octet),
        };
        length > most || !text.iter().all(good)
    }

    pub fn bad_id(&self, id: &[u8]) -> bool {
        let most = match self.0 {
            IdOf65Allowed => 65,
            IdOf64Refused => 63,
            _ => 64,
        };
        id.is_empty() || id.len() > most || !id.iter().all(u8::is_ascii_alphanumeric)
    }

    fn bad_domains(&self, day: &Read) -> bool {
        let by = &day.asked.reporter;
        let times = match self.0 {
            EqualTimesRefused => by.begin >= by.end,
            TimesNotJudged => false,
            _ => by.begin > by.end,
        };
        let own = day.domain.as_deref().is_some_and(|own| self.bad_list(own));
        let list = own && !self.is(ListsDomainNotJudged);
        let most = if self.is(FirstRowJudgedAlone) { 1 } else { 256 };
        let mut meant = day
            .rows
            .iter()
            .take(most)
            .filter_map(|(_, meant)| meant.as_ref());
        times || self.bad_id(by.id) || list || meant.any(|meant| self.bad_meant(meant))
    }

    fn bad_list(&self, domain: &[u8]) -> bool {
        let dot = domain.ends_with(b".") && !self.is(ListsFinalDotDropped);
        fault(domain).is_some() || dot
    }

    fn bad_meant(&self, meant: &Meant) -> bool {
        let author = fault(meant.author).is_some() && !self.is(AuthorNotJudged);
        let members = meant.set.iter().any(|member| self.bad_member(member));
        author || members && !self.is(IdentifiersNotJudged)
    }

    fn bad_member(&self, member: &Member) -> bool {
        let selector = member.selector;
        let bad = match self.0 {
            SelectorNotJudged => false,
            EmptySelectorAllowed if selector.is_empty() => false,
            SelectorOfOneLabel if selector.contains(&b'.') => true,
            _ => fault(selector).is_some(),
        };
        let judged = member.kind == Kind::Dkim || self.is(SpfSelectorJudged);
        fault(member.domain).is_some() || judged && bad
    }
}
