//! Walks over given answers, the names they ask, and organizational domains.

use crate::domain::Domain;
use crate::policy::{Psd, Settings};
use crate::txt::{self, Answer, Reply};

/// A name of the list, with the first walk that looks at it (0 the author's,
/// i+1 identifier i's) and the target's octet place in that walk's domain.
#[derive(Clone, Debug, PartialEq, Eq)]
pub struct AskedName {
    pub name: Vec<u8>,
    pub walk: usize,
    pub place: usize,
}

/// One walk from a domain and its organizational domain, nothing after an error.
/// The list is of the names this walk asks; the error is a name without an answer.
pub fn organizational<'a>(
    start: &Domain,
    answers: impl Fn(&[u8]) -> Option<Answer<'a>>,
) -> Result<(Option<Domain>, Vec<AskedName>), AskedName> {
    let mut asker = Asker::new(&answers);
    match asker.walk(0, start) {
        Ok(walk) => Ok((walk.organizational_domain(), asker.names)),
        Err(NoAnswerYet(name)) => Err(name),
    }
}

/// Ends the run: this name has no answer yet.
pub struct NoAnswerYet(pub AskedName);

/// Keeps the list of names. It keeps no answers.
pub struct Asker<'f, 'a> {
    answers: &'f dyn Fn(&[u8]) -> Option<Answer<'a>>,
    pub names: Vec<AskedName>,
}

/// A record that a walk found.
#[derive(Clone, Debug, PartialEq, Eq)]
pub struct Found {
    pub domain: Domain,
    pub settings: Settings,
}

/// A walk, as far as it went.
#[derive(Clone, Debug, PartialEq, Eq)]
pub struct Walk {
    pub start: Domain,
    /// How many targets it looked at.
    pub looked: usize,
    /// The records found, longest domain first.
    pub found: Vec<Found>,
    pub error: bool,
}

impl<'f, 'a> Asker<'f, 'a> {
    /// Asks nothing yet.
    pub fn new(answers: &'f dyn Fn(&[u8]) -> Option<Answer<'a>>) -> Asker<'f, 'a> {
        Asker {
            answers,
            names: Vec::new(),
        }
    }

    /// Looks at one target of a walk.
    pub fn look(
        &mut self,
        walk: usize,
        start: &Domain,
        target: &Domain,
    ) -> Result<Reply, NoAnswerYet> {
        // "A target over 246 octets is not asked and counts as none."
        let Some(name) = target.asked_name() else {
            return Ok(Reply::NoRecord);
        };
        let place = start.place_of(target);
        self.ask(AskedName { name, walk, place }).map(txt::reply)
    }

    /// The answer of a name, which goes on the list "where it first comes".
    pub fn ask(&mut self, asked: AskedName) -> Result<Answer<'a>, NoAnswerYet> {
        let answer = (self.answers)(&asked.name);
        if !self.names.iter().any(|known| known.name == asked.name) {
            self.names.push(asked.clone());
        }
        answer.ok_or(NoAnswerYet(asked))
    }

    /// "It ends after a record with psd=y or psd=n, after an error, or at the
    /// last label."
    pub fn walk(&mut self, number: usize, start: &Domain) -> Result<Walk, NoAnswerYet> {
        let mut walk = Walk {
            start: start.clone(),
            looked: 0,
            found: Vec::new(),
            error: false,
        };
        for target in start.walk_targets() {
            walk.looked += 1;
            match self.look(number, start, &target)? {
                Reply::NoRecord => {}
                Reply::Error => {
                    walk.error = true;
                    break;
                }
                Reply::Record(settings) => {
                    let domain = target;
                    walk.found.push(Found { domain, settings });
                    if settings.psd != Psd::Unset {
                        break;
                    }
                }
            }
        }
        Ok(walk)
    }
}

impl Walk {
    /// A walk that pauses at its start, which has a record.
    pub fn paused(own: &Found) -> Walk {
        Walk {
            start: own.domain.clone(),
            looked: 1,
            found: vec![own.clone()],
            error: false,
        }
    }

    /// The last target that it looked at.
    pub fn last(&self) -> Option<Domain> {
        let index = self.looked.checked_sub(1)?;
        self.start.walk_targets().into_iter().nth(index)
    }

    /// "longest first, a psd=n record's domain; or, for a psd=y record not at the
    /// start, that domain with one more label of the start; failing both, the
    /// shortest domain with a record; failing that, the start. After an error it is
    /// unknown."
    pub fn organizational_domain(&self) -> Option<Domain> {
        if self.error {
            return None;
        }
        for found in &self.found {
            match found.settings.psd {
                Psd::No => return Some(found.domain.clone()),
                Psd::Yes if found.domain != self.start => {
                    let labels = found.domain.label_count() + 1;
                    return Some(self.start.last_labels(labels));
                }
                _ => {}
            }
        }
        let shortest = self.found.last().map(|found| found.domain.clone());
        Some(shortest.unwrap_or_else(|| self.start.clone()))
    }
}
