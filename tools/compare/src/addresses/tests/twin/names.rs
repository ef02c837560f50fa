//! The names that a check asks, and its outcome.

use super::{Started, Twin, Wrong::*};
use evaluator::address::{Outcome, Verdict, BETWEEN};
use evaluator::domain::Domain;
use evaluator::txt::{Answer, Reply, Status};
use evaluator::walk::{AskedName, Asker, NoAnswerYet};

impl Twin {
    /// The verdict, or the first name without an answer; nothing before a start.
    pub fn judged(&self) -> Option<Result<Verdict, Vec<u8>>> {
        let started = self.state.started.as_ref()?;
        let answers = |name: &[u8]| self.given(name);
        let mut asker = Asker::new(&answers);
        let outcome = match self.outcome(&mut asker, started) {
            Err(NoAnswerYet(asked)) => return Some(Err(asked.name)),
            Ok(outcome) => outcome,
        };
        let counted =
            |asked: &&AskedName| asked.walk < 2 || !self.is(CountWithoutTheConfirmingName);
        let repeats = match self.is(RepeatedAskCountsTwice) {
            true => self.state.repeats,
            false => 0,
        };
        let asked = asker.names.iter().filter(counted).count() + repeats;
        Some(Ok(Verdict { outcome, asked }))
    }

    fn given(&self, name: &[u8]) -> Option<Answer<'_>> {
        let mut accepted = self.state.accepted.iter();
        let (_, status, bytes) = accepted.find(|(own, _, _)| own == name)?;
        let status = match status {
            Status::Error if self.is(TimeoutIsNone) => Status::None,
            status => *status,
        };
        Some(Answer { status, bytes })
    }

    fn outcome(&self, asker: &mut Asker, started: &Started) -> Result<Outcome, NoAnswerYet> {
        let (mut one, mut other) = (&started.policy, &started.host);
        if one == other && !self.is(EqualDomainsAreWalked) {
            return Ok(Outcome::Inside);
        }
        if self.is(HostFirst) {
            (one, other) = (other, one);
        }
        if self.is(ConfirmingNameFirst) {
            self.confirm(asker, started)?;
        }
        let first = self.organizational(asker, 0, one)?;
        if first.is_none() && !self.is(GoesOnAfterAnError) {
            return self.not_known(asker, started);
        }
        let second = self.organizational(asker, 1, other)?;
        if first.is_none() || second.is_none() {
            return self.not_known(asker, started);
        }
        if first != second {
            return self.confirm(asker, started);
        }
        if self.is(ConfirmsInside) {
            self.confirm(asker, started)?;
        }
        Ok(Outcome::Inside)
    }

    /// After an error in a walk.
    fn not_known(&self, asker: &mut Asker, started: &Started) -> Result<Outcome, NoAnswerYet> {
        match self.wrong {
            ErrorIsAPlainNo => Ok(Outcome::No),
            ErrorAsksTheConfirmingName => self.confirm(asker, started),
            _ => Ok(Outcome::NotKnown),
        }
    }

    fn organizational(
        &self,
        asker: &mut Asker,
        number: usize,
        start: &Domain,
    ) -> Result<Option<Domain>, NoAnswerYet> {
        if self.is(PausesAtARecord) {
            if let Reply::Record(_) = asker.look(number, start, start)? {
                return Ok(Some(start.clone()));
            }
        }
        let walk = asker.walk(number, start)?;
        let nearest = walk.found.first().map(|found| found.domain.clone());
        match nearest {
            Some(nearest) if self.is(NearestRecordIsOrganizational) && !walk.error => {
                Ok(Some(nearest))
            }
            _ => Ok(walk.organizational_domain()),
        }
    }

    fn confirm(&self, asker: &mut Asker, started: &Started) -> Result<Outcome, NoAnswerYet> {
        let (policy, host) = (started.policy.octets(), started.host.octets());
        let spelled = started.spelled.strip_suffix(b".");
        let spelled = spelled.unwrap_or(&started.spelled);
        let name = match self.wrong {
            HostBeforePolicyInTheName => [host, BETWEEN, policy].concat(),
            NameWithoutReport => [policy, b"._dmarc.", host].concat(),
            NameInTheCaseGiven => [spelled, BETWEEN, host].concat(),
            _ => [policy, BETWEEN, host].concat(),
        };
        let most = match self.wrong {
            LimitOneLess => 252,
            LimitOneMore => 254,
            _ => 253,
        };
        if name.len() > most {
            return Ok(match self.is(TooLongIsNotKnown) {
                true => Outcome::NotKnown,
                false => Outcome::No,
            });
        }
        let asked = AskedName {
            name,
            walk: 2,
            place: 0,
        };
        let answer = asker.ask(asked)?;
        Ok(self.confirmation(started, answer))
    }
}
