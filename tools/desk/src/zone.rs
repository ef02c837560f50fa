//! What a server says for the names that it knows.

use crate::message::{name_octets, text_data, Code, Query, Record, CNAME, TXT};
use std::collections::BTreeMap;

/// What is said for a name. A name that is not known does not exist.
#[derive(Clone, Debug, PartialEq, Eq)]
pub enum Said {
    /// TXT records, each by its strings.
    Records(Vec<Vec<Vec<u8>>>),
    /// Another name's records, behind a CNAME.
    Alias(String),
    /// The name exists, with no TXT records.
    NoData,
    Failure,
    /// The same, with a TXT record beside it.
    FailureWith(String),
    /// No reply at all.
    Silence,
    /// A reply that ends within a record.
    Damaged,
    /// A reply that says that it is cut off, over TCP too.
    CutOff,
    /// A reply of a server that knows others who may know.
    Referral,
}

/// One record of one string.
pub fn record(text: &str) -> Said {
    records(&[text])
}

/// Records of one string each.
pub fn records(texts: &[&str]) -> Said {
    let record = |text: &&str| vec![text.as_bytes().to_vec()];
    Said::Records(texts.iter().map(record).collect())
}

/// One record of several strings.
pub fn strings(strings: &[&[u8]]) -> Said {
    let octets = strings.iter().map(|string| string.to_vec());
    Said::Records(vec![octets.collect()])
}

/// One record of a long text, in strings of 255 octets and a last one.
pub fn long(text: &str) -> Said {
    let parts: Vec<&[u8]> = text.as_bytes().chunks(255).collect();
    strings(&parts)
}

pub fn alias(name: &str) -> Said {
    Said::Alias(name.to_string())
}

/// Names, in lower case, and what is said for each. A name that begins with `*.`
/// stands for all below it that are not named themselves.
#[derive(Clone, Debug, Default)]
pub struct Zone(BTreeMap<String, Said>);

impl Zone {
    pub fn new(names: &[(&str, Said)]) -> Zone {
        let owned = |(name, said): &(&str, Said)| (name.to_string(), said.clone());
        Zone(names.iter().map(owned).collect())
    }

    /// What is said for a name: its own, or that of the nearest `*` above it.
    fn said(&self, name: &str) -> Option<&Said> {
        let above = name.match_indices('.').map(|(dot, _)| &name[dot..]);
        let mut names = above.map(|above| format!("*{above}"));
        let own = self.0.get(name);
        own.or_else(|| names.find_map(|wildcard| self.0.get(&wildcard)))
    }

    /// The reply to a question, if there is one.
    pub fn reply(&self, query: &Query) -> Option<Vec<u8>> {
        match self.said(&query.name) {
            Some(Said::Silence) => None,
            Some(Said::Damaged) => Some(query.damaged()),
            Some(Said::CutOff) => Some(query.cut_off()),
            Some(Said::Referral) => Some(query.referral()),
            Some(Said::Failure) => Some(query.reply(Code::ServerFailure, &[])),
            Some(Said::FailureWith(text)) => {
                let data = text_data(&[text.as_bytes().to_vec()]);
                let beside = answer(&query.name, TXT, data);
                Some(query.reply(Code::ServerFailure, &[beside]))
            }
            _ => Some(self.found(query)),
        }
    }

    /// The records of a name, with the aliases on the way to them.
    fn found(&self, query: &Query) -> Vec<u8> {
        let mut answers = Vec::new();
        let mut name = query.name.as_str();
        while let Some(Said::Alias(next)) = self.said(name) {
            answers.push(answer(name, CNAME, name_octets(next)));
            name = next;
        }
        let code = match self.said(name) {
            None => Code::NoSuchName,
            _ => Code::NoError,
        };
        if let (Some(Said::Records(records)), TXT) = (self.said(name), query.kind) {
            let data = records.iter().map(|strings| text_data(strings));
            answers.extend(data.map(|data| answer(name, TXT, data)));
        }
        query.reply(code, &answers)
    }
}

fn answer(name: &str, kind: u16, data: Vec<u8>) -> Record {
    let name = name.to_string();
    Record { name, kind, data }
}
