//! Rows and their identifiers, as their lines give them.

use std::net::IpAddr;

use super::{DayRow, RowIdentifier, DISPOSITIONS, DKIM, SPF};
use crate::description::{domain_octets, number_of, outcome_of, Token};
use evaluator::domain::Domain;

const ROW_FORM: &str = "row takes a source address, a count, a disposition, the methods that \
                        aligned if any did, and the author domain, as in: \
                        row 192.0.2.1 3 none aligned dkim spf author example.com";
const MOST_SELECTOR_OCTETS: usize = 255;

/// The words after `row`.
pub fn row(tokens: &[Token], line: usize) -> Result<DayRow, String> {
    let [source, count, disposition, methods @ .., author, domain] = tokens else {
        return Err(ROW_FORM.to_string());
    };
    if !author.is("author") {
        return Err(ROW_FORM.to_string());
    }
    let (source, count) = (address(source)?, number(count)?);
    let disposition = number_of(&DISPOSITIONS, disposition, "disposition")
        .map_err(|reason| format!("{reason}; that of a message that passed is none"))?;
    let (dkim, spf) = aligned(methods)?;
    Ok(DayRow {
        line,
        source,
        count,
        disposition,
        dkim,
        spf,
        author: domain_octets(domain)?,
        identifiers: Vec::new(),
    })
}

fn as_str(token: &Token) -> &str {
    match token {
        Token::Word(word) => std::str::from_utf8(word).unwrap_or_default(),
        Token::Quoted(_) => "",
    }
}

fn address(token: &Token) -> Result<IpAddr, String> {
    let address = as_str(token).parse::<IpAddr>();
    let form = "the source is an address of IPv4 or IPv6, as 192.0.2.1 or 2001:db8::1";
    address
        .map(|own| own.to_canonical())
        .map_err(|_| form.to_string())
}

fn number(token: &Token) -> Result<u32, String> {
    let digits = as_str(token);
    let all_digits = digits.bytes().all(|octet| octet.is_ascii_digit());
    let number = digits.parse().ok();
    let number = number.filter(|own| all_digits && *own > 0);
    number.ok_or_else(|| "the count is a number from 1 to 4294967295".to_string())
}

/// Whether DKIM and whether SPF aligned, by the words `aligned dkim spf`.
fn aligned(tokens: &[Token]) -> Result<(bool, bool), String> {
    let Some((head, methods)) = tokens.split_first() else {
        return Ok((false, false));
    };
    if !head.is("aligned") {
        return Err(ROW_FORM.to_string());
    }
    let has = |method: &str| methods.iter().filter(|own| own.is(method)).count();
    match (has("dkim"), has("spf")) {
        (0, 0) | (2.., _) | (_, 2..) => Err(ALIGNED_FORM.to_string()),
        (dkim, spf) if dkim + spf < methods.len() => Err(ALIGNED_FORM.to_string()),
        (dkim, spf) => Ok((dkim == 1, spf == 1)),
    }
}

const ALIGNED_FORM: &str =
    "after aligned comes dkim, spf or dkim spf; leave it out where neither aligned";

/// The words after `spf`.
pub fn spf(tokens: &[Token], line: usize) -> Result<RowIdentifier, String> {
    match tokens {
        [outcome, domain] => identifier(SPF, [outcome, domain], line),
        _ => Err("spf takes an outcome and a domain, as in: spf pass example.com".to_string()),
    }
}

/// The words after `dkim`.
pub fn dkim(tokens: &[Token], line: usize) -> Result<RowIdentifier, String> {
    let [outcome, domain, selector] = tokens else {
        return Err(DKIM_FORM.to_string());
    };
    let selector = domain_octets(selector)?;
    if selector.len() > MOST_SELECTOR_OCTETS {
        return Err("the selector is over 255 octets".to_string());
    }
    let own = identifier(DKIM, [outcome, domain], line)?;
    Ok(RowIdentifier { selector, ..own })
}

const DKIM_FORM: &str =
    "dkim takes an outcome, a domain and a selector, as in: dkim pass example.com s1";

/// An identifier of an outcome and a domain, without a selector.
fn identifier(kind: u8, tokens: [&Token; 2], line: usize) -> Result<RowIdentifier, String> {
    let [outcome, domain] = tokens;
    Ok(RowIdentifier {
        line,
        kind,
        outcome: outcome_of(outcome)?,
        domain: domain_octets(domain)?,
        selector: Vec::new(),
    })
}

impl DayRow {
    /// With its names as a report writes them, and the DKIM identifiers first.
    pub(super) fn as_written(&self) -> DayRow {
        let mut row = self.clone();
        row.author = as_written(&row.author);
        for own in &mut row.identifiers {
            own.domain = as_written(&own.domain);
            own.selector = as_written(&own.selector);
        }
        row.identifiers.sort_by_key(|own| own.kind != DKIM);
        row
    }

    /// What sets it apart from the other rows of a report.
    pub(super) fn key(&self) -> DayRow {
        let mut row = self.as_written();
        (row.line, row.count) = (0, 0);
        row.identifiers.iter_mut().for_each(|own| own.line = 0);
        row
    }
}

/// A name as a report writes it, if it does.
pub fn as_written(name: &[u8]) -> Vec<u8> {
    let good = Domain::read(name);
    good.map_or(name.to_vec(), |own| own.octets().to_vec())
}
