//! Appendix A of RFC 9990, type by type: "elements in the schema's order", "an
//! optional element exactly where these inputs give it a value that isn't empty,
//! scope, reason and envelope_from never".
//!
//! These inputs give no value to version, extension, error, generator,
//! discovery_method, fo, envelope_to and human_result.

use super::source;
use super::xml::{tags, Xml};
use super::{Dkim, Feedback, Record, Reporter, Spf};
use crate::message::Outcome;
use crate::policy::{word, Policy, Settings, Usable, MODES, TESTING};
use crate::rows::{Row, Seen};

/// "First comes `<?xml version="1.0" encoding="UTF-8"?>`, then the root with `xmlns`
/// in double quotes alone".
const DECLARATION: &[u8] = br#"<?xml version="1.0" encoding="UTF-8"?>"#;
const ROOT: &[u8] = br#"<feedback xmlns="urn:ietf:params:xml:ns:dmarc-2.0">"#;
const ROOT_END: &[u8] = b"</feedback>";

/// `feedback`
pub fn write(feedback: &Feedback, text: &mut Vec<u8>) {
    let xml = &mut Xml::behind(text);
    xml.plain(DECLARATION);
    xml.plain(ROOT);
    xml.element(tags!("report_metadata"), |xml| {
        report_metadata(xml, &feedback.reporter);
    });
    xml.element(tags!("policy_published"), |xml| {
        policy_published(xml, feedback)
    });
    for own in &feedback.records {
        xml.element(tags!("record"), |xml| record(xml, own));
    }
    xml.plain(ROOT_END);
}

/// `DateRangeType`
fn date_range(xml: &mut Xml, reporter: &Reporter) {
    xml.number(tags!("begin"), reporter.begin);
    xml.number(tags!("end"), reporter.end);
}

/// `ReportMetadataType`
fn report_metadata(xml: &mut Xml, reporter: &Reporter) {
    xml.text(tags!("org_name"), reporter.organization);
    xml.text(tags!("email"), reporter.email);
    if !reporter.contact.is_empty() {
        xml.text(tags!("extra_contact_info"), reporter.contact);
    }
    xml.word(tags!("report_id"), reporter.id);
    xml.element(tags!("date_range"), |xml| date_range(xml, reporter));
}

/// `PolicyPublishedType`
fn policy_published(xml: &mut Xml, feedback: &Feedback) {
    let (policies, settings): (&Usable, &Settings) = (&feedback.policies, &feedback.settings);
    xml.word(tags!("domain"), feedback.domain.octets());
    xml.word(tags!("p"), policies.p.word());
    if let Some(sp) = policies.sp {
        xml.word(tags!("sp"), sp.word());
    }
    if let Some(np) = policies.np {
        xml.word(tags!("np"), np.word());
    }
    xml.word(tags!("adkim"), word(MODES, settings.adkim));
    xml.word(tags!("aspf"), word(MODES, settings.aspf));
    xml.word(tags!("testing"), word(TESTING, settings.testing));
}

/// `ActionDispositionType`: "disposition none with a method aligned `pass`". A number
/// that is not listed is reported as none.
fn disposition(seen: &Seen) -> &'static str {
    match seen.disposition {
        1 => Policy::Quarantine.word(),
        2 => Policy::Reject.word(),
        _ if seen.dkim != 0 || seen.spf != 0 => "pass",
        _ => Policy::None.word(),
    }
}

/// `DMARCResultType`
fn aligned(flag: u8) -> &'static str {
    match flag {
        0 => "fail",
        _ => "pass",
    }
}

/// `PolicyEvaluatedType`
fn policy_evaluated(xml: &mut Xml, seen: &Seen) {
    xml.word(tags!("disposition"), disposition(seen));
    xml.word(tags!("dkim"), aligned(seen.dkim));
    xml.word(tags!("spf"), aligned(seen.spf));
}

/// `RowType`
fn row(xml: &mut Xml, row: &Row) {
    xml.element(tags!("source_ip"), |xml| {
        source::write(xml, &row.seen.source)
    });
    xml.number(tags!("count"), u64::from(row.count));
    xml.element(tags!("policy_evaluated"), |xml| {
        policy_evaluated(xml, &row.seen)
    });
}

/// `DKIMResultType` and `SPFResultType`: "Outcomes 0, 1, 2 are written fail, pass,
/// temperror".
fn result(outcome: Outcome) -> &'static str {
    match outcome {
        Outcome::NotPassing => "fail",
        Outcome::Pass => "pass",
        Outcome::TemporaryError => "temperror",
    }
}

/// `DKIMAuthResultType`
fn dkim(xml: &mut Xml, own: &Dkim) {
    xml.word(tags!("domain"), own.domain.octets());
    xml.word(tags!("selector"), own.selector.octets());
    xml.word(tags!("result"), result(own.outcome));
}

/// `SPFAuthResultType`
fn spf(xml: &mut Xml, own: &Spf) {
    xml.word(tags!("domain"), own.domain.octets());
    xml.word(tags!("result"), result(own.outcome));
}

/// `AuthResultType`
fn auth_results(xml: &mut Xml, record: &Record) {
    for own in &record.dkim {
        xml.element(tags!("dkim"), |xml| dkim(xml, own));
    }
    if let Some(own) = &record.spf {
        xml.element(tags!("spf"), |xml| spf(xml, own));
    }
}

/// `RecordType`, its identifiers being of `IdentifierType`.
fn record(xml: &mut Xml, record: &Record) {
    xml.element(tags!("row"), |xml| row(xml, &record.row));
    xml.element(tags!("identifiers"), |xml| {
        xml.word(tags!("header_from"), record.author.octets());
    });
    xml.element(tags!("auth_results"), |xml| auth_results(xml, record));
}
