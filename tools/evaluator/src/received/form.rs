//! The form that Ask 9 writes: what stands in it, place by place.

use super::choice::Ways;

/// A place of the form: a value, or the end of a record or of all.
#[derive(Clone, Copy, Debug, PartialEq, Eq)]
pub enum Place {
    Start,
    Organization,
    Email,
    Contact,
    Id,
    Begin,
    End,
    PolicyDomain,
    P,
    Sp,
    Np,
    Adkim,
    Aspf,
    Testing,
    Source,
    Count,
    Disposition,
    Dkim,
    Spf,
    Author,
    DkimDomain,
    DkimSelector,
    DkimResult,
    SpfDomain,
    SpfResult,
    RecordEnd,
    Whole,
}

/// What stands at a place.
#[derive(Clone, Copy, Debug)]
pub enum Content {
    Text,
    Id,
    Number { least: u64, most: u64 },
    Domain,
    Address,
    Word(Ways<u8>),
    Nothing,
}

/// Words by their numbers.
pub const NONE: u8 = 0;
pub const PASS: u8 = 3;
pub const FAIL: u8 = 0;
const POLICIES: Ways<u8> = &[("none", NONE), ("quarantine", 1), ("reject", 2)];
const DISPOSITIONS: Ways<u8> = &[
    ("none", NONE),
    ("quarantine", 1),
    ("reject", 2),
    ("pass", PASS),
];
const MODES: Ways<u8> = &[("r", 0), ("s", 1)];
const TESTING: Ways<u8> = &[("n", 0), ("y", 1)];
const ALIGNED: Ways<u8> = &[("fail", FAIL), ("pass", 1)];
/// "Outcomes 0, 1, 2 are written fail, pass, temperror"
const OUTCOMES: Ways<u8> = &[("fail", FAIL), ("pass", 1), ("temperror", 2)];

/// A begin or end of 64 bits.
const TIME: Content = Content::Number {
    least: 0,
    most: u64::MAX,
};
/// A count of 32 bits, of a "row with a count".
const COUNT: Content = Content::Number {
    least: 1,
    most: u32::MAX as u64,
};

pub fn content(place: Place) -> Content {
    match place {
        Place::Organization | Place::Email | Place::Contact => Content::Text,
        Place::Id => Content::Id,
        Place::Begin | Place::End => TIME,
        Place::Count => COUNT,
        Place::Source => Content::Address,
        Place::PolicyDomain
        | Place::Author
        | Place::DkimDomain
        | Place::DkimSelector
        | Place::SpfDomain => Content::Domain,
        Place::P | Place::Sp | Place::Np => Content::Word(POLICIES),
        Place::Adkim | Place::Aspf => Content::Word(MODES),
        Place::Testing => Content::Word(TESTING),
        Place::Disposition => Content::Word(DISPOSITIONS),
        Place::Dkim | Place::Spf => Content::Word(ALIGNED),
        Place::DkimResult | Place::SpfResult => Content::Word(OUTCOMES),
        Place::Start | Place::RecordEnd | Place::Whole => Content::Nothing,
    }
}

/// What can stand between a place and the next one.
pub fn behind(place: Place) -> Ways<Place> {
    match place {
        Place::Source
        | Place::Count
        | Place::Disposition
        | Place::Dkim
        | Place::Spf
        | Place::Author => in_row(place),
        Place::DkimDomain
        | Place::DkimSelector
        | Place::DkimResult
        | Place::SpfDomain
        | Place::SpfResult
        | Place::RecordEnd => in_results(place),
        Place::PolicyDomain
        | Place::P
        | Place::Sp
        | Place::Np
        | Place::Adkim
        | Place::Aspf
        | Place::Testing => in_policy(place),
        _ => in_metadata(place),
    }
}

/// "First comes `<?xml version="1.0" encoding="UTF-8"?>`, then the root with `xmlns` in
/// double quotes alone".
const START: &str = concat!(
    r#"<?xml version="1.0" encoding="UTF-8"?>"#,
    r#"<feedback xmlns="urn:ietf:params:xml:ns:dmarc-2.0">"#,
    "<report_metadata><org_name>"
);

/// `ReportMetadataType`
fn in_metadata(place: Place) -> Ways<Place> {
    match place {
        Place::Start => &[(START, Place::Organization)],
        Place::Organization => &[("</org_name><email>", Place::Email)],
        Place::Email => &[
            ("</email><extra_contact_info>", Place::Contact),
            ("</email><report_id>", Place::Id),
        ],
        Place::Contact => &[("</extra_contact_info><report_id>", Place::Id)],
        Place::Id => &[("</report_id><date_range><begin>", Place::Begin)],
        Place::Begin => &[("</begin><end>", Place::End)],
        Place::End => &[(
            "</end></date_range></report_metadata><policy_published><domain>",
            Place::PolicyDomain,
        )],
        _ => &[],
    }
}

/// `PolicyPublishedType`: sp and np where they have a value.
fn in_policy(place: Place) -> Ways<Place> {
    match place {
        Place::PolicyDomain => &[("</domain><p>", Place::P)],
        Place::P => &[
            ("</p><sp>", Place::Sp),
            ("</p><np>", Place::Np),
            ("</p><adkim>", Place::Adkim),
        ],
        Place::Sp => &[("</sp><np>", Place::Np), ("</sp><adkim>", Place::Adkim)],
        Place::Np => &[("</np><adkim>", Place::Adkim)],
        Place::Adkim => &[("</adkim><aspf>", Place::Aspf)],
        Place::Aspf => &[("</aspf><testing>", Place::Testing)],
        Place::Testing => &[(
            "</testing></policy_published><record><row><source_ip>",
            Place::Source,
        )],
        _ => &[],
    }
}

/// `RowType` and `IdentifierType`
fn in_row(place: Place) -> Ways<Place> {
    match place {
        Place::Source => &[("</source_ip><count>", Place::Count)],
        Place::Count => &[(
            "</count><policy_evaluated><disposition>",
            Place::Disposition,
        )],
        Place::Disposition => &[("</disposition><dkim>", Place::Dkim)],
        Place::Dkim => &[("</dkim><spf>", Place::Spf)],
        Place::Spf => &[(
            "</spf></policy_evaluated></row><identifiers><header_from>",
            Place::Author,
        )],
        Place::Author => &[
            (
                "</header_from></identifiers><auth_results><dkim><domain>",
                Place::DkimDomain,
            ),
            (
                "</header_from></identifiers><auth_results><spf><domain>",
                Place::SpfDomain,
            ),
            (
                "</header_from></identifiers><auth_results></auth_results></record>",
                Place::RecordEnd,
            ),
        ],
        _ => &[],
    }
}

/// `AuthResultType`: dkim elements, then an spf one, or none; then what is behind the
/// record.
fn in_results(place: Place) -> Ways<Place> {
    match place {
        Place::DkimDomain => &[("</domain><selector>", Place::DkimSelector)],
        Place::DkimSelector => &[("</selector><result>", Place::DkimResult)],
        Place::DkimResult => &[
            ("</result></dkim><dkim><domain>", Place::DkimDomain),
            ("</result></dkim><spf><domain>", Place::SpfDomain),
            ("</result></dkim></auth_results></record>", Place::RecordEnd),
        ],
        Place::SpfDomain => &[("</domain><result>", Place::SpfResult)],
        Place::SpfResult => &[("</result></spf></auth_results></record>", Place::RecordEnd)],
        Place::RecordEnd => &[
            ("<record><row><source_ip>", Place::Source),
            ("</feedback>", Place::Whole),
        ],
        _ => &[],
    }
}
