//! Readings 61 to 77: from walk to disposition.

use crate::case::{case, domain_of, words, Case, NONE, QUARANTINE, REJECT, UNKNOWN};
use crate::octets::{E, Y};
use evaluator::verdict::Disposition;
use evaluator::verdict::DmarcResult::{self, Pass, Permerror, Temperror};

const PLAIN: &str = "v=DMARC1; p=reject";

#[test]
fn point_61_any_error_in_an_unpaused_walk_of_the_author() {
    let verdict = case("news.example.com")
        .text("example.com", PLAIN)
        .error("com")
        .gives(
            "temperror unknown defer",
            &["news.example.com", "example.com", "com"],
        );
    assert_eq!(domain_of(&verdict), "");
    // At the author's own name.
    let verdict = case("news.example.com")
        .error("news.example.com")
        .text("example.com", PLAIN)
        .dkim("news.example.com")
        .gives("temperror unknown defer", &["news.example.com"]);
    assert_eq!(words(&verdict.alignments), ["not judged"]);
}

#[test]
fn point_62_an_unusable_own_record_is_the_applied_one() {
    let verdict = case("news.example.com")
        .text("news.example.com", "v=DMARC1; p=often")
        .text("example.com", E)
        .gives("permerror none none", &["news.example.com"]);
    assert_eq!(domain_of(&verdict), "news.example.com");
}

#[test]
fn point_63_modes_and_t_are_the_applied_records() {
    let verdict = case("news.example.com")
        .text("news.example.com", PLAIN)
        .text("example.com", E)
        .spf("mail.example.com")
        .gives(
            "pass reject none",
            &["news.example.com", "example.com", "com", "mail.example.com"],
        );
    assert_eq!(domain_of(&verdict), "news.example.com");
    // The psd=y record's, when that one is applied.
    case("a.shop.example")
        .text("example", "v=DMARC1; p=reject; psd=y; adkim=s; t=y")
        .dkim("shop.example")
        .gives(
            "fail quarantine quarantine",
            &["a.shop.example", "shop.example", "example"],
        );
    // Not an identifier's record's.
    case("example.com")
        .text("example.com", PLAIN)
        .text("mail.example.com", "v=DMARC1; p=none; adkim=s; t=y")
        .dkim("mail.example.com")
        .gives(
            "pass reject none",
            &["example.com", "com", "mail.example.com"],
        );
}

#[test]
fn each_kind_has_its_own_mode() {
    let relaxed_dkim = case("example.com")
        .text("example.com", "v=DMARC1; p=none; aspf=s")
        .spf("a.example.com")
        .dkim("b.example.com")
        .verdict();
    assert_eq!(words(&relaxed_dkim.alignments), ["not aligned", "aligned"]);
    let relaxed_spf = case("example.com")
        .text("example.com", "v=DMARC1; p=none; adkim=s")
        .spf("a.example.com")
        .dkim("b.example.com")
        .verdict();
    assert_eq!(words(&relaxed_spf.alignments), ["aligned", "not aligned"]);
}

#[test]
fn point_64_completion_and_its_error() {
    let verdict = case("news.example.com")
        .text("news.example.com", PLAIN)
        .error("example.com")
        .dkim("other.org")
        .gives(
            "temperror reject defer",
            &["news.example.com", "example.com"],
        );
    assert_eq!(words(&verdict.alignments), ["unknown"]);
    assert_eq!(domain_of(&verdict), "news.example.com");
}

#[test]
fn point_65_all_are_walked() {
    let verdict = case("example.com")
        .text("example.com", PLAIN)
        .spf("example.com")
        .dkim("mail.example.com")
        .gives(
            "pass reject none",
            &["example.com", "com", "mail.example.com"],
        );
    assert_eq!(words(&verdict.alignments), ["aligned", "aligned"]);
    // Walked after one aligned, and after one that is not.
    case("example.com")
        .text("example.com", PLAIN)
        .dkim("a.example.com")
        .dkim("other.org")
        .dkim("b.example.com")
        .gives(
            "pass reject none",
            &[
                "example.com",
                "com",
                "a.example.com",
                "other.org",
                "org",
                "b.example.com",
            ],
        );
}

#[test]
fn point_66_equal_domains_in_different_modes() {
    let verdict = case("example.com")
        .text("example.com", "v=DMARC1; p=reject; aspf=s")
        .spf("mail.example.com")
        .dkim("MAIL.example.com")
        .dkim("mail.EXAMPLE.com")
        .gives(
            "pass reject none",
            &["example.com", "com", "mail.example.com"],
        );
    assert_eq!(
        words(&verdict.alignments),
        ["not aligned", "aligned", "aligned"]
    );
    // A walk over names all known asks nothing, and it is compared.
    let verdict = case("news.example.com")
        .text("news.example.com", PLAIN)
        .text("example.com", PLAIN)
        .dkim("example.com")
        .gives(
            "pass reject none",
            &["news.example.com", "example.com", "com"],
        );
    assert_eq!(words(&verdict.alignments), ["aligned"]);
}

#[test]
fn point_67_any_outcome_2_is_a_temperror() {
    let verdict = case("example.com")
        .text("example.com", "v=DMARC1; p=none")
        .identifier(1, 2, "other.org")
        .gives("temperror none defer", &["example.com"]);
    assert_eq!(words(&verdict.alignments), ["not aligned"]);
    // Strict or not; an outcome 2 of the author's own domain too.
    case("example.com")
        .text("example.com", E)
        .identifier(0, 2, "example.com")
        .gives("temperror reject defer", &["example.com"]);
    // When something aligns, it does not matter.
    case("example.com")
        .text("example.com", E)
        .identifier(1, 2, "other.org")
        .spf("example.com")
        .gives("pass reject none", &["example.com"]);
    // Outcome 0 is not aligned, whatever its domain.
    case("example.com")
        .text("example.com", E)
        .identifier(1, 0, "example.com")
        .gives("fail reject reject", &["example.com"]);
}

#[test]
fn point_68_not_judged() {
    let with = |case: Case| {
        case.identifier(1, 0, "a.org")
            .identifier(1, 1, "example.com")
            .identifier(1, 2, "b.org")
            .verdict()
    };
    let not_judged = ["not judged"; 3];
    let none = with(case("example.com"));
    assert_eq!(none.result, DmarcResult::None);
    assert_eq!(words(&none.alignments), not_judged);
    let permerror = with(case("example.com").text("example.com", "v=DMARC1"));
    assert_eq!(permerror.result, Permerror);
    assert_eq!(words(&permerror.alignments), not_judged);
    let temperror = with(case("example.com").error("example.com"));
    assert_eq!(temperror.result, Temperror);
    assert_eq!(words(&temperror.alignments), not_judged);
}

#[test]
fn point_69_permerror_asks_no_more() {
    case("example.com")
        .text("example.com", "v=DMARC1; p=reject; sp=often")
        .dkim("mail.example.com")
        .gives("permerror none none", &["example.com"]);
    case("example.com")
        .text("example.com", "v=DMARC1; p=reject; np=often")
        .gives("permerror none none", &["example.com"]);
}

#[test]
fn point_70_aligned_by_equality_wherever_the_record_lies() {
    case("news.example.com")
        .text("example.com", E)
        .spf("news.example.com")
        .gives(
            "pass quarantine none",
            &["news.example.com", "example.com", "com"],
        );
}

#[test]
fn point_71_pass_beside_an_error() {
    let verdict = case("example.com")
        .text("example.com", PLAIN)
        .error("org")
        .dkim("other.org")
        .dkim("mail.example.com")
        .gives(
            "pass reject none",
            &["example.com", "com", "other.org", "org", "mail.example.com"],
        );
    assert_eq!(words(&verdict.alignments), ["unknown", "aligned"]);
}

#[test]
fn point_72_existence_2() {
    let all = ["news.example.com", "example.com", "com"];
    let news = || case("news.example.com").existence(2);
    let differ = "v=DMARC1; p=reject; sp=quarantine; np=none; t=y";
    news()
        .text("example.com", differ)
        .gives("temperror unknown defer", &all);
    // Pass stays pass, with an unknown policy.
    let verdict = news()
        .text("example.com", differ)
        .dkim("news.example.com")
        .gives("pass unknown none", &all);
    assert_eq!(domain_of(&verdict), "example.com");
    // Temperror stays.
    news()
        .text("example.com", differ)
        .identifier(1, 2, "x.org")
        .gives("temperror unknown defer", &all);
    // np absent: both agree. Then t=y takes its step.
    let agree = "v=DMARC1; p=reject; sp=quarantine";
    news()
        .text("example.com", agree)
        .gives("fail quarantine quarantine", &all);
    let agree_t = "v=DMARC1; p=reject; t=y";
    news()
        .text("example.com", agree_t)
        .gives("fail quarantine quarantine", &all);
    // sp absent: p for one that exists, np for one that does not.
    let np_only = "v=DMARC1; p=reject; np=reject";
    news()
        .text("example.com", np_only)
        .gives("fail reject reject", &all);
    // Own record: p, existence unused.
    case("example.com")
        .existence(2)
        .text("example.com", E)
        .gives("fail reject reject", &["example.com"]);
}

#[test]
fn point_73_own_record_of_a_domain_that_does_not_exist() {
    case("example.com")
        .existence(0)
        .text("example.com", "v=DMARC1; p=quarantine; sp=none; np=reject")
        .gives("fail quarantine quarantine", &["example.com"]);
}

#[test]
fn policy_of_a_domain_below_by_existence() {
    let policy = |text: &str, existence: u8| {
        let case = case("news.example.com").existence(existence);
        case.text("example.com", text).verdict().policy
    };
    let all = "v=DMARC1; p=reject; sp=quarantine; np=none";
    assert_eq!(policy(all, 1), QUARANTINE);
    assert_eq!(policy(all, 0), NONE);
    let no_sp = "v=DMARC1; p=reject; np=quarantine";
    assert_eq!(policy(no_sp, 1), REJECT);
    assert_eq!(policy(no_sp, 0), QUARANTINE);
    let no_np = "v=DMARC1; p=reject; sp=quarantine";
    assert_eq!(policy(no_np, 0), QUARANTINE);
    assert_eq!(policy(PLAIN, 1), REJECT);
    assert_eq!(policy(PLAIN, 0), REJECT);
}

#[test]
fn point_74_not_usable_with_rua() {
    let all = ["news.example.com", "example.com", "com"];
    for existence in 0..=2 {
        case("news.example.com")
            .existence(existence)
            .text(
                "example.com",
                "v=DMARC1; sp=reject; rua=mailto:r@example.com",
            )
            .gives("fail none none", &all);
    }
    // Modes stay: strict is still strict.
    case("example.com")
        .text("example.com", "v=DMARC1; p=often; adkim=s; rua=a:b")
        .dkim("mail.example.com")
        .gives("fail none none", &["example.com"]);
    // psd stays: the walk ends there.
    case("mail.example.com")
        .text("example.com", "v=DMARC1; p=often; psd=n; rua=a:b")
        .gives("fail none none", &["mail.example.com", "example.com"]);
}

#[test]
fn point_75_t_then_support() {
    let own = |text: &str, support: u8| {
        let case = case("example.com")
            .support(support)
            .text("example.com", text);
        let verdict = case.verdict();
        (verdict.policy, verdict.disposition)
    };
    assert_eq!(
        own("v=DMARC1; p=reject", 0),
        (REJECT, Disposition::Quarantine)
    );
    assert_eq!(own("v=DMARC1; p=reject", 1), (REJECT, Disposition::Reject));
    for support in 0..=1 {
        let stepped = (QUARANTINE, Disposition::Quarantine);
        assert_eq!(own("v=DMARC1; p=reject; t=y", support), stepped);
        let none = (NONE, Disposition::None);
        assert_eq!(own("v=DMARC1; p=quarantine; t=y", support), none);
        assert_eq!(own("v=DMARC1; p=none; t=y", support), none);
        assert_eq!(own("v=DMARC1; p=quarantine", support), stepped);
    }
}

#[test]
fn point_76_domain_and_policy_for_each_result() {
    let own = || case("example.com").text("example.com", PLAIN);
    let pass = own().dkim("example.com").verdict();
    assert_eq!(domain_of(&pass), "example.com");
    assert_eq!((pass.policy, pass.disposition), (REJECT, Disposition::None));
    let fail = own().verdict();
    assert_eq!(domain_of(&fail), "example.com");
    let outcome_2 = own().identifier(1, 2, "x.org").verdict();
    assert_eq!(domain_of(&outcome_2), "example.com");
    assert_eq!(
        (outcome_2.policy, outcome_2.disposition),
        (REJECT, Disposition::Defer)
    );
    let existence_2 = case("news.example.com")
        .existence(2)
        .text("example.com", E)
        .verdict();
    assert_eq!(domain_of(&existence_2), "example.com");
    assert_eq!(existence_2.result, Temperror);
    let of_a = case("example.com").error("com").verdict();
    assert_eq!(domain_of(&of_a), "");
    assert_eq!(
        (of_a.policy, of_a.disposition),
        (UNKNOWN, Disposition::Defer)
    );
    let none = case("example.com").verdict();
    assert_eq!(domain_of(&none), "");
    assert_eq!((none.policy, none.disposition), (NONE, Disposition::None));
    let permerror = case("news.example.com")
        .text("example.com", "v=DMARC1")
        .verdict();
    assert_eq!(domain_of(&permerror), "example.com");
    assert_eq!(
        (permerror.policy, permerror.disposition),
        (NONE, Disposition::None)
    );
}

#[test]
fn step_a_the_organizational_domains_record_before_the_psd_one() {
    let verdict = case("a.shop.example")
        .text("shop.example", "v=DMARC1; p=none; sp=quarantine")
        .text("example", Y)
        .gives(
            "fail quarantine quarantine",
            &["a.shop.example", "shop.example", "example"],
        );
    assert_eq!(domain_of(&verdict), "shop.example");
}

#[test]
fn point_77_pass_exactly_when_some_passing_domain_aligns() {
    // It also holds with outcome 2 and existence 2 about.
    let with = |domain: &str| {
        case("news.example.com")
            .existence(2)
            .text("example.com", "v=DMARC1; p=reject; np=none")
            .identifier(1, 2, "x.org")
            .dkim(domain)
            .verdict()
            .result
    };
    assert_eq!(with("mail.example.com"), Pass);
    assert_eq!(with("mail.example.org"), Temperror);
}
