//! Days as they are told, and the policy record that stands in one. The days of
//! other tests too.

use records::code::Proved;
use records::day::{read, told, DayForm};
use records::told::Told;
use sheets::day::{generated, Day};

/// The seed of generated days.
const SEED: u64 = 9;

/// The day of these lines, called `x.txt`.
pub fn day(lines: &str) -> Day {
    read(&Proved, "x.txt", lines.as_bytes()).unwrap_or_else(|reason| panic!("{reason}"))
}

/// The day of `examples/day.txt`.
pub fn example() -> Day {
    day(include_str!("../../../../examples/day.txt"))
}

/// A generated day by its index.
pub fn generated_day(index: u64) -> Day {
    day(&generated(SEED, index))
}

#[test]
fn forms() {
    assert_eq!(DayForm::read(b"plain"), Some(DayForm::Plain));
    assert_eq!(DayForm::read(b"csv"), Some(DayForm::Csv));
    assert_eq!(DayForm::read(b"json"), Some(DayForm::Json));
    assert_eq!(DayForm::read(b"CSV"), None);
}

#[test]
fn a_day_in_each_form() {
    let own = day("row 192.0.2.1 7 reject author b\r\n");
    let tell = |form, printed: &str| {
        let expected = Told {
            printed: printed.as_bytes().to_vec(),
            ..Told::default()
        };
        assert_eq!(told(form, &own), expected);
    };
    tell(
        DayForm::Plain,
        "source     count  disposition  dkim         spf          author  identifiers\n\
         192.0.2.1      7  reject       not aligned  not aligned  b\n\
         total          0  none\n\
         total          0  quarantine\n\
         total          7  reject\n\
         total          7  all\n",
    );
    tell(
        DayForm::Csv,
        "source,count,disposition,dkim,spf,author,identifiers\r\n\
         192.0.2.1,7,reject,not aligned,not aligned,b,\r\n",
    );
    tell(
        DayForm::Json,
        "{\"domain\":null,\"rows\":[{\"source\":\"192.0.2.1\",\"count\":7,\"disposition\":\"reject\",\
         \"dkim\":\"not aligned\",\"spf\":\"not aligned\",\"author\":\"b\",\"identifiers\":[]}],\
         \"totals\":{\"none\":0,\"quarantine\":0,\"reject\":7,\"all\":7}}\n",
    );
}

#[test]
fn a_record_that_is_none() {
    let mistake = |text: &str, said: &str| {
        let lines = format!("domain b\nrecord {text}\n");
        let told = read(&Proved, "x.txt", lines.as_bytes());
        let expected = format!("x.txt: line 2: no policy record: {said}");
        assert_eq!(told, Err(expected));
    };
    mistake(
        "\"v=spf1 -all\"",
        "its first part is \"v=spf1 -all\", and not v=DMARC1: its value is DMARC1 in capitals, and \
         nothing else",
    );
    mistake(
        "\"v=DMARC1; p=none\" \"; P=none\"",
        "tag p is written twice",
    );
    mistake(
        &format!("\"v=DMARC1; p=none; x={}\"", "a".repeat(65_535)),
        "it is over 65,535 octets, and no TXT record has more",
    );
    let usable_or_not = day("record \"v=DMARC1\" \"; p=often\"\n");
    let record = usable_or_not.record.map(|own| own.value);
    assert_eq!(record.as_deref(), Some(b"v=DMARC1; p=often".as_slice()));
}
