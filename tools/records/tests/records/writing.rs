//! Records from words, and what is wrong with the words.

use records::code::Proved;
use records::writing::record;

/// The record of the words, or the lines that say what is wrong.
fn written(words: &[&[u8]]) -> Result<String, Vec<String>> {
    let words: Vec<Vec<u8>> = words.iter().map(|word| word.to_vec()).collect();
    let text = |octets: Vec<u8>| String::from_utf8_lossy(&octets).into_owned();
    let lines = |said: String| said.lines().map(str::to_string).collect();
    record(&Proved, &words).map(text).map_err(lines)
}

/// The words are written as this record.
fn gives(words: &[&str], expected: &str) {
    let words: Vec<&[u8]> = words.iter().map(|word| word.as_bytes()).collect();
    assert_eq!(written(&words), Ok(expected.to_string()));
}

/// All that is wrong with the words.
fn wrong(words: &[&[u8]], lines: &[&str]) {
    let lines: Vec<String> = lines.iter().map(|line| line.to_string()).collect();
    assert_eq!(written(words), Err(lines));
}

#[test]
fn records_in_their_order() {
    gives(&["p=none"], "v=DMARC1; p=none");
    gives(
        &["p=reject", "sp=none", "rua=mailto:a@example.com"],
        "v=DMARC1; p=reject; sp=none; rua=mailto:a@example.com",
    );
    gives(
        &[
            "rua=a:b, c:d",
            "t=y",
            "psd=n",
            "aspf=s",
            "adkim=s",
            "np=none",
            "sp=reject",
            "p=reject",
        ],
        "v=DMARC1; p=reject; sp=reject; np=none; adkim=s; aspf=s; psd=n; t=y; rua=a:b, c:d",
    );
}

#[test]
fn defaults_are_left_out_and_case_does_not_matter() {
    let defaults = ["p=none", "adkim=r", "aspf=r", "psd=u", "t=n"];
    gives(&defaults, "v=DMARC1; p=none");
    gives(&["P=NONE", "aspf=S"], "v=DMARC1; p=none; aspf=s");
    gives(&["p=none", "rua=A:B=C"], "v=DMARC1; p=none; rua=A:B=C");
}

#[test]
fn p_is_missing() {
    let line = "p is missing; it is one of none, quarantine, reject";
    wrong(&[], &[line]);
    wrong(&[b"sp=none", b"rua=nobody"], &[line]);
}

#[test]
fn tags_that_are_wrong() {
    let tags = "the tags are p, sp, np, adkim, aspf, psd, t, rua";
    wrong(
        &[b"p=none", b"pct=50"],
        &[&format!("unknown tag pct; {tags}")],
    );
    wrong(
        &[b"p=none", b"p =x"],
        &[&format!("unknown tag \"p \"; {tags}")],
    );
    wrong(&[b"=x"], &[&format!("unknown tag \"\"; {tags}")]);
    let v = "v is not chosen: every record begins with v=DMARC1";
    wrong(&[b"v=DMARC1", b"p=none"], &[v]);
    wrong(&[b"p=none", b"P=reject"], &["tag p is given twice"]);
    wrong(
        &[b"p=none", b"rua=a:b", b"rua=c:d"],
        &["tag rua is given twice"],
    );
    let form = "a tag and its value are written as in p=reject";
    wrong(&[b"reject"], &[&format!("\"reject\" has no `=`; {form}")]);
    wrong(&[b"p\xff"], &[&format!("\"p\\xff\" has no `=`; {form}")]);
}

#[test]
fn values_that_are_not_listed() {
    let policies = "is not one of none, quarantine, reject";
    for name in ["p", "sp", "np"] {
        let word = format!("{name}=often");
        let line = format!("{name}: \"often\" {policies}");
        let p: &[u8] = if name == "p" { b"sp=none" } else { b"p=none" };
        wrong(&[p, word.as_bytes()], &[&line]);
    }
    wrong(&[b"p="], &[&format!("p: \"\" {policies}")]);
    wrong(
        &[b"p=none", b"adkim=strict"],
        &["adkim: \"strict\" is not one of r, s"],
    );
    wrong(
        &[b"p=none", b"aspf=relaxed"],
        &["aspf: \"relaxed\" is not one of r, s"],
    );
    wrong(
        &[b"p=none", b"psd=yes"],
        &["psd: \"yes\" is not one of y, n, u"],
    );
    wrong(&[b"p=none", b"t= y"], &["t: \" y\" is not one of y, n"]);
    let empty = "rua: it is empty; leave it out if no reports are wanted";
    wrong(&[b"p=none", b"rua="], &[empty]);
}

#[test]
fn every_mistake_has_its_line() {
    wrong(
        &[b"p=often", b"v=1", b"sp", b"p=none"],
        &[
            "p: \"often\" is not one of none, quarantine, reject",
            "v is not chosen: every record begins with v=DMARC1",
            "\"sp\" has no `=`; a tag and its value are written as in p=reject",
            "tag p is given twice",
        ],
    );
}

/// What is wrong with a rua text.
fn rua(text: &[u8], lines: &[&str]) {
    wrong(&[b"p=none", &[b"rua=", text].concat()], lines);
}

#[test]
fn each_reason_of_refusal_16() {
    rua(
        b"mailto:a;b@c",
        &["rua: the `;` at place 8, from 0, would end the tag; write %3B"],
    );
    rua(b" a:b", &["rua: it begins with a blank"]);
    rua(b"a:b ", &["rua: it ends with a blank"]);
    rua(
        b"a:b,\tc:d",
        &["rua: a tab at place 4, from 0, is outside 32 to 126"],
    );
    rua(
        b"a:\xfe",
        &[
            "rua: octet 254 at place 2, from 0, is outside 32 to 126",
            "rua: entry 1, \"a:\\xfe\", is not valid: octet 254 may not stand in it",
        ],
    );
    let long = [b"a:".to_vec(), vec![b'b'; 4095]].concat();
    rua(&long, &["rua: 4097 octets, and 4096 at the most"]);
}

#[test]
fn each_fault_of_an_entry() {
    let entry = |entry: &str, why: &str| {
        let line = format!("rua: entry 2, \"{entry}\", is not valid: {why}");
        rua(format!("a:b,{entry}, c:d").as_bytes(), &[&line]);
    };
    entry("", "it is empty");
    entry("nobody", "it has no `:`, as in mailto:a@example.com");
    entry(
        "1:x",
        "what stands before its `:` is no scheme, as mailto is",
    );
    entry(
        ":x",
        "what stands before its `:` is no scheme, as mailto is",
    );
    entry("mailto:", "nothing comes after its `:`");
    entry("a:b%4", "a `%` in it is not followed by two hex digits");
    entry("a:b!10m", "`!` may not stand in it");
    entry("a:b c", "a blank may not stand in it");
}
