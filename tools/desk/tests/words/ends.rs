//! How the script ends, as several tests expect it.

use desk::script::{Ended, Folder};

/// Ends so, prints this and says these lines.
pub fn ends(ended: &Ended, status: i32, printed: &str, said: &[&str]) {
    let said: String = said.iter().map(|line| format!("dmarc: {line}\n")).collect();
    assert_eq!(
        (ended.printed.as_str(), ended.said.as_str()),
        (printed, said.as_str())
    );
    assert_eq!(ended.status, status);
}

/// Words that go not together: this line is said, and the usage.
pub fn misused(words: &[&str], line: &str) {
    let folder = Folder::new();
    let usage = folder.dmarc(&["--help"]);
    assert_eq!((usage.status, usage.said.as_str()), (0, ""));
    let ended = folder.dmarc(words);
    assert_eq!(ended.said, format!("dmarc: {line}\n{}", usage.printed));
    assert_eq!((ended.status, ended.printed.as_str()), (2, ""), "{words:?}");
}
