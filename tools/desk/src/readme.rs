//! The README's examples: fenced blocks, each after a marker of its own; files
//! and sheets, after markers with their names; commands after `$ `, with what they print; and commands in the text.

/// A command in a block, and the lines below it, which are what it prints.
#[derive(Clone, Debug, PartialEq, Eq)]
pub struct Example {
    pub command: String,
    pub printed: String,
}

/// A line's number of blanks at its beginning, and the rest.
fn indented(line: &str) -> (usize, &str) {
    let rest = line.trim_start_matches(' ');
    (line.len() - rest.len(), rest)
}

/// The lines of a text that are in no fenced block, and the words after the fence
/// of each of these with its lines.
fn fenced(text: &str) -> (Vec<&str>, Vec<(&str, Vec<&str>)>) {
    let (mut outside, mut blocks) = (Vec::new(), Vec::new());
    let mut lines = text.lines();
    while let Some(line) = lines.next() {
        match line.strip_prefix("```") {
            Some(words) => {
                let inside = lines.by_ref().take_while(|own| !own.starts_with("```"));
                blocks.push((words, inside.collect()));
            }
            None => outside.push(line),
        }
    }
    (outside, blocks)
}

/// The commands after `$ ` in indented blocks. What one prints ends at an empty
/// line, or at the next command.
pub fn examples(text: &str) -> Vec<Example> {
    let (lines, _) = fenced(text);
    let mut lines = lines.into_iter().peekable();
    let mut examples = Vec::new();
    while let Some(line) = lines.next() {
        let (indent, rest) = indented(line);
        let Some(command) = rest.strip_prefix("$ ").filter(|_| indent >= 4) else {
            continue;
        };
        let mut printed = String::new();
        let own = |line: &&str| {
            let (own, rest) = indented(line);
            own >= indent && !rest.is_empty() && !rest.starts_with("$ ")
        };
        while let Some(line) = lines.next_if(own) {
            printed += &format!("{}\n", &line[indent..]);
        }
        examples.push(Example {
            command: command.to_string(),
            printed,
        });
    }
    examples
}

/// The name and the text of each indented block after a line `<!-- KIND: NAME -->`.
pub fn named(text: &str, kind: &str) -> Vec<(String, String)> {
    let begin = format!("<!-- {kind}: ");
    let mut lines = text.lines();
    let mut named = Vec::new();
    while let Some(line) = lines.next() {
        let name = line.strip_prefix(&begin);
        let Some(name) = name.and_then(|rest| rest.strip_suffix(" -->")) else {
            continue;
        };
        let block = lines
            .by_ref()
            .skip_while(|own| own.is_empty())
            .map_while(|own| own.strip_prefix("    "));
        let text = block.map(|own| format!("{own}\n")).collect();
        named.push((name.to_string(), text));
    }
    named
}

/// The programs that commands of a README begin with, but for those of `./`.
const PROGRAMS: [&str; 12] = [
    "ar", "bash", "cargo", "cp", "dig", "g++", "gcc", "git", "make", "printf", "rt", "sh",
];

/// Whether words are a command: not a program's name alone, as `rt` is.
fn is_command(words: &str) -> bool {
    let (first, rest) = words.split_once(' ').unwrap_or((words, ""));
    let is_file = first.starts_with("./") || first.ends_with(".sh") || first == ".ci/run";
    is_file || PROGRAMS.contains(&first) && !rest.is_empty()
}

/// The commands among the words in backquotes, outside of blocks.
pub fn commands_in_text(text: &str) -> Vec<&str> {
    let (lines, _) = fenced(text);
    let text = lines.into_iter().filter(|line| !line.starts_with("    "));
    let spans = text.flat_map(|line| line.split('`').skip(1).step_by(2));
    spans.filter(|words| is_command(words)).collect()
}

/// The commands in blocks that have no `$ ` before them; those of a fenced block
/// for the shell have their own test by its marker.
pub fn unmarked_commands(text: &str) -> Vec<&str> {
    let (lines, blocks) = fenced(text);
    let indented = lines.into_iter().filter(|line| line.starts_with("    "));
    let plain = blocks.into_iter().filter(|(words, _)| words.is_empty());
    indented
        .chain(plain.flat_map(|(_, lines)| lines))
        .map(str::trim)
        .filter(|line| is_command(line))
        .collect()
}

/// How many fenced blocks for the shell there are.
pub fn shell_blocks(text: &str) -> usize {
    let (_, blocks) = fenced(text);
    let words = blocks.iter().map(|(words, _)| *words);
    words
        .filter(|words| ["sh", "bash", "console"].contains(words))
        .count()
}

/// The block after the line `<!-- MARKER -->`, or why there is none.
pub fn block(text: &str, marker: &str) -> Result<String, String> {
    let line = format!("<!-- {marker} -->");
    let mut lines = text.lines().skip_while(|own| own.trim() != line);
    lines.next().ok_or(format!("no line {line}"))?;
    let mut lines = lines.skip_while(|own| own.trim().is_empty());
    let fence = lines.next().unwrap_or_default();
    if !fence.starts_with("```") {
        return Err(format!("no fenced block after {line}"));
    }
    let mut block = String::new();
    for own in lines {
        if own.starts_with("```") {
            return Ok(block);
        }
        block += &format!("{own}\n");
    }
    Err(format!("the block after {line} is not closed"))
}

#[cfg(test)]
mod tests {
    use super::*;

    const TEXT: &str =
        "a\n<!-- b: c -->\n\n```c\nint x;\n\nint y;\n```\n<!-- d -->\ne\n<!-- f -->\n```\n";

    #[test]
    fn blocks_and_what_is_none() {
        assert_eq!(block(TEXT, "b: c").as_deref(), Ok("int x;\n\nint y;\n"));
        let none = |marker: &str| block(TEXT, marker).expect_err("no block");
        assert_eq!(none("x"), "no line <!-- x -->");
        assert_eq!(none("d"), "no fenced block after <!-- d -->");
        assert_eq!(none("f"), "the block after <!-- f --> is not closed");
    }

    const PAGE: &str = "Run `./a b`, or `rt` by `rt check`.

    $ ./a x
    one
      two
    $ ./a y

      $ ./a z
      three
    four

<!-- file: x -->

    a b

    ./a unmarked
```sh
./a fenced
```
```
./a plain
```
```c
int x = `./a`;
    $ ./a no
```
- `b/c.sh d` and `e.sh/f`, `cargo`, `ls`, `cp a b`
";

    #[test]
    fn commands_and_what_they_print() {
        let example = |(command, printed): (&str, &str)| Example {
            command: command.to_string(),
            printed: printed.to_string(),
        };
        let expected = [
            ("./a x", "one\n  two\n"),
            ("./a y", ""),
            ("./a z", "three\n"),
        ];
        assert_eq!(examples(PAGE), expected.map(example));
    }

    #[test]
    fn commands_in_the_text_and_unmarked_ones() {
        let shown = ["./a b", "rt check", "b/c.sh d", "cp a b"];
        assert_eq!(commands_in_text(PAGE), shown);
        assert_eq!(unmarked_commands(PAGE), ["./a unmarked", "./a plain"]);
        assert_eq!(shell_blocks(PAGE), 1);
    }

    #[test]
    fn blocks_by_their_names() {
        let file = ("x".to_string(), "a b\n".to_string());
        assert_eq!(named(PAGE, "file"), [file]);
        assert_eq!(named(PAGE, "sheet"), []);
    }
}
