//! What a C header declares, as far as `include/waslidhaj.h` needs it: structs of
//! plain fields, enumerators, functions.

/// A struct by its name in C and the names of its fields.
#[derive(Clone, Debug, PartialEq, Eq)]
pub struct Struct {
    pub name: String,
    pub fields: Vec<String>,
}

/// A header without its comments.
pub struct Header(String);

impl Header {
    pub fn read(text: &str) -> Header {
        let mut plain = String::new();
        for (index, part) in text.split("/*").enumerate() {
            let after = part.split_once("*/").map_or("", |(_, after)| after);
            plain += if index == 0 { part } else { after };
        }
        Header(plain)
    }

    /// What stands between braces after a word, and what follows up to a `;`.
    fn braced(&self, word: &str) -> Vec<(&str, &str)> {
        let begin = format!("{word} {{");
        let parts = self.0.split(begin.as_str()).skip(1);
        let pairs = parts.filter_map(|part| {
            let (body, rest) = part.split_once('}')?;
            Some((body, rest.split(';').next()?.trim()))
        });
        pairs.collect()
    }

    pub fn structs(&self) -> Vec<Struct> {
        let all = self.braced("typedef struct").into_iter();
        all.map(|(body, name)| Struct {
            name: name.to_string(),
            fields: body.split(';').flat_map(fields).collect(),
        })
        .collect()
    }

    pub fn enumerators(&self) -> Vec<String> {
        let all = self.braced("enum").into_iter();
        let entries = all.flat_map(|(body, _)| body.split(','));
        let names = entries.map(|entry| entry.split('=').next().unwrap_or_default().trim());
        names.map(str::to_string).collect()
    }

    /// The functions that are declared and have no body here.
    pub fn functions(&self) -> Vec<String> {
        self.heads(false)
    }

    /// The functions that have a body here.
    pub fn defined(&self) -> Vec<String> {
        self.heads(true)
    }

    /// The names of functions with a body, or of those without one.
    fn heads(&self, with_body: bool) -> Vec<String> {
        let outer = self.outer();
        let parts = outer.split_inclusive([';', '}']);
        let heads = parts.filter(|part| part.ends_with('}') == with_body);
        let names = heads.filter_map(|part| part.split_once('('));
        let names = names.filter_map(|(head, _)| head.split_whitespace().next_back());
        names.map(str::to_string).collect()
    }

    /// The header without what stands between braces and what is for the
    /// preprocessor.
    fn outer(&self) -> String {
        let lines = self.0.lines().filter(|line| !line.starts_with('#'));
        let lines = lines.filter(|line| !line.starts_with("extern \"C\""));
        let (mut outer, mut depth) = (String::new(), 0_usize);
        for octet in lines.flat_map(|line| line.chars().chain(['\n'])) {
            depth -= usize::from(octet == '}' && depth > 0);
            if depth == 0 {
                outer.push(octet);
            }
            depth += usize::from(octet == '{');
        }
        outer
    }
}

/// What a function of the archive is called in the header, where that defines one
/// over it.
pub fn plain(name: &str) -> &str {
    let over = ["_apart", "_by_value"].map(|ending| name.strip_suffix(ending));
    over.into_iter().flatten().next().unwrap_or(name)
}

/// The names of a declaration such as `uint8_t a, b[3]` or `const uint8_t *a`.
fn fields(declaration: &str) -> Vec<String> {
    let names = declaration
        .trim()
        .split_once(' ')
        .map_or("", |(_, names)| names);
    let names = names.split(',');
    let names = names.filter_map(|name| name.split_whitespace().next_back());
    let names = names.filter_map(|name| name.trim_start_matches('*').split('[').next());
    names.map(str::to_string).collect()
}

#[cfg(test)]
mod tests {
    use super::{plain, Header, Struct};

    #[test]
    fn structs_enumerators_and_functions() {
        let text = "/* a; { */\nextern \"C\" {\nenum { A, B = 2 /* b, */ };\nenum {\n  C\n};\n\
            #define OWN __attribute__((noinline))\n\
            typedef struct {\n  int a, b[2];\n  /* c; */ x_y c;\n  const int *d;\n} x_z;\n\
            static inline int f(int a) {\n  if (a) {\n    g(1);\n  }\n  return h();\n}\n\
            x_z g(int a,\n  int b);\nint h(void);\nstatic OWN int i(int a) { return a; }\n}\n";
        let header = Header::read(text);
        assert_eq!(header.enumerators(), ["A", "B", "C"]);
        let fields = ["a", "b", "c", "d"].map(str::to_string).to_vec();
        let name = "x_z".to_string();
        assert_eq!(header.structs(), [Struct { name, fields }]);
        assert_eq!(header.functions(), ["g", "h"]);
        assert_eq!(header.defined(), ["f", "i"]);
    }

    #[test]
    fn functions_over_others() {
        assert_eq!(
            ["f_apart", "f_by_value", "f_name"].map(plain),
            ["f", "f", "f_name"]
        );
    }
}
