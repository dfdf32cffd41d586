//! The tokens that the original's lexer gives.
use lef21::read::LefLexer;
use lef21::LefError;

/// The number after `name: ` in a value's debug form: the fields of a token are private.
fn field(shown: &str, name: &str) -> usize {
    let at = shown.find(&format!("{}: ", name)).unwrap() + name.len() + 2;
    shown[at..].chars().take_while(|c| c.is_ascii_digit()).collect::<String>().parse().unwrap()
}

fn kind(shown: &str) -> u8 {
    let at = shown.find("ttype: ").unwrap() + 7;
    match shown[at..].chars().take_while(|c| c.is_alphabetic()).collect::<String>().as_str() {
        "Name" => 1,
        "Number" => 2,
        "SemiColon" => 3,
        "StringLiteral" => 4,
        other => panic!("{}", other),
    }
}

fn lexed_bad(e: LefError) -> String {
    match e {
        LefError::Lex { line, pos, .. } => format!("bad {} {}", pos, line),
        other => panic!("{:?}", other),
    }
}

/// All tokens of a text.
pub fn all(src: &str) -> String {
    let mut out = Vec::new();
    let mut lex = match LefLexer::new(src) {
        Ok(lex) => lex,
        Err(e) => return lexed_bad(e),
    };
    while let Some(t) = *lex.peek_token() {
        let s = format!("{:?}", t);
        out.push(format!("{} {} {} {}", kind(&s), field(&s, "start"), field(&s, "stop"), field(&s, "line")));
        if let Err(e) = lex.next_token() {
            out.push(lexed_bad(e));
            return out.join(" ");
        }
    }
    out.push("end".to_string());
    out.join(" ")
}
