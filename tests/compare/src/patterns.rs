//! Random patterns, over what both grammars share.

use crate::random::Random;

const LETTERS: [&str; 12] = ["a", "b", "c", "A", "B", "k", "s", "z", "0", "1", "_", "x"];
const OTHERS: [&str; 12] = ["é", "ß", "σ", "Σ", "K", "ſ", "中", "💩", "-", " ", "ı", "β"];
const ESCAPES: [&str; 12] =
    ["\\.", "\\n", "\\t", "\\x61", "\\u{e9}", "\\x{4E2D}", "\\\\", "\\*", "\\r", "\\U0001F4A9", "\\u00DF", "\\|"];
const SHORT_CLASSES: [&str; 6] = ["\\d", "\\w", "\\s", "\\D", "\\W", "\\S"];
const NAMED_CLASSES: [&str; 10] = [
    "\\pL", "\\PL", "\\p{Greek}", "\\p{Lu}", "\\P{Lu}", "\\p{Nd}", "\\pZ", "\\p{Han}", "\\p{Alphabetic}", "\\pP",
];
const POSIX: [&str; 10] = [
    "[:alpha:]", "[:^alpha:]", "[:digit:]", "[:space:]", "[:word:]", "[:upper:]", "[:punct:]", "[:alnum:]",
    "[:^space:]", "[:ascii:]",
];
const ITEMS: [&str; 16] = [
    "a", "b", "c", "x", "0", "é", "σ", "k", "a-c", "b-z", "0-9", "A-Z", "à-ü", "α-ω", "\\n", "\\-",
];
const LOOKS: [&str; 8] = ["^", "$", "\\A", "\\z", "(?-u:\\b)", "(?-u:\\B)", "\\b", "\\B"];
const FLAGS: [&str; 10] = ["i", "s", "m", "x", "U", "-i", "i-s", "ms", "is", "-m"];
/// What may match bytes that are no UTF-8, so that a builder for text refuses it.
const BYTES: [&str; 6] = ["(?-u:.)", "(?-u:[^a])", "(?-u:\\xFF)", "(?-u:\\W)", "(?s-u:.)", "(?-u:[\\x80-\\xC3])"];

/// Makes patterns of one case.
pub struct Patterns<'a> {
    random: &'a mut Random,
    /// Whether patterns may match bytes that are no UTF-8.
    bytes: bool,
    /// How many groups have names.
    named: usize,
}

impl Patterns<'_> {
    pub fn new(random: &mut Random, bytes: bool) -> Patterns<'_> {
        Patterns { random, bytes, named: 0 }
    }

    pub fn pattern(&mut self) -> String {
        self.named = 0;
        let depth = self.random.between(1, 4);
        let start = if self.random.once_in(8) { "^" } else { "" };
        let end = if self.random.once_in(8) { "$" } else { "" };
        let body = if self.random.once_in(16) { self.words() } else { self.alternation(depth) };
        format!("{start}{body}{end}")
    }

    /// A pattern with some hundreds of states or more: many words, or a repetition with a large bound.
    pub fn large(&mut self) -> String {
        self.named = 0;
        if self.random.once_in(2) {
            let count = self.random.between(50, 400);
            let words: Vec<String> = (0..count).map(|_| self.long_word()).collect();
            return words.join("|");
        }
        let part = if self.random.once_in(2) { self.random.pick(&SHORT_CLASSES).to_string() } else { self.word() };
        let least = self.random.between(2, 40);
        let most = least + self.random.below(60);
        let lazy = if self.random.once_in(4) { "?" } else { "" };
        let body = self.word();
        format!("(?:{part}){{{least},{most}}}{lazy}{}", if self.random.once_in(2) { "" } else { &body })
    }

    fn long_word(&mut self) -> String {
        let length = self.random.between(2, 9);
        let letter = |random: &mut Random| {
            if random.once_in(30) { *random.pick(&OTHERS[..8]) } else { *random.pick(&LETTERS[..6]) }
        };
        (0..length).map(|_| letter(self.random)).collect()
    }

    /// Words that are alternatives of each other, of which some begin with others.
    fn words(&mut self) -> String {
        let count = self.random.between(2, 12);
        let words: Vec<String> = (0..count).map(|_| self.word()).collect();
        words.join("|")
    }

    fn word(&mut self) -> String {
        let length = self.random.between(1, 4);
        (0..length).map(|_| *self.random.pick(&LETTERS[..4])).collect()
    }

    fn alternation(&mut self, depth: usize) -> String {
        let count = match self.random.below(8) {
            0..=4 => 1,
            5..=6 => 2,
            _ => 3,
        };
        let parts: Vec<String> = (0..count).map(|_| self.concatenation(depth)).collect();
        parts.join("|")
    }

    fn concatenation(&mut self, depth: usize) -> String {
        let count = if self.random.once_in(16) { 0 } else { self.random.between(1, 3) };
        (0..count).map(|_| self.piece(depth)).collect()
    }

    fn piece(&mut self, depth: usize) -> String {
        if self.random.once_in(10) {
            return self.look();
        }
        let atom = self.atom(depth);
        if self.random.once_in(3) {
            let times = self.times();
            let lazy = if self.random.once_in(3) { "?" } else { "" };
            format!("{atom}{times}{lazy}")
        } else {
            atom
        }
    }

    fn look(&mut self) -> String {
        // Word boundaries of Unicode give up at each byte above 7F, so they are rarer.
        let count = if self.random.once_in(3) { LOOKS.len() } else { LOOKS.len() - 2 };
        self.random.pick(&LOOKS[..count]).to_string()
    }

    fn times(&mut self) -> String {
        let (low, more) = (self.random.below(4), self.random.below(4));
        match self.random.below(10) {
            0..=2 => "*".to_string(),
            3..=5 => "+".to_string(),
            6..=7 => "?".to_string(),
            8 if self.random.once_in(2) => format!("{{{low}}}"),
            8 => format!("{{{low},}}"),
            _ => format!("{{{low},{}}}", low + more),
        }
    }

    fn atom(&mut self, depth: usize) -> String {
        match self.random.below(16) {
            0..=5 => self.random.pick(&LETTERS[..8]).to_string(),
            6 => self.random.pick(&OTHERS).to_string(),
            7 => self.random.pick(&ESCAPES).to_string(),
            8 => ".".to_string(),
            9..=10 => self.class(2),
            11 => self.random.pick(&SHORT_CLASSES).to_string(),
            12 if self.random.once_in(2) => self.random.pick(&NAMED_CLASSES).to_string(),
            12 if self.bytes => self.random.pick(&BYTES).to_string(),
            _ if depth > 0 => self.group(depth - 1),
            _ => self.random.pick(&LETTERS).to_string(),
        }
    }

    fn group(&mut self, depth: usize) -> String {
        let body = self.alternation(depth);
        match self.random.below(8) {
            0..=2 => format!("({body})"),
            3..=5 => format!("(?:{body})"),
            6 => {
                self.named += 1;
                format!("(?P<n{}>{body})", self.named)
            }
            _ => {
                let flags = self.random.pick(&FLAGS);
                if self.random.once_in(4) { format!("(?{flags}){body}") } else { format!("(?{flags}:{body})") }
            }
        }
    }

    fn class(&mut self, depth: usize) -> String {
        let not = if self.random.once_in(3) { "^" } else { "" };
        let items = self.items(depth);
        if self.random.once_in(6) {
            let other = self.items(depth);
            let between = self.random.pick(&["&&", "--", "~~"]);
            format!("[{not}{items}{between}{other}]")
        } else {
            format!("[{not}{items}]")
        }
    }

    fn items(&mut self, depth: usize) -> String {
        let count = self.random.between(1, 3);
        (0..count).map(|_| self.item(depth)).collect()
    }

    fn item(&mut self, depth: usize) -> String {
        match self.random.below(12) {
            0 => self.random.pick(&POSIX).to_string(),
            1 => self.random.pick(&SHORT_CLASSES).to_string(),
            2 if depth > 0 => self.class(depth - 1),
            _ => self.random.pick(&ITEMS).to_string(),
        }
    }
}
