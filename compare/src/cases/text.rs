//! Texts spoiled a little: words, and words that commas part.

/// What a line is in parts: the texts between its commas.
pub type Fields = Vec<Vec<u8>>;

/// The fields of a line.
pub fn fields_of(line: &[u8]) -> Fields {
    line.split(|byte| *byte == b',').map(<[u8]>::to_vec).collect()
}

/// The line of some fields.
pub fn line_of(fields: &[Vec<u8>]) -> Vec<u8> {
    fields.join(&b',')
}

/// A word cut at each place, changed at each place, and with something more or less at its ends.
pub fn spoiled(word: &[u8]) -> Vec<Vec<u8>> {
    let changed = |place: usize| {
        let mut changed = word.to_vec();
        changed[place] ^= if place % 3 == 0 { 32 } else { 1 };
        changed
    };
    let mut all: Vec<Vec<u8>> = (0..word.len()).map(|end| word[..end].to_vec()).collect();
    all.extend((0..word.len()).map(changed));
    all.extend([
        word[1..].to_vec(),
        [word, b"x"].concat(),
        [b"x", word].concat(),
        [word, b" "].concat(),
        [word, &word[word.len() - 1..]].concat(),
        [b"\"", word, b"\""].concat(),
        word.to_ascii_lowercase(),
        word.to_ascii_uppercase(),
    ]);
    all
}

/// What is done to one field of some, by its place.
type Spoil = fn(&mut Fields, usize);

/// All that is done to one field of some.
const SPOILS: [(&str, Spoil); 6] = [
    ("no field of", |fields, n| drop(fields.remove(n))),
    ("twice the field of", |fields, n| fields.insert(n, fields[n].clone())),
    ("swapped with the next the field of", |fields, n| {
        let next = (n + 1) % fields.len();
        fields.swap(n, next)
    }),
    ("an empty field of", |fields, n| fields[n].clear()),
    ("a space before the field of", |fields, n| fields[n].insert(0, b' ')),
    ("in quotes the field of", |fields, n| fields[n] = [b"\"", &fields[n][..], b"\""].concat()),
];

/// Some fields with one of them spoiled in each way, each with what was done and the place of the field.
pub fn spoiled_fields(fields: &Fields) -> Vec<(&'static str, usize, Vec<u8>)> {
    let mut all = Vec::new();
    for n in 0..fields.len() {
        for (how, spoil) in SPOILS {
            let mut spoiled = fields.clone();
            spoil(&mut spoiled, n);
            all.push((how, n, line_of(&spoiled)));
        }
    }
    all
}
