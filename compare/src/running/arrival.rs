//! The ways in which an input arrives at a program.

use crate::cases::draw::Draw;
use crate::cases::sheet_pairs::SMALL_PIECE;

/// The most bytes of a piece of any length.
pub const LONGEST_PIECE: usize = 4_095;

/// The lengths of pieces that are counted one by one.
const OFTEN: [usize; 3] = [1, SMALL_PIECE, LONGEST_PIECE];

/// Into how many pieces pauses part an input.
const PAUSED_PIECES: usize = 3;

/// How an input arrives at a program.
#[derive(Clone, Copy, Debug, PartialEq, Eq)]
pub enum Arrival {
    /// On standard input, through a pipe.
    Pipe,
    /// On standard input, through a pipe that is empty for a while between the pieces.
    Pauses,
    /// On standard input, out of a file.
    File,
    /// In a file that is named as the last argument.
    Named,
    /// So many bytes with each read of standard input, of which those are lost that the read has no room for.
    Pieces(usize),
    /// With each read as many bytes as are drawn from this seed, often up to a CR.
    AnyPieces(u64),
    /// With the first read so many bytes, and with the second all others.
    Cut(usize),
    /// With three reads, the input being cut after so many bytes and after so many.
    CutTwice(usize, usize),
}

impl Arrival {
    /// The way for a reader.
    pub fn name(self) -> String {
        match self {
            Arrival::Pipe => "through a pipe".to_string(),
            Arrival::Pauses => "through a pipe with pauses".to_string(),
            Arrival::File => "out of a file".to_string(),
            Arrival::Named => "in a named file".to_string(),
            Arrival::Pieces(1) => "byte by byte".to_string(),
            Arrival::Pieces(bytes) => format!("{bytes} bytes at a time"),
            Arrival::AnyPieces(_) => "in pieces of any length".to_string(),
            Arrival::Cut(first) => format!("cut after {first} bytes"),
            Arrival::CutTwice(first, second) => format!("cut after {first} and after {second} bytes"),
        }
    }

    /// The name under which its runs are counted.
    pub fn counted(self) -> String {
        match self {
            Arrival::Cut(_) => "in two pieces".to_string(),
            Arrival::CutTwice(_, _) => "in three pieces".to_string(),
            Arrival::Pieces(bytes) if !OFTEN.contains(&bytes) => "in pieces of other lengths".to_string(),
            other => other.name(),
        }
    }

    /// The pieces in which an input arrives, none of which is empty.
    pub fn pieces(self, input: &[u8]) -> Vec<&[u8]> {
        match self {
            Arrival::Pieces(bytes) => input.chunks(bytes).collect(),
            Arrival::Pauses => input.chunks(input.len() / PAUSED_PIECES + 1).collect(),
            Arrival::AnyPieces(seed) => any_pieces(&mut Draw::new(seed, 0), input),
            Arrival::Cut(first) => cut(input, &[first]),
            Arrival::CutTwice(first, second) => cut(input, &[first, second]),
            _ if input.is_empty() => vec![],
            _ => vec![input],
        }
    }
}

/// The pieces of an input that is cut at some places in ascending order, without those that are empty.
fn cut<'a>(input: &'a [u8], places: &[usize]) -> Vec<&'a [u8]> {
    let mut pieces = Vec::new();
    let mut begin = 0;
    for place in places.iter().copied().chain([input.len()]) {
        let end = place.clamp(begin, input.len());
        pieces.push(&input[begin..end]);
        begin = end;
    }
    pieces.retain(|piece| !piece.is_empty());
    pieces
}

/// Pieces of any length, half of those with a CR in them ending in it.
fn any_pieces<'a>(draw: &mut Draw, input: &'a [u8]) -> Vec<&'a [u8]> {
    let most = draw.one_of(&[2, 5, 20, 100, 700, LONGEST_PIECE]);
    let mut pieces = Vec::new();
    let mut rest = input;
    while !rest.is_empty() {
        let mut length = rest.len().min(1 + draw.place(most));
        let cr = rest[..length].iter().rposition(|byte| *byte == b'\r');
        if let (Some(cr), true) = (cr, draw.one_in(2)) {
            length = cr + 1;
        }
        let (piece, more) = rest.split_at(length);
        pieces.push(piece);
        rest = more;
    }
    pieces
}

#[cfg(test)]
mod tests {
    use super::*;

    /// The pieces together are the input, none is empty, and they are as long as they have to be.
    #[test]
    fn pieces_are_the_input() {
        let input = b"a\r\nbc\r\nd\r\r\n".repeat(900);
        for way in [Arrival::Pipe, Arrival::Pauses, Arrival::File, Arrival::Pieces(7), Arrival::Pieces(4_095)] {
            let pieces = way.pieces(&input);
            assert_eq!(pieces.concat(), input);
            assert!(pieces.iter().all(|piece| !piece.is_empty()));
            assert!(way.pieces(b"").is_empty());
            match way {
                Arrival::Pieces(bytes) => assert!(pieces[..pieces.len() - 1].iter().all(|piece| piece.len() == bytes)),
                Arrival::Pauses => assert_eq!(pieces.len(), PAUSED_PIECES),
                _ => assert_eq!(pieces.len(), 1),
            }
        }
        for (way, lengths) in [
            (Arrival::Cut(1), &[1, 9][..]),
            (Arrival::Cut(10), &[10]),
            (Arrival::Cut(0), &[10]),
            (Arrival::CutTwice(3, 9), &[3, 6, 1]),
            (Arrival::CutTwice(4, 4), &[4, 6]),
            (Arrival::CutTwice(8, 99), &[8, 2]),
        ] {
            let pieces = way.pieces(&input[..10]);
            assert_eq!((pieces.concat(), pieces.iter().map(|piece| piece.len()).collect()), (input[..10].to_vec(), lengths.to_vec()));
            assert!(way.pieces(b"").is_empty());
        }
        let drawn: Vec<&[u8]> = (0..50).flat_map(|seed| Arrival::AnyPieces(seed).pieces(&input)).collect();
        assert_eq!(drawn.concat().len(), 50 * input.len());
        assert!(drawn.iter().all(|piece| (1..=LONGEST_PIECE).contains(&piece.len())));
        assert!(drawn.iter().any(|piece| piece.len() > 3_000));
        assert!(drawn.iter().filter(|piece| piece.ends_with(b"\r")).count() > 10_000);
    }

    /// Ways that differ in a length or in the place of a cut alone are counted together, but for the lengths that are frequent.
    #[test]
    fn counted_together() {
        for (one, other) in [(Arrival::Cut(5), Arrival::Cut(6)), (Arrival::Pieces(2), Arrival::Pieces(400))] {
            assert!(one.counted() == other.counted() && one.name() != other.name());
        }
        assert_ne!(Arrival::Cut(5).counted(), Arrival::CutTwice(5, 9).counted());
        assert!(OFTEN.iter().all(|bytes| Arrival::Pieces(*bytes).counted() == Arrival::Pieces(*bytes).name()));
    }
}
