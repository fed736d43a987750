//! Smaller lists and bench texts, as long as somebody says that they still show what they should.

/// The longest span of words that is dropped at once.
const SPAN_MOST: usize = 32;

const BLANKS: &[u8] = b" \t\n";

/// Drops chunks of a list, ever smaller ones, as long as `keeps` says yes.
pub fn thin<T: Clone>(mut items: Vec<T>, keeps: &mut dyn FnMut(&[T]) -> bool) -> Vec<T> {
    let mut size = (items.len() / 2).max(1);
    loop {
        let mut at = 0;
        while at < items.len() {
            let mut fewer = items.clone();
            fewer.drain(at..(at + size).min(items.len()));
            if keeps(&fewer) {
                items = fewer;
            } else {
                at += size;
            }
        }
        if size == 1 {
            return items;
        }
        size /= 2;
    }
}

/// Drops whole rules, entities and interfaces, then single words.
pub fn smaller_text(text: &[u8], keeps: &mut dyn FnMut(&[u8]) -> bool) -> Vec<u8> {
    let blocks = thin(blocks(pieces(text)), &mut |blocks| keeps(&blocks.concat().concat()));
    let words = thin(blocks.concat(), &mut |words| keeps(&words.concat()));
    fewer_spans(words, &mut |words| keeps(&words.concat())).concat()
}

/// Drops any span of up to `SPAN_MOST` items: a clause, a call or an operand goes only as a whole.
fn fewer_spans<T: Clone>(mut items: Vec<T>, keeps: &mut dyn FnMut(&[T]) -> bool) -> Vec<T> {
    for size in (1..=SPAN_MOST.min(items.len())).rev() {
        let mut at = 0;
        while at + size <= items.len() {
            let mut fewer = items.clone();
            fewer.drain(at..at + size);
            if keeps(&fewer) {
                items = fewer;
            } else {
                at += 1;
            }
        }
    }
    items
}

/// Words, marks and comments, each with the blanks after it; nothing left out.
fn pieces(text: &[u8]) -> Vec<Vec<u8>> {
    let mut pieces = Vec::new();
    let mut at = 0;
    while at < text.len() {
        let is_word = |byte: u8| byte.is_ascii_alphanumeric() || byte == b'_';
        let length = match text[at] {
            b'#' => text[at..].iter().position(|&byte| byte == b'\n').unwrap_or(text.len() - at),
            first if is_word(first) => text[at..].iter().position(|&byte| !is_word(byte)).unwrap_or(text.len() - at),
            first if BLANKS.contains(&first) => text[at..].iter().position(|byte| !BLANKS.contains(byte)).unwrap_or(text.len() - at),
            _ => 1,
        };
        let piece = &text[at..at + length];
        match pieces.last_mut() {
            Some(last) if BLANKS.contains(&piece[0]) => Vec::extend_from_slice(last, piece),
            _ => pieces.push(piece.to_vec()),
        }
        at += length;
    }
    pieces
}

/// Cuts the pieces before each `interface`, `entity`, `rules` and `when`.
fn blocks(pieces: Vec<Vec<u8>>) -> Vec<Vec<Vec<u8>>> {
    let opens: [&[u8]; 4] = [b"interface", b"entity", b"rules", b"when"];
    let bare = |piece: &[u8]| piece.iter().copied().take_while(|byte| !BLANKS.contains(byte)).collect::<Vec<u8>>();
    let mut blocks: Vec<Vec<Vec<u8>>> = vec![Vec::new()];
    for piece in pieces {
        if opens.contains(&&*bare(&piece)) {
            blocks.push(Vec::new());
        }
        blocks.last_mut().expect("there is a first block").push(piece);
    }
    blocks
}
