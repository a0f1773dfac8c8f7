//! The reader: parts a received block into texts.

/// The bytes of one text, and where its first byte stands in the block.
#[derive(Clone, Copy, PartialEq, Eq, Debug)]
pub struct Part<'a> {
    pub bytes: &'a [u8],
    pub offset: usize,
}

#[derive(Clone, Copy, PartialEq, Eq, Debug)]
pub enum Piece<'a> {
    /// A text with a separator after it.
    Command(Part<'a>),
    /// A last text, with no separator after it.
    Unfinished(Part<'a>),
    /// No text is left.
    End,
}

#[derive(Clone, Debug)]
pub struct Reader<'a> {
    block: &'a [u8],
    offset: usize,
}

impl<'a> Reader<'a> {
    pub const fn new(block: &'a [u8]) -> Reader<'a> {
        Reader { block, offset: 0 }
    }

    pub fn next_piece(&mut self) -> Piece<'a> {
        let rest = &self.block[self.offset..];
        let Some(skipped) = rest.iter().position(|&byte| !is_separator(byte)) else {
            self.offset = self.block.len();
            return Piece::End;
        };
        let offset = self.offset + skipped;
        let text = &rest[skipped..];
        match text.iter().position(|&byte| is_separator(byte)) {
            Some(length) => {
                self.offset = offset + length;
                Piece::Command(Part {
                    bytes: &text[..length],
                    offset,
                })
            }
            None => {
                self.offset = self.block.len();
                Piece::Unfinished(Part {
                    bytes: text,
                    offset,
                })
            }
        }
    }
}

const fn is_separator(byte: u8) -> bool {
    matches!(byte, b' ' | b'\r' | b'\n' | b';')
}

#[cfg(test)]
mod tests {
    use super::*;

    fn command(bytes: &[u8], offset: usize) -> Piece<'_> {
        Piece::Command(Part { bytes, offset })
    }

    #[test]
    fn separators_alone_hold_no_text() {
        for block in [&b""[..], b";; "] {
            let mut reader = Reader::new(block);
            assert_eq!(reader.next_piece(), Piece::End);
            assert_eq!(reader.next_piece(), Piece::End);
        }
    }

    #[test]
    fn finished_texts() {
        let mut reader = Reader::new(b"AX;MR5;GO;");
        assert_eq!(reader.next_piece(), command(b"AX", 0));
        assert_eq!(reader.next_piece(), command(b"MR5", 3));
        assert_eq!(reader.next_piece(), command(b"GO", 7));
        assert_eq!(reader.next_piece(), Piece::End);
    }

    #[test]
    fn a_last_text_without_separator() {
        let mut reader = Reader::new(b" MR5 ;;GO");
        assert_eq!(reader.next_piece(), command(b"MR5", 1));
        let last = Part {
            bytes: b"GO",
            offset: 7,
        };
        assert_eq!(reader.next_piece(), Piece::Unfinished(last));
        assert_eq!(reader.next_piece(), Piece::End);
        assert_eq!(reader.next_piece(), Piece::End);
    }
}
