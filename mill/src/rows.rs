//! Lists as CSV: the rows of a text, each with its line.
use csv::{Reader, ReaderBuilder, StringRecord, Terminator};
use std::io::{Chain, Read};

/// The rows of a text, one after the other. Empty lines and a byte order mark at the start are skipped; the last line
/// may lack its end.
pub struct Rows<R: Read> {
    reader: Reader<Chain<R, &'static [u8]>>,
    row: StringRecord,
}

impl<R: Read> Rows<R> {
    /// Of a text that this program has written: a quote is a character as others are, so that a damaged row ends with
    /// its line.
    pub fn plain(text: R) -> Rows<R> {
        Rows::of(text, ReaderBuilder::new().quoting(false))
    }

    /// Of a text from elsewhere: fields may stand in quotes.
    pub fn quoted(text: R) -> Rows<R> {
        Rows::of(text, &mut ReaderBuilder::new())
    }

    fn of(text: R, builder: &mut ReaderBuilder) -> Rows<R> {
        // A carriage return before a line's end is a space of the last field, and counts for no line.
        builder.has_headers(false).flexible(true).terminator(Terminator::Any(b'\n'));
        Rows { reader: builder.from_reader(text.chain(b"\n")), row: StringRecord::new() }
    }

    /// The next row with its line's number, from 1 up.
    pub fn next(&mut self) -> csv::Result<Option<(u64, &StringRecord)>> {
        loop {
            if !self.reader.read_record(&mut self.row)? {
                return Ok(None);
            }
            // A row's own position is that of the empty lines before it. Here the reader stands behind the row's end.
            let line = self.reader.position().line() - 1;
            if self.row.iter().map(str::trim).ne([""]) {
                return Ok(Some((line, &self.row)));
            }
        }
    }
}

/// A row's fields without the spaces around them, as many as a heading has.
pub fn fields<'a, const N: usize>(row: &'a StringRecord, heading: &[&str; N]) -> Result<[&'a str; N], String> {
    let mut fields = row.iter().map(str::trim);
    if row.len() != N {
        return Err(format!("`{}` is not {}", fields.collect::<Vec<_>>().join(","), heading.join(",")));
    }
    Ok(std::array::from_fn(|_| fields.next().unwrap_or_default()))
}

#[cfg(test)]
mod tests {
    use super::*;

    fn read(mut rows: Rows<&[u8]>) -> Vec<(u64, String)> {
        let mut read = Vec::new();
        while let Some((number, row)) = rows.next().unwrap() {
            read.push((number, row.iter().map(str::trim).collect::<Vec<_>>().join("|")));
        }
        read
    }

    #[test]
    fn rows_have_their_lines() {
        let expected = [(1, "a|b"), (4, "1|2"), (5, "3")].map(|(number, text)| (number, text.to_string()));
        for text in ["a,b\n\n\n1,2\n3\n", "a,b\r\n\r\n \t\r\n1,2\r\n3", "\u{FEFF}a , b\n\n  \n1,2\n3\n\n"] {
            assert_eq!(read(Rows::plain(text.as_bytes())), expected, "{text}");
            assert_eq!(read(Rows::quoted(text.as_bytes())), expected, "{text}");
        }
        assert_eq!((read(Rows::plain(b"")), read(Rows::plain(b"\n\r\n"))), (vec![], vec![]));
    }

    #[test]
    fn quotes_are_taken_off_what_comes_from_elsewhere() {
        let text = b"\"1\",\"2\"\n";
        assert_eq!(read(Rows::quoted(text)), [(1, "1|2".to_string())]);
        assert_eq!(read(Rows::plain(text)), [(1, "\"1\"|\"2\"".to_string())]);
        assert_eq!(read(Rows::quoted(b"1\n\"2")), [(1, "1".to_string()), (2, "2".to_string())]);
        // one has no end
    }

    #[test]
    fn a_row_has_as_many_fields_as_its_heading() {
        let row = StringRecord::from(vec![" 1", "2\r"]);
        assert_eq!(fields(&row, &["clock", "word"]), Ok(["1", "2"]));
        assert_eq!(fields(&row, &["a", "b", "c"]), Err("`1,2` is not a,b,c".to_string()));
    }

    #[test]
    fn what_is_no_text_is_refused() {
        let mut rows = Rows::plain(&b"a\n\xFF\n"[..]);
        assert!(rows.next().is_ok());
        assert!(rows.next().is_err());
    }
}
