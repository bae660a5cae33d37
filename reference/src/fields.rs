//! Reading fields from bytes: one-byte tag, two-byte length, contents.

#[derive(Clone, Copy, Debug, PartialEq, Eq)]
pub struct Field<'a> {
    pub tag: u8,
    pub contents: &'a [u8],
}

/// A place in the bytes and the number of the field that stands there.
pub struct Fields<'a> {
    rest: &'a [u8],
    pub number: usize,
}

/// A field whose bytes end before it does.
#[derive(Debug)]
pub struct Cut;

impl<'a> Fields<'a> {
    pub fn new(bytes: &'a [u8]) -> Self {
        Fields { rest: bytes, number: 1 }
    }

    pub fn is_done(&self) -> bool {
        self.rest.is_empty()
    }

    /// The field at this place. `number` goes on to the next one with `pass`.
    pub fn field(&self) -> Result<Field<'a>, Cut> {
        if self.rest.len() < 3 {
            return Err(Cut);
        }
        let length = usize::from(u16::from_be_bytes([self.rest[1], self.rest[2]]));
        if self.rest.len() - 3 < length {
            return Err(Cut);
        }
        Ok(Field { tag: self.rest[0], contents: &self.rest[3..3 + length] })
    }

    pub fn pass(&mut self, field: Field<'a>) {
        self.rest = &self.rest[3 + field.contents.len()..];
        self.number += 1;
    }
}
