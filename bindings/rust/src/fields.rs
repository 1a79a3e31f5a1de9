use crate::raw::FieldSize;
use std::fmt;

/// `H3_NEVER_INDEX` of h3.h.
const NEVER_INDEX: u8 = 1;

/// A name and a value, and whether the field is never indexed.
#[derive(Debug, Clone, Copy, PartialEq, Eq)]
pub struct Field<'a> {
    /// In lower case; a pseudo-header field's begins with ':'.
    pub name: &'a [u8],
    /// As it came.
    pub value: &'a [u8],
    /// Whether the field is a literal on every hop, and in no table of QPACK (RFC 9204, section 7.1.3): so secrets are sent. One that came so
    /// has to be sent on so.
    pub never_indexed: bool,
}

/// What [`Endpoint::send_head`](crate::Endpoint::send_head) takes for a field: a pair of a name and a value, or a [`Field`].
pub trait AsField {
    /// The field.
    fn as_field(&self) -> Field<'_>;
}

impl<N: AsRef<[u8]>, V: AsRef<[u8]>> AsField for (N, V) {
    fn as_field(&self) -> Field<'_> {
        Field { name: self.0.as_ref(), value: self.1.as_ref(), never_indexed: false }
    }
}

impl AsField for Field<'_> {
    fn as_field(&self) -> Field<'_> {
        *self
    }
}

/// The fields of a header or trailer section, in the order that they came.
#[derive(Clone, Default, PartialEq, Eq)]
pub struct Fields {
    bytes: Vec<u8>,
    /// the ends of each name and each value
    ends: Vec<(usize, usize)>,
    /// of each field, as the library has them
    flags: Vec<u8>,
}

impl Fields {
    /// How many fields there are.
    pub fn len(&self) -> usize {
        self.ends.len()
    }

    /// Whether there are none.
    pub fn is_empty(&self) -> bool {
        self.ends.is_empty()
    }

    /// Goes over the fields.
    pub fn iter(&self) -> FieldsIter<'_> {
        FieldsIter { fields: self, next: 0 }
    }

    /// The first value of a name.
    pub fn get(&self, name: impl AsRef<[u8]>) -> Option<&[u8]> {
        self.iter().find(|field| field.name == name.as_ref()).map(|field| field.value)
    }

    fn at(&self, index: usize) -> Option<Field<'_>> {
        let (name, value) = *self.ends.get(index)?;
        let start = if index == 0 { 0 } else { self.ends[index - 1].1 };
        let never_indexed = self.flags[index] == NEVER_INDEX;
        Some(Field { name: &self.bytes[start..name], value: &self.bytes[name..value], never_indexed })
    }

    /// The list that sizes cut from a row of bytes: name, value, name, value.
    pub(crate) fn of(sizes: &[FieldSize], flags: Vec<u8>, bytes: Vec<u8>) -> Fields {
        let mut end = 0;
        let ends = sizes.iter().map(|size| {
            let name = end + size.name as usize;
            end = name + size.value as usize;
            (name, end)
        });
        Fields { ends: ends.collect(), flags, bytes }
    }
}

impl fmt::Debug for Fields {
    fn fmt(&self, f: &mut fmt::Formatter<'_>) -> fmt::Result {
        let texts = self.iter().map(|field| (String::from_utf8_lossy(field.name), String::from_utf8_lossy(field.value)));
        f.debug_map().entries(texts).finish()
    }
}

impl<'a> IntoIterator for &'a Fields {
    type Item = Field<'a>;
    type IntoIter = FieldsIter<'a>;

    fn into_iter(self) -> FieldsIter<'a> {
        self.iter()
    }
}

/// Goes over [`Fields`].
#[derive(Debug, Clone)]
pub struct FieldsIter<'a> {
    fields: &'a Fields,
    next: usize,
}

impl<'a> Iterator for FieldsIter<'a> {
    type Item = Field<'a>;

    fn next(&mut self) -> Option<Field<'a>> {
        let field = self.fields.at(self.next)?;
        self.next += 1;
        Some(field)
    }

    fn size_hint(&self) -> (usize, Option<usize>) {
        let left = self.fields.len() - self.next;
        (left, Some(left))
    }
}

impl ExactSizeIterator for FieldsIter<'_> {}

/// A list as the library takes it: the sizes of names and values, the flags of fields, and all bytes of names and values.
pub(crate) struct Row {
    pub(crate) sizes: Vec<FieldSize>,
    pub(crate) flags: Vec<u8>,
    pub(crate) bytes: Vec<u8>,
}

/// None: a name or value has 2^32 bytes or more.
pub(crate) fn in_a_row<F: AsField>(fields: &[F]) -> Option<Row> {
    let total = fields.iter().map(F::as_field).map(|field| field.name.len() + field.value.len()).sum();
    let count = fields.len();
    let mut row = Row { sizes: Vec::with_capacity(count), flags: Vec::with_capacity(count), bytes: Vec::with_capacity(total) };
    for field in fields.iter().map(F::as_field) {
        row.sizes.push(FieldSize { name: u32::try_from(field.name.len()).ok()?, value: u32::try_from(field.value.len()).ok()? });
        row.flags.push(if field.never_indexed { NEVER_INDEX } else { 0 });
        row.bytes.extend_from_slice(field.name);
        row.bytes.extend_from_slice(field.value);
    }
    Some(row)
}
