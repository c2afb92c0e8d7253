//! Lists that are read item by item.
use crate::error::Error;
use crate::reader::Reader;
use crate::tag::Tag;
use core::iter::FusedIterator;
use core::marker::PhantomData;

/// A reader of the items of a list, a SEQUENCE that all octets are.
pub(crate) fn list(octets: &[u8]) -> Result<Reader<'_>, Error> {
    let mut reader = Reader::der(octets)?;
    let items = reader.enter(Tag::SEQUENCE)?;
    reader.finish()?;
    Ok(items)
}

/// The contents of such a list, each of whose items is read.
pub(crate) fn contents_of<'a, T: Listed<'a>>(octets: &'a [u8]) -> Result<&'a [u8], Error> {
    let mut items = list(octets)?;
    let contents = items.rest();
    while !items.is_finished() {
        T::read(&mut items)?;
    }
    Ok(contents)
}

/// The next item of a list. After an error there is no other item.
pub(crate) fn next<'a, T>(
    reader: &mut Result<Reader<'a>, Error>,
    read: impl FnOnce(&mut Reader<'a>) -> Result<T, Error>,
) -> Option<Result<T, Error>> {
    let item = match reader {
        Ok(reader) if reader.is_finished() => return None,
        Ok(reader) => read(reader),
        Err(error) => Err(*error),
    };
    if item.is_err() {
        *reader = Reader::der(&[]);
    }
    Some(item)
}

/// What a list has. The trait is in a private module: no other crate implements it.
pub trait Listed<'a>: Sized {
    /// Reads the next item of a list.
    fn read(reader: &mut Reader<'a>) -> Result<Self, Error>;
}

/// The items of a list, in order; the iterator ends after an error. Positions of errors count from the start of the
/// contents of the list.
#[derive(Clone, Debug)]
pub struct ItemIter<'a, T> {
    reader: Result<Reader<'a>, Error>,
    items: PhantomData<T>,
}

impl<'a, T> ItemIter<'a, T> {
    /// The items of a list with these contents.
    pub(crate) fn of(contents: &'a [u8]) -> Self {
        ItemIter {
            reader: Reader::der(contents),
            items: PhantomData,
        }
    }
}

impl<'a, T: Listed<'a>> Iterator for ItemIter<'a, T> {
    type Item = Result<T, Error>;

    fn size_hint(&self) -> (usize, Option<usize>) {
        match &self.reader {
            Ok(reader) => reader.size_hint(),
            Err(_) => (1, Some(1)),
        }
    }

    fn next(&mut self) -> Option<Self::Item> {
        next(&mut self.reader, T::read)
    }
}

impl<'a, T: Listed<'a>> FusedIterator for ItemIter<'a, T> {}
