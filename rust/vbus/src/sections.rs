//! The sections of block packets.

use core::iter::FusedIterator;

use crate::{check, temperature, Error, Header};

/// The type of a section whose elements are temperatures.
const TEMPERATURES: u8 = 0x01;

/// A section of a block packet's payload.
#[derive(Clone, Copy, PartialEq, Eq, Debug)]
pub struct Section<'a> {
    header: Header,
    /// The whole payload, which the library searches.
    payload: &'a [u8],
    number: usize,
    start: usize,
    length: usize,
}

/// Section number `number` of a block packet, counted from 0.
pub fn section(header: Header, payload: &[u8], number: usize) -> Result<Section<'_>, Error> {
    // SAFETY: pointer and count are those of a slice.
    let part =
        unsafe { vbus_sys::vbus_section(header.to_sys(), payload.as_ptr(), payload.len(), number) };
    check(part.number)?;
    Ok(Section {
        header,
        payload,
        number,
        start: part.start,
        length: part.length,
    })
}

impl<'a> Section<'a> {
    /// Where the section starts in the payload.
    pub fn start(&self) -> usize {
        self.start
    }

    /// The section's bytes, its header of four bytes included.
    pub fn bytes(&self) -> &'a [u8] {
        &self.payload[self.start..self.start + self.length]
    }

    /// The section's type.
    pub fn section_type(&self) -> u8 {
        self.bytes()[1]
    }

    /// The section's bytes behind its header.
    pub fn payload(&self) -> &'a [u8] {
        &self.bytes()[4..]
    }

    /// The number of elements, which fill the section. Refused if the section's type is unknown, or
    /// if the section has type 0x0A and an odd number of frames, and so ends within an element.
    pub fn element_count(&self) -> Result<usize, Error> {
        // SAFETY: pointer and count are those of a slice.
        let count = unsafe {
            vbus_sys::vbus_element_count(
                self.header.to_sys(),
                self.payload.as_ptr(),
                self.payload.len(),
                self.number,
            )
        };
        check(count.number)?;
        Ok(count.count)
    }

    /// The bytes of element number `number`, counted from 0; refused where
    /// [`element_count`](Section::element_count) is, and behind the last element.
    pub fn element(&self, number: usize) -> Result<&'a [u8], Error> {
        // SAFETY: pointer and count are those of a slice.
        let part = unsafe {
            vbus_sys::vbus_element(
                self.header.to_sys(),
                self.payload.as_ptr(),
                self.payload.len(),
                self.number,
                number,
            )
        };
        check(part.number)?;
        Ok(&self.payload[part.start..part.start + part.length])
    }

    /// The bytes of every element; refused where [`element_count`](Section::element_count) is.
    ///
    /// ```
    /// let header = vbus::Header::packet(0x0015, 0x7E21, 0x0100);
    /// let display = vbus::section(header, &[1, 0x0A, 0, 0, 0x31, 0x32, 0x33, 0x34], 0)?;
    /// assert_eq!(display.payload(), b"1234");
    /// assert_eq!(display.elements().unwrap_err(), vbus::Error::PartialElement);
    /// # Ok::<(), vbus::Error>(())
    /// ```
    pub fn elements(&self) -> Result<Elements<'a>, Error> {
        Ok(Elements {
            section: *self,
            next: 0,
            count: self.element_count()?,
        })
    }

    /// The temperatures of a section of type 0x01; `None` for other types.
    ///
    /// ```
    /// let header = vbus::Header::packet(0x0015, 0x7E21, 0x0100);
    /// let payload = [1, 0x01, 0, 0, 0xEE, 0x02, 0xFF, 0xFF, 1, 0x08, 0, 0, 100, 0, 0, 0];
    /// let temperatures = vbus::section(header, &payload, 0)?.temperatures().unwrap();
    /// assert!(temperatures.eq([750, -1]));
    /// assert!(vbus::section(header, &payload, 1)?.temperatures().is_none());
    /// # Ok::<(), vbus::Error>(())
    /// ```
    pub fn temperatures(&self) -> Option<impl ExactSizeIterator<Item = i16> + 'a> {
        if self.section_type() != TEMPERATURES {
            return None;
        }
        let elements = self
            .elements()
            .expect("type 0x01 is known, and its elements fill any section");
        let two = |bytes: &'a [u8]| bytes.try_into().expect("a temperature has two bytes");
        Some(elements.map(move |bytes| temperature(two(bytes))))
    }
}

/// The sections of a block packet. Made by [`sections`].
#[derive(Clone, Debug)]
pub struct Sections<'a> {
    header: Header,
    payload: &'a [u8],
    next: usize,
    count: usize,
}

/// The sections of a block packet, in order.
///
/// ```
/// let header = vbus::Header::packet(0x0015, 0x7E21, 0x0100);
/// let payload = [0x01, 0x08, 0, 0, 100, 0, 30, 0, 0x01, 0x0B, 0, 0, 1, 0, 0, 0];
/// let types: Vec<u8> = vbus::sections(header, &payload)?.map(|s| s.section_type()).collect();
/// assert_eq!(types, [0x08, 0x0B]);
/// let relays = vbus::section(header, &payload, 0)?;
/// assert_eq!(relays.element_count()?, 4);
/// assert_eq!(relays.element(2)?, [30]);
/// assert_eq!(relays.element(4), Err(vbus::Error::NoSuchPart));
/// # Ok::<(), vbus::Error>(())
/// ```
pub fn sections(header: Header, payload: &[u8]) -> Result<Sections<'_>, Error> {
    // SAFETY: pointer and count are those of a slice.
    let count =
        unsafe { vbus_sys::vbus_section_count(header.to_sys(), payload.as_ptr(), payload.len()) };
    check(count.number)?;
    Ok(Sections {
        header,
        payload,
        next: 0,
        count: count.count,
    })
}

impl<'a> Iterator for Sections<'a> {
    type Item = Section<'a>;

    fn next(&mut self) -> Option<Section<'a>> {
        if self.next == self.count {
            return None;
        }
        let found = section(self.header, self.payload, self.next)
            .expect("every section below the count is there");
        self.next += 1;
        Some(found)
    }

    fn size_hint(&self) -> (usize, Option<usize>) {
        let left = self.count - self.next;
        (left, Some(left))
    }
}

impl ExactSizeIterator for Sections<'_> {}
impl FusedIterator for Sections<'_> {}

/// The elements of a section. Made by [`Section::elements`].
#[derive(Clone, Debug)]
pub struct Elements<'a> {
    section: Section<'a>,
    next: usize,
    count: usize,
}

impl<'a> Iterator for Elements<'a> {
    type Item = &'a [u8];

    fn next(&mut self) -> Option<&'a [u8]> {
        if self.next == self.count {
            return None;
        }
        let found = self
            .section
            .element(self.next)
            .expect("every element below the count is there");
        self.next += 1;
        Some(found)
    }

    fn size_hint(&self) -> (usize, Option<usize>) {
        let left = self.count - self.next;
        (left, Some(left))
    }
}

impl ExactSizeIterator for Elements<'_> {}
impl FusedIterator for Elements<'_> {}
