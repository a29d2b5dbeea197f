//! Where a text's variables lie in the memory, and their values.

use crate::answer::four_numbers;
use crate::{services, Answer, Kind, Lanes, Misfit, Refusal, Refused};
use std::ops::Range;

/// The most declarations that a text may have.
const MOST_DECLARATIONS: usize = 64;

/// The bytes of one record of the table of variables.
const RECORD: usize = 16;

/// The variables of an accepted text.
#[derive(Clone, Debug, PartialEq, Eq)]
#[must_use]
pub struct Variables<'t> {
    /// How many bytes of memory the text needs.
    pub need: usize,
    /// One for each declaration, in text order.
    pub list: Vec<Variable<'t>>,
}

impl<'t> Variables<'t> {
    /// The first declaration of this name.
    #[must_use]
    pub fn find(&self, name: &str) -> Option<&Variable<'t>> {
        self.list.iter().find(|variable| variable.name == name)
    }
}

/// One declaration of an accepted text.
#[derive(Clone, Copy, Debug, PartialEq, Eq)]
pub struct Variable<'t> {
    /// Its name; closed scopes may have declared the same name again.
    pub name: &'t str,
    /// Its kind.
    pub kind: Kind,
    /// Its number of lanes.
    pub length: usize,
    /// Where its first byte lies in the memory.
    pub address: usize,
    /// Where its name stands in the text: a byte offset.
    pub place: usize,
}

impl<'t> Variable<'t> {
    /// Where its bytes lie in the memory.
    #[must_use]
    pub fn range(&self) -> Range<usize> {
        self.address..self.address + self.length * self.kind.size()
    }

    /// Its lanes in this memory, as ints.
    ///
    /// ```
    /// let listed = ruihmento::variables(b"int block[2] s;")?;
    /// let s = listed.list[0].ints(&[7, 0, 0, 0, 255, 255, 255, 255])?;
    /// assert!(s.eq([7, -1]));
    /// # Ok::<(), Box<dyn std::error::Error>>(())
    /// ```
    pub fn ints<'m>(
        &self,
        memory: &'m [u8],
    ) -> Result<impl ExactSizeIterator<Item = i32> + 'm, Misfit> {
        let bytes = self.bytes(memory, Kind::Int)?;
        Ok(bytes.chunks_exact(4).map(int))
    }

    /// Its lanes in this memory, as bools: any byte other than 0 is true.
    ///
    /// ```
    /// let listed = ruihmento::variables(b"bool block[4] ok;")?;
    /// let ok = listed.list[0].bools(&[1, 0, 0, 200])?;
    /// assert!(ok.eq([true, false, false, true]));
    /// # Ok::<(), Box<dyn std::error::Error>>(())
    /// ```
    pub fn bools<'m>(
        &self,
        memory: &'m [u8],
    ) -> Result<impl ExactSizeIterator<Item = bool> + 'm, Misfit> {
        let bytes = self.bytes(memory, Kind::Bool)?;
        Ok(bytes.iter().map(|byte| *byte != 0))
    }

    /// Its lanes in this memory, as floats, each with the very pattern that lies there.
    ///
    /// ```
    /// let listed = ruihmento::variables(b"float block[2] level;")?;
    /// let level = listed.list[0].floats(&[0, 0, 0xc0, 0x3f, 0, 0, 0, 0x80])?;
    /// assert!(level.eq([1.5, -0.0]));
    /// # Ok::<(), Box<dyn std::error::Error>>(())
    /// ```
    pub fn floats<'m>(
        &self,
        memory: &'m [u8],
    ) -> Result<impl ExactSizeIterator<Item = f32> + 'm, Misfit> {
        let bytes = self.bytes(memory, Kind::Float)?;
        Ok(bytes.chunks_exact(4).map(float))
    }

    /// Puts these ints into its lanes.
    ///
    /// ```
    /// let listed = ruihmento::variables(b"bool ok; int block[2] s;")?;
    /// let mut memory = vec![0xaa; listed.need];
    /// listed.list[1].set_ints(&mut memory, &[25, -1])?;
    /// assert_eq!(memory[8..], [25, 0, 0, 0, 255, 255, 255, 255]);
    ///
    /// let misfit = listed.list[1].set_ints(&mut memory, &[25]).unwrap_err();
    /// assert_eq!(misfit.to_string(), "`s` has length 2, and the values have length 1");
    /// # Ok::<(), Box<dyn std::error::Error>>(())
    /// ```
    pub fn set_ints(&self, memory: &mut [u8], values: &[i32]) -> Result<(), Misfit> {
        let lanes = self.bytes_for(memory, Kind::Int, values.len())?;
        for (lane, value) in lanes.chunks_exact_mut(4).zip(values) {
            lane.copy_from_slice(&value.to_le_bytes());
        }
        Ok(())
    }

    /// Puts these bools into its lanes, a true as 1.
    pub fn set_bools(&self, memory: &mut [u8], values: &[bool]) -> Result<(), Misfit> {
        let lanes = self.bytes_for(memory, Kind::Bool, values.len())?;
        for (lane, value) in lanes.iter_mut().zip(values) {
            *lane = u8::from(*value);
        }
        Ok(())
    }

    /// Puts these floats into its lanes, each with its pattern as it is: a run makes every
    /// not-a-number that it stores the one pattern 7FC00000, this does not.
    ///
    /// ```
    /// let listed = ruihmento::variables(b"float block[2] level;")?;
    /// let mut memory = vec![0xaa; listed.need];
    /// listed.list[0].set_floats(&mut memory, &[1.5, -0.0])?;
    /// assert_eq!(memory, [0, 0, 0xc0, 0x3f, 0, 0, 0, 0x80]);
    /// # Ok::<(), Box<dyn std::error::Error>>(())
    /// ```
    pub fn set_floats(&self, memory: &mut [u8], values: &[f32]) -> Result<(), Misfit> {
        let lanes = self.bytes_for(memory, Kind::Float, values.len())?;
        for (lane, value) in lanes.chunks_exact_mut(4).zip(values) {
            lane.copy_from_slice(&value.to_bits().to_le_bytes());
        }
        Ok(())
    }

    /// Its lanes in this memory, whatever its kind; none where the memory is too short.
    ///
    /// ```
    /// let listed = ruihmento::variables(b"int block[2] s;")?;
    /// let lanes = listed.list[0].lanes(&[7, 0, 0, 0, 255, 255, 255, 255]);
    /// assert_eq!(lanes, Some(ruihmento::Lanes::Int(vec![7, -1])));
    /// # Ok::<(), ruihmento::Refused>(())
    /// ```
    #[must_use]
    pub fn lanes(&self, memory: &[u8]) -> Option<Lanes> {
        Some(match self.kind {
            Kind::Int => Lanes::Int(self.ints(memory).ok()?.collect()),
            Kind::Bool => Lanes::Bool(self.bools(memory).ok()?.collect()),
            Kind::Float => Lanes::Float(self.floats(memory).ok()?.collect()),
        })
    }

    /// Puts these lanes into the memory, whatever their kind.
    ///
    /// ```
    /// use ruihmento::Lanes;
    ///
    /// let listed = ruihmento::variables(b"int block[2] s;")?;
    /// let mut memory = vec![0; listed.need];
    /// listed.list[0].put(&mut memory, &Lanes::Int(vec![25, -1]))?;
    /// assert_eq!(memory, [25, 0, 0, 0, 255, 255, 255, 255]);
    ///
    /// let bools = Lanes::Bool(vec![true, false]);
    /// let misfit = listed.list[0].put(&mut memory, &bools).unwrap_err();
    /// assert_eq!(misfit.to_string(), "`s` is int, and the values are bool");
    /// # Ok::<(), Box<dyn std::error::Error>>(())
    /// ```
    pub fn put(&self, memory: &mut [u8], lanes: &Lanes) -> Result<(), Misfit> {
        match lanes {
            Lanes::Int(values) => self.set_ints(memory, values),
            Lanes::Bool(values) => self.set_bools(memory, values),
            Lanes::Float(values) => self.set_floats(memory, values),
        }
    }

    /// Its bytes in this memory, to be taken as lanes of this kind.
    fn bytes<'m>(&self, memory: &'m [u8], given: Kind) -> Result<&'m [u8], Misfit> {
        self.check_kind(given)?;
        let bytes = memory.get(self.range());
        bytes.ok_or_else(|| self.beyond(memory.len()))
    }

    /// Its bytes in this memory, to take so many lanes of this kind.
    fn bytes_for<'m>(
        &self,
        memory: &'m mut [u8],
        kind: Kind,
        given: usize,
    ) -> Result<&'m mut [u8], Misfit> {
        self.check_kind(kind)?;
        if given != self.length {
            return Err(Misfit::WrongLength {
                name: self.name.into(),
                length: self.length,
                given,
            });
        }
        let end = memory.len();
        let bytes = memory.get_mut(self.range());
        bytes.ok_or_else(|| self.beyond(end))
    }

    /// Its kind must be that of the values.
    fn check_kind(&self, given: Kind) -> Result<(), Misfit> {
        if given == self.kind {
            return Ok(());
        }
        Err(Misfit::WrongKind {
            name: self.name.into(),
            kind: self.kind,
            given,
        })
    }

    /// A memory of so many bytes ends before it does.
    fn beyond(&self, given: usize) -> Misfit {
        Misfit::MemoryTooShort {
            name: self.name.into(),
            end: self.range().end,
            given,
        }
    }
}

/// What a variable is but for its name, which is the bytes of the text at these places.
#[derive(Clone, Debug, PartialEq, Eq)]
pub(crate) struct Declared {
    name: Range<usize>,
    kind: Kind,
    length: usize,
    address: usize,
}

impl Declared {
    /// The declaration in this record of the table.
    fn from_record(record: &[u8], text: &[u8]) -> Result<Self, Refused> {
        let [place, kind, length, address] = four_numbers(record);
        let place = place as usize;
        let known = Kind::from_number(kind);
        Ok(Declared {
            name: place..name_end(text, place),
            kind: known.ok_or(Refused {
                refusal: Refusal::OtherKind(kind),
                place,
            })?,
            length: length as usize,
            address: address as usize,
        })
    }

    /// The variable, with its name from the text that was listed.
    pub(crate) fn variable<'t>(&self, text: &'t [u8]) -> Variable<'t> {
        let name = text.get(self.name.clone()).unwrap_or_default();
        Variable {
            name: std::str::from_utf8(name).unwrap_or_default(),
            kind: self.kind,
            length: self.length,
            address: self.address,
            place: self.name.start,
        }
    }
}

/// Lists what a text declares: its need, and each declaration in text order.
pub(crate) fn declared(text: &[u8]) -> Result<(usize, Vec<Declared>), Refused> {
    let mut table = [0; MOST_DECLARATIONS * RECORD];
    let answer = Answer::of(|answer| services::variables(text, &mut table, answer));
    if let Some(refusal) = answer.refusal() {
        let place = answer.place;
        return Err(Refused { refusal, place });
    }
    // The fourth number of a listing is how many declarations there are.
    let records = table.chunks_exact(RECORD).take(answer.steps as usize);
    let list = records.map(|record| Declared::from_record(record, text));
    Ok((answer.need, list.collect::<Result<_, _>>()?))
}

/// The int in these four bytes.
fn int(bytes: &[u8]) -> i32 {
    i32::from_le_bytes([bytes[0], bytes[1], bytes[2], bytes[3]])
}

/// The float whose pattern is in these four bytes.
fn float(bytes: &[u8]) -> f32 {
    f32::from_bits(u32::from_le_bytes([bytes[0], bytes[1], bytes[2], bytes[3]]))
}

/// Where the name ends that starts at this place of the text.
fn name_end(text: &[u8], place: usize) -> usize {
    let rest = text.get(place..).unwrap_or_default();
    let in_name = |byte: &&u8| byte.is_ascii_alphanumeric() || **byte == b'_';
    place + rest.iter().take_while(in_name).count()
}

#[cfg(test)]
mod tests {
    use super::Declared;
    use crate::{Refusal, Refused};

    /// A record of the table of variables.
    fn record(numbers: [u32; 4]) -> Vec<u8> {
        let bytes = numbers.iter().flat_map(|number| number.to_le_bytes());
        bytes.collect()
    }

    #[test]
    fn a_kind_that_is_not_known_is_refused_at_its_name() {
        let text = b"real x;";
        let listed = Declared::from_record(&record([5, 1, 1, 0]), text).unwrap();
        assert_eq!(listed.variable(text).name, "x");
        let refused = Declared::from_record(&record([5, 3, 1, 0]), text).unwrap_err();
        let expected = Refused {
            refusal: Refusal::OtherKind(3),
            place: 5,
        };
        assert_eq!(refused, expected);
        assert!(refused.to_string().ends_with("not known to this version"));
    }
}
