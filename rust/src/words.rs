//! Plans and cuts as words: what `FromStr` reads and `Display` writes.

use crate::bits::{field, put};
use crate::{Cut, Expected, Family, ParseError, Plan, Refusal, AXES_MAX, PLAN_MAX};
use core::fmt;
use core::str::FromStr;

/// The highest polynomial, as a number: that of degree 12 with every coefficient 1.
const POLYNOMIAL_MAX: u32 = 8191;

fn expected<T>(what: Expected, at: usize) -> Result<T, ParseError> {
    Err(ParseError::Expected { what, at })
}

/// The number that a word of decimal digits spells. None for any other word, and above 2^32 - 1.
fn decimal(word: &str) -> Option<u32> {
    if word.bytes().all(|byte| byte.is_ascii_digit()) {
        word.parse().ok()
    } else {
        None
    }
}

/// The byte of a text at which a part of it starts.
fn start(part: &str, text: &str) -> usize {
    part.as_ptr() as usize - text.as_ptr() as usize
}

/// The words of a text, with spaces and tabs between them, each with the byte at which it starts.
fn words(text: &str) -> impl Iterator<Item = (usize, &str)> {
    text.split([' ', '\t']).filter(|word| !word.is_empty()).map(move |word| (start(word, text), word))
}

/// The byte of an axis's word at which a refusal is told: that of the first even m, or else its first. Where an m is refused the polynomial, in
/// front, is odd.
fn told_at(refusal: Refusal, word: &str) -> usize {
    let even = |number: &&str| decimal(number).map_or(false, |n| n % 2 == 0);
    match refusal {
        Refusal::EvenNumber => word.split([':', ',']).find(even).map_or(0, |number| start(number, word)),
        _ => 0,
    }
}

/// The family of a word.
fn family_of(word: &str) -> Option<Family> {
    [Family::Halton, Family::Permuted, Family::Sobol, Family::Kocis].into_iter().find(|family| family.word() == word)
}

impl Family {
    fn word(self) -> &'static str {
        match self {
            Family::Halton => "halton",
            Family::Permuted => "permuted",
            Family::Sobol => "sobol",
            Family::Kocis => "kocis",
        }
    }
}

/// The family's word: `halton`, `permuted`, `sobol` or `kocis`.
impl fmt::Display for Family {
    fn fmt(&self, f: &mut fmt::Formatter<'_>) -> fmt::Result {
        f.pad(self.word())
    }
}

// ---- plans out of words

/// The bytes of a plan, and how many of their bits are put.
struct Draft {
    bytes: [u8; PLAN_MAX],
    len: usize,
}

impl Draft {
    /// Appends a field.
    fn put(&mut self, width: usize, number: u32) {
        put(&mut self.bytes, self.len, width, number);
        self.len += width;
    }

    /// Appends a Halton axis: base minus 1 in 8 bits.
    fn put_base(&mut self, at: usize, word: &str) -> Result<(), ParseError> {
        match decimal(word) {
            Some(base) if (1..=256).contains(&base) => {
                self.put(8, base - 1);
                Ok(())
            }
            _ => expected(Expected::Base, at),
        }
    }

    /// Appends a Sobol axis: the degree in 4 bits, the polynomial's inner coefficients, and its numbers. An even polynomial, which no bits
    /// spell, is refused as the archive refuses one that is not primitive.
    fn put_axis(&mut self, at: usize, word: &str) -> Result<(), ParseError> {
        if word == "0" {
            self.put(4, 0);
            return Ok(());
        }
        let (number, numbers) = match word.split_once(':') {
            Some(parts) => parts,
            None => return expected(Expected::Polynomial, at),
        };
        let polynomial = match decimal(number) {
            Some(polynomial) if (2..=POLYNOMIAL_MAX).contains(&polynomial) => polynomial,
            _ => return expected(Expected::Polynomial, at),
        };
        let degree = 31 - polynomial.leading_zeros();
        self.put(4, degree);
        self.put(degree as usize - 1, polynomial / 2);
        self.put_numbers(degree, at + number.len() + 1, numbers)?;
        match polynomial % 2 {
            0 => Err(ParseError::Refused { refusal: Refusal::NotPrimitive, at }),
            _ => Ok(()),
        }
    }

    /// Appends m_1 to m_d, m_i in i bits, out of a word with commas.
    fn put_numbers(&mut self, degree: u32, mut at: usize, numbers: &str) -> Result<(), ParseError> {
        let mut words = numbers.split(',');
        for place in 1..=degree {
            let word = match words.next() {
                Some(word) => word,
                None => return expected(Expected::Number(place), at - 1), // where the word ends
            };
            match decimal(word) {
                Some(m) if m >> place == 0 => self.put(place as usize, m),
                _ => return expected(Expected::Number(place), at),
            }
            at += word.len() + 1;
        }
        match words.next() {
            Some(_) => expected(Expected::Numbers(degree), at - 1),
            None => Ok(()),
        }
    }

    /// Reads the plan of this many axes, of which the last is the word at `at`.
    fn read(&mut self, axes: u32, at: usize, word: &str) -> Result<Plan, ParseError> {
        put(&mut self.bytes, 2, 3, axes);
        let plan = Plan::read(&self.bytes[..(self.len + 7) / 8]);
        plan.map_err(|refusal| ParseError::Refused { refusal, at: at + told_at(refusal, word) })
    }
}

/// Reads a plan's words: the family, `halton`, `permuted`, `sobol` or `kocis`, and a word for each axis, with spaces or tabs between them. A
/// Halton axis is its base. A Sobol axis is `0`, the plain binary one, or its polynomial as a number, a colon, and its m's with commas between
/// them. Numbers are in decimal and may have zeros in front. These are the plans of the texts that the programs `weights` and `plot` read.
///
/// The words become bytes, and the plan is what [`Plan::read`] makes of them: after each axis, so that an error says which is refused.
///
/// ```
/// use hisowake::{ParseError, Plan};
///
/// assert_eq!("halton 2 3".parse::<Plan>()?.bytes(), [0x10, 0x08, 0x10]);
/// assert_eq!("permuted 4 9 25".parse::<Plan>()?.bytes(), [0x58, 0x18, 0x40, 0xC0]);
/// assert_eq!("sobol 0 11:1,3,7".parse::<Plan>()?.bytes(), [0x90, 0x1B, 0xF8]); // x^3 + x + 1 is 8 + 2 + 1
/// assert_eq!("kocis 227 229".parse::<Plan>()?.bytes(), [0xD7, 0x17, 0x20]);
/// # Ok::<(), ParseError>(())
/// ```
impl FromStr for Plan {
    type Err = ParseError;

    fn from_str(text: &str) -> Result<Plan, ParseError> {
        let mut words = words(text);
        let (at, word) = words.next().unwrap_or((text.len(), ""));
        let family = match family_of(word) {
            Some(family) => family,
            None => return expected(Expected::Family, at),
        };
        let mut draft = Draft { bytes: [0; PLAN_MAX], len: 0 };
        draft.put(2, family as u32);
        draft.put(3, 0);
        let mut plan = expected(Expected::Axis, text.len());
        for (axis, (at, word)) in words.enumerate() {
            if axis == AXES_MAX {
                return expected(Expected::End, at);
            }
            match family {
                Family::Sobol => draft.put_axis(at, word)?,
                _ => draft.put_base(at, word)?,
            }
            plan = Ok(draft.read(axis as u32 + 1, at, word)?);
        }
        plan
    }
}

// ---- words out of plans

/// The most bytes of a plan's words: `sobol` and six axes of degree 12.
const WORDS_MAX: usize = 287;

/// A text of at most `WORDS_MAX` bytes.
struct Text {
    bytes: [u8; WORDS_MAX],
    len: usize,
}

impl fmt::Write for Text {
    fn write_str(&mut self, part: &str) -> fmt::Result {
        let end = self.len + part.len();
        self.bytes.get_mut(self.len..end).ok_or(fmt::Error)?.copy_from_slice(part.as_bytes());
        self.len = end;
        Ok(())
    }
}

/// Writes a short text as a `str` is written, with the width that is asked for.
fn pad(f: &mut fmt::Formatter<'_>, parts: fmt::Arguments<'_>) -> fmt::Result {
    let mut text = Text { bytes: [0; WORDS_MAX], len: 0 };
    fmt::write(&mut text, parts)?;
    f.pad(core::str::from_utf8(&text.bytes[..text.len]).map_err(|_| fmt::Error)?)
}

/// Writes the plan's words, which parse to the same plan.
///
/// ```
/// use hisowake::{Plan, Refusal};
///
/// let plan = Plan::read(&[0x90, 0x1B, 0xF8])?;
/// assert_eq!(plan.to_string(), "sobol 0 11:1,3,7");
/// # Ok::<(), Refusal>(())
/// ```
impl fmt::Display for Plan {
    fn fmt(&self, f: &mut fmt::Formatter<'_>) -> fmt::Result {
        pad(f, format_args!("{}{}", self.family(), Axes(self)))
    }
}

/// A plan whose axes are written, a blank before each.
struct Axes<'a>(&'a Plan);

impl fmt::Display for Axes<'_> {
    fn fmt(&self, f: &mut fmt::Formatter<'_>) -> fmt::Result {
        match self.0.family() {
            Family::Sobol => write_axes(self.0, f),
            _ => (0..self.0.axes()).try_for_each(|axis| write!(f, " {}", self.0.base(axis))),
        }
    }
}

/// Writes the words of Sobol axes.
fn write_axes(plan: &Plan, f: &mut fmt::Formatter<'_>) -> fmt::Result {
    let mut at = 5;
    for _ in 0..plan.axes() {
        let degree = field(plan.bytes(), at, 4) as usize;
        at += 4;
        if degree == 0 {
            write!(f, " 0")?;
            continue;
        }
        let polynomial = 1 << degree | field(plan.bytes(), at, degree - 1) << 1 | 1;
        at += degree - 1;
        write!(f, " {polynomial}")?;
        for place in 1..=degree {
            let mark = if place == 1 { ':' } else { ',' };
            write!(f, "{mark}{}", field(plan.bytes(), at, place))?;
            at += place;
        }
    }
    Ok(())
}

// ---- cuts

/// Reads a cut, `U/Q`: two decimal numbers of at most 32 bits. As of [`Cut::new`], the range is examined when the cut is used.
///
/// ```
/// use hisowake::{Cut, ParseError};
///
/// assert_eq!("1/3".parse(), Ok(Cut::new(1, 3)));
/// assert_eq!("1:3".parse::<Cut>().unwrap_err().to_string(), "byte 0: expected a cut such as 1/3");
/// ```
impl FromStr for Cut {
    type Err = ParseError;

    fn from_str(text: &str) -> Result<Cut, ParseError> {
        let parts = text.split_once('/').and_then(|(u, q)| Some(Cut::new(decimal(u)?, decimal(q)?)));
        parts.map_or(expected(Expected::Cut, 0), Ok)
    }
}

/// Writes the cut as `U/Q`.
///
/// ```
/// assert_eq!(hisowake::Cut::new(1, 3).to_string(), "1/3");
/// ```
impl fmt::Display for Cut {
    fn fmt(&self, f: &mut fmt::Formatter<'_>) -> fmt::Result {
        pad(f, format_args!("{}/{}", self.u, self.q))
    }
}
