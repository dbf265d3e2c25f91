//! The compact form: an accepted domain decoded once, to be traced over many times.

use crate::files::{Outcome, Request, Tables, Trace};
use crate::places::{Expander, Phy};
use crate::raw;
use crate::refusals::{accepted, Cause, Refusal};
use crate::settings::Setting;

/// The words of the longest form.
pub const LONGEST_FORM: usize = 16_512;

/// How a request of a list ended: as [`Trace`], with the expanders passed counted.
#[derive(Clone, Copy, Debug, PartialEq, Eq, Hash)]
pub struct End {
    pub outcome: Outcome,
    pub last: Expander,
    pub phy: Option<Phy>,
    pub count: u8,
}

impl End {
    fn of(answer: u64) -> End {
        End {
            outcome: Outcome::of(answer),
            last: Expander((answer >> 16) as u8),
            phy: Phy::found((answer >> 8) as u8),
            count: answer as u8,
        }
    }
}

/// An accepted domain as 64-bit words, with the setting that accepts it. What it
/// answers is what the calls on the file do.
///
/// ```
/// use metzurgo::{Cause, Expander, Form, Outcome, Request, Setting};
/// # let file = include_bytes!(concat!(env!("CARGO_MANIFEST_DIR"), "/../../crates/routes/stdin"));
/// let form = Form::of_file(Setting::WIDEST, file)?;
/// let mut words = vec![0; form.needed().word_count()];
/// let mut bits = vec![0; form.needed().bit_bytes()];
/// form.tables(&mut words, &mut bits)?;
///
/// let (expander, arrival) = (Expander(0), None);
/// let requests = [0x50000000000000a1, 0x50000000000000b1, 0x50000000000000ff, 0]
///     .map(|address| Request { expander, arrival, address });
/// let ends = form.trace_many(&words, &bits, &requests)?;
/// assert_eq!((ends[0]?.last, ends[0]?.count), (Expander(0), 1));
/// assert_eq!((ends[1]?.last, ends[1]?.count), (Expander(1), 2));
/// assert_eq!(ends[2]?.outcome, Outcome::NoDestination);
/// assert_eq!(ends[3].unwrap_err().cause, Cause::AddressZero);
/// # Ok::<(), metzurgo::Refusal>(())
/// ```
#[derive(Clone, Debug, PartialEq, Eq)]
pub struct Form {
    setting: Setting,
    words: Vec<u64>,
    expanders: usize,
    needed: Tables,
}

impl Form {
    /// Judges a file and makes its form.
    pub fn of_file(setting: Setting, file: &[u8]) -> Result<Form, Refusal> {
        let mut words = vec![0; LONGEST_FORM];
        let answer = accepted(raw::compact(setting.packed(), file, &mut words))?;
        words.truncate(answer as u32 as usize);
        words.shrink_to_fit();
        Ok(Form::accepted(setting, words))
    }

    /// The form that these words are. Words that are the form of no domain accepted
    /// under the setting are refused with 1.
    ///
    /// ```
    /// use metzurgo::{Cause, Form, Setting};
    /// # let file = include_bytes!(concat!(env!("CARGO_MANIFEST_DIR"), "/../../crates/routes/stdin"));
    /// let form = Form::of_file(Setting::WIDEST, file)?;
    /// let mut words = form.words().to_vec();
    /// assert_eq!(Form::of_words(Setting::WIDEST, words.clone()), Ok(form));
    /// words.pop();
    /// assert_eq!(Form::of_words(Setting::WIDEST, words).unwrap_err().cause, Cause::Length);
    /// # Ok::<(), metzurgo::Refusal>(())
    /// ```
    pub fn of_words(setting: Setting, words: Vec<u64>) -> Result<Form, Refusal> {
        let course = setting.packed();
        match accepted(raw::compact_tables(course, &words, &mut [], &mut [])) {
            Err(refusal) if refusal.cause == Cause::Length => Err(refusal),
            // No words were lent for tables, which is refused where there are any.
            _ => Ok(Form::accepted(setting, words)),
        }
    }

    /// Words that a call took for a form: for each expander its address, a word with R
    /// and the number of phys, and two words for each phy.
    fn accepted(setting: Setting, words: Vec<u64>) -> Form {
        let mut form = Form {
            setting,
            words,
            expanders: 0,
            needed: Tables {
                tables: 0,
                words: 0,
            },
        };
        let mut rest = &form.words[..];
        while let [_, general, units @ ..] = rest {
            let (indexes, phys) = ((general >> 48) as u32, (general >> 40) as u8);
            let (units, behind) = units.split_at(2 * usize::from(phys));
            // The topmost bit is that of a vacant phy, attribute 2 a table phy's.
            let table = |unit: &&[u64]| unit[1] >> 63 == 0 && unit[1] >> 59 & 3 == 2;
            let tables = units.chunks(2).filter(table).count() as u32;
            form.expanders += 1;
            form.needed.tables += tables;
            form.needed.words += tables * indexes;
            rest = behind;
        }
        form
    }

    /// The words, as the calls take them.
    pub fn words(&self) -> &[u64] {
        &self.words
    }

    /// The setting under which the domain is accepted.
    pub fn setting(&self) -> Setting {
        self.setting
    }

    /// The number of expanders.
    pub fn expanders(&self) -> usize {
        self.expanders
    }

    /// How many tables there are, and how many words to lend for them.
    pub fn needed(&self) -> Tables {
        self.needed
    }

    /// Writes the route tables and their disable bits, as [`tables`](crate::tables)
    /// does for the file.
    pub fn tables(&self, words: &mut [u64], bits: &mut [u8]) -> Result<Tables, Refusal> {
        let answer = raw::compact_tables(self.setting.packed(), &self.words, words, bits);
        accepted(answer).map(Tables::of)
    }

    /// Traces a request, as [`trace`](crate::trace) does over the file. `passed` has
    /// room for as many expanders as there are.
    pub fn trace<'a>(
        &self,
        words: &[u64],
        bits: &[u8],
        request: Request,
        passed: &'a mut [Expander],
    ) -> Result<Trace<'a>, Refusal> {
        let answer = raw::compact_trace(
            self.setting.packed(),
            &self.words,
            words,
            bits,
            request.expander.0,
            request.arrival_byte(),
            request.address,
            Expander::bytes(passed),
        );
        accepted(answer).map(|answer| Trace::of(answer, passed))
    }

    /// Traces a list of requests in one call, which tests the form once: the end of
    /// each, or its own refusal (15 or 17). Too few words or bits refuse the list.
    pub fn trace_many(
        &self,
        words: &[u64],
        bits: &[u8],
        requests: &[Request],
    ) -> Result<Vec<Result<End, Refusal>>, Refusal> {
        let packed: Vec<u64> = requests
            .iter()
            .flat_map(|request| {
                let start = [request.expander.0, request.arrival_byte()];
                [u16::from_be_bytes(start).into(), request.address]
            })
            .collect();
        let mut answers = vec![0; requests.len()];
        let course = self.setting.packed();
        let list = raw::compact_trace_many(course, &self.words, words, bits, &packed, &mut answers);
        accepted(list)?;
        Ok(answers
            .into_iter()
            .map(|answer| accepted(answer).map(End::of))
            .collect())
    }
}
