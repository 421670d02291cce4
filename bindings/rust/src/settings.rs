use crate::limits::BLOCK_BYTES;
#[cfg(doc)]
use crate::limits::SETTINGS_VERSION;
use crate::{lent, overapproximate_to_cardinality, overapproximate_to_size, underapproximate_to_cardinality, underapproximate_to_size, Count, Cut, Refusal};

/// Which way a condition is cut.
#[derive(Clone, Copy, Debug, Eq, Hash, PartialEq)]
pub enum Direction {
    /// It may only lose cases: a *suppress* condition.
    Under,
    /// It may only gain cases: a *keep* condition.
    Over,
}

/// What a condition is cut to.
#[derive(Clone, Copy, Debug, Eq, Hash, PartialEq)]
pub enum Target {
    /// So many nodes.
    Size(u32),
    /// So many valuations.
    Count(Count),
}

/// What is stored beside a condition, so that it is cut as it was meant.
#[derive(Clone, Copy, Debug, Eq, Hash, PartialEq)]
pub struct Setting {
    /// Which way.
    pub direction: Direction,
    /// To what.
    pub target: Target,
    /// Whether a condition that fits stays as it is. In version 1 it never does.
    pub as_is: bool,
}

const OUT_OF_RANGE: u32 = 39;

impl Setting {
    /// The oldest version that has it: whoever knows of no flag can read all that have none.
    pub fn version(&self) -> u32 {
        if self.as_is { 2 } else { 1 }
    }

    /// Cuts a diagram so. Refusals: those of the function that it stands for.
    ///
    /// ```
    /// use houayletan::{Direction, Setting, Target};
    ///
    /// let words = [3, 0, 0, 3, 1, 1, 2, 0, 1, 1, 2, 1, 0, 2, 3];
    /// let setting = Setting { direction: Direction::Over, target: Target::Size(4), as_is: false };
    /// assert_eq!(setting.cut(&words)?, houayletan::overapproximate_to_size(&words, 4, false)?);
    /// # Ok::<(), houayletan::Refusal>(())
    /// ```
    pub fn cut(&self, words: &[u32]) -> Result<Cut, Refusal> {
        match (self.direction, self.target) {
            (Direction::Under, Target::Size(size)) => underapproximate_to_size(words, size, self.as_is),
            (Direction::Over, Target::Size(size)) => overapproximate_to_size(words, size, self.as_is),
            (Direction::Under, Target::Count(count)) => underapproximate_to_cardinality(words, count, self.as_is),
            (Direction::Over, Target::Count(count)) => overapproximate_to_cardinality(words, count, self.as_is),
        }
    }
}

impl From<Setting> for lent::Setting {
    fn from(setting: Setting) -> lent::Setting {
        let (kind, target) = match setting.target {
            Target::Size(size) => (0, Count::from(size)),
            Target::Count(count) => (1, count),
        };
        lent::Setting { direction: (setting.direction == Direction::Over) as u32, kind, as_is: setting.as_is as u32, target }
    }
}

/// Refused 39 where a field is out of its range.
impl TryFrom<lent::Setting> for Setting {
    type Error = Refusal;

    fn try_from(stored: lent::Setting) -> Result<Setting, Refusal> {
        let refusal = Refusal { number: OUT_OF_RANGE, place: 0 };
        let flag = |field: u32| if field < 2 { Ok(field == 1) } else { Err(refusal) };
        let (over, counted, as_is) = (flag(stored.direction)?, flag(stored.kind)?, flag(stored.as_is)?);
        let target = if counted {
            Target::Count(stored.target)
        } else {
            let size = u64::try_from(stored.target).ok().and_then(|size| u32::try_from(size).ok());
            Target::Size(size.ok_or(refusal)?)
        };
        Ok(Setting { direction: if over { Direction::Over } else { Direction::Under }, target, as_is })
    }
}

fn read(answer: lent::SettingRead) -> Result<(u32, Setting), Refusal> {
    let lent::SettingRead { number, place, version, setting } = answer;
    if number == 0 { Ok((version, setting.try_into()?)) } else { Err(Refusal { number, place }) }
}

/// The version and the setting of a settings block: [`BLOCK_BYTES`] bytes, which docs/SETTINGS.md in the repository lays out. In version 1
/// `as_is` is off. Refusals: 21 where there are not so many bytes, 22 for a wrong check sum, 38 for a version that is 0 or over
/// [`SETTINGS_VERSION`], 39 for a field out of its range, 24 where unused bytes are not zero. Nothing of a refused block is shown.
///
/// ```
/// use houayletan::{Direction, Setting, Target};
///
/// // version 1, under, to size 5
/// let mut block = [0; 512];
/// block[..5].copy_from_slice(&[1, 0, 0, 0, 5]);
/// block[508..].copy_from_slice(&[6, 0, 0x1a, 0]);
/// let five = Setting { direction: Direction::Under, target: Target::Size(5), as_is: false };
/// assert_eq!(houayletan::read_settings(&block)?, (1, five));
///
/// block[4] = 6;
/// assert_eq!(houayletan::read_settings(&block).unwrap_err().to_string(), "refused 22 at 0: a check sum is wrong");
/// # Ok::<(), houayletan::Refusal>(())
/// ```
pub fn read_settings(block: &[u8]) -> Result<(u32, Setting), Refusal> {
    read(lent::read_settings(block))
}

/// The setting of a block of version 1, and of no later one: that is refused 38, before a field of it is looked at. For what has no flag to
/// cut with. Refusals: as for [`read_settings`].
///
/// ```
/// use houayletan::{Direction, Setting, Target};
///
/// let setting = Setting { direction: Direction::Over, target: Target::Count(7936u32.into()), as_is: false };
/// assert_eq!(houayletan::read_settings_v1(&houayletan::write_settings(1, setting)?)?, setting);
/// let refusal = houayletan::read_settings_v1(&houayletan::write_settings(2, setting)?).unwrap_err();
/// assert_eq!(refusal.to_string(), "refused 38 at 0: the version is not known");
/// # Ok::<(), houayletan::Refusal>(())
/// ```
pub fn read_settings_v1(block: &[u8]) -> Result<Setting, Refusal> {
    read(lent::read_settings_v1(block)).map(|(_, setting)| setting)
}

/// The block of a setting in a version; [`Setting::version`] is the oldest that has it. Equal settings of one version have equal blocks.
/// Refusals: 38 for a version that is 0 or over [`SETTINGS_VERSION`], 39 where `as_is` is on in version 1.
///
/// ```
/// use houayletan::{Direction, Setting, Target};
///
/// let setting = Setting { direction: Direction::Over, target: Target::Size(400), as_is: true };
/// let block = houayletan::write_settings(setting.version(), setting)?;
/// assert_eq!(houayletan::read_settings(&block)?, (2, setting));
/// let refusal = houayletan::write_settings(1, setting).unwrap_err();
/// assert_eq!(refusal.to_string(), "refused 39 at 0: a field is out of its range");
/// # Ok::<(), houayletan::Refusal>(())
/// ```
pub fn write_settings(version: u32, setting: Setting) -> Result<[u8; BLOCK_BYTES], Refusal> {
    let mut block = [0; BLOCK_BYTES];
    let lent::SettingWritten { number, place, .. } = lent::write_settings(version, setting.into(), &mut block);
    if number == 0 { Ok(block) } else { Err(Refusal { number, place }) }
}

#[cfg(test)]
mod tests {
    use super::*;
    use crate::limits::COUNT_WORDS;

    const SUMMED: usize = BLOCK_BYTES - 4;

    fn every_setting() -> Vec<Setting> {
        let counts = [Count::ZERO, 1u32.into(), Count::power_of_two(32), Count::power_of_two(511), Count::new([u32::MAX; COUNT_WORDS])];
        let targets = [0, 1, 400, u32::MAX].map(Target::Size).into_iter().chain(counts.map(Target::Count));
        targets
            .flat_map(|target| [Direction::Under, Direction::Over].map(|direction| (direction, target)))
            .flat_map(|(direction, target)| [false, true].map(|as_is| Setting { direction, target, as_is }))
            .collect()
    }

    /// The two sums of a block's other bytes.
    fn sealed(mut block: [u8; BLOCK_BYTES]) -> [u8; BLOCK_BYTES] {
        let plain: u32 = block[..SUMMED].iter().map(|b| *b as u32).sum();
        let weighed: u32 = block[..SUMMED].iter().zip(1..).map(|(b, place)| *b as u32 * place).sum();
        block[SUMMED..SUMMED + 2].copy_from_slice(&plain.to_le_bytes()[..2]);
        block[SUMMED + 2..].copy_from_slice(&weighed.to_le_bytes()[..2]);
        block
    }

    fn number<T: std::fmt::Debug>(answer: Result<T, Refusal>) -> u32 {
        let refusal = answer.unwrap_err();
        assert_eq!(refusal.place, 0);
        refusal.number
    }

    #[test]
    fn there_and_back() {
        for setting in every_setting() {
            assert_eq!(Setting::try_from(lent::Setting::from(setting)), Ok(setting));
            let block = write_settings(2, setting).unwrap();
            assert_eq!(read_settings(&block), Ok((2, setting)));
            assert_eq!(number(read_settings_v1(&block)), 38);
            assert_eq!(sealed(block), block);
            if setting.as_is {
                assert_eq!((number(write_settings(1, setting)), setting.version()), (39, 2));
            } else {
                let block = write_settings(1, setting).unwrap();
                assert_eq!((read_settings(&block), read_settings_v1(&block)), (Ok((1, setting)), Ok(setting)));
                assert_eq!(setting.version(), 1);
            }
            for version in [0, 3, 255, 256, 257, u32::MAX] {
                assert_eq!(number(write_settings(version, setting)), 38);
            }
        }
        let blocks: std::collections::BTreeSet<_> = every_setting().iter().map(|setting| write_settings(2, *setting).unwrap()).collect();
        assert_eq!(blocks.len(), every_setting().len());
    }

    #[test]
    fn blocks_that_are_refused() {
        let block = write_settings(1, Setting { direction: Direction::Over, target: Target::Size(40), as_is: false }).unwrap();
        for len in [0, 1, 511] {
            assert_eq!(number(read_settings(&block[..len])), 21);
        }
        assert_eq!(number(read_settings(&[&block[..], &[0]].concat())), 21);
        for at in 0..BLOCK_BYTES {
            let mut damaged = block;
            damaged[at] ^= 0x10;
            assert_eq!(number(read_settings(&damaged)), 22, "{at}");
            // with right sums: another version, fields past their range, a flag that version 1 hasn't, another size and a longer one, unused bytes
            if at < SUMMED {
                let wanted = [38, 39, 39, 24].get(at).copied().or(match at {
                    4..=7 => None,
                    8..=67 => Some(39),
                    _ => Some(24),
                });
                let said = read_settings(&sealed(damaged));
                assert_eq!(said.map_err(|r| r.number).err(), wanted, "{at}");
            }
        }
        assert_eq!(number(read_settings(&[0; BLOCK_BYTES])), 38);
    }

    #[test]
    fn over_what_is_lent() {
        let five = lent::Setting { direction: 0, kind: 0, as_is: 0, target: 5u32.into() };
        let mut output = [0xA5; BLOCK_BYTES + 2];
        let refused = |number| lent::SettingWritten { number, place: 0, bytes: 0 };
        // 38, then 39, then 4; each leaves the output as it was
        let wrong = lent::Setting { direction: 2, ..five };
        assert_eq!(lent::write_settings(3, wrong, &mut output[..511]), refused(38));
        assert_eq!(lent::write_settings(2, wrong, &mut output[..511]), refused(39));
        assert_eq!(lent::write_settings(2, five, &mut output[..511]), refused(4));
        for wrong in [lent::Setting { kind: 2, ..five }, lent::Setting { as_is: 2, ..five }, lent::Setting { target: Count::power_of_two(32), ..five }] {
            assert_eq!(lent::write_settings(2, wrong, &mut output), refused(39));
            assert_eq!(Setting::try_from(wrong), Err(Refusal { number: 39, place: 0 }));
        }
        assert_eq!(output, [0xA5; BLOCK_BYTES + 2]);
        assert_eq!(lent::write_settings(1, five, &mut output), lent::SettingWritten { number: 0, place: 0, bytes: BLOCK_BYTES });
        assert_eq!((&output[..5], &output[508..]), (&[1, 0, 0, 0, 5][..], &[6, 0, 0x1a, 0, 0xA5, 0xA5][..]));
        let read = lent::read_settings_v1(&output[..BLOCK_BYTES]);
        assert_eq!(read, lent::SettingRead { number: 0, place: 0, version: 1, setting: five });
        assert_eq!(lent::read_settings(&output[1..]), lent::SettingRead { number: 21, ..lent::SettingRead::default() });
    }

    #[test]
    fn a_stored_setting_cuts_as_the_function_does() {
        // x1, under a root with low = high: four nodes, two of the four valuations
        let words = [2, 0, 0, 2, 1, 1, 1, 0, 1, 0, 2, 2];
        let stored = |direction, target, as_is| {
            let setting = Setting { direction, target, as_is };
            read_settings(&write_settings(2, setting).unwrap()).unwrap().1.cut(&words).map(|cut| (cut.words, cut.trials)).unwrap()
        };
        let count = |count: u32| Target::Count(count.into());
        for as_is in [false, true] {
            assert_eq!(stored(Direction::Under, Target::Size(2), as_is).0, [2, 0, 0]);
            assert_eq!(stored(Direction::Over, Target::Size(2), as_is).0, [2, 0, 0, 2, 1, 1]);
            assert_eq!(stored(Direction::Under, count(1), as_is), (vec![2, 0, 0], 1));
            assert_eq!(stored(Direction::Over, count(3), as_is), (vec![2, 0, 0, 2, 1, 1], 1));
        }
        let kept = Setting { direction: Direction::Over, target: Target::Size(400), as_is: true };
        assert_eq!(kept.cut(&words), Ok(Cut { words: words.to_vec(), trials: 0 }));
        assert_eq!(Setting { as_is: false, ..kept }.cut(&words).unwrap().words, words[..9]);
        assert_eq!(number(Setting { target: Target::Size(0), ..kept }.cut(&words)), 18);
    }
}
