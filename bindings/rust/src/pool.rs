use crate::limits::{MOST_VARS, SLOTS};
use crate::{accepted, lent, room_for, Refusal, Signal};

/// The conditions of a site in one table of nodes: up to [`SLOTS`] of one variable count, each in a slot of its own. A node that several
/// have in common takes one place of the table, and what a dropped condition alone had is free again.
///
/// Table and slots are words, as docs/POOL.md has them: three a place, as in a diagram, zeros where it is free; and for each slot 0, or
/// the place of its condition's root and 1 more. After an add or a drop the words depend on the conditions alone, and not on the calls
/// that led there. A refused call changes nothing. Beside them a record of each variable is kept ([`Pool::signals`]). Over words that the
/// caller keeps the calls are [`lent::pool_add`], [`lent::pool_drop`], [`lent::pool_read`] and [`lent::pool_summarize`].
///
/// ```
/// // x2, or x0 and x1; and x2, of which every node is there already
/// let (d, x2) = ([3, 0, 0, 3, 1, 1, 2, 0, 1, 1, 2, 1, 0, 2, 3], [3, 0, 0, 3, 1, 1, 2, 0, 1]);
/// let mut pool = houayletan::Pool::new(5, 3)?;
/// assert_eq!(pool.add(0, &d)?, 5);
/// assert_eq!(pool.add(7, &x2)?, 5);
/// assert_eq!(pool.read(7)?, x2);
///
/// // there is no place left; 02's rule counts distinct nodes, and x0 is none of these five
/// let x0 = [3, 0, 0, 3, 1, 1, 0, 0, 1];
/// assert_eq!(pool.add(1, &x0).unwrap_err().to_string(), "refused 36 at 0: the pool has no room for so many distinct nodes");
/// // what x2 still needs stays
/// assert_eq!(pool.drop(0)?, 3);
/// assert_eq!(pool.add(1, &x0)?, 4);
/// assert_eq!((pool.read(7)?, pool.read(1)?), (x2.to_vec(), x0.to_vec()));
/// # Ok::<(), houayletan::Refusal>(())
/// ```
#[derive(Clone, Debug, Eq, PartialEq)]
pub struct Pool {
    table: Vec<u32>,
    slots: Vec<u32>,
    row: Vec<Signal>,
}

impl Pool {
    /// An empty pool with 2 to [`crate::MOST_NODES`] places, two of which are the terminals', for conditions of `vars` variables, at
    /// most [`crate::MOST_VARS`]. Refusals: 46 for other numbers.
    ///
    /// ```
    /// let pool = houayletan::Pool::new(4, 9)?;
    /// assert_eq!((pool.nodes(), pool.places(), pool.vars()), (2, 4, 9));
    /// assert_eq!(pool.table(), [9, 0, 0, 9, 1, 1, 0, 0, 0, 0, 0, 0]);
    /// assert_eq!(houayletan::Pool::new(1, 9).unwrap_err().number, 46);
    /// # Ok::<(), houayletan::Refusal>(())
    /// ```
    pub fn new(places: usize, vars: u32) -> Result<Pool, Refusal> {
        // one place more than there may be is refused as any more are
        let (mut table, mut slots) = (vec![0; lent::pool_for(places.min(crate::MOST_NODES + 1))], vec![0; SLOTS]);
        lent::pool_empty(&mut table, &mut slots, &mut [], vars);
        Pool::from_words(table, slots)
    }

    /// The pool that was kept as words; its records are worked out. Refusals: 46 where they are none.
    ///
    /// ```
    /// let mut pool = houayletan::Pool::new(4, 1)?;
    /// pool.add(3, &[1, 0, 0, 1, 1, 1, 0, 0, 1])?;
    /// let (table, slots) = (pool.table().to_vec(), pool.slots().to_vec());
    /// assert_eq!(houayletan::Pool::from_words(table.clone(), slots)?, pool);
    /// // a node that no slot reaches
    /// let refusal = houayletan::Pool::from_words(table, vec![0; 64]).unwrap_err();
    /// assert_eq!(refusal.to_string(), "refused 46 at 0: the table and the slots are no well-formed pool");
    /// # Ok::<(), houayletan::Refusal>(())
    /// ```
    pub fn from_words(table: Vec<u32>, slots: Vec<u32>) -> Result<Pool, Refusal> {
        let mut row = vec![Signal::default(); MOST_VARS];
        let accepted = accepted(lent::pool_summarize(&table, &slots, &mut row))?;
        row.truncate(accepted.vars as usize);
        Ok(Pool { table, slots, row })
    }

    /// Puts a condition in an empty slot, in reduced form; how many nodes are in use then, both terminals among them. Refusals: the
    /// diagram's own, then 33 for a slot that isn't there, 34 for one that is taken, 35 for another variable count, 36 where there is no
    /// room.
    ///
    /// ```
    /// let mut pool = houayletan::Pool::new(2, 1)?;
    /// // true, in three nodes
    /// assert_eq!(pool.add(63, &[1, 0, 0, 1, 1, 1, 0, 1, 1])?, 2);
    /// assert_eq!(pool.add(63, &[1, 0, 0]).unwrap_err().number, 34);
    /// assert_eq!(pool.add(64, &[1, 0, 0]).unwrap_err().number, 33);
    /// assert_eq!(pool.add(0, &[2, 0, 0]).unwrap_err().number, 35);
    /// # Ok::<(), houayletan::Refusal>(())
    /// ```
    pub fn add(&mut self, slot: usize, words: &[u32]) -> Result<usize, Refusal> {
        let (table, slots, row) = (&mut self.table, &mut self.slots, &mut self.row);
        accepted(lent::pool_add(table, slots, row, words, slot, &mut room_for(words))).map(|accepted| accepted.nodes)
    }

    /// Empties a slot; how many nodes are in use then. What no other slot reaches is free again. Refusals: 33 for a slot that isn't there,
    /// 34 for one that is empty.
    ///
    /// ```
    /// let mut pool = houayletan::Pool::new(3, 1)?;
    /// pool.add(0, &[1, 0, 0, 1, 1, 1, 0, 0, 1])?;
    /// assert_eq!(pool.drop(0), Ok(2));
    /// assert_eq!(pool.drop(0).unwrap_err().number, 34);
    /// # Ok::<(), houayletan::Refusal>(())
    /// ```
    pub fn drop(&mut self, slot: usize) -> Result<usize, Refusal> {
        accepted(lent::pool_drop(&mut self.table, &mut self.slots, &mut self.row, slot)).map(|accepted| accepted.nodes)
    }

    /// The condition in a slot: what [`crate::reduce`] gives of the diagram that was put there. Refusals: as for [`Pool::drop`].
    pub fn read(&self, slot: usize) -> Result<Vec<u32>, Refusal> {
        let mut output = vec![0; self.table.len()];
        let mut room = vec![0; lent::room_for(self.places())];
        let accepted = accepted(lent::pool_read(&self.table, &self.slots, slot, &mut room, &mut output))?;
        output.truncate(3 * accepted.nodes);
        Ok(output)
    }

    /// How many nodes are in use, both terminals among them.
    pub fn nodes(&self) -> usize {
        2 + self.table.chunks_exact(3).skip(2).filter(|node| node.iter().any(|word| *word != 0)).count()
    }

    /// How many nodes there are places for.
    pub fn places(&self) -> usize {
        self.table.len() / 3
    }

    /// How many variables there are.
    pub fn vars(&self) -> u32 {
        self.table[0]
    }

    /// Whether there is a condition in a slot.
    pub fn is_live(&self, slot: usize) -> bool {
        self.slots.get(slot).is_some_and(|word| *word != 0)
    }

    /// The words of the table: three a place.
    pub fn table(&self) -> &[u32] {
        &self.table
    }

    /// The words of the slots.
    pub fn slots(&self) -> &[u32] {
        &self.slots
    }

    /// A record of each variable: how many nodes test it, and how many conditions depend on it. Those of the pool as it is, after any calls.
    ///
    /// ```
    /// let mut pool = houayletan::Pool::new(9, 3)?;
    /// let said = |pool: &houayletan::Pool| Vec::from_iter(pool.signals().iter().map(|signal| (signal.nodes, signal.slots)));
    /// assert_eq!(said(&pool), [(0, 0); 3]);
    /// // x2, or x0 and x1; the same again; and x2 alone
    /// let (d, x2) = ([3, 0, 0, 3, 1, 1, 2, 0, 1, 1, 2, 1, 0, 2, 3], [3, 0, 0, 3, 1, 1, 2, 0, 1]);
    /// for (slot, words) in [(0, &d[..]), (1, &d), (2, &x2)] {
    ///     pool.add(slot, words)?;
    /// }
    /// assert_eq!(said(&pool), [(1, 2), (1, 2), (1, 3)]);
    /// pool.drop(0)?;
    /// pool.drop(1)?;
    /// assert_eq!(said(&pool), [(0, 0), (0, 0), (1, 1)]);
    /// # Ok::<(), houayletan::Refusal>(())
    /// ```
    pub fn signals(&self) -> &[Signal] {
        &self.row
    }
}

#[cfg(test)]
mod tests {
    use super::*;
    use crate::{not, reduce, validate, MOST_NODES};

    /// All of some variables, given from the last to the first.
    fn all_of(vars: u32, variables: impl Iterator<Item = u32>) -> Vec<u32> {
        let mut words = vec![vars, 0, 0, vars, 1, 1];
        for variable in variables {
            let below = words.len() as u32 / 3 - 1;
            words.extend([variable, 0, below]);
        }
        words
    }

    /// What the records must say, from the slots as they are read: the different nodes below each variable as arrays of their own, and the
    /// arrays that have one.
    fn signals_of(pool: &Pool) -> Vec<Signal> {
        let (mut signals, mut seen) = (vec![Signal::default(); pool.vars() as usize], std::collections::BTreeSet::new());
        for slot in (0..SLOTS).filter(|slot| pool.is_live(*slot)) {
            let words = pool.read(slot).unwrap();
            // each node as the text of what is below it
            let mut texts = vec!["0".to_string(), "1".to_string()];
            let mut variables = std::collections::BTreeSet::new();
            for node in words.chunks_exact(3).skip(2) {
                let text = format!("({} {} {})", node[0], texts[node[1] as usize], texts[node[2] as usize]);
                variables.insert(node[0]);
                signals[node[0] as usize].nodes += seen.insert(text.clone()) as u32;
                texts.push(text);
            }
            variables.iter().for_each(|variable| signals[*variable as usize].slots += 1);
        }
        signals
    }

    #[test]
    fn the_row_is_kept() {
        let mut pool = Pool::new(60, 7).unwrap();
        for turn in 0..300u32 {
            let slot = (turn.wrapping_mul(2654435761) >> 9) as usize % 20;
            let words = all_of(7, (0..7).rev().filter(|i| turn.wrapping_mul(40503) >> (i + 3) & 1 == 1));
            let words = if turn % 4 == 0 { not(&words).unwrap() } else { words };
            let done = if pool.is_live(slot) { pool.drop(slot) } else { pool.add(slot, &words) };
            assert!(done.is_ok() || done.unwrap_err().number == 36);
            assert_eq!(pool.signals(), signals_of(&pool), "turn {turn}");
            assert_eq!(Pool::from_words(pool.table().to_vec(), pool.slots().to_vec()).unwrap(), pool);
        }
        assert!(pool.signals().iter().any(|signal| signal.slots > signal.nodes) && pool.signals().iter().any(|signal| signal.nodes > 1));
    }

    #[test]
    fn every_slot_reads_as_what_was_put_there_last() {
        let (mut pool, mut last) = (Pool::new(800, 20).unwrap(), vec![None; SLOTS]);
        for turn in 0..400u32 {
            let slot = (turn.wrapping_mul(2654435761) >> 7) as usize % SLOTS;
            if pool.is_live(slot) {
                pool.drop(slot).unwrap();
                last[slot] = None;
            } else {
                let words = all_of(20, (0..20).rev().filter(|i| (turn ^ turn << 3) >> (i % 7) & 1 == 1));
                let words = if turn % 3 == 0 { not(&words).unwrap() } else { words };
                pool.add(slot, &words).unwrap();
                last[slot] = Some(reduce(&words).unwrap());
            }
            for (slot, last) in last.iter().enumerate() {
                assert_eq!(pool.read(slot).ok(), *last, "turn {turn}, slot {slot}");
            }
        }
        (0..SLOTS).filter(|slot| last[*slot].is_some()).for_each(|slot| assert!(pool.drop(slot).is_ok()));
        assert_eq!(pool, Pool::new(800, 20).unwrap());
    }

    #[test]
    fn the_calls_before_play_no_part() {
        let conditions = [all_of(9, [8, 4, 1].into_iter()), all_of(9, [8, 4].into_iter()), vec![9, 0, 0]];
        let mut pools = [[0, 1, 2], [2, 1, 0], [1, 2, 0]].map(|order| {
            let mut pool = Pool::new(12, 9).unwrap();
            order.iter().for_each(|i| assert!(pool.add(10 * i, &conditions[*i]).is_ok()));
            pool
        });
        assert!(pools.iter().all(|pool| *pool == pools[0] && pool.nodes() == 5));
        pools[0].add(63, &all_of(9, [7].into_iter())).unwrap();
        assert_ne!(pools[0], pools[1]);
        pools[0].drop(63).unwrap();
        assert_eq!(pools[0], pools[1]);
    }

    #[test]
    fn the_bounds() {
        for (places, vars) in [(0, 0), (1, 0), (MOST_NODES + 1, 0), (usize::MAX, 0), (2, MOST_VARS as u32 + 1), (2, u32::MAX)] {
            assert_eq!(Pool::new(places, vars).map_err(|refusal| refusal.number), Err(46), "{places} {vars}");
        }
        for (places, vars) in [(2, 0), (2, MOST_VARS as u32), (MOST_NODES, 0), (MOST_NODES, MOST_VARS as u32)] {
            assert_eq!(Pool::new(places, vars).unwrap().nodes(), 2);
        }
        let deep = all_of(MOST_VARS as u32, (0..MOST_VARS as u32).rev());
        assert_eq!(Pool::new(MOST_VARS + 1, MOST_VARS as u32).unwrap().add(0, &deep).unwrap_err().number, 36);
        let mut pool = Pool::new(MOST_VARS + 2, MOST_VARS as u32).unwrap();
        assert_eq!(pool.add(0, &deep), Ok(MOST_VARS + 2));
        assert_eq!(pool.read(0), Ok(deep));
    }

    #[test]
    fn refusals_in_their_order() {
        let mut pool = Pool::new(3, 3).unwrap();
        let (x2, other) = (all_of(3, [2].into_iter()), all_of(4, [3, 2, 1].into_iter()));
        pool.add(5, &x2).unwrap();
        let before = pool.clone();
        let number = |said: Result<usize, Refusal>| said.unwrap_err().number;
        assert_eq!(number(pool.add(64, &[3])), 2);
        assert_eq!(number(pool.add(64, &other)), 33);
        assert_eq!(number(pool.add(1 << 32, &x2)), 33);
        assert_eq!(number(pool.add(5, &other)), 34);
        assert_eq!(number(pool.add(6, &other)), 35);
        assert_eq!(number(pool.add(6, &all_of(3, [1].into_iter()))), 36);
        assert_eq!((number(pool.drop(64)), number(pool.drop(6))), (33, 34));
        assert_eq!([64, 6].map(|slot| pool.read(slot).unwrap_err().number), [33, 34]);
        assert_eq!(pool, before);
        assert!(validate(&pool.read(5).unwrap()).is_ok());
    }

    #[test]
    fn over_what_is_lent() {
        let (mut table, mut slots) = ([7; lent::pool_for(4)], [7; SLOTS]);
        let (mut room, mut output) = ([7; lent::room_for(4) + 1], [7; 10]);
        let seven = Signal { nodes: 7, slots: 7 };
        let mut row = [seven; 3];
        assert_eq!(lent::pool_drop(&mut table, &mut slots, &mut row, 99).number, 46);
        lent::pool_empty(&mut table, &mut slots, &mut row, 2);
        assert_eq!(row, [Signal::default(), Signal::default(), seven]);
        let x0_and_x1 = all_of(2, [1, 0].into_iter());
        // 37, then 47, then the diagram's own; the room is not looked at
        assert_eq!(lent::pool_add(&mut table, &mut slots, &mut row[..1], &[], 99, &mut []).number, 37);
        row[1].slots = 1;
        assert_eq!(lent::pool_add(&mut table, &mut slots, &mut row, &[], 99, &mut []).number, 47);
        assert_eq!(lent::pool_drop(&mut table, &mut slots, &mut row, 99).number, 47);
        let verdict = lent::pool_summarize(&table, &slots, &mut row);
        assert_eq!((verdict.number, verdict.nodes, verdict.vars), (0, 4, 2));
        assert_eq!(lent::pool_add(&mut table, &mut slots, &mut row, &[], 99, &mut []).number, 1);
        assert_eq!(lent::pool_add(&mut table, &mut slots, &mut row, &x0_and_x1, 1, &mut room[..lent::room_for(4) - 1]).number, 5);
        let verdict = lent::pool_add(&mut table, &mut slots, &mut row, &x0_and_x1, 1, &mut room);
        assert_eq!((verdict.number, verdict.nodes, verdict.vars), (0, 4, 2));
        assert_eq!((&table[6..], slots[1]), (&[1, 0, 1, 0, 0, 2][..], 4));
        let one = Signal { nodes: 1, slots: 1 };
        assert_eq!(row, [one, one, seven]);
        // 5 before 4, and 4 with the room zero
        assert_eq!(lent::pool_read(&table, &slots, 1, &mut room[2..], &mut output[..0]).number, 5);
        assert_eq!(lent::pool_read(&table, &slots, 1, &mut room, &mut output).number, 4);
        assert!(room[..lent::room_for(4)].iter().all(|w| *w == 0) && room[lent::room_for(4)] == 7 && output == [7; 10]);
        let mut output = [7; 13];
        assert_eq!(lent::pool_read(&table, &slots, 1, &mut room, &mut output).nodes, 4);
        assert_eq!((&output[..12], output[12]), (&x0_and_x1[..], 7));
    }
}
