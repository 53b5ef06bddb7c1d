//! An order that accounts for these (document 02, T-12): place by place, and no beginning that fails is gone on with.
//! The set of numbers is a word of bits, a number's bit the place where it is named first.

const MOST_TRANSACTIONS: usize = 6;
const MOST_ACTIONS: usize = 8;
const MOST_NUMBERS: usize = MOST_TRANSACTIONS * MOST_ACTIONS;
const REFUSED: u64 = 65536 * 22;

/// What a transaction does to the set: the numbers that must be in it before, those that are in it behind whether or
/// not they were, and those that are not. `fails` where it needs what it has taken, or does not find what it looks for
/// in any set.
#[derive(Clone, Copy, Default)]
struct Effect {
    needs: u64,
    adds: u64,
    removes: u64,
    fails: bool,
}

impl Effect {
    fn write(&mut self, bit: u64) {
        self.adds |= bit;
        self.removes &= !bit;
    }

    fn look_up(&mut self, bit: u64, takes: bool) {
        self.fails |= self.removes & bit != 0;
        self.needs |= bit & !self.adds;
        if takes {
            self.adds &= !bit;
            self.removes |= bit;
        }
    }
}

/// The numbers named so far.
struct Numbers {
    named: [u32; MOST_NUMBERS],
    count: usize,
    written: u64,
}

impl Numbers {
    fn bit(&mut self, number: u32) -> u64 {
        let known = self.named[..self.count].iter().position(|&named| named == number);
        let place = known.unwrap_or_else(|| {
            self.named[self.count] = number;
            self.count += 1;
            self.count - 1
        });
        1 << place
    }

    /// None if an action is of another kind, or writes a number again.
    fn effect(&mut self, pairs: &[u32]) -> Option<Effect> {
        let mut effect = Effect::default();
        for pair in pairs.chunks_exact(2) {
            let bit = self.bit(pair[1]);
            match pair[0] {
                1 if self.written & bit == 0 => {
                    self.written |= bit;
                    effect.write(bit);
                }
                2 => effect.look_up(bit, false),
                3 => effect.look_up(bit, true),
                _ => return None,
            }
        }
        Some(effect)
    }
}

struct Export {
    effects: [Effect; MOST_TRANSACTIONS],
    count: usize,
}

fn read(words: &[u32]) -> Option<Export> {
    let (&count, mut rest) = words.split_first()?;
    let count = count as usize;
    let mut numbers = Numbers { named: [0; MOST_NUMBERS], count: 0, written: 0 };
    let mut effects = [Effect::default(); MOST_TRANSACTIONS];
    for effect in effects.get_mut(..count)? {
        let (&actions, behind) = rest.split_first()?;
        if actions as usize > MOST_ACTIONS {
            return None;
        }
        let (pairs, behind) = behind.split_at_checked(2 * actions as usize)?;
        *effect = numbers.effect(pairs)?;
        rest = behind;
    }
    rest.is_empty().then_some(Export { effects, count })
}

/// Those that are `left` follow on a set; their positions from `place` on.
fn search(export: &Export, left: u32, place: usize, set: u64, order: &mut [u8; MOST_TRANSACTIONS]) -> bool {
    if left == 0 {
        return true;
    }
    for position in 0..export.count {
        let effect = &export.effects[position];
        if left >> position & 1 == 0 || effect.needs & !set != 0 {
            continue;
        }
        if search(export, left & !(1 << position), place + 1, (set | effect.adds) & !effect.removes, order) {
            order[place] = position as u8;
            return true;
        }
    }
    false
}

/// 1 and the positions in front of `order`, 0, or 65,536 × 22.
pub fn find_order(words: &[u32], order: &mut [u8]) -> u64 {
    let Some(export) = read(words).filter(|export| export.count <= order.len()) else { return REFUSED };
    let all = (1 << export.count) - 1;
    let mut found = [0; MOST_TRANSACTIONS];
    let one_fails = export.effects[..export.count].iter().any(|effect| effect.fails);
    if one_fails || !search(&export, all, 0, 0, &mut found) {
        return 0;
    }
    order[..export.count].copy_from_slice(&found[..export.count]);
    1
}
