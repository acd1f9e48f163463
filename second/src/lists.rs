//! Lists of numbers for the writer (document 02, request 01): forms that fit, with numbers at and over each limit, cut
//! short and too long. At most 400 numbers each, so that a question about one fits a line of 4,096 bytes.

use crate::form::{self, Number, Sort};
use crate::random::Random;
use crate::sheet::Sheet;

pub const MOST_NUMBERS: usize = 400;

/// Where numbers begin to need another byte, and the ends of their widths.
pub const EDGES: [u16; 11] = [126, 127, 128, 255, 256, 16_383, 16_384, 16_511, 32_767, 32_768, 65_535];

/// The numbers of a sheet in its order.
pub fn of_sheet(sheet: &Sheet) -> Vec<u16> {
    values(&form::numbers(sheet))
}

fn values(numbers: &[Number]) -> Vec<u16> {
    numbers.iter().map(|number| number.value).collect()
}

/// A whole form, or one with something wrong in one place or in several.
pub fn any_list(random: &mut Random) -> Vec<u16> {
    let sheet = form::any_sheet(random);
    let mut list = match random.below(20) {
        0..=6 => of_sheet(&sheet),
        7..=14 => broken(random, &sheet),
        15 => cut(random, &sheet),
        16 => lengthened(random, &sheet),
        17..=18 => damaged(random, of_sheet(&sheet)),
        _ => noise(random),
    };
    if random.chance(3) {
        list = damaged(random, list);
    }
    list.truncate(MOST_NUMBERS);
    list
}

/// One number at or over its limit, or another that looks alike in its low bits. Counts are taken as often as the
/// many numbers of the other sorts.
fn broken(random: &mut Random, sheet: &Sheet) -> Vec<u16> {
    let mut numbers = form::numbers(sheet);
    let sort = random.pick(&[Sort::Count, Sort::KindNameRole, Sort::LineOrIndividual]);
    let of_sort: Vec<usize> = (0..numbers.len()).filter(|&at| numbers[at].sort == sort).collect();
    let at = if of_sort.is_empty() { 0 } else { random.pick(&of_sort) };
    let Number { value, many, .. } = numbers[at];
    numbers[at].value = match random.below(10) {
        0..=1 => many,
        2 => many + 1,
        3 => many.saturating_sub(1),
        4 => value + random.pick(&[128, 256, 16_384, 32_768]),
        _ => random.pick(&EDGES),
    };
    let mut list = values(&numbers);
    if random.chance(15) {
        list.truncate(at + random.below(2) as usize);
    }
    list
}

fn cut(random: &mut Random, sheet: &Sheet) -> Vec<u16> {
    let mut list = of_sheet(sheet);
    list.truncate(random.below(list.len() as u64) as usize);
    list
}

fn lengthened(random: &mut Random, sheet: &Sheet) -> Vec<u16> {
    let mut list = of_sheet(sheet);
    let spare = if random.chance(5) { random.between(100, 400) } else { random.between(1, 4) };
    for _ in 0..spare {
        let number = if random.chance(50) { random.below(8) as u16 } else { random.pick(&EDGES) };
        list.push(number);
    }
    list
}

/// Numbers changed, put in and taken out.
fn damaged(random: &mut Random, mut list: Vec<u16>) -> Vec<u16> {
    for _ in 0..random.between(1, 3) {
        let at = random.below(list.len() as u64 + 1) as usize;
        let number = if random.chance(70) { random.below(40) as u16 } else { random.pick(&EDGES) };
        match random.below(3) {
            0 => list.insert(at, number),
            1 if at < list.len() => list[at] = number,
            _ if at < list.len() => {
                list.remove(at);
            }
            _ => {}
        }
    }
    list
}

/// Small numbers in any order, few of them.
fn noise(random: &mut Random) -> Vec<u16> {
    let most = random.pick(&[2, 4, 9]);
    (0..random.below(30)).map(|_| random.below(most) as u16).collect()
}
