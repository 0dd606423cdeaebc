//! Maps of values against an array with a value for each index, and what is dropped when.

use maple::{Error, Map};
use std::collections::BTreeSet;
use std::rc::Rc;

const SPAN: u64 = 300;

struct Draws(u64);

impl Draws {
    fn below(&mut self, most: u64) -> u64 {
        self.0 = self.0.wrapping_mul(6364136223846793005).wrapping_add(1442695040888963407);
        (self.0 >> 33) % most
    }
}

/// The numbers that the array has, each once: so many values have to be alive.
fn alive(array: &[Option<Rc<u64>>]) -> BTreeSet<u64> {
    array.iter().flatten().map(|value| **value).collect()
}

#[test]
fn a_map_is_an_array_of_shared_values() {
    let (mut map, mut array) = (Map::new().unwrap(), vec![None; SPAN as usize]);
    let mut draws = Draws(7);
    let mut all: Vec<std::rc::Weak<u64>> = Vec::new();
    for number in 0..3000 {
        let first = draws.below(SPAN - 20);
        let last = first + draws.below(20);
        let value = Rc::new(number);
        let stored = if draws.below(4) == 0 { None } else { Some(value.clone()) };
        all.push(Rc::downgrade(&value));
        match &stored {
            Some(value) => map.insert(first..=last, value.clone()).unwrap(),
            None => map.remove(first..=last).unwrap(),
        }
        array[first as usize..=last as usize].fill(stored);
        drop(value);
        if number % 50 == 0 {
            (0..SPAN).for_each(|at| assert_eq!(map.get(at), array[at as usize].as_ref()));
            let told: BTreeSet<u64> = map.iter().map(|(_, value)| **value).collect();
            assert_eq!(told, alive(&array));
            assert_eq!(map.len(), map.iter().count() as u64);
        }
    }
    array.clear();
    let told: BTreeSet<u64> = map.iter().map(|(_, value)| **value).collect();
    assert_eq!(all.iter().filter(|value| value.strong_count() > 0).count(), told.len());
    let copy = map.clone();
    map.remove(..).unwrap();
    assert!(map.is_empty() && copy.iter().all(|(_, value)| Rc::strong_count(value) == 1));
    drop(copy);
    assert!(all.iter().all(|value| value.strong_count() == 0));
}

#[test]
fn a_map_grows_and_is_refused_when_it_cannot() {
    let mut map: Map<u64> = (0..20_000).map(|n| (2 * n..=2 * n, n)).collect();
    assert!(map.iter().map(|(at, n)| (at, *n)).eq((0..20_000).map(|n| (2 * n..=2 * n, n))));
    let refused = (20_000..).find_map(|n| map.insert(2 * n..=2 * n, n).err()).unwrap();
    assert_eq!(refused.error, Error::NoRows);
    assert_eq!(map.get(2 * refused.value), None);
    assert_eq!((map.len(), map.iter().count() as u64), (refused.value, refused.value));
    *map.get_mut(0).unwrap() = 7;
    assert_eq!(map.range(..=0).next(), Some((0..=0, &7)));
}
