//! Faults of every sort, in every order.

use super::case::{Case, LONGEST_IN};
use super::floats::{any, on_grid, INFINITE, NANS};
use super::sound::{all_kinds, any_kinds, beside, import, longer, need, of_kinds};
use crate::rng::Rng;
use requests::drawing::{has_place, Drawing, CLOSE, LINE, MOVE};
use requests::exact::Bits;

/// A number on the grid, two off it, and two that are not finite.
const SOUND: Bits = 0x4009_0000_0000_0000;
const OFF: [Bits; 2] = [0x41cd_cd65_0000_0000, 0xc120_0000_0100_0000];
const WILD: [Bits; 2] = [NANS[0], INFINITE[1]];

/// Places that are sound, off the grid or not finite, in either coordinate and in both.
const PLACES: [[Bits; 2]; 8] = [
    [SOUND, SOUND],
    [OFF[0], SOUND],
    [SOUND, OFF[1]],
    [WILD[0], SOUND],
    [SOUND, WILD[1]],
    [OFF[0], WILD[0]],
    [WILD[1], OFF[1]],
    [WILD[0], WILD[1]],
];

/// Every row of up to four kinds, one of which is none, with sound places.
pub fn kinds() -> Vec<Case> {
    let all = all_kinds(4, &[MOVE, LINE, CLOSE, 3]);
    all.iter().map(|kinds| longer(&of_kinds(kinds))).collect()
}

/// Every byte as a kind: first, and behind a Move.
pub fn bytes() -> Vec<Case> {
    let byte = |byte| [longer(&of_kinds(&[byte])), longer(&of_kinds(&[MOVE, byte]))];
    (0..=255)
        .step_by(5)
        .chain([3, 4, 7, 254])
        .flat_map(byte)
        .collect()
}

/// Each two commands of every sort one behind the other: alone, in an open contour, and
/// behind a closed one.
pub fn pairs() -> Vec<Case> {
    let mut commands: Vec<(u8, [Bits; 2])> = vec![(CLOSE, PLACES[0]), (3, PLACES[0])];
    for kind in [MOVE, LINE] {
        commands.extend(PLACES.map(|place| (kind, place)));
    }
    let mut cases = vec![];
    for before in [&[][..], &[MOVE], &[MOVE, LINE, CLOSE]] {
        for &first in &commands {
            for &second in &commands {
                let mut drawing = of_kinds(before);
                for (kind, place) in [first, second] {
                    match has_place(kind) {
                        true => drawing.to(kind, place),
                        false => drawing.kinds.push(kind),
                    }
                }
                cases.push(longer(&drawing));
            }
        }
    }
    cases
}

/// Floats too many or too few, behind kinds and places with and without faults.
pub fn lengths() -> Vec<Case> {
    let mut cases = vec![];
    for kinds in [
        &[][..],
        &[MOVE],
        &[MOVE, CLOSE],
        &[LINE],
        &[MOVE, 7],
        &[7, 9],
        &[MOVE, LINE],
    ] {
        for float in [SOUND, OFF[0], WILD[0]] {
            let sound = of_kinds(kinds);
            for count in 0..sound.floats.len() + 4 {
                let mut drawing = sound.clone();
                drawing.floats = vec![float; count];
                cases.push(longer(&drawing));
            }
        }
    }
    cases
}

/// A drawing of which one float is off the grid or not finite, in each place in turn.
pub fn in_one_place() -> Vec<Case> {
    let sound = of_kinds(&[MOVE, LINE, CLOSE, MOVE, MOVE, LINE, LINE]);
    let mut cases = vec![];
    for place in 0..sound.floats.len() {
        for float in [OFF, WILD].concat() {
            let mut drawing = sound.clone();
            drawing.floats[place] = float;
            cases.push(longer(&drawing));
        }
    }
    cases
}

/// Drawings with floats of every class, and of some a row or a kind damaged.
pub fn random() -> Vec<Case> {
    let rng = &mut Rng::new(703);
    (0..500).map(|_| any_import(rng)).collect()
}

/// Any drawing, into rows around its need.
pub fn any_import(rng: &mut Rng) -> Case {
    let drawing = any_drawing(rng);
    let offsets = [(); 2].map(|()| rng.pick(&[-1, 0, 0, 0, 0, 1, 3]));
    import(beside(need(&drawing), offsets, LONGEST_IN), &drawing)
}

/// Half of them have no fault but for the room, as long as nothing is damaged.
pub fn any_drawing(rng: &mut Rng) -> Drawing {
    let mut drawing = of_kinds(&any_kinds(rng.pick(&[3, 8, 24]), rng));
    let wild = rng.below(4) == 0;
    for float in &mut drawing.floats {
        let other = wild && rng.below(4) == 0;
        *float = if other { any(rng) } else { on_grid(rng) };
    }
    if rng.below(3) == 0 {
        damage(&mut drawing, rng);
    }
    drawing
}

/// A kind changed, put in or taken out, with its place or without; or a float more or less.
fn damage(drawing: &mut Drawing, rng: &mut Rng) {
    let place = rng.below(drawing.kinds.len());
    let kind = rng.pick(&[MOVE, LINE, CLOSE, CLOSE, 3, 255]);
    match rng.below(6) {
        0 => drawing.floats.truncate(rng.below(drawing.floats.len() + 1)),
        1 => drawing.floats.extend(vec![any(rng); rng.below(3)]),
        2 => drawing.kinds.insert(place, kind),
        3 => {
            drawing.kinds.insert(place, kind);
            drawing.floats.resize(drawing.brought(), SOUND);
        }
        4 if !drawing.kinds.is_empty() => {
            drawing.kinds[place] = kind;
            drawing.floats.resize(drawing.brought(), SOUND);
        }
        _ if !drawing.kinds.is_empty() => {
            drawing.kinds.remove(place);
            drawing.floats.resize(drawing.brought(), SOUND);
        }
        _ => drawing.kinds.push(kind),
    }
}

#[cfg(test)]
mod tests {
    use super::{OFF, PLACES, SOUND, WILD};
    use requests::exact::{point, units};

    #[test]
    fn places_are_what_they_say() {
        assert!(units(SOUND).is_ok());
        assert_eq!(OFF.map(units), [Err(3); 2]);
        assert_eq!(WILD.map(units), [Err(14); 2]);
        let replies = PLACES.map(|place| point(place).err().unwrap_or(0));
        assert_eq!(replies, [0, 3, 3, 14, 14, 14, 14, 14]);
    }
}
