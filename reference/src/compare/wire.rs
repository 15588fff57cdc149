//! Calls and answers as bytes, in the form of compare/library.c.

use super::call::{Answer, Areas, Call};

/// What stands before and behind each area of an answer.
const GUARD: [u8; 32] = [0xA5; 32];

/// A word of the function, six of single numbers, and the areas, each behind its count.
pub fn call_bytes(call: &Call) -> Vec<u8> {
    let mut bytes = words(&[call.function as i64]);
    bytes.extend(words(&call.singles));
    for area in area_bytes(&call.before) {
        let (each, held) = area;
        bytes.extend(words(&[(held.len() / each) as i64]));
        bytes.extend(held);
    }
    bytes
}

/// A word that came back, and the areas, each between its guards.
pub fn answer_bytes(answer: &Answer) -> Vec<u8> {
    let mut bytes = words(&[answer.returned]);
    for (_, held) in area_bytes(&answer.after) {
        bytes.extend(GUARD);
        bytes.extend(held);
        bytes.extend(GUARD);
    }
    bytes
}

/// Each area's bytes, with how many bytes one thing in it has.
fn area_bytes(areas: &Areas) -> [(usize, Vec<u8>); 4] {
    [
        (8, words(&areas.numbers)),
        (1, areas.sheet.clone()),
        (8, words(&areas.out)),
        (1, areas.text.clone()),
    ]
}

fn words(numbers: &[i64]) -> Vec<u8> {
    numbers.iter().flat_map(|x| x.to_le_bytes()).collect()
}

/// The answer in bytes that are as many as those of `like`, and whether its guards are whole.
pub fn answer_of(bytes: &[u8], like: &Answer) -> (Answer, bool) {
    let mut rest = bytes;
    let mut take = |count: usize| {
        let (taken, left) = rest.split_at(count);
        rest = left;
        taken
    };
    let returned = numbers(take(8))[0];
    let sizes = area_bytes(&like.after).map(|(_, held)| held.len());
    let mut whole = true;
    let [first, sheet, out, text] = sizes.map(|size| {
        whole &= take(GUARD.len()) == GUARD;
        let held = take(size).to_vec();
        whole &= take(GUARD.len()) == GUARD;
        held
    });
    let after = Areas {
        numbers: numbers(&first),
        sheet,
        out: numbers(&out),
        text,
    };
    (Answer { returned, after }, whole)
}

fn numbers(bytes: &[u8]) -> Vec<i64> {
    let word = |x: &[u8]| i64::from_le_bytes(x.try_into().expect("eight bytes"));
    bytes.chunks(8).map(word).collect()
}

#[cfg(test)]
mod tests {
    use super::*;

    #[test]
    fn an_answer_comes_back_from_its_bytes() {
        let after = Areas {
            numbers: vec![1, -2],
            sheet: vec![3, 4, 5],
            out: vec![i64::MIN],
            text: vec![],
        };
        let answer = Answer {
            returned: -38,
            after,
        };
        let mut bytes = answer_bytes(&answer);
        assert_eq!(bytes.len(), 8 + 4 * 64 + 16 + 3 + 8);
        assert_eq!(answer_of(&bytes, &answer), (answer.clone(), true));
        bytes[8 + 32 + 16] ^= 1;
        assert_eq!(answer_of(&bytes, &answer), (answer, false));
    }
}
