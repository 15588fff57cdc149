//! Sound calls are sound: what is refused of them is refused for what the curve, the pairs or the sheet's tail are.

use super::super::face::answer;
use super::*;

const CUT: i64 = 2;
const RANGE: i64 = 6;
const ROOM: i64 = 12;
const DEAD_END: i64 = 14;
const NO_MISSION: i64 = 15;
const OTHER_MISSION: i64 = 16;

#[test]
fn no_sound_call_is_refused_for_its_form() {
    let mut chance = Chance::new(8);
    for (function, name) in FUNCTIONS {
        for _ in 0..500 {
            let call = sound(&mut chance, function);
            let refusal = -(answer(&call).returned.min(0) % 32);
            // A built point may leave the range, an erased tail may be too short for a curve or the whole sheet, and a
            // sheet that comes in parts may end anywhere.
            let allowed = match refusal {
                CUT => matches!(function, Function::PartsEnd | Function::PartsAsk),
                1..=5 | DEAD_END | OTHER_MISSION => false,
                RANGE => function == Function::Build,
                ROOM | NO_MISSION => function == Function::Append,
                _ => true,
            };
            assert!(allowed, "{name} refused {refusal}");
        }
    }
}

#[test]
fn a_seed_makes_the_same_calls_again() {
    let calls = |seed| {
        let mut chance = Chance::new(seed);
        [0; 50].map(|_| call(&mut chance))
    };
    assert_eq!(calls(3), calls(3));
    assert_ne!(calls(3), calls(4));
}
