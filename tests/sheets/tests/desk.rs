//! Halls at the oracle's desk beside its runs alone.

use oracle::desk::{Desk, Hall, SEATS};
use oracle::run;
use sheets::{encode, problem, Rng};

/// Halls come and go; one that stays and hasn't ended is served within any eight turns, and its list and its figures are those of the run
/// alone, with the trials made for its allowance if it hasn't ended.
#[test]
fn beside_runs() {
    let mut rng = Rng::new(1);
    let mut desk = Desk::new();
    let mut seated: [Option<(Vec<u8>, u32, usize)>; SEATS] = [const { None }; SEATS];
    let mut left = [0; 2];
    for _ in 0..4000 {
        let seat = rng.below(SEATS);
        match rng.below(6) {
            0 => {
                let (sheet, allowance) = (encode(&problem(&mut rng)), rng.pick(&[0, 1, 64, 100, 128, 5000]));
                if let Ok(seat) = desk.sit(&sheet, allowance) {
                    seated[seat] = Some((sheet, allowance, 0));
                }
            }
            1 => {
                if let Some((sheet, allowance, _)) = seated[seat].take() {
                    let hall = desk.look(seat as u32).unwrap();
                    left[usize::from(hall.ending.is_some())] += 1;
                    alone(&sheet, allowance, hall);
                    desk.leave(seat as u32, &mut [0; 12 * 4096]).unwrap();
                }
            }
            _ => {
                let served = desk.turn();
                for (seat, hall) in seated.iter_mut().enumerate() {
                    if let Some((_, _, waited)) = hall {
                        *waited = if served == Some(seat) { 0 } else { *waited + 1 };
                        assert!(*waited < SEATS || !desk.waits(seat));
                    }
                }
            }
        }
    }
    assert!(left.iter().all(|&count| count > 20), "{left:?}");
}

fn alone(sheet: &[u8], allowance: u32, hall: &Hall) {
    let mut list = [0; 12 * 4096];
    let limit = if hall.ending.is_some() { allowance } else { hall.nodes };
    let outcome = run(sheet, limit, &mut list).unwrap();
    assert_eq!((hall.plans.len() as u32, hall.nodes), (outcome.plans, outcome.nodes));
    assert!(hall.ending.is_none_or(|ending| ending == outcome.ending));
    let plans = hall.plans.concat();
    assert_eq!(list[..plans.len()], plans);
}
