//! Work memory one word below and at each floor; numbers that don't fit.

use pegsienna::slices::{self, Call, Stop, Verdict, Written};

const ACK: &[u8] = include_bytes!("../../../examples/ack.script");

/// The floors, plainly.
fn judge_floor(script_len: usize, ways: u32) -> u128 {
    16_384 + 64 * script_len as u128 + 64 * u128::from(ways)
}

fn go_floor(script_len: usize, ways: u32, args_len: usize, depth: u32, room: u32) -> u128 {
    judge_floor(script_len, ways) + 4 * (args_len as u128 + u128::from(room)) + 4096 * (u128::from(depth) + 1)
}

fn fits(words: u128) -> usize {
    usize::try_from(words).unwrap_or(usize::MAX)
}

#[test]
fn the_floors_are_as_documented() {
    let sizes = [0, 1, 29, 4096, 4097, 1 << 32, usize::MAX / 64, usize::MAX - 1, usize::MAX];
    let numbers = [0, 1, 2, 4096, u32::MAX - 1, u32::MAX];
    for script in sizes {
        for ways in numbers {
            assert_eq!(slices::judge_words(script, ways), fits(judge_floor(script, ways)));
            for args in sizes {
                for depth in numbers {
                    for room in numbers {
                        assert_eq!(slices::go_words(script, ways, args, depth, room), fits(go_floor(script, ways, args, depth, room)));
                    }
                }
            }
        }
    }
}

#[test]
fn judging_at_its_floor() {
    for script in [&[][..], &[9], ACK, &[0; 5000]] {
        for ways in [0, 1, 2, 100, 4096] {
            let floor = fits(judge_floor(script.len(), ways));
            let mut work = vec![7; floor];
            assert_eq!(slices::judge(script, ways, &mut work[..floor - 1]), Verdict::Few);
            assert_eq!(slices::judge(script, ways, &mut []), Verdict::Few);
            assert_ne!(slices::judge(script, ways, &mut work), Verdict::Few);
        }
    }
}

#[test]
fn calling_at_its_floor() {
    let args = [1, 0, 0, 1, 0, 0];
    for ways in [2, 50] {
        for depth in [1, 7] {
            for room in [3, 10] {
                let floor = fits(go_floor(ACK.len(), ways, args.len(), depth, room));
                let call = Call { function: 0, args: &args, depth, room };
                let mut work = vec![u32::MAX; floor];
                let mut out = [9; 7];
                assert_eq!(slices::go(ACK, ways, call, &mut out, &mut work[..floor - 1]), Err(Stop::Small));
                assert_eq!(slices::go(ACK, ways, call, &mut out, &mut []), Err(Stop::Small));
                assert_eq!(out, [9; 7]);
                assert_eq!(slices::go(ACK, ways, call, &mut out, &mut work), Ok(Written { bytes: 7, room: room - 3 }));
                assert_eq!(slices::go(ACK, ways, call, &mut out[..6], &mut work), Err(Stop::OutFull));
                assert_eq!(slices::go(ACK, ways, call, &mut [], &mut work), Err(Stop::OutFull));
            }
        }
    }
}

#[test]
fn small_comes_before_everything_else() {
    let mut work = vec![0; 16_384];
    for (script, function, args) in [(&[9][..], 0, &[][..]), (&[], 0, &[]), (ACK, 9, &[]), (ACK, 0, &[2])] {
        let call = Call { function, args, depth: 0, room: 0 };
        assert_eq!(slices::go(script, 2, call, &mut [], &mut work), Err(Stop::Small));
        assert_eq!(slices::judge(script, u32::MAX, &mut work), Verdict::Few);
    }
    let call = Call { function: 0, args: &[0, 0], depth: u32::MAX, room: u32::MAX };
    assert_eq!(slices::go(ACK, 2, call, &mut [], &mut work), Err(Stop::Small));
}
