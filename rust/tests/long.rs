//! A machine that runs on when its grants are spent: what each core has spent is given back to it in turns.

use speck::{Advice, Grant, Machine, Refused, Value, Why};

const GRANTED: u32 = 500_000_000;
const CHARGED: u32 = 1_000_000; // the most that one call charges

#[test]
fn a_machine_spends_more_than_it_was_granted() {
    let turns = 20_000; // of 5 * 10^8 ticks: 10^13
    let grants = [Grant { budget: GRANTED, quality: 1, sched: 0 }];
    let mut machine = Machine::boot_with(16, 1 << 24, 1, &grants).expect("a machine");
    let mut port = machine.deal().expect("core 0");
    for _ in 0..turns {
        for _ in 0..GRANTED / CHARGED {
            assert_eq!(port.tick(CHARGED), Ok(Value::Amount(CHARGED)));
        }
        assert_eq!(port.replenish(12, GRANTED), Ok(Value::Nothing));
        assert_eq!(port.replenish(12, 1), Err(Refused { why: Why::Short(0), advice: Advice::Change }));
    }
    machine.take_back(port).expect("core 0's");
    let mut last = machine.finish().expect("all ports are back");
    let spent = u64::from(GRANTED) * turns;
    assert_eq!(last.core(0).map(|it| (it.spent, it.back, it.owed)), Ok((spent, spent, 0)));
    assert_eq!(last.budget(5), Ok(GRANTED));
}
