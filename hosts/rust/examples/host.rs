//! A host that retires the four instructions of document 01's worked trace, saves its state and goes on from it, and
//! prints what the cost lister prints, then what the branch cache predicted of each, and then, of a second time that is
//! explained, why each cost what it did. It looks which instruction is the head, and holds the two profiles against
//! each other, and prints nothing of it.
use timing_060::{Explained, Flags, Head, Profile, Reason, Refused, Retired, Retirement, Timing060};

/// MOVE.W D1,D2 behind EOR.W D0,D1, which writes D1, explained: only the crate's profile pairs the two.
fn behind_eor(profile: Profile, flags: Flags) -> Explained {
    let mut timing = Timing060::new(profile);
    timing.retire(Retirement { op: 0xB141, flags, ppc: 0x1000, pc: 0x1002, raw: 4 });
    timing.explain(Retirement { op: 0x3401, flags, ppc: 0x1002, pc: 0x1004, raw: 4 })
}

fn main() -> Result<(), Refused> {
    let cached = Flags { flowed: false, cached: true, ess: true, ebc: true, supervisor: true };
    let flowed = Flags { flowed: true, ..cached };
    let program = [
        Retirement { op: 0x7000, flags: cached, ppc: 0x1000, pc: 0x1002, raw: 4 },
        Retirement { op: 0x7200, flags: cached, ppc: 0x1002, pc: 0x1004, raw: 4 },
        Retirement { op: 0x60FE, flags: flowed, ppc: 0x1004, pc: 0x1004, raw: 10 },
        Retirement { op: 0x60FE, flags: flowed, ppc: 0x1004, pc: 0x1004, raw: 10 },
    ];
    let mut timing = Timing060::new(Profile::Crate);
    let mut total = 0u64;
    let mut told = Vec::new();
    println!("index opcode clocks");
    for (i, r) in program.into_iter().enumerate() {
        let retired = timing.retire(r);
        total += u64::from(retired.clocks);
        told.push(retired);
        println!("{i} {:04X} {}", r.op, retired.clocks);
        // The first is the head, the second pairs with it, and branches are none.
        assert_eq!(timing.head(), (i == 0).then_some(Head { op: r.op, address: r.ppc }));
        if i == 1 {
            // A break, and the state through an image: neither changes what follows, since the window is shut here.
            timing.break_pipeline();
            timing = Timing060::from_image(&timing.image(), timing.profile())?;
        }
    }
    println!("total {} {total}", program.len());
    // The branch met a cold slot, which is why it cost 7; the second time it was predicted.
    println!("index opcode answer");
    for (i, (r, retired)) in program.into_iter().zip(&told).enumerate() {
        println!("{i} {:04X} {}", r.op, retired.answer);
    }
    // What is explained costs the same, and is for whoever asks: it takes more time.
    let mut explaining = Timing060::new(Profile::Crate);
    println!("index opcode reason");
    for (i, (r, retired)) in program.into_iter().zip(told).enumerate() {
        let Explained { clocks, answer, reason } = explaining.explain(r);
        assert_eq!(Retired { clocks, answer }, retired);
        println!("{i} {:04X} {reason}", r.op);
    }
    assert_eq!(explaining, timing);
    let behind = [Profile::Crate, Profile::Mended].map(|p| behind_eor(p, cached));
    assert_eq!(behind.map(|e| (e.clocks, e.reason)), [(0, Reason::Paired), (1, Reason::Register)]);
    Ok(())
}
