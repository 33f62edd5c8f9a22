use timing_060::*;

const PROFILES: [Profile; 2] = [Profile::Crate, Profile::Mended];
const CACHED: Flags = Flags { flowed: false, cached: true, ess: true, ebc: true, supervisor: true };

fn program() -> [Retirement; 4] {
    let flowed = Flags { flowed: true, ..CACHED };
    [
        Retirement { op: 0x7000, flags: CACHED, ppc: 0x1000, pc: 0x1002, raw: 4 },
        Retirement { op: 0x7200, flags: CACHED, ppc: 0x1002, pc: 0x1004, raw: 4 },
        Retirement { op: 0x60FE, flags: flowed, ppc: 0x1004, pc: 0x1004, raw: 10 },
        Retirement { op: 0x60FE, flags: flowed, ppc: 0x1004, pc: 0x1004, raw: 10 },
    ]
}

/// The same as the bytes of a trace.
#[rustfmt::skip]
const TRACE: [u8; 4 * RECORD_BYTES] = [
    0x10, 0, 1, 0, 0x00, 0x70, 0x1E, 0, 0x00, 0x10, 0, 0, 0x02, 0x10, 0, 0, 4, 0, 0, 0,
    0x10, 0, 1, 0, 0x00, 0x72, 0x1E, 0, 0x02, 0x10, 0, 0, 0x04, 0x10, 0, 0, 4, 0, 0, 0,
    0x10, 0, 1, 0, 0xFE, 0x60, 0x1F, 0, 0x04, 0x10, 0, 0, 0x04, 0x10, 0, 0, 10, 0, 0, 0,
    0x10, 0, 1, 0, 0xFE, 0x60, 0x1F, 0, 0x04, 0x10, 0, 0, 0x04, 0x10, 0, 0, 10, 0, 0, 0,
];

/// EOR.W D0,D1 and MOVE.W D1,D2, which reads what the EOR writes.
const OVER_PAIRED: [Retirement; 2] = [
    Retirement { op: 0xB141, flags: CACHED, ppc: 0x1000, pc: 0x1002, raw: 4 },
    Retirement { op: 0x3401, flags: CACHED, ppc: 0x1002, pc: 0x1004, raw: 4 },
];

fn refused<T>(refusal: Refusal, place: u64) -> Result<T, Refused> {
    Err(Refused { refusal, place })
}

/// What the four retirements of the program give.
fn retired() -> [Retired; 4] {
    [(1, Answer::NotConsulted), (0, Answer::NotConsulted), (7, Answer::Miss), (1, Answer::PredictedTaken)]
        .map(|(clocks, answer)| Retired { clocks, answer })
}

#[test]
fn step_by_step() {
    for profile in PROFILES {
        let mut t = Timing060::new(profile);
        assert_eq!(program().map(|r| t.retire(r)), retired());
    }
}

/// BNE as it is met, each time with its clocks and what the cache predicted: in steps, in a batch and in a trace.
#[test]
fn answers() {
    let kept = Retirement { op: 0x66FC, flags: CACHED, ppc: 0x1008, pc: 0x100A, raw: 8 };
    let taken = Retirement { flags: Flags { flowed: true, ..CACHED }, pc: 0x1006, raw: 10, ..kept };
    let other = Retirement { ppc: 0x1208, pc: 0x1206, ..taken }; // shares the slot
    let off = Retirement { flags: Flags { ebc: false, ..taken.flags }, ..taken };
    let uncached = Retirement { flags: Flags { cached: false, ..taken.flags }, ..taken };
    let meetings = [
        (off, 7, Answer::NotConsulted),
        (uncached, 7, Answer::NotConsulted),
        (kept, 1, Answer::Miss),
        (taken, 7, Answer::Miss),
        (taken, 1, Answer::PredictedTaken),
        (kept, 7, Answer::PredictedTaken),
        (kept, 7, Answer::PredictedTaken),
        (kept, 1, Answer::PredictedNotTaken),
        (taken, 7, Answer::PredictedNotTaken),
        (other, 7, Answer::Miss),
        (taken, 7, Answer::Miss),
        (program()[0], 1, Answer::NotConsulted),
        (taken, 0, Answer::PredictedTaken),
    ];
    let records = meetings.map(|(r, _, _)| Record::from(r));
    let trace: Vec<u8> = meetings.iter().flat_map(|(r, _, _)| bytes_of(r)).collect();
    let numbers = meetings.map(|(_, _, answer)| answer.number());
    let clocks = meetings.map(|(_, clocks, _)| clocks);
    for profile in PROFILES {
        let mut t = Timing060::new(profile);
        for (i, (r, clocks, answer)) in meetings.into_iter().enumerate() {
            assert_eq!(t.retire(r), Retired { clocks, answer }, "{i}");
        }
        let (mut costs, mut answers) = ([9; 13], [9; 13]);
        let mut batch = Timing060::new(profile);
        assert!(batch.run_batch(&records, &mut costs, &mut answers).is_ok());
        assert_eq!((&batch, costs, answers), (&t, clocks, numbers));
        let (mut bytes, mut answers) = ([9; 13 * COST_BYTES], [9; 13 * ANSWER_BYTES]);
        let mut run = Timing060::new(profile);
        assert!(run.run_trace(&trace, &mut bytes, &mut answers).is_ok());
        assert_eq!((&run, answers), (&t, numbers));
        assert_eq!(bytes.to_vec(), clocks.iter().flat_map(|c: &u32| c.to_le_bytes()).collect::<Vec<u8>>());
        t.clear_all();
        assert_eq!(t.retire(taken), Retired { clocks: 7, answer: Answer::Miss });
    }
}

/// All reasons, by their numbers.
const REASONS: [Reason; 14] = [
    Reason::Paired,
    Reason::WindowShut,
    Reason::EssOff,
    Reason::NotCached,
    Reason::NotSimple,
    Reason::Register,
    Reason::Ccr,
    Reason::Memory,
    Reason::Refill,
    Reason::Folded,
    Reason::Alone,
    Reason::NotTaken,
    Reason::Mispredicted,
    Reason::Static,
];

/// Retirements that come to each reason, one after the other: the window that one leaves is what the next meets.
fn explained() -> Vec<(Retirement, Explained)> {
    use Answer::*;
    let of = |op, flags, ppc, pc, raw| Retirement { op, flags, ppc, pc, raw };
    let (no_ess, fetched) = (Flags { ess: false, ..CACHED }, Flags { cached: false, ..CACHED });
    let flowed = Flags { flowed: true, ..CACHED };
    let kept = of(0x66FC, CACHED, 0x2008, 0x200A, 8); // BNE
    let taken = of(0x66FC, flowed, 0x2008, 0x2006, 10);
    let off = Retirement { flags: Flags { ebc: false, ..flowed }, ..taken };
    let moveq = |op, flags| of(op, flags, 0x1000, 0x1002, 4); // into D0, D1, D2, D3: 7000, 7200, 7400, 7600
    let rts = of(0x4E75, flowed, 0x101E, 0x2000, 16);
    let met = [
        (moveq(0x7000, CACHED), 1, NotConsulted, Reason::WindowShut),
        (moveq(0x7200, CACHED), 0, NotConsulted, Reason::Paired),
        (moveq(0x7000, CACHED), 1, NotConsulted, Reason::WindowShut), // the pair left no head
        (moveq(0x7200, no_ess), 1, NotConsulted, Reason::EssOff),     // it is the next head
        (moveq(0x7400, fetched), 1, NotConsulted, Reason::NotCached),
        (moveq(0x7600, CACHED), 1, NotConsulted, Reason::NotCached), // its head was not
        (of(0x4E71, CACHED, 0x100C, 0x100E, 4), 1, NotConsulted, Reason::NotSimple), // NOP is of class 1, and no head
        (moveq(0x7000, CACHED), 1, NotConsulted, Reason::WindowShut),
        (of(0x3230, CACHED, 0x1010, 0x1014, 14), 2, NotConsulted, Reason::NotSimple), // MOVE.W (d8,A0,Xn),D1
        (of(0xD200, CACHED, 0x1014, 0x1016, 4), 1, NotConsulted, Reason::Register),   // ADD.B D0,D1: the head writes D1
        (of(0x57C0, CACHED, 0x1016, 0x1018, 4), 1, NotConsulted, Reason::Ccr),        // SEQ D0: ADD sets the CCR
        (of(0x3410, CACHED, 0x1018, 0x101A, 8), 0, NotConsulted, Reason::Paired),     // MOVE.W (A0),D2
        (of(0x3410, CACHED, 0x101A, 0x101C, 8), 1, NotConsulted, Reason::WindowShut),
        (of(0x3211, CACHED, 0x101C, 0x101E, 8), 1, NotConsulted, Reason::Memory), // MOVE.W (A1),D1
        (rts, 5, NotConsulted, Reason::Refill),
        (off, 7, NotConsulted, Reason::Static),
        (kept, 1, Miss, Reason::NotTaken),
        (taken, 7, Miss, Reason::Mispredicted),
        (taken, 1, PredictedTaken, Reason::Alone),
        (moveq(0x7000, CACHED), 1, NotConsulted, Reason::WindowShut),
        (taken, 0, PredictedTaken, Reason::Folded),
        (kept, 7, PredictedTaken, Reason::Mispredicted),
        (kept, 7, PredictedTaken, Reason::Mispredicted),
        (kept, 1, PredictedNotTaken, Reason::NotTaken),
        (taken, 7, PredictedNotTaken, Reason::Mispredicted),
        (of(0x51C8, fetched, 0x200A, 0x2000, 10), 2, NotConsulted, Reason::Static), // DBF loops
        (of(0x51C8, fetched, 0x200A, 0x200E, 14), 3, NotConsulted, Reason::Static), // and ends
        (Retirement { raw: -1, ..rts }, 5, NotConsulted, Reason::Refill),
        (Retirement { raw: i32::MAX, ..rts }, 0x1FFF_FFFF, NotConsulted, Reason::Refill),
    ];
    met.map(|(r, clocks, answer, reason)| (r, Explained { clocks, answer, reason })).to_vec()
}

/// Each reason, in steps and in a trace; a break goes before each that finds the window shut, and has no reason.
#[test]
fn reasons() {
    let met = explained();
    assert!(REASONS.iter().all(|reason| met.iter().any(|(_, e)| e.reason == *reason)));
    let with_break = |(r, e): &(Retirement, Explained)| {
        let a_break: &[u8] = if e.reason == Reason::WindowShut { &[0, 0, 2, 0] } else { &[] };
        [a_break, &bytes_of(r)].concat()
    };
    let trace: Vec<u8> = met.iter().flat_map(with_break).collect();
    let total = met.iter().map(|(_, e)| u64::from(e.clocks)).sum();
    for profile in PROFILES {
        let mut t = Timing060::new(profile);
        let mut plain = t.clone();
        for (i, (r, e)) in met.iter().enumerate() {
            assert_eq!(t.explain(*r), *e, "{i}");
            assert_eq!(plain.retire(*r), Retired { clocks: e.clocks, answer: e.answer }, "{i}");
            assert_eq!(t, plain, "{i}");
        }
        let [mut costs, mut answers, mut reasons] =
            [COST_BYTES, ANSWER_BYTES, REASON_BYTES].map(|bytes| vec![99; bytes * met.len()]);
        let mut run = Timing060::new(profile);
        let ran = run.explain_trace(&trace, &mut costs, &mut answers, &mut reasons);
        assert_eq!(ran, Ok(Ran { count: met.len() as u64, total }));
        assert_eq!(run, t);
        assert_eq!(costs, met.iter().flat_map(|(_, e)| e.clocks.to_le_bytes()).collect::<Vec<u8>>());
        assert_eq!(answers, met.iter().map(|(_, e)| e.answer.number()).collect::<Vec<u8>>());
        assert_eq!(reasons, met.iter().map(|(_, e)| e.reason.number()).collect::<Vec<u8>>());
    }
}

/// Every opcode, mostly behind another: explained it gives and leaves what a step does, costs what its reason says, and
/// where that is a register has one in common with the head.
#[test]
fn explained_opcodes() {
    for profile in PROFILES {
        let (mut t, mut plain) = (Timing060::new(profile), Timing060::new(profile));
        for i in 0..0x4_0000u32 {
            let (op, ppc) = (i.wrapping_mul(40503) as u16, 2 * (i % 600));
            let flags = Flags { flowed: i % 5 == 0, cached: i % 7 != 0, ess: i % 11 != 0, ebc: i % 13 != 0, ..CACHED };
            let r = Retirement { op, flags, ppc, pc: ppc + 2 + (i & 2), raw: 20 };
            let (m, head) = (masks(op, profile), t.head().map_or(0, |head| masks(head.op, profile).defs));
            let Explained { clocks, answer, reason } = t.explain(r);
            assert_eq!(Retired { clocks, answer }, plain.retire(r), "{r:?}");
            assert_eq!(t.head(), plain.head(), "{r:?}");
            assert_eq!(clocks == 0, matches!(reason, Reason::Paired | Reason::Folded), "{r:?}");
            match reason {
                Reason::Register => assert_ne!((m.uses | m.defs) & head, 0, "{r:?}"),
                Reason::Paired | Reason::Ccr | Reason::Memory => assert_eq!((m.uses | m.defs) & head, 0, "{r:?}"),
                Reason::Alone | Reason::NotTaken => assert_eq!(clocks, 1, "{r:?}"),
                Reason::Mispredicted => assert_eq!(clocks, 7, "{r:?}"),
                _ => {}
            }
        }
        assert_eq!(t, plain);
    }
}

/// Too little room for one of the three, or none, and faulty traces: all is refused, and nothing written.
#[test]
fn explained_trace_and_refusals() {
    let mut t = Timing060::new(Profile::Mended);
    let (mut costs, mut answers, mut reasons) = ([0xAA; 17], [0xAA; 5], [0xAA; 5]);
    assert_eq!(t.explain_trace(&TRACE, &mut costs, &mut answers, &mut reasons), Ok(Ran { count: 4, total: 9 }));
    assert_eq!(costs, [1, 0, 0, 0, 0, 0, 0, 0, 7, 0, 0, 0, 1, 0, 0, 0, 0xAA]);
    assert_eq!((answers, reasons), ([0, 0, 1, 3, 0xAA], [1, 0, 12, 10, 0xAA]));
    let before = (t.clone(), costs, answers, reasons);
    let mut refusal = |trace: &[u8], [c, a, r]: [usize; 3]| {
        t.explain_trace(trace, &mut costs[..c], &mut answers[..a], &mut reasons[..r])
    };
    for rooms in [[15, 5, 5], [17, 3, 5], [17, 5, 3], [0, 5, 5], [17, 0, 5], [17, 5, 0], [0, 0, 0]] {
        assert_eq!(refusal(&TRACE, rooms), refused(Refusal::Room, 80), "{rooms:?}");
    }
    // the room is looked at last
    let with = |at: usize, byte: u8| {
        let mut trace = TRACE;
        trace[at] = byte;
        trace
    };
    for rooms in [[17, 5, 5], [17, 5, 0]] {
        assert_eq!(refusal(&vec![0; TRACE_BYTES + 1], rooms), refused(Refusal::Oversized, 0));
        assert_eq!(refusal(&TRACE[..23], rooms), refused(Refusal::Remainder, 20));
        assert_eq!(refusal(&with(22, 5), rooms), refused(Refusal::WrongKind, 20));
        assert_eq!(refusal(&with(40, 15), rooms), refused(Refusal::WrongLength, 40));
        assert_eq!(refusal(&TRACE[..79], rooms), refused(Refusal::Cut, 60));
        assert_eq!(refusal(&with(26, 0x3E), rooms), refused(Refusal::Flag, 20));
    }
    for rooms in [[0, 0, 0], [17, 5, 5]] {
        assert_eq!(refusal(&[], rooms), Ok(Ran { count: 0, total: 0 }));
    }
    assert_eq!((t, costs, answers, reasons), before);
}

/// Numbers and words of the reasons.
#[test]
fn reasons_as_bytes() {
    assert_eq!(REASONS.map(Reason::number), std::array::from_fn(|i| i as u8));
    assert_eq!(REASONS.map(|reason| Reason::of(reason.number())), REASONS.map(Some));
    assert!((14..=255).all(|byte| Reason::of(byte).is_none()));
    let words = "paired window-shut ess-off not-cached not-simple register ccr memory refill folded alone not-taken \
                 mispredicted static";
    assert_eq!(REASONS.map(Reason::word).join(" "), words);
    assert_eq!(REASONS.map(|reason| reason.to_string()), REASONS.map(Reason::word));
}

/// A retirement as a trace has it.
fn bytes_of(r: &Retirement) -> Vec<u8> {
    let Flags { flowed, cached, ess, ebc, supervisor } = r.flags;
    let flags = [flowed, cached, ess, ebc, supervisor].iter().rev().fold(0u16, |bits, &flag| bits << 1 | flag as u16);
    let numbers = [&[16, 0, 1, 0][..], &r.op.to_le_bytes(), &flags.to_le_bytes()].concat();
    [&numbers[..], &r.ppc.to_le_bytes(), &r.pc.to_le_bytes(), &r.raw.to_le_bytes()].concat()
}

/// Numbers and words of the answers.
#[test]
fn answers_as_bytes() {
    let all = [Answer::NotConsulted, Answer::Miss, Answer::PredictedNotTaken, Answer::PredictedTaken];
    assert_eq!(all.map(Answer::number), [0, 1, 2, 3]);
    assert_eq!(all.map(|answer| Answer::of(answer.number())), all.map(Some));
    assert!((4..=255).all(|byte| Answer::of(byte).is_none()));
    assert_eq!(all.map(|a| a.to_string()), ["not consulted", "miss", "predicted not taken", "predicted taken"]);
}

/// Only the crate's profile pairs behind EOR: in steps, from an image, in a batch and in a trace.
#[test]
fn over_paired() {
    let records = OVER_PAIRED.map(Record::from);
    let mut trace = TRACE[..2 * RECORD_BYTES].to_vec();
    trace[4..6].copy_from_slice(&OVER_PAIRED[0].op.to_le_bytes());
    trace[24..26].copy_from_slice(&OVER_PAIRED[1].op.to_le_bytes());
    for (profile, second) in PROFILES.into_iter().zip([0, 1]) {
        let fresh = Timing060::new(profile);
        let mut t = fresh.clone();
        assert_eq!(t.retire(OVER_PAIRED[0]).clocks, 1);
        let mut read = Timing060::from_image(&t.image(), profile).unwrap();
        assert_eq!(read, t);
        let reason = if second == 0 { Reason::Paired } else { Reason::Register };
        assert_eq!(t.clone().explain(OVER_PAIRED[1]).reason, reason);
        assert_eq!([&mut t, &mut read].map(|state| state.retire(OVER_PAIRED[1]).clocks), [second, second]);
        t.break_pipeline();
        t.clear_all();
        t.clear_user();
        assert_eq!((t.profile(), read.profile()), (profile, profile));
        let ran = Ok(Ran { count: 2, total: 1 + u64::from(second) });
        let (mut costs, mut bytes, mut answers) = ([9; 2], [9; 2 * COST_BYTES], [9; 2]);
        assert_eq!(fresh.clone().run_batch(&records, &mut costs, &mut answers), ran);
        assert_eq!(fresh.clone().run_trace(&trace, &mut bytes, &mut answers), ran);
        assert_eq!((costs, bytes), ([1, second], [1, 0, 0, 0, second as u8, 0, 0, 0]));
        let mut reasons = [99; 2];
        assert_eq!(fresh.clone().explain_trace(&trace, &mut bytes, &mut answers, &mut reasons), ran);
        assert_eq!(reasons, [Reason::WindowShut, reason].map(Reason::number));
    }
    assert_eq!(Timing060::default(), Timing060::new(Profile::Crate));
    assert_ne!(Timing060::default(), Timing060::new(Profile::Mended));
}

/// An image in the other profile: the window keeps what the head defines, and what follows is read anew.
#[test]
fn image_in_the_other_profile() {
    for (head, follower, second) in [(Profile::Crate, Profile::Mended, 0), (Profile::Mended, Profile::Crate, 1)] {
        let mut t = Timing060::new(head);
        t.retire(OVER_PAIRED[0]);
        let mut t = Timing060::from_image(&t.image(), follower).unwrap();
        assert_eq!((t.profile(), t.retire(OVER_PAIRED[1]).clocks), (follower, second));
    }
}

#[test]
fn batch_and_places_beyond() {
    let mut t = Timing060::new(Profile::Crate);
    let records = program().map(Record::from);
    let (mut costs, mut answers) = ([9; 6], [9; 6]);
    assert_eq!(t.run_batch(&records, &mut costs, &mut answers), Ok(Ran { count: 4, total: 9 }));
    assert_eq!((costs, answers), ([1, 0, 7, 1, 9, 9], [0, 0, 1, 3, 9, 9]));
    let before = (t.clone(), costs, answers);
    assert_eq!(t.run_batch(&records, &mut costs[..3], &mut answers), refused(Refusal::Room, 0));
    assert_eq!(t.run_batch(&records, &mut costs, &mut answers[..3]), refused(Refusal::Room, 0));
    assert_eq!(t.run_batch(&records, &mut costs, &mut []), refused(Refusal::Room, 0));
    let many = vec![records[0]; BATCH_RECORDS + 1];
    assert_eq!(t.run_batch(&many, &mut costs, &mut answers), refused(Refusal::Oversized, 0));
    assert_eq!(t.run_batch(&[], &mut [], &mut []), Ok(Ran { count: 0, total: 0 }));
    assert_eq!(t.run_batch(&[], &mut costs, &mut answers), Ok(Ran { count: 0, total: 0 }));
    assert_eq!((t, costs, answers), before);
}

#[test]
fn trace_and_refusals() {
    let mut t = Timing060::new(Profile::Crate);
    let (mut costs, mut answers) = ([0xAA; 4 * COST_BYTES + 1], [0xAA; 4 * ANSWER_BYTES + 1]);
    assert_eq!(t.run_trace(&TRACE, &mut costs, &mut answers), Ok(Ran { count: 4, total: 9 }));
    assert_eq!(costs, [1, 0, 0, 0, 0, 0, 0, 0, 7, 0, 0, 0, 1, 0, 0, 0, 0xAA]);
    assert_eq!(answers, [0, 0, 1, 3, 0xAA]);
    let before = (t.clone(), costs, answers);
    let with = |at: usize, byte: u8| {
        let mut trace = TRACE;
        trace[at] = byte;
        trace
    };
    // the room is looked at last
    for room in [0, 4] {
        let mut refusal = |trace: &[u8]| t.run_trace(trace, &mut costs, &mut answers[..room]);
        assert_eq!(refusal(&vec![0; TRACE_BYTES + 1]), refused(Refusal::Oversized, 0));
        assert_eq!(refusal(&TRACE[..23]), refused(Refusal::Remainder, 20));
        assert_eq!(refusal(&with(22, 5)), refused(Refusal::WrongKind, 20));
        assert_eq!(refusal(&with(40, 15)), refused(Refusal::WrongLength, 40));
        assert_eq!(refusal(&TRACE[..79]), refused(Refusal::Cut, 60));
        assert_eq!(refusal(&with(26, 0x3E)), refused(Refusal::Flag, 20));
    }
    assert_eq!(t.run_trace(&TRACE, &mut costs[..15], &mut answers), refused(Refusal::Room, 80));
    assert_eq!(t.run_trace(&TRACE, &mut costs, &mut answers[..3]), refused(Refusal::Room, 80));
    assert_eq!(t.run_trace(&TRACE, &mut costs, &mut []), refused(Refusal::Room, 80));
    assert_eq!(t.run_trace(&[], &mut [], &mut []), Ok(Ran { count: 0, total: 0 }));
    assert_eq!((t, costs, answers), before);
}

/// MOVEQ is the head through clears and images; what does not pair is the next head, and what shuts the window leaves
/// none.
#[test]
fn heads() {
    let [moveq, pairing, branch, _] = program();
    let first = Retirement { ppc: 0x1234_5678, pc: 0x1234_567A, ..moveq };
    let rts = Retirement { op: 0x4E75, ..branch };
    let class_1 = Retirement { op: 0xD1C0, ..pairing };
    let head = |r: Retirement| Some(Head { op: r.op, address: r.ppc });
    for profile in PROFILES {
        let mut t = Timing060::new(profile);
        assert_eq!(t.head(), None);
        t.retire(first);
        assert_eq!(t.head(), head(first));
        t.clear_user();
        t.clear_all();
        assert_eq!(t.head(), head(first));
        let mut t = Timing060::from_image(&t.image(), profile).unwrap();
        assert_eq!(t.head(), head(first));
        for shutting in [pairing, branch, rts, class_1] {
            let mut shut = t.clone();
            shut.retire(shutting);
            assert_eq!(shut.head(), None, "{:04X}", shutting.op);
        }
        t.retire(moveq);
        assert_eq!(t.head(), head(moveq));
        t.break_pipeline();
        assert_eq!(t.head(), None);
    }
}

/// Runs leave the head of their last retirement, and a refused one leaves the old head.
#[test]
fn heads_of_runs() {
    let (mut costs, mut bytes, mut answers) = ([9; 1], [9; COST_BYTES], [9; 4]);
    let head = Some(Head { op: 0x7000, address: 0x1000 });
    let mut t = Timing060::new(Profile::Crate);
    assert!(t.run_batch(&program().map(Record::from)[..1], &mut costs, &mut answers).is_ok());
    assert_eq!(t.head(), head);
    assert!(t.run_batch(&program().map(Record::from), &mut costs, &mut answers).is_err());
    assert!(t.run_trace(&TRACE, &mut bytes, &mut answers).is_err());
    assert_eq!(t.head(), head);
    t.break_pipeline();
    assert!(t.run_trace(&TRACE[..RECORD_BYTES], &mut bytes, &mut answers).is_ok());
    assert_eq!(t.head(), head);
}

#[test]
fn images() {
    let mut t = Timing060::new(Profile::Crate);
    for r in program() {
        t.retire(r);
    }
    t.retire(program()[0]);
    let image = t.image();
    assert_eq!(Timing060::from_image(&image, Profile::Crate), Ok(t.clone()));
    assert_eq!(&image[..4], [0x0A, 0x05, 17, 0]);
    assert_eq!(&image[1284..], [1, 1, 0, 5, 0x00, 0x10, 0, 0, 0x00, 0x70]);
    t.break_pipeline();
    assert_eq!(&t.image()[1284..], [0; 10]);
    t.clear_user();
    assert_eq!(&t.image()[..1284], &image[..1284]);
    t.clear_all();
    assert!(t.image()[1028..].iter().all(|b| *b == 0));
}

/// The first bytes of an image under another header: its payload length and its kind.
fn headed(image: &[u8], bytes: usize, payload: u16, kind: u16) -> Vec<u8> {
    let mut other = image[..bytes].to_vec();
    other[..2].copy_from_slice(&payload.to_le_bytes());
    other[2..4].copy_from_slice(&kind.to_le_bytes());
    other
}

/// Kind 16 has no head: read it is 0 at 0, written again zeros, and what follows costs the same.
#[test]
fn old_images() {
    for shut in [false, true] {
        let mut t = Timing060::new(Profile::Crate);
        t.retire(program()[2]);
        t.retire(program()[0]);
        if shut {
            t.break_pipeline();
        }
        let old = headed(&t.image(), OLD_IMAGE_BYTES, 1284, 16);
        let mut read = Timing060::from_image(&old, Profile::Crate).unwrap();
        assert_eq!(read.head(), (!shut).then_some(Head { op: 0, address: 0 }));
        assert_eq!(read == t, shut);
        let mut again = t.image();
        again[OLD_IMAGE_BYTES..].fill(0);
        assert_eq!(read.image(), again);
        assert_eq!(read.retire(program()[1]), t.retire(program()[1]));
        assert_eq!(read, t);
    }
}

#[test]
fn refused_images() {
    let mut t = Timing060::new(Profile::Crate);
    t.retire(program()[0]);
    let image = [&t.image()[..], &[0]].concat();
    let read = |image: &[u8]| Timing060::from_image(image, Profile::Mended);
    assert_eq!(read(&[]), refused(Refusal::ImageLength, 0));
    for bytes in [4, 1287, 1289, 1293, 1295] {
        assert_eq!(read(&headed(&image, bytes, 1284, 16)), refused(Refusal::ImageLength, 0), "{bytes}");
        assert_eq!(read(&headed(&image, bytes, 1290, 17)), refused(Refusal::ImageLength, 0), "{bytes}");
    }
    for (bytes, payload, kind) in [(1288, 1284, 16), (1294, 1290, 17)] {
        for (other, number) in [(1284, 16), (1284, 17), (1290, 16), (1290, 17), (payload + 1, kind), (payload, 18)] {
            let header_wrong = (other, number) != (payload, kind);
            let given = read(&headed(&image, bytes, other, number)).err();
            let expected = header_wrong.then_some(Refused { refusal: Refusal::ImageHeader, place: 0 });
            assert_eq!(given, expected, "{bytes} {other} {number}");
        }
        // open above 1, a bit above 2, and bytes of a shut window that are not zero, the head's included
        let with = |open: u8, at: usize, byte: u8| {
            let mut other = headed(&image, bytes, payload, kind);
            other[1284..].fill(0);
            other[1284] = open;
            other[at] = byte;
            other
        };
        assert!(read(&with(0, 1285, 0)).is_ok());
        assert_eq!(read(&with(0, 1284, 2)), refused(Refusal::ImageWindow, 1284));
        assert_eq!(read(&with(1, 1287, 8)), refused(Refusal::ImageWindow, 1284));
        for at in 1285..bytes {
            assert_eq!(read(&with(0, at, 1)), refused(Refusal::ImageWindow, 1284), "{at}");
            assert!(read(&with(1, at, 1)).is_ok(), "{at}");
        }
    }
}

#[test]
fn opcodes() {
    let of = |op, profile| (class_word(op, profile), masks(op, profile));
    for profile in PROFILES {
        assert_eq!(of(0x7000, profile), (0x0404, Masks { uses: 0, defs: 1 }));
    }
    assert_eq!(of(0x49D0, Profile::Crate), (0xC404, Masks { uses: 0x0100, defs: 0x1000 }));
    assert_eq!(of(0xB141, Profile::Crate), (0x0404, Masks { uses: 3, defs: 0 }));
    assert_eq!(of(0xB141, Profile::Mended), (0x0404, Masks { uses: 3, defs: 2 }));
    assert_eq!(of(0x49C0, Profile::Mended), (0x0404, Masks { uses: 1, defs: 1 }));
    assert_eq!(of(0xB308, Profile::Mended), (0x4404, Masks { uses: 0x0300, defs: 0x0300 }));
    // MOVES as what is unclassified, UNPK as PACK, CHK and LEA on register 4 as on register 0
    for (op, other) in [(0x0E00, 0xA000), (0x8180, 0x8140), (0x4900, 0x4100), (0x4980, 0x4180), (0x49D0, 0x41D0)] {
        assert_eq!(class_word(op, Profile::Mended), class_word(other, Profile::Crate), "{op:04X}");
        assert_eq!(masks(op, Profile::Mended), masks(op, Profile::Crate), "{op:04X}");
    }
}

#[test]
fn an_error() {
    let said = |image: &[u8]| {
        let e: Box<dyn std::error::Error> = Box::new(Timing060::from_image(image, Profile::Crate).unwrap_err());
        e.to_string()
    };
    assert_eq!(said(&[0; 1289]), "refused 8 at 0: the image is neither 1,288 nor 1,294 bytes long");
    assert_eq!(said(&[0; OLD_IMAGE_BYTES]), "refused 9 at 0: the image's header does not match its length");
    assert_eq!(said(&[0; IMAGE_BYTES]), "refused 9 at 0: the image's header does not match its length");
}
