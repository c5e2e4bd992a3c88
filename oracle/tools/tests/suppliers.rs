//! Lists from elsewhere, W-203: fair placements get a yes and print what the script means, damaged lists get the model's answer, and planted faults are
//! found. With the feature `linked`, the proved functions too.

use model::{Fault, Flaw, Placement, Script, Session, Verdict, Why, FAULTS};
use oracle::agreement::{by_chance, every, Checker, Modelled, Outcomes};
use oracle::placements::{supplied, PLACEMENTS};
use oracle::random;
use oracle::rng::Rng;

fn ours() -> Box<dyn Checker> {
    #[cfg(feature = "linked")]
    return Box::new(oracle::linked::Agrees);
    #[cfg(not(feature = "linked"))]
    Box::new(Modelled(None))
}

/// Every answer and every reason for a no but the one that needs a planted fault.
const LABELS: [&str; 17] = [
    "yes, by a fair placement",
    "yes",
    "no: our rules refuse the script by  7",
    "no: the title stands on one text only",
    "no: lines too few",
    "no: lines too many",
    "no: another opcode",
    "no: another operand",
    "no: a slot is given while it is held",
    "no: there is no such slot",
    "no: not its allocation's own address",
    "no: not ffff",
    "no: another count of a drain",
    "no: another address or order in a drain",
    "no: an address isn't below the size",
    "refused by 1, the script",
    "refused by 1, the list",
];

#[track_caller]
fn no_difference(found: (Outcomes, Option<(oracle::suppliers::Case, String)>)) -> Outcomes {
    let (outcomes, differs) = found;
    if let Some((case, why)) = differs {
        panic!("{case}\n  {why}");
    }
    outcomes
}

#[test]
fn lists_by_chance() {
    let outcomes = no_difference(by_chance(ours().as_mut(), 2500, 203));
    for label in LABELS.iter().chain(&["refused by 2"]) {
        assert!(outcomes.of(label) > 0, "{label}: {outcomes}");
    }
    assert_eq!(outcomes.of("no: stopped"), 0, "{outcomes}");
    assert!(outcomes.of("yes, by a fair") > 600, "{outcomes}");
}

#[test]
fn every_short_list() {
    let outcomes = no_difference(every(ours().as_mut(), 2));
    assert!(outcomes.of("yes") > 250, "{outcomes}");
    assert!(outcomes.of("no") > 7000, "{outcomes}");
    assert_eq!(outcomes.of("refused"), 0, "{outcomes}");
}

/// By the model: a frame that our rules take is stopped by a missing slot alone, wherever the others went.
#[test]
fn each_fair_placement() {
    for (name, choose) in PLACEMENTS {
        let (mut rng, mut yes, mut elsewhere) = (Rng::new(203), 0, 0);
        for i in 0..300 {
            let made = [random::any, random::tight][i % 2](&mut rng);
            let script = Script {
                placement: made.placement,
                frames: made.frames,
            };
            let list = supplied(&mut rng, &script, choose);
            if !list.whole {
                continue;
            }
            let list = model::write_list(&list.lines, list.size);
            let answer = model::verdict(&script.text(), &list).expect("two texts");
            match answer {
                Verdict::Yes => yes += 1,
                Verdict::No(Why::Refused(refusal)) => assert_eq!(refusal.number, 7, "{name}"),
                Verdict::No(why) => panic!("{name}: {why:?}"),
            }
            elsewhere += usize::from(list != model::translator(&script.text()));
        }
        assert!(yes > 200 && elsewhere > 15, "{name}: {yes}, {elsewhere}");
    }
}

/// The slots of a fair placement were clear: the session says so before each allocation.
#[test]
fn fair_placements_give_clear_slots() {
    for (name, choose) in PLACEMENTS {
        let (mut rng, mut given) = (Rng::new(203), 0);
        let mut session = Session::new(Placement::ByHead, None);
        for n in (1..40).chain([200, 100, 1]) {
            let slots = &session.scopes.slots;
            let Some(first) = choose(&mut rng, slots, n) else {
                continue;
            };
            let clear = |slot| slot < model::SLOTS && !slots.occupied(slot);
            assert!((first..first + n).all(clear), "{name}");
            session.scopes.slots.place(Placement::Exactly(first));
            let run = model::Frame::Linear(n as u16);
            let shown = session.step(run).map(|line| line.operands);
            assert_eq!(shown, Ok(vec![first as u16]), "{name}");
            given += n;
        }
        assert!(given > 500, "{name}: {given}");
    }
}

/// Each fault of lists from elsewhere is found by a case by chance.
#[test]
fn faults_of_lists_from_elsewhere_are_found() {
    let of_suppliers = FAULTS
        .iter()
        .skip_while(|(_, f)| *f != Fault::SizeUnseen)
        .take_while(|(_, f)| *f != Fault::SizeLineKept);
    for (name, fault) in of_suppliers {
        let (_, found) = by_chance(&mut Modelled(Some(*fault)), 3000, 3);
        let (case, why) = found.expect(name);
        assert!(why.starts_with("the model: "), "{name}: {case}\n  {why}");
    }
}

/// What a yes without the held slots would print: the fault that this rig knows, found by running the list.
#[test]
fn a_shared_slot_prints_something_else() {
    let script = b"06\n06\n1000000007\n1000010009\n110000\n";
    let list = b"060003\n060003\n1000030007\n1000030009\n110003\n900004\n";
    let (slot, handle) = (3, 0);
    let held = Verdict::No(Why::Line(1, Flaw::Held { slot, handle }));
    assert_eq!(model::verdict(script, list), Ok(held));
    let fault = Some(Fault::GivenWhileHeld);
    assert_eq!(model::verdict_with(script, list, fault), Ok(Verdict::Yes));
    assert_eq!(model::runner(list), b"a00009\n");
    assert_eq!(model::runner(&model::translator(script)), b"a00007\n");
}

/// The old allocator as a supplier: what it writes gets a yes, also outside 01's domain, unless it has given a slot twice.
#[test]
fn the_originals_lists() {
    let (mut rng, mut yes, mut outside, mut twice) = (Rng::new(203), 0, 0, 0);
    for _ in 0..2000 {
        let made = random::script(&mut rng);
        let driven = rune::drive(&made.frames);
        let script = made.text();
        if driven.stop.is_some() || model::translator(&script).starts_with(b"ee") {
            continue;
        }
        let answer = model::verdict(&script, &driven.list).expect("two texts");
        match driven.shared {
            None => {
                assert_eq!(answer, Verdict::Yes);
                yes += 1;
                outside += usize::from(driven.list != model::translator(&script));
            }
            Some(shared) => {
                let (slot, handle) = (shared.address, shared.older);
                let held = Flaw::Held { slot, handle };
                assert_eq!(answer, Verdict::No(Why::Line(shared.line, held)));
                twice += 1;
            }
        }
    }
    assert!(
        yes > 1500 && outside > 2 && twice > 2,
        "{yes} {outside} {twice}"
    );
}
