//! The history keeper goes along with a good engine and sees through bad ones.

mod common;

use common::World;
use compare::build::{
    empty_image, empty_image_of, item_at, lock_item, name, open_item, put_item, Entry, Fcb,
};
use compare::deed::Deed;
use compare::history::{groups_with_block, History, Noted};
use reference::kind::Kind;

const NUMBERS: [u32; 3] = [5, 2, 3];

/// A call with its FCB, count and the caller's File ID.
struct Step(u32, u32, Fcb, u32, u8);

fn orders(record: u32) -> Fcb {
    Fcb::named("ORDERS.DAT").unlocked().record(record)
}

struct Run {
    world: World,
    history: History,
}

impl Run {
    fn new(image: Vec<u8>) -> Run {
        Run::of(Kind::First, image)
    }

    fn of(kind: Kind, image: Vec<u8>) -> Run {
        let history = History::new(kind, NUMBERS, [0; 16], groups_with_block(kind, &image));
        let world = World::of_kind(kind.number(), image, NUMBERS, [0; 16]);
        Run { world, history }
    }

    fn step(&mut self, step: Step) -> Result<(), String> {
        let Step(process, function, fcb, count, id) = step;
        let kept = self.history.locked_by_others(process, &self.world.image);
        let (a, h) = self.world.ask(process, function, fcb).count(count).id(id).go();
        let noted = Noted {
            function,
            process,
            count,
            fcb: &fcb.0,
            answer: a + 256 * h,
        };
        self.history.note(&noted);
        self.history.note_found(&noted, &self.world.list)?;
        self.history.check(&kept, &self.world.list, &self.world.image)?;
        if Deed::of(function, count, noted.answer) != Deed::Refused {
            self.history.check_vector(&self.world.vector, &self.world.image)?;
        }
        if function == 46 && a == 0 {
            self.history
                .check_free_space(&self.world.dma, &self.world.image, &self.world.vector)?;
        }
        Ok(())
    }

    fn check(&self) -> Result<(), String> {
        self.history.check(&[], &self.world.list, &self.world.image)
    }
}

/// ORDERS.DAT open by 1 and 2, with two blocks; 1 holds records 0 and 1.
fn underway() -> Run {
    let mut run = Run::new(empty_image(5));
    for step in [
        Step(1, 22, orders(0), 1, 0),
        Step(2, 15, orders(0), 1, 0),
        Step(1, 34, orders(0), 1, 0),
        Step(2, 40, orders(130), 1, 1),
        Step(1, 42, orders(0), 2, 0),
    ] {
        run.step(step).unwrap();
    }
    run
}

#[test]
fn a_good_run_agrees() {
    let mut run = underway();
    let fresh = Fcb::named("FRESH");
    let renamed = Fcb::named("RENAMED");
    for step in [
        Step(2, 34, orders(1), 1, 1),
        Step(2, 42, orders(0), 1, 1),
        Step(1, 42, orders(1), 2, 0),
        Step(1, 46, orders(0), 1, 0),
        Step(1, 43, orders(1), 16, 0),
        Step(2, 34, orders(1), 1, 1),
        Step(3, 22, fresh, 1, 0),
        Step(3, 34, fresh.record(262_143), 1, 0),
        Step(3, 34, fresh.record(9), 1, 0),
        Step(3, 42, fresh.record(262_143), 1, 77),
        Step(3, 16, fresh, 1, 0),
        Step(3, 23, fresh.new_name(name("RENAMED")), 1, 0),
        Step(3, 46, fresh, 1, 0),
        Step(3, 19, renamed, 1, 0),
        Step(3, 46, fresh, 1, 0),
        Step(1, 143, fresh, 1, 0),
        Step(2, 42, orders(0), 1, 1),
        Step(2, 19, orders(0), 1, 0),
        Step(2, 46, orders(0), 1, 0),
    ] {
        run.step(step).unwrap();
    }
    assert_eq!(run.world.dma[..3], [24, 0, 0]);
}

#[test]
fn the_records_done_of_a_run_count() {
    let mut run = Run::new(empty_image(8));
    run.step(Step(1, 22, orders(0), 1, 0)).unwrap();
    // Records 5 to 20: the groups 0, 1 and 2.
    run.step(Step(1, 34, orders(5), 16, 0)).unwrap();
    run.step(Step(1, 46, orders(0), 1, 0)).unwrap();
    assert_eq!(run.world.dma[0], 24);
    // Over the end of an extent and of a module: the groups 511 and 512.
    run.step(Step(1, 40, orders(4094), 4, 0)).unwrap();
    run.step(Step(1, 46, orders(0), 1, 0)).unwrap();
    assert_eq!(run.world.dma[0], 8);
    // The last free block serves the records 262,143 and none after it: 6/16.
    run.step(Step(1, 34, orders(262_143), 16, 0)).unwrap();
    run.step(Step(1, 46, orders(0), 1, 0)).unwrap();
    assert_eq!(run.world.dma[0], 0);
    // What is read or refused at once makes no group.
    run.step(Step(1, 33, orders(5), 16, 0)).unwrap();
    run.step(Step(1, 33, orders(262_143), 16, 0)).unwrap();
    run.step(Step(1, 34, orders(128), 16, 0)).unwrap();
}

/// What a 34 of sixteen records answers that does eleven and then finds no free block.
const STOPPED: u32 = 2 + 256 * 16 * 11;

/// Two blocks are free; the 34 from record 5 on is made, but not noted.
fn stopped() -> Run {
    let mut run = Run::new(empty_image(4));
    run.step(Step(1, 22, orders(0), 1, 0)).unwrap();
    let (a, h) = run.world.ask(1, 34, orders(5)).count(16).go();
    assert_eq!(a + 256 * h, STOPPED);
    run
}

/// A keeper that takes it for this.
fn noted_as(count: u32, answer: u32) -> Result<(), String> {
    let mut run = stopped();
    run.history.note(&Noted {
        function: 34,
        process: 1,
        count,
        fcb: &orders(5).0,
        answer,
    });
    run.check()
}

#[test]
fn a_run_that_was_stopped_counts_its_records() {
    noted_as(16, STOPPED).unwrap();
}

#[test]
fn a_keeper_that_counts_the_refused_record_is_seen() {
    let fault = noted_as(16, STOPPED + 256 * 16).unwrap_err();
    assert!(fault.contains("has no block"));
}

#[test]
fn a_keeper_that_counts_the_whole_run_is_seen() {
    assert!(noted_as(16, 0).unwrap_err().contains("has no block"));
}

#[test]
fn a_keeper_that_forgets_the_records_done_is_seen() {
    assert!(noted_as(16, 2).unwrap_err().contains("does not count it"));
}

#[test]
fn a_keeper_that_takes_the_first_record_for_the_run_is_seen() {
    assert!(noted_as(1, 0).unwrap_err().contains("does not count it"));
}

#[test]
fn groups_of_the_second_kind_have_sixteen_records() {
    let mut run = Run::of(Kind::Second, empty_image_of(Kind::Second, 260));
    let figure = |run: &mut Run| {
        run.step(Step(1, 46, orders(0), 1, 0)).unwrap();
        u32::from_le_bytes([run.world.dma[0], run.world.dma[1], run.world.dma[2], 0])
    };
    run.step(Step(1, 22, orders(0), 1, 0)).unwrap();
    assert_eq!(figure(&mut run), 16 * 258);
    // Records 5 to 20 are in the groups 0 and 1, 4,094 to 4,097 in 255 and 256.
    run.step(Step(1, 34, orders(5), 16, 0)).unwrap();
    assert_eq!(figure(&mut run), 16 * 256);
    run.step(Step(1, 40, orders(4094), 4, 0)).unwrap();
    assert_eq!(figure(&mut run), 16 * 254);
    run.step(Step(1, 34, orders(8), 8, 0)).unwrap();
    assert_eq!(figure(&mut run), 16 * 254);
}

#[test]
fn a_keeper_of_the_wrong_kind_is_seen() {
    let mut run = Run::of(Kind::Second, empty_image_of(Kind::Second, 260));
    run.step(Step(1, 22, orders(0), 1, 0)).unwrap();
    run.history = History::new(Kind::First, NUMBERS, [0; 16], Default::default());
    assert!(run.step(Step(1, 34, orders(8), 1, 0)).is_err());
    let mut dma = [0; 2048];
    dma[..2].copy_from_slice(&(8u16 * 258).to_le_bytes());
    let mut run = Run::of(Kind::Second, empty_image_of(Kind::Second, 260));
    run.world.lend_vector();
    assert!(run
        .history
        .check_free_space(&dma, &run.world.image, &run.world.vector)
        .is_err());
    dma[..2].copy_from_slice(&(16u16 * 258).to_le_bytes());
    run.history
        .check_free_space(&dma, &run.world.image, &run.world.vector)
        .unwrap();
}

#[test]
fn groups_at_the_start_count() {
    let mut image = empty_image(4);
    let entry = Entry::named("OLD").block(3, 2);
    compare::build::put_entry(&mut image, 5, entry);
    let mut run = Run::new(image);
    run.step(Step(0, 46, orders(0), 1, 0)).unwrap();
    assert_eq!(run.world.dma[0], 8);
}

#[test]
fn an_engine_that_stores_nothing_is_seen_at_the_first_make() {
    let mut run = Run::new(empty_image(4));
    run.history.note(&Noted {
        function: 22,
        process: 1,
        count: 1,
        fcb: &orders(0).0,
        answer: 0,
    });
    assert!(run.check().unwrap_err().contains("lacks"));
}

#[test]
fn a_lost_or_doubled_or_altered_item_is_seen() {
    for place in 0..4 {
        let mut run = underway();
        put_item(&mut run.world.list, place, [0; 20]);
        assert!(run.check().unwrap_err().contains("lacks"));

        let mut run = underway();
        let copy: [u8; 20] = item_at(&run.world.list, place).try_into().unwrap();
        put_item(&mut run.world.list, 4, copy);
        assert!(run.check().is_err());

        let at = 19 + 20 * place;
        for byte in 0..20 {
            let mut run = underway();
            run.world.list[at + byte] ^= 1;
            assert!(run.check().is_err(), "byte {byte} of place {place}");
        }
    }
}

#[test]
fn an_item_nobody_was_granted_is_seen() {
    for item in [
        open_item(3, name("ORDERS.DAT"), 1),
        lock_item(2, name("ORDERS.DAT"), 5),
    ] {
        let mut run = underway();
        put_item(&mut run.world.list, 4, item);
        assert!(run.check().unwrap_err().contains("does not hold"));
    }
}

#[test]
fn a_place_from_the_capacity_on_is_seen() {
    let mut run = underway();
    let moved: [u8; 20] = item_at(&run.world.list, 3).try_into().unwrap();
    put_item(&mut run.world.list, 3, [0; 20]);
    put_item(&mut run.world.list, 5, moved);
    assert!(run.check().unwrap_err().contains("capacity"));
}

#[test]
fn the_order_of_places_does_not_matter() {
    let mut run = underway();
    let moved: [u8; 20] = item_at(&run.world.list, 0).try_into().unwrap();
    put_item(&mut run.world.list, 0, [0; 20]);
    put_item(&mut run.world.list, 4, moved);
    run.check().unwrap();
}

#[test]
fn blocks_and_groups_that_disagree_are_seen() {
    for (at, block, fault) in [
        (16, 0, "has no block"),
        (17, 4, "has a block"),
        (17, 2, "two groups"),
        (16, 4, ""),
    ] {
        let mut run = underway();
        run.world.image[at] = block;
        match fault {
            "" => run.check().unwrap(),
            fault => assert!(run.check().unwrap_err().contains(fault)),
        }
    }
}

#[test]
fn a_vector_that_disagrees_is_seen() {
    let run = underway();
    let right = run.world.vector.clone();
    run.history.check_vector(&right, &run.world.image).unwrap();
    for block in 0..256 {
        let mut wrong = right.clone();
        wrong[block / 8] ^= 128 >> (block % 8);
        let fault = run.history.check_vector(&wrong, &run.world.image).unwrap_err();
        assert!(fault.ends_with(&format!("block {block}")), "{fault}");
    }
    for length in [0, 31, 33, 512] {
        let mut wrong = right.clone();
        wrong.resize(length, 0);
        assert!(run.history.check_vector(&wrong, &run.world.image).is_err());
    }
}

#[test]
fn a_figure_other_than_the_vectors_is_seen() {
    let mut run = underway();
    let dma = [8, 0, 0];
    run.world.vector[0] ^= 1;
    assert!(run
        .history
        .check_free_space(&dma, &run.world.image, &run.world.vector)
        .is_err());
}

#[test]
fn a_made_up_figure_is_seen() {
    let run = underway();
    let mut dma = [0; 2048];
    dma[0] = 8;
    run.history
        .check_free_space(&dma, &run.world.image, &run.world.vector)
        .unwrap();
    for byte in 0..3 {
        let mut wrong = dma;
        wrong[byte] ^= 8;
        assert!(run
            .history
            .check_free_space(&wrong, &run.world.image, &run.world.vector)
            .is_err());
    }
}

#[test]
fn anothers_call_that_changes_a_locked_record_is_seen() {
    let mut run = underway();
    let kept = run.history.locked_by_others(2, &run.world.image);
    assert_eq!(kept.len(), 2);
    assert!(run.history.locked_by_others(1, &run.world.image).is_empty());
    run.world.image[2048 + 2 * 128] ^= 1;
    run.history
        .check(&kept, &run.world.list, &run.world.image)
        .unwrap();
    run.world.image[2048 + 255] ^= 1;
    let fault = run
        .history
        .check(&kept, &run.world.list, &run.world.image)
        .unwrap_err();
    assert!(fault.contains("record: 1"));
}

#[test]
fn grants_over_a_limit_are_seen() {
    let mut run = underway();
    for record in [2, 3] {
        run.history.note(&Noted {
            function: 42,
            process: 1,
            count: 1,
            fcb: &orders(record).0,
            answer: 0,
        });
    }
    put_item(&mut run.world.list, 4, lock_item(1, name("ORDERS.DAT"), 2));
    assert!(run.check().is_err());
}

#[test]
fn a_record_granted_to_two_is_seen() {
    let mut run = underway();
    run.history.note(&Noted {
        function: 42,
        process: 2,
        count: 1,
        fcb: &orders(1).0,
        answer: 0,
    });
    put_item(&mut run.world.list, 4, lock_item(2, name("ORDERS.DAT"), 1));
    assert!(run.check().unwrap_err().contains("two processes"));
}

#[test]
fn opens_that_clash_are_seen() {
    let mut run = underway();
    let fcb = Fcb::named("ORDERS.DAT");
    run.history.note(&Noted {
        function: 15,
        process: 3,
        count: 1,
        fcb: &fcb.0,
        answer: 0,
    });
    put_item(&mut run.world.list, 4, open_item(3, name("ORDERS.DAT"), 0));
    assert!(run.check().unwrap_err().contains("beside"));
}

/// Two files, of which process 1 has found the first, and process 2 has ended its search.
fn searching(kind: Kind) -> Run {
    let mut run = Run::of(kind, empty_image_of(kind, kind.fewest_blocks()));
    for text in ["A", "B"] {
        run.step(Step(1, 22, Fcb::named(text), 1, 0)).unwrap();
    }
    run.step(Step(1, 17, all(), 1, 0)).unwrap();
    run.step(Step(2, 17, Fcb::named("NONE"), 1, 0)).unwrap();
    run
}

fn all() -> Fcb {
    Fcb::of([b'?'; 11])
}

#[test]
fn searches_grant_nothing_and_keep_their_own_positions() {
    for kind in Kind::ALL {
        let mut run = searching(kind);
        for step in [
            Step(1, 18, all(), 1, 0),
            Step(3, 17, all(), 16, 0),
            Step(1, 18, all(), 1, 0),
            Step(1, 18, all(), 1, 0),
            Step(3, 19, Fcb::named("A").with(0, 2), 1, 0),
            Step(1, 19, Fcb::named("A"), 1, 0),
            Step(3, 18, all(), 1, 0),
            Step(3, 18, all().with(0, 2), 1, 0),
            Step(3, 143, all(), 1, 0),
            Step(2, 17, all(), 1, 0),
        ] {
            run.step(step).unwrap();
        }
    }
}

#[test]
fn a_position_that_nobody_moved_is_seen() {
    for kind in Kind::ALL {
        for (process, position) in [(1, 2), (2, 63), (0, 1), (15, 0)] {
            let mut run = searching(kind);
            run.world.list[1299 + process] = position;
            assert!(run.check().unwrap_err().starts_with("the positions are"));
        }
    }
}

#[test]
fn a_find_that_its_answer_does_not_tell_is_seen() {
    for (function, answer, position) in [
        (18, 0, 1),
        (18, 0, 2),
        (18, 1, 3),
        (18, 1, 0),
        (17, 0, 0),
        (17, 2, 66),
    ] {
        let mut run = searching(Kind::First);
        run.world.list[1299 + 1] = position;
        let noted = Noted {
            function,
            process: 1,
            count: 1,
            fcb: &all().0,
            answer,
        };
        let told = run.history.note_found(&noted, &run.world.list);
        assert!(told.is_err(), "{function} told {answer} and left {position}");
    }
}

/// 143 and no match end a search; a refusal and 255/0 of another function do not.
#[test]
fn only_the_end_of_a_search_is_noted_as_its_end() {
    for (function, answer, ends) in [
        (143, 0, true),
        (17, 255, true),
        (18, 255, true),
        (15, 255, false),
        (18, 255 + 256 * 4, false),
        (143, 255 + 256 * 12, false),
    ] {
        let mut run = searching(Kind::First);
        run.history.note(&Noted {
            function,
            process: 1,
            count: 1,
            fcb: &all().0,
            answer,
        });
        run.world.list[1299 + 1] = 64;
        let positions_agree = !run.check().is_err_and(|fault| fault.starts_with("the positions"));
        assert_eq!(positions_agree, ends, "{function}, {answer}");
    }
}
