//! The session of document 01, call by call.

mod common;

use common::{Answer, World, OK};
use compare::build::{empty_image, item_at, lock_item, name, open_item, Fcb};

const PRINTED: &str = "call process function A H
0 1 22 0 0
1 2 15 0 0
2 1 34 0 0
3 1 42 0 0
4 2 34 8 0
5 2 34 0 0
6 2 42 14 0
end 7
";

fn orders(record: u32) -> Fcb {
    Fcb::named("ORDERS.DAT").unlocked().record(record)
}

struct Session {
    world: World,
    ids: [u8; 3],
}

impl Session {
    fn new() -> Session {
        Session {
            world: World::started(empty_image(4), 3, 2, 2),
            ids: [0; 3],
        }
    }

    fn call(&mut self, process: usize, function: u32, record: u32, count: u32) -> Answer {
        let id = self.ids[process];
        self.world
            .ask(process as u32, function, orders(record))
            .count(count)
            .id(id)
            .go()
    }

    fn note_id(&mut self, process: usize) -> u8 {
        self.ids[process] = self.world.fcb[33];
        self.ids[process]
    }
}

#[test]
fn s0_to_s13() {
    let mut session = Session::new();
    let orders_name = name("ORDERS.DAT");

    assert_eq!(session.call(1, 22, 0, 1), OK, "S0");
    assert_eq!(session.note_id(1), 0);
    assert_eq!(session.world.fcb[33..36], [0, 0, 0]);
    assert_eq!(session.world.place(0), open_item(1, orders_name, 1));
    let mut entry = [0; 32];
    entry[1..12].copy_from_slice(&orders_name);
    assert_eq!(session.world.entry(0), entry);

    assert_eq!(session.call(2, 15, 0, 1), OK, "S1");
    assert_eq!(session.note_id(2), 1);
    assert_eq!(session.world.fcb[33..36], [1, 0, 0]);
    assert_eq!(session.world.place(1), open_item(2, orders_name, 1));

    assert_eq!(session.call(1, 34, 0, 1), OK, "S2");
    entry[15] = 1;
    entry[16] = 2;
    assert_eq!(session.world.entry(0), entry);
    assert_eq!(session.world.record_at(2, 0), [0; 128]);
    assert_eq!(session.world.record_at(2, 1), [0xE5; 128]);

    assert_eq!(session.call(1, 42, 0, 1), OK, "S3");
    assert_eq!(session.world.place(2), lock_item(1, orders_name, 0));

    assert_eq!(session.call(2, 34, 0, 1), (8, 0), "S4");

    assert_eq!(session.call(2, 34, 8, 1), OK, "S5");
    entry[15] = 9;
    entry[17] = 3;
    assert_eq!(session.world.entry(0), entry);
    let mut written = [0; 128];
    written[0] = 1;
    assert_eq!(session.world.record_at(3, 0), written);

    assert_eq!(session.call(2, 42, 8, 1), (14, 0), "S6");
    assert_eq!(session.call(2, 34, 16, 1), (2, 0), "S7");

    assert_eq!(session.call(1, 46, 0, 1), OK, "S8");
    assert_eq!(session.world.dma, [0; 2048]);

    let list = session.world.list.clone();
    assert_eq!(session.call(1, 42, 0, 1), OK, "S9");
    assert_eq!(session.world.list, list);

    assert_eq!(session.call(1, 42, 0, 2), (12, 0), "S10");

    assert_eq!(session.call(1, 143, 0, 1), OK, "S11");
    let mut left = list.clone();
    left[19..39].fill(0);
    left[59..79].fill(0);
    assert_eq!(session.world.list, left);

    assert_eq!(session.call(2, 42, 8, 1), OK, "S12");
    assert_eq!(item_at(&session.world.list, 0), lock_item(2, orders_name, 8));
    assert_eq!(item_at(&session.world.list, 2), [0; 20]);

    let mut image = session.world.image.clone();
    assert_eq!(session.call(2, 19, 0, 1), OK, "S13");
    assert_eq!(item_at(&session.world.list, 0), [0; 20]);
    assert_eq!(item_at(&session.world.list, 1), [0; 20]);
    assert_eq!(session.world.list[19..1299], [0; 1280]);
    assert_eq!(session.world.list[1299..1315], [64; 16]);
    assert_eq!(session.world.list[1315], 0);
    image[0] = 0xE5;
    assert_eq!(session.world.image, image);
    assert_eq!(session.call(2, 46, 0, 1), OK);
    assert_eq!(session.world.dma[..3], [16, 0, 0], "both blocks are free");
}

#[test]
fn s0_to_s6_printed() {
    let mut input = vec![0x4D, 0x53, 3, 2, 2];
    input.extend([0; 17]);
    let calls = [
        (22, 1, 0, 0),
        (15, 2, 0, 0),
        (34, 1, 0, 0),
        (42, 1, 0, 0),
        (34, 2, 0, 1),
        (34, 2, 8, 1),
        (42, 2, 8, 1),
    ];
    for (function, process, record, id) in calls {
        input.extend([0x4D, 0x43, function, process, 1]);
        input.extend(orders(record).0);
        let mut dma = [0; 2048];
        dma[0] = id;
        input.extend(dma);
    }
    let (printed, out) = reference::mpmcalls(Some(&empty_image(4)), &input);
    assert_eq!(String::from_utf8(printed).unwrap(), PRINTED);

    let out = out.expect("DISK.OUT is written");
    assert_eq!(out.len(), 4096);
    assert_eq!(out[15..18], [9, 2, 3]);
}
