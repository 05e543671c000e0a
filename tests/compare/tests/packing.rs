//! Packing: what it has to leave, written from document 02; and packers that are wrong about it, which the named cases
//! and chance have to see.

use compare::build::{image_of, name, open_item, put_entry, put_item, Entry, Fcb, LIST, POSITIONS, RULE};
use compare::desk::cases::Cases;
use compare::desk::packs::fresh_list;
use compare::desk::{difference, named, on_reference, watch, Case, Desk, Local, What};
use compare::faults::vector_of;
use compare::step::Told;
use reference::kind::Kind;

fn file(text: &str) -> Entry {
    Entry::named(text).count(1)
}

fn blocks(kind: Kind) -> usize {
    match kind {
        Kind::First => 12,
        Kind::Second => 257,
    }
}

fn pack(kind: Kind, image: &[u8], list: &[u8], packed: &mut [u8]) -> (u32, u32) {
    let answer = reference::pack(kind.number(), image, list, packed);
    (answer % 256, answer / 256)
}

/// Entries at their places, and blocks with one byte throughout.
fn book(kind: Kind, entries: &[(usize, Entry)], blocks_of: &[(usize, u8)], free: u8) -> Vec<u8> {
    let mut image = image_of(kind, blocks(kind), &[]);
    image[kind.directory()..].fill(free);
    for (slot, entry) in entries {
        put_entry(&mut image, *slot, *entry);
    }
    for (block, byte) in blocks_of {
        image[kind.block() * block..kind.block() * (block + 1)].fill(*byte);
    }
    image
}

#[test]
fn entries_and_blocks_in_the_order_of_the_walk() {
    for kind in Kind::ALL {
        let put = |entry: Entry, numbers: &[(usize, u16)]| {
            let one = |entry: Entry, (place, number): &(usize, u16)| entry.block_of(kind, *place, *number);
            numbers.iter().fold(entry, one)
        };
        let a0 = file("A").count(9).read_only().with(13, 5);
        let a1 = file("A").extent(33).attribute(2).count(128);
        let b = file("B").user(15).count(0);
        let before = book(
            kind,
            &[
                (4, put(b, &[(1, 9), (3, 4)])),
                (7, put(a1, &[(0, 11)])),
                (60, put(a0, &[(7, 3), (0, 10)])),
            ],
            &[(9, 1), (4, 2), (11, 3), (10, 4), (3, 5)],
            0xEE,
        );
        let after = book(
            kind,
            &[
                (0, put(b, &[(1, 2), (3, 3)])),
                (1, put(a1, &[(0, 4)])),
                (2, put(a0, &[(0, 5), (7, 6)])),
            ],
            &[(2, 1), (3, 2), (4, 3), (5, 4), (6, 5)],
            0,
        );
        let fresh = fresh_list(kind, 1, [0; 16]);
        let mut packed = vec![0x77; before.len()];
        assert_eq!(pack(kind, &before, &fresh, &mut packed), (0, 0));
        assert!(packed == after, "{kind:?}");
        let mut twice = vec![0x77; before.len()];
        assert_eq!(pack(kind, &packed, &fresh, &mut twice), (0, 0));
        assert!(twice == packed);
    }
}

#[test]
fn an_empty_book_is_e5h_and_zeros() {
    for kind in Kind::ALL {
        let mut image = book(kind, &[], &[], 0x33);
        image[1..kind.directory()].fill(0x44);
        for slot in 0..kind.entries() {
            image[32 * slot] = 0xE5;
        }
        let mut packed = vec![0x77; image.len()];
        assert_eq!(
            pack(kind, &image, &fresh_list(kind, 9, [3; 16]), &mut packed),
            (0, 0)
        );
        assert!(packed[..kind.directory()].iter().all(|byte| *byte == 0xE5));
        assert!(packed[kind.directory()..].iter().all(|byte| *byte == 0));
    }
}

#[test]
fn refusals_in_their_order() {
    for kind in Kind::ALL {
        let good = book(kind, &[(3, file("A"))], &[], 0);
        let bad = book(kind, &[(3, file("A").count(129))], &[], 0);
        let fresh = fresh_list(kind, 64, [0; 16]);
        let mut open = fresh.clone();
        put_item(&mut open, 63, open_item(15, name("A"), 2));
        let mut both = open.clone();
        both[2] = 0;
        let ask = |image: &[u8], list: &[u8], length: usize| {
            let mut packed = vec![7; length];
            let answer = pack(kind, image, list, &mut packed);
            assert!(answer == (0, 0) || packed == vec![7; length]);
            answer
        };
        let long = good.len();
        assert_eq!(ask(&good, &fresh, long), (0, 0));
        assert_eq!(ask(&good, &open, long), (255, 5));
        assert_eq!(ask(&good, &both, long), (255, 12));
        assert_eq!(ask(&bad, &both, long), (255, 1));
        for length in [0, long - 1, long + 1] {
            assert_eq!(ask(&bad, &both, length), (255, 13));
            assert_eq!(ask(&good, &fresh, length), (255, 13));
        }
        assert_eq!(ask(&bad, &both[1..], long), (255, 13));
        assert_eq!(ask(&good, &fresh[..1_299], long), (255, 13));
        assert_eq!(ask(&good[1..], &fresh, long - 1), (255, 1));
        assert_eq!(ask(&good[1..], &fresh, long), (255, 13));
        for told in [2, 256, u32::MAX] {
            let mut packed = vec![7; long];
            assert_eq!(reference::pack(told, &bad, &both, &mut packed), 255 + 256 * 13);
        }
        let other = kind.other().number();
        assert_eq!(
            reference::pack(other, &good, &fresh, &mut vec![7; long]),
            255 + 256
        );
    }
}

/// A position is good up to the number of entries, whosever it is; it does not stop packing, and stays.
#[test]
fn positions_are_judged_and_stay() {
    for (kind, end) in [(Kind::First, 64), (Kind::Second, 128)] {
        let image = book(kind, &[(3, file("A")), (9, file("B"))], &[], 0);
        let ask = |process: usize, position: u8, item: Option<[u8; 20]>| {
            let mut list = fresh_list(kind, 64, [0; 16]);
            item.into_iter().for_each(|item| put_item(&mut list, 0, item));
            list[1_299 + process] = position;
            let before = list.clone();
            let answer = pack(kind, &image, &list, &mut vec![7; image.len()]);
            assert!(list == before);
            answer
        };
        for process in 0..16 {
            for position in 0..=255 {
                let sound = position <= end;
                let answer = if sound { (0, 0) } else { (255, 12) };
                assert_eq!(
                    ask(process, position, None),
                    answer,
                    "{kind:?} {process} {position}"
                );
            }
            let open = Some(open_item(2, name("B"), 0));
            assert_eq!(ask(process, end, open), (255, 5));
            assert_eq!(ask(process, end + 1, open), (255, 12));
        }
    }
}

#[test]
fn a_search_goes_on_at_its_number_in_a_packed_book() {
    for kind in Kind::ALL {
        let image = book(
            kind,
            &[(3, file("A")), (9, file("B")), (20, file("C")), (21, file("D"))],
            &[],
            0,
        );
        let mut list = fresh_list(kind, 1, [0; 16]);
        let mut fcb = Fcb::of(*b"???????????").0;
        let mut search = |function: u32, list: &mut [u8], image: &mut [u8]| {
            let (mut dma, mut vector) = (vec![0; 2_048], vector_of(kind, image));
            let answer = reference::call(
                kind.number(),
                function,
                5,
                1,
                &mut fcb,
                &mut dma,
                list,
                image,
                &mut vector,
            );
            (answer, dma[32 * (answer as usize % 4) + 1])
        };
        let mut packed = vec![7; image.len()];
        assert_eq!(pack(kind, &image, &list, &mut packed), (0, 0));
        list[1_299 + 5] = 2;
        assert_eq!(search(18, &mut list.clone(), &mut image.clone()), (3, b'A'));
        assert_eq!(pack(kind, &image, &list, &mut vec![7; image.len()]), (0, 0));
        assert_eq!(search(18, &mut list, &mut packed), (2, b'C'));
        assert_eq!(list[1_299 + 5], 3);
        assert_eq!(search(17, &mut list, &mut packed), (0, b'A'));
    }
}

// ---- Wrong packers ----

#[derive(Clone, Copy, Debug, PartialEq, Eq)]
enum Wrong {
    BlocksByOldNumber,
    HolesNumbered,
    HolesClosed,
    EmptyInByte0Alone,
    FreeBlocksLeft,
    FreeBlocksE5,
    BufferLeft,
    SortedByName,
    ExtentsGathered,
    FromBlock3,
    Byte13Cleared,
    LaterAttributesCleared,
    CountsByBlocks,
    PastTheCountCleared,
    ZeroBlocksDropped,
    NumbersOfOneByte,
    LengthOfTheListFree,
    LongBufferTaken,
    ImageBeforeLengths,
    ListBeforeImage,
    OpenBeforeList,
    OpensOfProcess0,
    OpenUnlockedGoes,
    ImageChanged,
    ListStarted,
    UnknownKindTaken,
    PositionsUnread,
    PositionsTo64,
    PositionsTo128,
    SearchesEnded,
    SearchesRefused,
    OldListTaken,
}

const ALL_WRONG: [Wrong; 32] = [
    Wrong::BlocksByOldNumber,
    Wrong::HolesNumbered,
    Wrong::HolesClosed,
    Wrong::EmptyInByte0Alone,
    Wrong::FreeBlocksLeft,
    Wrong::FreeBlocksE5,
    Wrong::BufferLeft,
    Wrong::SortedByName,
    Wrong::ExtentsGathered,
    Wrong::FromBlock3,
    Wrong::Byte13Cleared,
    Wrong::LaterAttributesCleared,
    Wrong::CountsByBlocks,
    Wrong::PastTheCountCleared,
    Wrong::ZeroBlocksDropped,
    Wrong::NumbersOfOneByte,
    Wrong::LengthOfTheListFree,
    Wrong::LongBufferTaken,
    Wrong::ImageBeforeLengths,
    Wrong::ListBeforeImage,
    Wrong::OpenBeforeList,
    Wrong::OpensOfProcess0,
    Wrong::OpenUnlockedGoes,
    Wrong::ImageChanged,
    Wrong::ListStarted,
    Wrong::UnknownKindTaken,
    Wrong::PositionsUnread,
    Wrong::PositionsTo64,
    Wrong::PositionsTo128,
    Wrong::SearchesEnded,
    Wrong::SearchesRefused,
    Wrong::OldListTaken,
];

/// Packs entry by entry, with one fault or none; the book is sound.
struct Packer<'a> {
    kind: Kind,
    image: &'a [u8],
    wrong: Option<Wrong>,
}

impl Packer<'_> {
    fn has(&self, wrong: Wrong) -> bool {
        self.wrong == Some(wrong)
    }

    fn numbers(&self, entry: &[u8]) -> Vec<u16> {
        self.kind.numbers(&entry[16..]).collect()
    }

    fn block(&self, number: u16) -> &[u8] {
        let at = self.kind.block() * usize::from(number);
        &self.image[at..at + self.kind.block()]
    }

    fn entries(&self) -> Vec<Vec<u8>> {
        let directory = self.image[..self.kind.directory()].chunks(32);
        let mut entries: Vec<Vec<u8>> = directory
            .filter(|entry| entry[0] != 0xE5)
            .map(<[u8]>::to_vec)
            .collect();
        let file = |entry: &[u8]| -> Vec<u8> { entry[..12].iter().map(|byte| byte & 127).collect() };
        if self.has(Wrong::SortedByName) {
            entries.sort_by_key(|entry| file(entry));
        }
        if self.has(Wrong::ExtentsGathered) {
            let files: Vec<Vec<u8>> = entries.iter().map(|entry| file(entry)).collect();
            entries.sort_by_key(|entry| files.iter().position(|one| *one == file(entry)));
        }
        for entry in &mut entries {
            self.spoil(entry);
        }
        entries
    }

    fn spoil(&self, entry: &mut [u8]) {
        if self.has(Wrong::Byte13Cleared) {
            entry[13] = 0;
        }
        if self.has(Wrong::LaterAttributesCleared) && (entry[12], entry[14]) != (0, 0) {
            entry[1..12].iter_mut().for_each(|byte| *byte &= 127);
        }
        if self.has(Wrong::CountsByBlocks) {
            let used = self.numbers(entry).iter().rposition(|number| *number != 0);
            let records = self.kind.records_per_block() as usize;
            entry[15] = used.map_or(0, |last| records * (last + 1)) as u8;
        }
        if self.has(Wrong::ZeroBlocksDropped) {
            for (index, number) in self.numbers(entry).into_iter().enumerate() {
                if number != 0 && self.block(number).iter().all(|byte| *byte == 0) {
                    self.kind.put_number(&mut entry[16..], index, 0);
                }
            }
        }
        if self.has(Wrong::HolesClosed) {
            let mut numbers = self.numbers(entry);
            numbers.sort_by_key(|number| *number == 0);
            for (index, number) in numbers.into_iter().enumerate() {
                self.kind.put_number(&mut entry[16..], index, number);
            }
        }
    }

    /// The old numbers in their new order.
    fn order(&self, entries: &[Vec<u8>]) -> Vec<u16> {
        let all = entries.iter().flat_map(|entry| self.numbers(entry));
        let mut order: Vec<u16> = all.filter(|number| *number != 0).collect();
        if self.has(Wrong::BlocksByOldNumber) {
            order.sort_unstable();
        }
        order
    }

    fn first(&self) -> u16 {
        2 + u16::from(self.has(Wrong::FromBlock3))
    }

    fn renumber(&self, entries: &mut [Vec<u8>], order: &[u16]) {
        let mut holes = self.first() + order.len() as u16;
        for entry in entries {
            for (index, number) in self.numbers(entry).into_iter().enumerate() {
                let place = order.iter().position(|old| *old == number);
                let new = match place {
                    Some(place) => self.first() + place as u16,
                    None if self.has(Wrong::HolesNumbered) => {
                        holes += 1;
                        holes - 1
                    }
                    None => 0,
                };
                let new = if self.has(Wrong::NumbersOfOneByte) {
                    new % 256
                } else {
                    new
                };
                self.kind.put_number(&mut entry[16..], index, new);
            }
        }
    }

    /// The first byte of the buffer before tells what else is in it.
    fn pack(&self, before: &[u8]) -> Vec<u8> {
        let mut entries = self.entries();
        let order = self.order(&entries);
        let mut packed = match self.wrong {
            Some(Wrong::BufferLeft) => before.to_vec(),
            Some(Wrong::FreeBlocksLeft) => self.image.to_vec(),
            Some(Wrong::FreeBlocksE5) => vec![0xE5; self.image.len()],
            _ => vec![0; self.image.len()],
        };
        let directory = &mut packed[..self.kind.directory()];
        match self.has(Wrong::EmptyInByte0Alone) {
            true => directory.copy_from_slice(&self.image[..directory.len()]),
            false => directory.fill(0xE5),
        }
        for (place, old) in (usize::from(self.first())..).zip(&order) {
            let at = self.kind.block() * place;
            if at + self.kind.block() <= packed.len() {
                packed[at..at + self.kind.block()].copy_from_slice(self.block(*old));
            }
        }
        if self.has(Wrong::PastTheCountCleared) {
            self.clear_past_count(&entries, &order, &mut packed);
        }
        self.renumber(&mut entries, &order);
        for (slot, place) in packed[..self.kind.directory()].chunks_mut(32).enumerate() {
            match entries.get(slot) {
                Some(entry) => place.copy_from_slice(entry),
                None => place[0] = 0xE5,
            }
        }
        packed
    }

    fn clear_past_count(&self, entries: &[Vec<u8>], order: &[u16], packed: &mut [u8]) {
        let records = self.kind.records_per_block() as usize;
        for entry in entries {
            for (index, number) in self.numbers(entry).into_iter().enumerate() {
                let Some(place) = order.iter().position(|old| *old == number) else {
                    continue;
                };
                for record in (0..records).filter(|record| records * index + record >= usize::from(entry[15]))
                {
                    let at = self.kind.block() * (2 + place) + 128 * record;
                    packed[at..at + 128].fill(0);
                }
            }
        }
    }
}

/// Whether some item is an open that the packer minds.
fn is_open(wrong: Option<Wrong>, list: &[u8]) -> bool {
    let opens = list[19..1_299].chunks(20).filter(|item| item[..2] == *b"OF");
    let minds = |item: &[u8]| match wrong {
        Some(Wrong::OpensOfProcess0) => item[2] == 0,
        Some(Wrong::OpenUnlockedGoes) => item[14] != 1,
        _ => true,
    };
    opens.into_iter().any(minds)
}

/// The list as the packer takes it: positions that it takes for good put to rights, those it takes for bad spoiled.
fn as_taken(wrong: Option<Wrong>, list: &[u8]) -> Vec<u8> {
    let mut taken = list.to_vec();
    if wrong == Some(Wrong::OldListTaken) && list.len() == 1_299 {
        taken.resize(LIST, 0);
    }
    let Some(positions) = taken.get_mut(POSITIONS) else {
        return taken;
    };
    for position in positions {
        *position = match (wrong, *position) {
            (Some(Wrong::PositionsUnread), _) => 0,
            (Some(Wrong::PositionsTo64), 65..) => 255,
            (Some(Wrong::PositionsTo128), ..=128) => 0,
            (_, position) => position,
        };
    }
    taken
}

fn wrong_pack(wrong: Option<Wrong>, kind: u32, image: &mut [u8], list: &mut [u8], packed: &mut [u8]) -> u32 {
    let has = |one: Wrong| wrong == Some(one);
    let told = match kind {
        0 | 1 => Kind::told(kind),
        _ if has(Wrong::UnknownKindTaken) => Kind::ALL
            .into_iter()
            .find(|kind| kind.blocks_of(image.len()).is_some()),
        _ => None,
    };
    let Some(kind) = told else {
        return 255 + 256 * 13;
    };
    let rule = list.get(RULE).copied().unwrap_or(0).into();
    let image_is_bad = reference::check(kind.number(), rule, image) != 0;
    let sound_list = |image: &mut [u8]| {
        let (mut fcb, mut dma, mut vector) = (vec![0; 36], vec![0; 2_048], vector_of(kind, image));
        let mut copy = as_taken(wrong, list);
        let answer = reference::call(
            kind.number(),
            46,
            0,
            1,
            &mut fcb,
            &mut dma,
            &mut copy,
            image,
            &mut vector,
        );
        answer == 0
    };
    let lengths = match wrong {
        Some(Wrong::LengthOfTheListFree) => packed.len() == image.len(),
        Some(Wrong::LongBufferTaken) => list.len() == LIST && packed.len() >= image.len(),
        Some(Wrong::OldListTaken) => [LIST, 1_299].contains(&list.len()) && packed.len() == image.len(),
        _ => list.len() == LIST && packed.len() == image.len(),
    };
    if has(Wrong::ImageBeforeLengths) && image_is_bad {
        return 255 + 256;
    }
    if !lengths {
        return 255 + 256 * 13;
    }
    if has(Wrong::ListBeforeImage) && (list[0] == 0 || list[0] > 64) {
        return 255 + 256 * 12;
    }
    if image_is_bad {
        return 255 + 256;
    }
    if has(Wrong::OpenBeforeList) && is_open(wrong, list) {
        return 255 + 256 * 5;
    }
    if !sound_list(image) {
        return 255 + 256 * 12;
    }
    if is_open(wrong, list) {
        return 255 + 256 * 5;
    }
    if has(Wrong::SearchesRefused)
        && list[POSITIONS]
            .iter()
            .any(|byte| usize::from(*byte) < kind.entries())
    {
        return 255 + 256 * 5;
    }
    let long = image.len();
    let bytes = Packer { kind, image, wrong }.pack(&packed[..long]);
    packed[..long].copy_from_slice(&bytes);
    if has(Wrong::ImageChanged) {
        image.copy_from_slice(&bytes);
    }
    if has(Wrong::ListStarted) {
        list[3..].fill(0);
    }
    if has(Wrong::SearchesEnded) {
        list[POSITIONS].fill(kind.entries() as u8);
    }
    0
}

fn desk(wrong: Option<Wrong>) -> impl Desk {
    Local(
        move |_: What, told: Told, buffers: &mut [&mut [u8]]| match buffers {
            [image, list, packed] => wrong_pack(wrong, told.kind, image, list, packed),
            _ => unreachable!("three buffers"),
        },
    )
}

fn is_unseen(wrong: Option<Wrong>, case: &Case) -> bool {
    difference(case, &on_reference(case), &desk(wrong).serve(case)).is_none()
}

/// Numbers of one byte and positions to 64 are right on a drive of the first kind, positions to 128 on one of the
/// second.
fn all_wrong_on(kind: Kind) -> Vec<Wrong> {
    let right: &[Wrong] = match kind {
        Kind::First => &[Wrong::NumbersOfOneByte, Wrong::PositionsTo64],
        Kind::Second => &[Wrong::PositionsTo128],
    };
    let all = ALL_WRONG.into_iter();
    all.filter(|wrong| !right.contains(wrong)).collect()
}

#[test]
fn the_named_cases_see_every_wrong_packer() {
    let cases = named::cases(What::Pack);
    for kind in Kind::ALL {
        let of_kind = format!("kind {}", kind.number());
        let mut unseen = all_wrong_on(kind);
        for named::Named { title, case } in cases.iter().filter(|one| one.title.ends_with(&of_kind)) {
            assert!(is_unseen(None, case), "{title}");
            unseen.retain(|wrong| is_unseen(Some(*wrong), case));
        }
        assert_eq!(unseen, [], "{kind:?}");
    }
}

#[test]
fn chance_sees_every_wrong_packer() {
    const CASES: usize = 3_000;
    for kind in Kind::ALL {
        let mut cases = Cases::new(31);
        let mut unseen = all_wrong_on(kind);
        for _ in 0..CASES {
            let case = cases.next_of(What::Pack, kind);
            assert!(is_unseen(None, &case));
            unseen.retain(|wrong| is_unseen(Some(*wrong), &case));
            if unseen.is_empty() {
                break;
            }
        }
        assert_eq!(unseen, [], "{kind:?}");
    }
}

#[test]
fn the_watch_sees_a_reference_at_fault() {
    let seen = |wrong: Wrong| {
        named::cases(What::Pack).iter().any(|named::Named { case, .. }| {
            let outcome = desk(Some(wrong)).serve(case).expect("a desk of this process");
            watch::fault(case, &outcome).is_some()
        })
    };
    let by_the_whole = [
        Wrong::BlocksByOldNumber,
        Wrong::HolesNumbered,
        Wrong::HolesClosed,
        Wrong::EmptyInByte0Alone,
        Wrong::FreeBlocksLeft,
        Wrong::SortedByName,
        Wrong::FromBlock3,
        Wrong::Byte13Cleared,
        Wrong::CountsByBlocks,
        Wrong::PastTheCountCleared,
        Wrong::ImageChanged,
        Wrong::ListStarted,
        Wrong::SearchesEnded,
    ];
    for wrong in by_the_whole {
        assert!(seen(wrong), "{wrong:?}");
    }
    for named::Named { case, title } in named::cases(What::Pack) {
        assert_eq!(watch::fault(&case, &on_reference(&case)), None, "{title}");
    }
}
