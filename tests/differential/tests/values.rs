//! The checked values of document 01, through the safe binding, the count of
//! unanswered cells up to the largest CRM and past it, and contracts without a minimum (document
//! 02, L5), full addresses (L6) and the ends of a member's (L13).

use abr::{
    Address, Cell, Closed, Kind, Opened, Params, Refusal, Rm, Table, CELL_OCTETS, COMPARISONS_MAX,
    CONNECTIONS_MAX, OUT_OF_RATE_INTERVAL, TIME_MAX,
};

/// The VPI of the connections, and the connection of most tests.
const VPI: u32 = 0xA5;
const AT: Address = channel(32);

const MS: u64 = 1_000_000;
/// The code of 1,000 cells per second, and its rate.
const THOUSAND: u32 = 0x53E8;
const RATE: u64 = 512_000;

const fn channel(vci: u32) -> Address {
    Address::new(VPI, vci)
}

fn slot(table: &mut Table, time: u64) -> Option<(Kind, u64)> {
    let mut cell = [0; CELL_OCTETS];
    let sent = table.slot(time, &mut cell).expect("a slot in range");
    sent.map(|sent| (sent.kind, sent.acr))
}

fn kind(table: &mut Table, time: u64) -> Option<Kind> {
    slot(table, time).map(|(kind, _)| kind)
}

fn backward(table: &mut Table, rm: Rm) {
    let mut cell = [0; CELL_OCTETS];
    let rm = Rm {
        vpi: AT.vpi,
        vci: AT.vci,
        backward: true,
        ..rm
    };
    abr::write_rm(&rm, &mut cell).expect("fields in range");
    table.receive(&cell).expect("a cell in order");
}

/// The answer of an accepted open on this leaf.
fn on_leaf(leaf: u32) -> Result<Opened, Refusal> {
    Ok(Opened {
        leaf,
        comparisons: 1,
    })
}

/// VCI 32, opened at time 0.
fn opened(params: &Params) -> Table {
    let mut table = Table::new();
    table.open(AT, 0, params).expect("parameters in range");
    table
}

#[test]
fn rate_codes() {
    assert_eq!(abr::rate(0x4000), Ok(512));
    assert_eq!(abr::rate(0x7FFF), Ok(2_196_875_771_904));
    assert_eq!(abr::code(512_000), Ok(0x53E8));
    assert_eq!(abr::code(1_023), Ok(0x41FF));
    assert_eq!(abr::code(1_025), Ok(0x4200));
    assert_eq!(abr::code(511), Ok(0));
}

#[test]
fn header_check_of_00_00_00_01_is_52() {
    let mut cell = [0; CELL_OCTETS];
    cell[3] = 1;
    let good = (0..=255).filter(|octet| {
        cell[4] = *octet;
        abr::read(&cell).is_ok()
    });
    assert_eq!(good.collect::<Vec<u8>>(), [0x52]);
}

#[test]
fn feedback_values() {
    // ACR 1,000 units, d 4, CI 1, MCR 512: 937.
    let thousand_units = abr::code(1_000).unwrap();
    let mut table = opened(&Params::house(0x7FFF, 0x4000, thousand_units));
    assert_eq!(table.acr(AT), Ok(1_000));
    let ci = Rm {
        ci: true,
        er: 0x7FFF,
        ..Rm::default()
    };
    backward(&mut table, ci);
    assert_eq!(table.acr(AT), Ok(937));
    // PCR 512,000, r 4, ACR 500,000, no marks: 512,000.
    let below = abr::code(500_000).unwrap();
    let mut table = opened(&Params::house(THOUSAND, 0x4000, below));
    assert_eq!(table.acr(AT), Ok(499_712)); // the code rate below 500,000
    let free = Rm {
        er: 0x7FFF,
        ..Rm::default()
    };
    backward(&mut table, free);
    assert_eq!(table.acr(AT), Ok(RATE));
    // ACR 512,000, d 4, CI 1, ER 204,800, MCR 512: 204,800.
    let mut table = opened(&Params::house(THOUSAND, 0x4000, THOUSAND));
    let er = abr::code(204_800).unwrap();
    backward(&mut table, Rm { er, ..ci });
    assert_eq!(table.acr(AT), Ok(204_800));
}

#[test]
fn the_gap_to_the_nanosecond() {
    for (code, gap) in [(THOUSAND, MS), (abr::code(1_536).unwrap(), 333_333_334)] {
        let mut table = opened(&Params::house(code, 0x4000, code));
        table.offer(AT, 2).unwrap();
        assert_eq!(kind(&mut table, 0), Some(Kind::Forward));
        assert_eq!(kind(&mut table, gap - 1), None);
        assert_eq!(kind(&mut table, gap), Some(Kind::Data));
    }
}

#[test]
fn nrm_32_within_trm() {
    // A million cells per second: 32 cells are well within Trm.
    let fast = abr::code(512_000_000).unwrap();
    let mut table = opened(&Params::house(fast, 0x4000, fast));
    table.offer(AT, 100).unwrap();
    let kinds: Vec<_> = (0..33).map(|i| kind(&mut table, i * 10_000)).collect();
    assert_eq!(kinds[0], Some(Kind::Forward));
    assert!(kinds[1..32].iter().all(|kind| *kind == Some(Kind::Data)));
    assert_eq!(kinds[32], Some(Kind::Forward));
}

#[test]
fn trm_to_the_nanosecond() {
    let fast = abr::code(512_000_000).unwrap();
    for (time, expected) in [(100 * MS - 1, Kind::Data), (100 * MS, Kind::Forward)] {
        let mut table = opened(&Params::house(fast, 0x4000, fast));
        table.offer(AT, 100).unwrap();
        assert_eq!(kind(&mut table, 0), Some(Kind::Forward));
        assert_eq!(kind(&mut table, 10_000), Some(Kind::Data));
        assert_eq!(kind(&mut table, 20_000), Some(Kind::Data));
        assert_eq!(kind(&mut table, time), Some(expected));
    }
}

#[test]
fn adtf_to_the_nanosecond() {
    let (fast, slow) = (abr::code(512_000_000).unwrap(), THOUSAND);
    let raised = RATE + abr::rate(fast).unwrap() / 16;
    for (late, expected) in [(0, raised), (1, RATE)] {
        let mut table = opened(&Params::house(fast, 0x4000, slow));
        table.offer(AT, 3).unwrap();
        assert_eq!(slot(&mut table, 0), Some((Kind::Forward, RATE)));
        let free = Rm {
            er: 0x7FFF,
            ..Rm::default()
        };
        backward(&mut table, free);
        assert_eq!(table.acr(AT), Ok(raised));
        assert_eq!(kind(&mut table, MS), Some(Kind::Data));
        assert_eq!(kind(&mut table, 2 * MS), Some(Kind::Data));
        let adtf = 500 * MS;
        assert_eq!(
            slot(&mut table, adtf + late),
            Some((Kind::Forward, expected))
        );
    }
}

#[test]
fn ends_of_time_and_of_the_addresses() {
    let params = Params::house(THOUSAND, 0x4000, THOUSAND);
    let mut table = Table::new();
    let mut cell = [0; CELL_OCTETS];
    assert_eq!(table.slot(TIME_MAX + 1, &mut cell), Err(Refusal::Time));
    assert_eq!(table.open(channel(31), 0, &params), Err(Refusal::LowVci));
    assert_eq!(table.open(AT, TIME_MAX, &params), on_leaf(0));
    assert_eq!(table.open(channel(65_535), TIME_MAX, &params), on_leaf(1));
    assert_eq!(
        table.open(channel(65_536), TIME_MAX, &params),
        Err(Refusal::Range)
    );
    assert_eq!(
        table.open(Address::new(255, 32), TIME_MAX, &params),
        on_leaf(2)
    );
    assert_eq!(
        table.open(Address::new(256, 32), TIME_MAX, &params),
        Err(Refusal::Range)
    );
    assert_eq!(
        table.open(Address::new(256, 31), TIME_MAX, &params),
        Err(Refusal::LowVci)
    );
    assert_eq!(table.slot(TIME_MAX, &mut cell), Ok(None));
    assert_eq!(
        table.slot(TIME_MAX - 1, &mut cell),
        Err(Refusal::TimeBackward)
    );
}

/// A VCI over 65,535 is no member of an open path, and on no other path is there a member.
#[test]
fn a_member_past_the_last_vci() {
    let params = Params::house(THOUSAND, 0x4000, THOUSAND);
    let mut table = Table::new();
    assert_eq!(table.open_path(VPI, 0, &params), on_leaf(0));
    assert_eq!(table.add_member(channel(65_535)), Ok(()));
    for vci in [65_536, 70_000, 131_071, u32::MAX] {
        assert_eq!(table.add_member(channel(vci)), Err(Refusal::NotOpen));
        let expected = [(VPI, Refusal::NotAMember), (VPI + 256, Refusal::NotOpen)];
        for (vpi, refusal) in expected.into_iter().chain([(0, Refusal::NotOpen)]) {
            let at = Address::new(vpi, vci);
            assert_eq!(table.offer_member(at, 0), Err(refusal), "{at}");
            assert_eq!(table.remove_member(at), Err(refusal), "{at}");
        }
    }
}

#[test]
fn as_many_as_the_capacity_open_and_no_more_in_any_order() {
    let capacity = CONNECTIONS_MAX as u32;
    let params = Params::house(THOUSAND, 0x4000, THOUSAND);
    let mut table = Table::new();
    let vci_of = |leaf: u32| 32 + (leaf * 37) % capacity;
    for leaf in 0..capacity {
        let vci = vci_of(leaf);
        assert_eq!(table.open(channel(vci), 0, &params), on_leaf(leaf), "{vci}");
    }
    let (one_more, closing) = (32 + capacity, vci_of(10));
    assert_eq!(
        table.open(channel(one_more), 0, &params),
        Err(Refusal::Full)
    );
    let closed = Closed {
        cells: 0,
        comparisons: 1,
    };
    assert_eq!(table.close(channel(closing)), Ok(closed));
    assert_eq!(table.open(channel(one_more), 0, &params), on_leaf(10));
    assert_eq!(table.open(channel(closing), 0, &params), Err(Refusal::Full));
    let open = || (32..=one_more).filter(|vci| *vci != closing);
    for vci in open() {
        table.offer(channel(vci), 1).unwrap();
    }
    let mut cell = [0; CELL_OCTETS];
    for vci in open() {
        let sent = table.slot(0, &mut cell).unwrap().unwrap();
        assert_eq!(
            (sent.vci, sent.comparisons),
            (vci, COMPARISONS_MAX),
            "ties go to the lower name"
        );
    }
}

/// Equal VCIs on different VPIs, and a higher VCI on a lower VPI: ties go to the lower
/// name, VPI x 65,536 + VCI (document 02, L6).
#[test]
fn ties_go_to_the_lower_name() {
    let params = Params::house(THOUSAND, 0x4000, THOUSAND);
    let rising = [(0, 40), (0, 65_535), (1, 32), (1, 40), (2, 32), (255, 32)];
    let rising = rising.map(|(vpi, vci)| Address::new(vpi, vci));
    let mut table = Table::new();
    for at in rising.into_iter().rev() {
        table.open(at, 0, &params).unwrap();
        table.offer(at, 1).unwrap();
    }
    let mut cell = [0; CELL_OCTETS];
    for at in rising {
        let sent = table.slot(0, &mut cell).unwrap().unwrap();
        assert_eq!(sent.address(), at);
        let forward = Rm {
            vpi: at.vpi,
            vci: at.vci,
            er: THOUSAND,
            ccr: THOUSAND,
            mcr: 0x4000,
            ..Rm::default()
        };
        assert_eq!(abr::read(&cell), Ok(Cell::Rm(forward)));
    }
    assert_eq!(slot(&mut table, 0), None);
}

/// An out-of-rate cell of VCI 32 on VPI 0xA5 at rate 0, PCR being 1,000 cells per second and MCR
/// 0: header with payload type 6 and CLP 1, its check, protocol, five bits, ER, CCR and
/// MCR; QL and SN are 0, the reserved octets 0x6A, and the CRC-10 is 0x260.
#[test]
fn the_octets_of_an_out_of_rate_cell() {
    let start = [0x0A, 0x50, 2, 0x0D, 0xE4, 1, 0, 0x53, 0xE8, 0, 0, 0, 0];
    let mut expected = [0; CELL_OCTETS];
    expected[..13].copy_from_slice(&start);
    expected[21..51].fill(0x6A);
    expected[51..].copy_from_slice(&[0x02, 0x60]);
    for mcr in [0, 1, 0x01FF, 0x3FFF] {
        let mut table = opened(&Params::house(THOUSAND, mcr, 0));
        let mut cell = [0xA5; CELL_OCTETS];
        assert_eq!(table.out_of_rate(AT, 0, &mut cell), Ok(()));
        assert_eq!(cell, expected, "{mcr:x}");
    }
}

#[test]
fn one_out_of_rate_cell_in_100_ms() {
    let mut table = opened(&Params::house(THOUSAND, 0, 0));
    let mut cell = [0; CELL_OCTETS];
    let mut at = |time| table.out_of_rate(AT, time, &mut cell);
    assert_eq!(at(5), Ok(()));
    assert_eq!(at(5), Err(Refusal::OutOfRateTooSoon));
    assert_eq!(at(OUT_OF_RATE_INTERVAL + 4), Err(Refusal::OutOfRateTooSoon));
    assert_eq!(at(OUT_OF_RATE_INTERVAL + 5), Ok(()));
    assert_eq!(at(OUT_OF_RATE_INTERVAL + 4), Err(Refusal::TimeBackward));
    assert_eq!(at(TIME_MAX), Ok(()));
    assert_eq!(at(TIME_MAX + 1), Err(Refusal::Time));
}

/// One unit is a cell in 512 seconds; at rate 0 there is none.
#[test]
fn the_least_rate_above_0() {
    let mut params = Params::house(0x4000, 0, 0x4000);
    (params.r, params.d) = (9, 1);
    let mut table = opened(&params);
    table.offer(AT, 9).unwrap();
    assert_eq!(slot(&mut table, 0), Some((Kind::Forward, 512)));
    let er = |er| Rm {
        er,
        ..Rm::default()
    };
    backward(&mut table, er(0));
    assert_eq!(
        (table.acr(AT), slot(&mut table, 900_000 * MS)),
        (Ok(0), None)
    );
    backward(&mut table, er(0x4000)); // 512 / 2^9
    assert_eq!(table.acr(AT), Ok(1));
    assert_eq!(slot(&mut table, 900_000 * MS), Some((Kind::Data, 1)));
    let due = 900_000 * MS + 512_000 * MS;
    assert_eq!(slot(&mut table, due - 1), None);
    assert_eq!(slot(&mut table, due), Some((Kind::Data, 1)));
    let ci = true;
    backward(&mut table, Rm { ci, ..er(0x7FFF) }); // half of one unit
    assert_eq!((table.acr(AT), slot(&mut table, TIME_MAX)), (Ok(0), None));
}

/// Y counts up to the largest CRM, and stops there.
#[test]
fn the_unanswered_count_reaches_the_largest_crm() {
    // Nrm 2: every second cell is a forward cell.
    const CRM: u64 = 8_388_608;
    let fast = abr::code(512_000_000).unwrap();
    let mut params = Params::house(fast, 0x4000, fast);
    (params.n, params.c, params.tbe) = (1, 1, 16_777_215);
    let mut table = opened(&params);
    let full = abr::rate(fast).unwrap();
    table.offer(AT, 1).unwrap();
    let (mut time, mut forward) = (0, 0);
    let mut next_forward = |table: &mut Table| loop {
        time += 1_000_000_000;
        if let (Kind::Forward, acr) = slot(table, time).expect("data waits") {
            forward += 1;
            return (forward, acr);
        }
        table.offer(AT, 1).unwrap();
    };
    while next_forward(&mut table) != (CRM, full) {
        assert_eq!(table.acr(AT), Ok(full));
    }
    let unanswered = |table: &Table| u64::from(table.status(AT).unwrap().unanswered);
    assert_eq!(unanswered(&table), CRM);
    for past in 1..4 {
        assert_eq!(next_forward(&mut table), (CRM + past, full >> past));
        assert_eq!(unanswered(&table), CRM);
    }
}
