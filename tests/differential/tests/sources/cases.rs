//! The seven test cases of source document 000, chapter 4.

use abr::{Kind, Rm};

use crate::station::{
    paper, read, short_adtf, Sent, Station, INITIAL, INITIAL_CODE, MINIMUM, MS, PEAK, PEAK_CODE,
    THREE_HUNDRED, THREE_HUNDRED_CODE,
};

/// The paper's step of time, "delapse", 0.02 s.
const STEP: u64 = 20 * MS;

/// The paper's two stations, each the other's destination, with data always
/// ready at both.
struct Loop {
    a: Station,
    b: Station,
    time: u64,
}

impl Loop {
    fn new() -> Self {
        let mut station = Station::open(&paper());
        station.offer(1_000);
        Loop {
            a: station.clone(),
            b: station,
            time: 0,
        }
    }

    /// One step of time: a slot at each station, both cells delivered. Gives
    /// the backward cell that A received, if it did.
    fn step(&mut self) -> Option<Rm> {
        let (from_a, from_b) = (self.a.slot(self.time), self.b.slot(self.time));
        deliver(from_a, &mut self.b);
        deliver(from_b, &mut self.a);
        self.time += STEP;
        let turned = from_b.filter(|sent| sent.kind == Kind::Turned)?;
        Some(read(&turned.cell))
    }

    /// Steps until A receives a backward cell.
    fn feedback(&mut self) -> Rm {
        (0..50).find_map(|_| self.step()).expect("a backward cell")
    }

    /// The allowed rates that A passes through in so many steps.
    fn rates(&mut self, steps: usize) -> Vec<u64> {
        let mut rates = vec![self.a.acr()];
        for _ in 0..steps {
            self.step();
            rates.push(self.a.acr());
        }
        rates.dedup();
        rates
    }
}

/// Delivers a cell; data carries EFCI 0, as the paper's always does.
fn deliver(sent: Option<Sent>, to: &mut Station) {
    match sent {
        Some(sent) if sent.kind == Kind::Data => to.receive_data(false),
        Some(sent) => to.receive(&sent.cell),
        None => {}
    }
}

/// 200 cells/s up to 1,000 in steps of PCR x RIF = 512,000 / 8 = 64,000: six
/// whole steps give 486,400, and the seventh stops at PCR.
const UP: [u64; 8] = [
    102_400, 166_400, 230_400, 294_400, 358_400, 422_400, 486_400, 512_000,
];

/// 1,000 cells/s down to 100: each is 7/8 of the one before, rounded down, as
/// 300,125 x 7 / 8 = 262,609.375; the last would be 46,279, below MCR.
const DOWN: [u64; 19] = [
    512_000, 448_000, 392_000, 343_000, 300_125, 262_609, 229_782, 201_059, 175_926, 153_935,
    134_693, 117_856, 103_124, 90_233, 78_953, 69_083, 60_447, 52_891, 51_200,
];

/// 100 cells/s up again: seven steps of 64,000 give 499,200, then PCR.
const UP_AGAIN: [u64; 9] = [
    51_200, 115_200, 179_200, 243_200, 307_200, 371_200, 435_200, 499_200, 512_000,
];

#[test]
fn tc1_without_congestion_the_rate_rises_to_pcr() {
    let mut stations = Loop::new();
    assert_eq!(stations.rates(50), UP);
    assert_eq!(stations.rates(50), [PEAK]);
    assert_eq!(stations.b.acr(), PEAK);
}

#[test]
fn tc2_under_congestion_the_rate_falls_to_mcr() {
    let mut stations = Loop::new();
    stations.rates(50);
    stations.b.set_level(2);
    assert_eq!(stations.rates(100), DOWN);
    assert_eq!(stations.rates(50), [MINIMUM]);
    // B alone is congested: what A turns for B carries no mark.
    assert_eq!(stations.b.acr(), PEAK);
}

#[test]
fn tc1_and_tc2_combined_lower_the_rate_and_raise_it_again() {
    let mut stations = Loop::new();
    stations.rates(50);
    stations.b.set_level(2);
    stations.rates(100);
    stations.b.set_level(0);
    assert_eq!(stations.rates(50), UP_AGAIN);
    // Level 1, no increase, in between: the rate is unchanged.
    stations.b.set_level(2);
    stations.feedback();
    stations.b.set_level(1);
    assert_eq!(stations.rates(50), [448_000]);
}

#[test]
fn tc3_two_cells_and_trm_make_a_forward_cell() {
    let mut station = Station::open(&paper());
    assert_eq!(station.round(0), INITIAL);
    // Nothing waits, k is 2: ready at Trm, 100 ms, and not before.
    assert_eq!(station.slot(100 * MS - 1), None);
    assert_eq!(station.clone().kind(100 * MS), Some(Kind::Forward));
    // The paper's observation, t2 = 0.24 s for Trm 0.2 s, is 0.12 s here.
    assert_eq!(station.kind(120 * MS), Some(Kind::Forward));
}

#[test]
fn tc3_one_cell_and_trm_make_none() {
    let mut station = Station::open(&paper());
    station.offer(1);
    station.forward(0);
    assert_eq!(station.kind(20 * MS), Some(Kind::Data));
    assert_eq!(station.slot(1_000_000 * MS), None);
    // Data that comes now is the second cell, long after Trm.
    station.offer(1);
    assert_eq!(station.kind(1_000_000 * MS), Some(Kind::Data));
}

#[test]
fn tc3_fifteen_cells_make_a_forward_cell_within_trm() {
    let mut station = Station::open(&paper());
    station.offer(100);
    station.forward(0);
    // 200 cells/s: one each 5 ms. The 15th is sent at 75 ms, the next at 80 ms.
    for i in 1..=15 {
        assert_eq!(station.kind(i * 5 * MS), Some(Kind::Data), "cell {i}");
    }
    assert_eq!(station.kind(80 * MS), Some(Kind::Forward));
}

/// A backward cell without marks whose explicit rate is 300 cells per second.
fn up_to_three_hundred() -> Rm {
    Rm {
        er: THREE_HUNDRED_CODE,
        ..Rm::default()
    }
}

#[test]
fn tc4_an_idle_source_falls_back_to_icr() {
    let mut station = Station::open(&short_adtf());
    station.round(0);
    // 102,400 + 64,000 = 166,400, limited to ER 153,600: the paper's 300.
    station.receive_backward(up_to_three_hundred());
    assert_eq!(station.acr(), THREE_HUNDRED);
    // At exactly ADTF the rate is unchanged; one nanosecond later it falls.
    assert_eq!(station.clone().forward(180 * MS), THREE_HUNDRED);
    assert_eq!(station.clone().forward(180 * MS + 1), INITIAL);
    // The paper's observation: t2 = 0.24 s, 300 becomes 200.
    let sent = station.slot(240 * MS).expect("a forward cell");
    assert_eq!((sent.kind, sent.acr), (Kind::Forward, INITIAL));
    assert_eq!(read(&sent.cell).ccr, INITIAL_CODE);
}

#[test]
fn tc5_unanswered_after_idle_both_in_one_cell() {
    let mut station = Station::open(&short_adtf());
    // Y becomes 5, as the paper sets it; the last two cells are cut.
    assert_eq!(station.unanswered(5).last(), Some(&78_400));
    let not_an_answer = Rm {
        bn: true,
        ..up_to_three_hundred()
    };
    // 78,400 + 64,000 = 142,400; + 64,000 again, limited to ER 153,600.
    station.receive_backward(not_an_answer);
    assert_eq!(station.acr(), 142_400);
    station.receive_backward(not_an_answer);
    assert_eq!(station.acr(), THREE_HUNDRED);
    // 240 ms after the forward cell at 400 ms: 300 to ICR 200, then less an
    // eighth: 102,400 x 7 / 8 = 89,600. In the other order it would be
    // min(153,600 x 7 / 8, 102,400) = 102,400.
    assert_eq!(station.forward(640 * MS), 89_600);
}

#[test]
fn tc5_unanswered_without_idle() {
    let mut station = Station::open(&short_adtf());
    // Forward cells 100 ms apart, less than ADTF. Before the fourth Y is 3:
    // 102,400 x 7 / 8 = 89,600; x 7 / 8 = 78,400. The paper's machine would
    // send all five at 102,400.
    let expected = [102_400, 102_400, 102_400, 89_600, 78_400];
    assert_eq!(station.unanswered(5), expected);
}

#[test]
fn tc6_a_cell_without_marks_raises_by_pcr_times_rif() {
    let mut stations = Loop::new();
    let cell = stations.feedback();
    assert_eq!((cell.ci, cell.ni), (false, false));
    assert_eq!((cell.er, cell.ccr), (PEAK_CODE, INITIAL_CODE));
    // 102,400 + 512,000 / 8.
    assert_eq!(stations.a.acr(), 166_400);
}

#[test]
fn tc7_a_cell_with_ci_lowers_by_acr_times_rdf() {
    let mut stations = Loop::new();
    stations.feedback();
    stations.b.set_level(2);
    let cell = stations.feedback();
    assert_eq!((cell.ci, cell.ni), (true, false));
    // 166,400 - 166,400 / 8.
    assert_eq!(stations.a.acr(), 145_600);
}
