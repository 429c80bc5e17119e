//! Tests of the four moves and of a connection by itself.

use super::*;
use crate::params::Params;
use crate::rate::LARGEST;

/// Peak 512,000, minimum 512 and initial rate 1,024 with the house set.
fn contract() -> Contract {
    Params::house(0x53E8, 0x4000, 0x4200).contract().unwrap()
}

fn at(acr: u64) -> RateRecord {
    RateRecord {
        acr,
        contract: contract(),
    }
}

#[test]
fn starred_feedback() {
    assert_eq!(at(1_000).feedback(true, false, LARGEST).acr, 937);
    assert_eq!(at(500_000).feedback(false, false, LARGEST).acr, 512_000);
    assert_eq!(at(512_000).feedback(true, false, 204_800).acr, 204_800);
}

#[test]
fn feedback_by_its_marks() {
    let from = at(100_000);
    assert_eq!(from.feedback(false, false, LARGEST).acr, 132_000);
    assert_eq!(from.feedback(false, true, LARGEST).acr, 100_000);
    assert_eq!(from.feedback(true, false, LARGEST).acr, 93_750);
    assert_eq!(from.feedback(true, true, LARGEST).acr, 93_750);
}

#[test]
fn feedback_applies_er_whatever_the_marks() {
    for (ci, ni) in [(false, false), (false, true), (true, false), (true, true)] {
        assert_eq!(at(100_000).feedback(ci, ni, 2_000).acr, 2_000);
        assert_eq!(at(100_000).feedback(ci, ni, 0).acr, 512);
    }
}

#[test]
fn feedback_stays_in_bounds() {
    assert_eq!(at(512).feedback(true, true, LARGEST).acr, 512);
    assert_eq!(at(512_000).feedback(false, false, LARGEST).acr, 512_000);
}

#[test]
fn feedback_at_the_ends_of_r_and_d() {
    let with = |r, d| {
        let contract = Contract { r, d, ..contract() };
        RateRecord {
            acr: 100_000,
            contract,
        }
    };
    assert_eq!(with(0, 0).feedback(true, false, LARGEST).acr, 512);
    assert_eq!(with(0, 0).feedback(false, false, LARGEST).acr, 512_000);
    assert_eq!(with(15, 15).feedback(true, false, LARGEST).acr, 99_996);
    assert_eq!(with(15, 15).feedback(false, false, LARGEST).acr, 100_015);
}

#[test]
fn the_largest_rates_do_not_overflow() {
    let house = Params::house(0x7FFF, 0x4000, 0x7FFF);
    let params = Params {
        d: 15,
        c: 6,
        r: 0,
        tbe: 1, // CRM 1
        ..house
    };
    let record = RateRecord::new(params.contract().unwrap());
    assert_eq!(record.acr, LARGEST);
    assert_eq!(record.feedback(false, false, LARGEST).acr, LARGEST);
    let cut = LARGEST - LARGEST / 32_768;
    assert_eq!(record.feedback(true, false, LARGEST).acr, cut);
    assert_eq!(record.unanswered(1).acr, LARGEST - LARGEST / 64);
}

#[test]
fn a_cut_is_never_less_than_its_share() {
    for acr in 512..5_000u64 {
        for d in 0..=15 {
            let left = cut(acr, d);
            assert!((acr - left) << d >= acr);
            assert!((acr - left) << d < acr + (1 << d));
        }
    }
}

#[test]
fn first_cell_only_lowers() {
    assert_eq!(at(5_000).first_cell().acr, 1_024);
    assert_eq!(at(600).first_cell().acr, 600);
}

#[test]
fn idle_after_more_than_adtf() {
    assert_eq!(at(5_000).idle(500_000_000).acr, 5_000);
    assert_eq!(at(5_000).idle(500_000_001).acr, 1_024);
    assert_eq!(at(600).idle(500_000_001).acr, 600);
}

#[test]
fn unanswered_from_crm_on() {
    assert_eq!(at(1_000).unanswered(524_287).acr, 1_000);
    assert_eq!(at(1_000).unanswered(524_288).acr, 937);
    assert_eq!(at(1_000).unanswered(8_388_608).acr, 937);
    assert_eq!(at(520).unanswered(524_288).acr, 512);
}

#[test]
fn unanswered_at_the_ends_of_c() {
    let with = |c| {
        let contract = Contract { c, ..contract() };
        RateRecord {
            acr: 10_000,
            contract,
        }
        .unanswered(524_288)
        .acr
    };
    assert_eq!(with(0), 512);
    assert_eq!(with(1), 5_000);
    assert_eq!(with(6), 9_843);
    assert_eq!(with(7), 10_000);
}

#[test]
fn the_unanswered_count_stops() {
    let mut connection = Connection::new(Address::new(0, 32), 0, contract(), Load::channel());
    connection.unanswered = 8_388_607;
    connection.forward_cell(0);
    assert_eq!(connection.unanswered, 8_388_608);
    connection.forward_cell(0);
    assert_eq!(connection.unanswered, 8_388_608);
}

#[test]
fn only_bn_0_is_an_answer() {
    let mut connection = Connection::new(Address::new(0, 32), 0, contract(), Load::channel());
    connection.unanswered = 9;
    let made = Rm {
        dir: 1,
        bn: 1,
        ci: 1,
        er: 0x7FFF,
        ..Rm::default()
    };
    connection.receive_backward(&made);
    assert_eq!(connection.acr(), 960); // the rate moves with BN 1 too
    assert_eq!(connection.unanswered, 9);
    connection.receive_backward(&Rm { bn: 0, ..made });
    assert_eq!(connection.acr(), 900);
    assert_eq!(connection.unanswered, 0);
}
