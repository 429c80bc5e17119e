//! What a lag of a slot for each connection does not cover, shown by lines that fall ever
//! further behind; and what connections at constant rates get, by the lag.

use abr_differential::call::Call;
use abr_differential::library::Difference;
use abr_reference::Address;

use super::circuit::{Circuit, Sums};
use super::line::{code, gap, params, Line, ENDLESS, SECOND};

/// A slot of a line at 353,208 cells per second.
const SLOT: u64 = 2_831;

/// The code rate next below the line's.
fn full() -> u64 {
    abr_reference::rate_of(code(SECOND / SLOT))
}

fn channel(vpi: u32) -> Address {
    Address::new(vpi, 32)
}

/// Slots that the last one was passed behind its own time.
fn slots_behind(line: &Line) -> u64 {
    (line.now - line.passed) / SLOT
}

/// Eight connections, one of which has the line's rate at each slot and the others none, in
/// turn: how far behind the line is after each thousand of so many slots, and the most that the
/// rates summed to, in thousandths of the line's.
pub fn rotating(slots: u64) -> Result<(Vec<u64>, u64), Difference> {
    const COUNT: u32 = 8;
    let (mut line, rate) = (Line::new(SLOT, ENDLESS), full());
    let mut greedy = params(rate, 0, rate);
    greedy.r = 0;
    for vpi in 0..COUNT {
        line.open(channel(vpi), greedy)?;
        line.offer(channel(vpi), 65_535)?;
        line.explicit(channel(vpi), 0)?;
    }
    let (mut behind, mut most) = (Vec::new(), 0);
    for slot in 0..slots {
        let turn = (slot % u64::from(COUNT)) as u32;
        line.explicit(channel((turn + COUNT - 1) % COUNT), 0)?;
        line.explicit(channel(turn), rate)?;
        let rates = (0..COUNT).map(|vpi| line.acr(channel(vpi)));
        let sum: u64 = rates.sum::<Result<u64, Difference>>()?;
        most = most.max((sum * SLOT).div_ceil(SECOND / 1_000));
        line.slot(slot * SLOT)?;
        if slot % 1_000 == 999 {
            behind.push(slots_behind(&line));
        }
    }
    Ok((behind, most))
}

/// One connection that is opened, sends its first cell and is closed, again and again: how far
/// behind the line is after so many slots, and the bound that counts the opens.
pub fn reopened(slots: u64) -> Result<(u64, u64), Difference> {
    let (mut line, rate) = (Line::new(SLOT, ENDLESS), full());
    for slot in 0..slots {
        line.open(channel(0), params(rate, rate, rate))?;
        line.offer(channel(0), 1)?;
        line.slot(slot * SLOT)?;
        line.close(channel(0))?;
        if line.open > 0 || line.now - line.passed > line.counted * SLOT {
            return Err(format!("{} behind at {slot}", line.now - line.passed));
        }
    }
    Ok((slots_behind(&line), line.counted))
}

/// Two connections whose shares, nine tenths and one of a line with 5 % left free, change places
/// every 500 slots, the rise told so many slots after that and the fall so many: the furthest
/// behind after each quarter of so many slots.
pub fn exchanged(rise: u64, fall: u64, slots: u64) -> Result<Vec<u64>, Difference> {
    const PERIOD: u64 = 500;
    let (mut line, shared) = (Line::new(SLOT, ENDLESS), SECOND / (SLOT * 105 / 100));
    let mut greedy = params(full(), 0, shared / 2);
    greedy.r = 0;
    let mut circuits = [0, 1].map(|vpi| Circuit::new(vpi, Vec::new(), greedy));
    for circuit in &mut circuits {
        circuit.open(&mut line)?;
    }
    let (mut behind, mut furthest) = (Vec::new(), 0);
    for slot in 0..slots {
        let (high, at) = ((slot / PERIOD % 2) as u32, slot % PERIOD);
        if at == fall {
            line.explicit(channel(1 - high), shared / 10)?;
        }
        if at == rise {
            line.explicit(channel(high), shared * 9 / 10)?;
        }
        busy_slot(&mut line, &mut circuits, slot * SLOT)?;
        furthest = furthest.max(slots_behind(&line));
        if slot % (slots / 4) == slots / 4 - 1 {
            behind.push(furthest);
        }
    }
    Ok(behind)
}

/// A slot of a line on which data always waits.
fn busy_slot(line: &mut Line, circuits: &mut [Circuit], now: u64) -> Result<(), Difference> {
    for circuit in circuits.iter_mut().filter(|circuit| circuit.waiting < 100) {
        circuit.offer(line, 60_000)?;
    }
    for circuit in circuits.iter_mut() {
        circuit.told(line)?;
    }
    if let Some(cell) = line.slot(now)? {
        let circuit = &mut circuits[cell.sent.vpi as usize];
        circuit.sent(&cell, false, &mut Sums::default())?;
    }
    Ok(())
}

/// What connections with these gaps, in hundredths of a slot, and data always waiting get of
/// their constant rates in so many slots, in thousandths, with a lag of so many slots. `timed`
/// makes another call before each slot, with the slot's own time: it opens a connection on
/// which nothing waits, and closes it.
pub fn shares(gaps: &[u64], lag: u64, timed: bool, slots: u64) -> Result<Vec<u64>, Difference> {
    let mut line = Line::new(SLOT, lag * SLOT);
    let rates = gaps.iter().map(|gap| SECOND * 100 / (gap * SLOT));
    let constant = |(vpi, rate)| Circuit::new(vpi, Vec::new(), params(rate, rate, rate));
    let mut circuits: Vec<Circuit> = (0..).zip(rates).map(constant).collect();
    for circuit in &mut circuits {
        circuit.open(&mut line)?;
    }
    for slot in 0..slots {
        let (at, time) = (channel(255), slot * SLOT);
        if timed {
            let params = params(full(), full(), full());
            line.call(&Call::Open { at, time, params })?;
            line.call(&Call::Close { at })?;
        }
        busy_slot(&mut line, &mut circuits, time)?;
    }
    let share = |circuit: &Circuit| {
        let (cells, gap) = (circuit.cells, gap(circuit.pcr));
        (cells * gap * 1_000 + slots * SLOT / 2) / (slots * SLOT)
    };
    Ok(circuits.iter().map(share).collect())
}
