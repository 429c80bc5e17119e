//! The expected outcome of a call: the reference's.

use abr::ffi::{
    abr_connection, abr_member, abr_received, abr_totals, ABR_CHANNEL, ABR_MEMBER, ABR_NEVER,
    ABR_PATH, ABR_RECEIVED_BACKWARD, ABR_RECEIVED_DATA, ABR_RECEIVED_FORWARD,
};
use abr_convert::{
    library_cell, library_params, library_sent, library_share, library_verdict, reference_params,
    reference_rm,
};
use abr_reference::{
    judge, port, Address, Arrival, Engine, Exported, Imported, Params, Received, Refusal, Sort,
    Status,
};

use crate::call::{Answer, Call, Outcome};
use crate::drawn::Drawn;
use crate::octets::Buffer;

/// Makes a call on the reference.
pub fn call(engine: &mut Engine, call: &Call, buffer: &mut Buffer) -> Outcome {
    match *call {
        Call::Open { at, time, params } => engine
            .open(at, time, &reference_params(&params))
            .map(Answer::Opened),
        Call::Close { at } => engine.close(at).map(Answer::Closed),
        Call::Receive { cell } => engine
            .receive(cell.as_slice())
            .map(|cell| Answer::Received(received(&cell))),
        Call::Offer { at, cells } => engine.offer(at, cells).map(Answer::Comparisons),
        Call::SetLevel { level } => done(engine.set_level(level)),
        Call::Make { at, time } => engine.make(at, time).map(Answer::Comparisons),
        Call::Slot { time, len } => engine
            .slot(time, buffer.octets(len))
            .map(|sent| Answer::Sent(library_sent(sent))),
        Call::OutOfRate { at, time, len } => done(engine.out_of_rate(at, time, buffer.octets(len))),
        Call::OpenPath { vpi, time, params } => engine
            .open_path(vpi, time, &reference_params(&params))
            .map(Answer::Opened),
        Call::Add { at } => engine.add_member(at).map(|()| Answer::Comparisons(0)),
        Call::OfferMember { at, cells } => engine.offer_member(at, cells).map(Answer::Comparisons),
        Call::Remove { at } => engine.remove_member(at).map(Answer::Closed),
        Call::Acr { at } => engine.allowed(at).map(Answer::Allowed),
        Call::Export { at } => engine.export(at).map(exported),
        _ => without_table(call, buffer),
    }
}

/// Makes a call that is given no table.
fn without_table(call: &Call, buffer: &mut Buffer) -> Outcome {
    match *call {
        Call::WriteRm { rm, len } => done(abr_reference::write_rm(
            &reference_rm(&rm),
            buffer.octets(len),
        )),
        Call::Read { cell } => {
            abr_reference::read(cell.as_slice()).map(|cell| Answer::Cell(library_cell(&cell)))
        }
        Call::Code { rate } => abr_reference::code_of(rate).map(|code| Answer::Number(code.into())),
        Call::Rate { code } => abr_reference::rate(code).map(Answer::Number),
        Call::Import { bits } => abr_reference::import(f64::from_bits(bits)).map(imported),
        Call::FairShare { capacity, demands } => {
            abr_reference::fair_share(capacity, &demands.list())
                .map(|share| Answer::Share(library_share(share)))
        }
        Call::Limit { rate, cell } => done(abr_reference::limit(rate, buffer.cell(&cell))),
        Call::Port {
            capacity,
            demands,
            cell,
        } => done(port::port(capacity, &demands.list(), buffer.cell(&cell))),
        Call::Judge { trace } => judge::judge(&Drawn::new(trace).octets)
            .map(|breach| Answer::Verdict(library_verdict(breach))),
        Call::House { pcr, mcr, icr } => Ok(house(Params::house(pcr, mcr, icr))),
        _ => unreachable!("{call:?} is given a table"),
    }
}

/// Everything of a pair, which may be unknown.
pub fn status(engine: &Engine, at: Address) -> Result<abr_connection, Refusal> {
    engine.status(at).map(|status| connection(&status))
}

/// Everything of the connection in a leaf, which may be free.
pub fn at(engine: &Engine, leaf: u32) -> Result<abr_connection, Refusal> {
    engine.at(leaf).map(|status| connection(&status))
}

/// The member with a number, if there are so many.
pub fn member_at(engine: &Engine, number: u32) -> Result<abr_member, Refusal> {
    engine.member_at(number).map(|member| abr_member {
        refusal: 0,
        vpi: member.vpi,
        vci: member.vci,
        waiting: member.waiting as u32,
    })
}

/// What belongs to no single connection.
pub fn link(engine: &Engine) -> abr_totals {
    let totals = engine.link();
    abr_totals {
        connections: totals.connections as u32,
        connections_max: totals.connections_max as u32,
        members: totals.members as u32,
        level: totals.level,
        last: totals.last,
    }
}

fn connection(status: &Status) -> abr_connection {
    let kind = match status.sort {
        Sort::Channel => ABR_CHANNEL,
        Sort::Path => ABR_PATH,
        Sort::Member => ABR_MEMBER,
    };
    let instant = |time: Option<u64>| time.unwrap_or(ABR_NEVER);
    abr_connection {
        refusal: 0,
        kind,
        vpi: status.vpi,
        vci: status.vci,
        leaf: status.leaf,
        waiting: status.waiting as u32,
        params: library_params(&status.params),
        crm: status.crm,
        icr_used: status.icr_used,
        acr: status.acr,
        change: status.change,
        opened: status.opened,
        last_sent: instant(status.last_sent),
        last_forward: instant(status.last_forward),
        ready: instant(status.ready),
        last_made: instant(status.last_made),
        last_out_of_rate: instant(status.last_out_of_rate),
        k: status.k,
        unanswered: status.unanswered,
        backward_sent: status.backward_sent.into(),
        efci: status.efci.into(),
        turned: status.turned.into(),
        made_level: status.made_level.unwrap_or(0),
        served: status.served.unwrap_or(0),
        reserved: 0,
    }
}

/// The library's answer of an accepted cell.
pub fn received(received: &Received) -> abr_received {
    let kind = match received.kind {
        Arrival::Forward => ABR_RECEIVED_FORWARD,
        Arrival::Backward => ABR_RECEIVED_BACKWARD,
        Arrival::Data => ABR_RECEIVED_DATA,
    };
    abr_received {
        refusal: 0,
        comparisons: received.comparisons,
        kind,
        vpi: received.vpi,
        vci: received.vci,
        leaf: received.leaf,
        acr: received.acr,
    }
}

fn house(params: Params) -> Answer {
    Answer::Params(library_params(&params))
}

fn exported(contract: Exported) -> Answer {
    let Exported { pcr, mcr, icr } = contract;
    Answer::Exported([pcr, mcr, icr].map(f64::to_bits))
}

fn imported(imported: Imported) -> Answer {
    let (code, remainder) = (imported.code, imported.remainder.to_bits());
    Answer::Imported { code, remainder }
}

fn done(outcome: Result<(), Refusal>) -> Outcome {
    outcome.map(|()| Answer::Done)
}
