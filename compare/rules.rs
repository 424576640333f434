//! The rules. Every time is in ns; sums are made in 64 bits.

use crate::check::Checker;
use crate::format::Plan;
use crate::paper::{GAP, PREAMBLE};

/// What the rules have to know of one leg.
#[derive(Clone, Copy)]
pub struct Sent {
    /// When it is sent in each period: for window and overlap.
    pub offset: u64,
    /// When it is sent on its way through the network: for hop and deadline.
    pub start: u64,
    /// How long the frame is on the wire: for hop and deadline, since an arrival does not wait for the gap.
    pub wire: u64,
    /// How long it holds the link, the gap after it included: for window and overlap.
    pub hold: u64,
    pub propagation: u64,
    pub period: u32,
    pub deadline: u64,
}

/// The wire time of a frame: preamble and start delimiter go before it.
pub fn wire_time<C: Checker>(_: &C, octets: u32, ns_per_octet: u32) -> u64 {
    (u64::from(octets) + u64::from(PREAMBLE)) * u64::from(ns_per_octet)
}

/// For how long a frame holds its link: for its wire time, and for the gap after it, in which no other frame may begin.
pub fn hold_time<C: Checker>(_: &C, octets: u32, ns_per_octet: u32) -> u64 {
    (u64::from(octets) + u64::from(PREAMBLE) + u64::from(GAP)) * u64::from(ns_per_octet)
}

/// When a leg starts, as hop and deadline count: at its offset, as many periods of its stream later as it lies late.
#[inline]
pub fn start<C: Checker>(_: &C, plan: &Plan, leg: usize) -> u64 {
    let leg = &plan.legs[leg];
    let period = plan.streams[leg.stream as usize].period;
    u64::from(leg.offset) + u64::from(leg.periods) * u64::from(period)
}

#[inline]
pub fn sent<C: Checker>(c: &C, plan: &Plan, number: usize) -> Sent {
    let leg = &plan.legs[number];
    let (stream, link) = (&plan.streams[leg.stream as usize], &plan.links[leg.link as usize]);
    Sent {
        offset: u64::from(leg.offset),
        start: c.start(plan, number),
        wire: c.wire_time(stream.octets, link.ns_per_octet),
        hold: c.hold_time(stream.octets, link.ns_per_octet),
        propagation: u64::from(link.propagation),
        period: stream.period,
        deadline: u64::from(stream.deadline),
    }
}

pub fn window_holds<C: Checker>(_: &C, leg: &Sent) -> bool {
    leg.offset + leg.hold <= u64::from(leg.period)
}

/// When the frame of a leg is there for the next one.
pub fn arrival(leg: &Sent, precision: u64) -> u64 {
    leg.start + leg.wire + leg.propagation + precision
}

pub fn hop_holds<C: Checker>(_: &C, leg: &Sent, previous: &Sent, precision: u64) -> bool {
    leg.start >= arrival(previous, precision)
}

pub fn deadline_holds<C: Checker>(_: &C, last: &Sent, first: &Sent, precision: u64) -> bool {
    arrival(last, precision) <= last.deadline + first.start
}

/// Whether the repeats of two legs on one link never share an instant.
#[inline]
pub fn apart<C: Checker>(_: &C, a: &Sent, b: &Sent) -> bool {
    let g = i64::from(divisor(a.period, b.period));
    let r = (b.offset as i64 - a.offset as i64).rem_euclid(g);
    r >= a.hold as i64 && g - r >= b.hold as i64
}

/// The greatest common divisor, by Euclid.
pub fn divisor(mut a: u32, mut b: u32) -> u32 {
    while b != 0 {
        let rest = a % b;
        a = b;
        b = rest;
    }
    a
}
