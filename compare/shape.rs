//! The shape of a table: refusals 4 to 7, each over all records before the next.

use crate::check::Checker;
use crate::format::{refused, Leg, Link, Outcome, Plan, Stream};
use crate::paper::{LEG_WRONG, LINK_RANGE, LINK_TWICE, STREAM_WRONG};

pub fn judge<C: Checker>(c: &C, plan: &Plan) -> Outcome<()> {
    c.links_in_range(&plan.links)?;
    c.links_differ(&plan.links)?;
    c.streams(plan)?;
    c.legs(plan)
}

/// Refusal 4, at the lowest link out of range.
pub fn links_in_range<C: Checker>(c: &C, links: &[Link]) -> Outcome<()> {
    match links.iter().position(|link| !c.link_in_range(link)) {
        Some(at) => refused(LINK_RANGE, at),
        None => Ok(()),
    }
}

pub fn link_in_range<C: Checker>(c: &C, link: &Link) -> bool {
    let most = c.limits();
    link.from <= most.node
        && link.to <= most.node
        && link.from != link.to
        && most.rates.contains(&link.ns_per_octet)
        && link.propagation <= most.propagation
}

/// Refusal 5 stands at the later of two equal links, the lowest such.
pub fn links_differ<C: Checker>(_: &C, links: &[Link]) -> Outcome<()> {
    for (at, link) in links.iter().enumerate() {
        if links[..at].iter().any(|earlier| earlier.from == link.from && earlier.to == link.to) {
            return refused(LINK_TWICE, at);
        }
    }
    Ok(())
}

/// Refusal 6: each stream's own words, where its legs begin and end, and at last that no leg is left over.
pub fn streams<C: Checker>(c: &C, plan: &Plan) -> Outcome<()> {
    let legs = plan.legs.len() as u32;
    let mut first_leg = 0;
    for (at, stream) in plan.streams.iter().enumerate() {
        if !c.stream_in_range(stream) || stream.first_leg != first_leg || stream.leg_count > legs - first_leg {
            return refused(STREAM_WRONG, at);
        }
        first_leg += stream.leg_count;
    }
    if first_leg < legs {
        return refused(STREAM_WRONG, plan.streams.len());
    }
    Ok(())
}

pub fn stream_in_range<C: Checker>(c: &C, stream: &Stream) -> bool {
    let within = |(least, most): (u32, u32), word: u32| least <= word && word <= most;
    let limits = c.limits();
    within(limits.period, stream.period)
        && limits.deadline_least <= stream.deadline
        && u64::from(stream.deadline) <= u64::from(limits.deadline_periods) * u64::from(stream.period)
        && within(limits.octets, stream.octets)
        && within(limits.route, stream.leg_count)
}

/// Refusal 7. Here every leg belongs to just one stream, since refusal 6 was not due.
pub fn legs<C: Checker>(c: &C, plan: &Plan) -> Outcome<()> {
    let mut met = Vec::new();
    for (number, stream) in plan.streams.iter().enumerate() {
        met.clear();
        let first = stream.first_leg as usize;
        for at in first..first + stream.leg_count as usize {
            let leg = &plan.legs[at];
            if !c.leg_in_range(plan, leg, number as u32) {
                return refused(LEG_WRONG, at);
            }
            let link = &plan.links[leg.link as usize];
            if met.is_empty() {
                met.push(link.from);
            } else if !c.goes_on(&met, link) {
                return refused(LEG_WRONG, at);
            }
            met.push(link.to);
        }
    }
    Ok(())
}

/// Whether a leg of this stream names it, and a link that is there, and lies no more periods late than any may.
pub fn leg_in_range<C: Checker>(c: &C, plan: &Plan, leg: &Leg, stream: u32) -> bool {
    leg.stream == stream && (leg.link as usize) < plan.links.len() && leg.periods <= c.limits().periods
}

/// Whether a route that has met these nodes goes on over a link: from the last of them, to none of them.
pub fn goes_on<C: Checker>(_: &C, met: &[u32], link: &Link) -> bool {
    met.last() == Some(&link.from) && !met.contains(&link.to)
}
