//! Recheckers that are wrong on purpose, each in one thing. The comparison has to catch every one.

use crate::check::{self, places_of, Bent, Checker};
use crate::format::{refused, Outcome, Plan, Refusal};
use crate::paper::{
    DEADLINE, HOP, LAST_REVISION, LEG_WRONG, LIMITS, LINK_RANGE, LINK_TWICE, NOTHING_VIOLATED, NO_LEG, OVERLAP,
    OVERLAPS, REFUSED, RULES, STREAM_WRONG, WINDOW,
};
use crate::recheck::{
    all_places, first_of_its_stream, holds, is_deadline_of_its_stream, is_next_hop, is_overlap_with, is_own,
    last_of_its_stream, listed, look, moved_leg, nothing_violated, opened, refuse, violated, Answer, Call, Place,
    Rechecker, RIGHT,
};
use crate::recheck_seen::legs_told;
use crate::rules::{self, arrival, sent, Sent};
use crate::shape;

pub struct Wrong {
    pub name: String,
    pub rechecker: Rechecker,
    /// Whether a whole check, after an accepted table, has to catch it too.
    pub by_whole: bool,
}

/// The right rechecker, bent in one thing.
fn wrong(name: &str, bend: impl Fn(&mut Rechecker)) -> Wrong {
    let mut rechecker = RIGHT;
    bend(&mut rechecker);
    Wrong { name: name.to_string(), rechecker, by_whole: false }
}

/// The same, bent so that it gives other verdicts than a whole check.
fn misjudged(name: &str, bend: impl Fn(&mut Rechecker)) -> Wrong {
    Wrong { by_whole: true, ..wrong(name, bend) }
}

/// The right one, but for a rule.
fn ruled(name: &str, bend: impl Fn(&mut Bent)) -> Wrong {
    misjudged(name, |r| bend(&mut r.checker))
}

pub fn all() -> Vec<Wrong> {
    let found = [left_out(), passed_over(), added(), orders(), numbers()];
    let others = [checks(), rules_bent(), refusals(), answers()];
    found.into_iter().chain(others).flatten().collect()
}

// ---- The list

/// The list without some places.
fn without(plan: &Plan, moved: usize, is_out: impl Fn(&Place) -> bool) -> Vec<Place> {
    listed(plan, moved).into_iter().filter(|place| !is_out(place)).collect()
}

/// The list with some places more, in the order of all.
fn with(plan: &Plan, moved: usize, is_in: impl Fn(&Place) -> bool) -> Vec<Place> {
    let list = listed(plan, moved);
    all_places(plan).filter(|place| list.binary_search(place).is_ok() || is_in(place)).collect()
}

fn is_at(place: &Place, rule: usize) -> bool {
    check::rule_at(place.place).0 == rule
}

fn same_stream(plan: &Plan, one: usize, other: usize) -> bool {
    plan.legs[one].stream == plan.legs[other].stream
}

fn same_link(plan: &Plan, one: usize, other: usize) -> bool {
    plan.legs[one].link == plan.legs[other].link
}

/// The two legs of an overlap.
fn both(place: &Place) -> Option<(usize, usize)> {
    Some((place.leg, check::rule_at(place.place).1)).filter(|_| is_at(place, OVERLAP))
}

fn is_later_deadline(plan: &Plan, moved: usize, place: &Place) -> bool {
    place.leg != moved && is_deadline_of_its_stream(plan, moved, place)
}

fn is_later_overlap(moved: usize, place: &Place) -> bool {
    place.leg != moved && is_overlap_with(moved, place)
}

fn is_own_overlap(moved: usize, place: &Place) -> bool {
    is_own(moved, place) && is_at(place, OVERLAP)
}

fn left_out() -> Vec<Wrong> {
    vec![
        misjudged("the next hop left out", |r| {
            r.listed = |plan, moved| without(plan, moved, |place| is_next_hop(plan, moved, place))
        }),
        misjudged("the deadline left out", |r| {
            r.listed = |plan, moved| without(plan, moved, |place| is_deadline_of_its_stream(plan, moved, place))
        }),
        misjudged("the deadline left out but for a last leg", |r| {
            r.listed = |plan, moved| without(plan, moved, |place| is_later_deadline(plan, moved, place))
        }),
        wrong("the deadline left out for a middle leg", |r| {
            r.listed = |plan, moved| {
                let is_first = moved == first_of_its_stream(plan, moved);
                without(plan, moved, |place| !is_first && is_later_deadline(plan, moved, place))
            }
        }),
        misjudged("the deadline left out for a first leg", |r| {
            r.listed = |plan, moved| {
                let is_first = moved == first_of_its_stream(plan, moved);
                without(plan, moved, |place| is_first && is_later_deadline(plan, moved, place))
            }
        }),
        misjudged("overlaps with lower legs only", |r| {
            r.listed = |plan, moved| without(plan, moved, |place| is_later_overlap(moved, place))
        }),
        misjudged("overlaps with higher legs only", |r| {
            r.listed = |plan, moved| without(plan, moved, |place| is_own_overlap(moved, place))
        }),
        misjudged("no overlaps", |r| r.listed = |plan, moved| without(plan, moved, |place| is_at(place, OVERLAP))),
        wrong("overlaps with legs of the same stream left out", |r| {
            r.listed = |plan, moved| {
                without(plan, moved, |place| both(place).map_or(false, |(one, other)| same_stream(plan, one, other)))
            }
        }),
        wrong("only legs on the same link counted", |r| {
            r.listed = |plan, moved| {
                without(plan, moved, |place| both(place).map_or(false, |(one, other)| !same_link(plan, one, other)))
            }
        }),
        misjudged("overlaps up to the last leg of the stream only", |r| {
            r.listed = |plan, moved| {
                let last = last_of_its_stream(plan, moved);
                without(plan, moved, |place| place.leg > last && is_later_overlap(moved, place))
            }
        }),
        misjudged("the overlap with the leg before left out", |r| {
            r.listed = |plan, moved| without(plan, moved, |place| both(place) == Some((moved, moved.wrapping_sub(1))))
        }),
        misjudged("the overlap with the leg after left out", |r| {
            r.listed = |plan, moved| without(plan, moved, |place| both(place) == Some((moved + 1, moved)))
        }),
        misjudged("the overlap with leg 0 left out", |r| {
            r.listed = |plan, moved| without(plan, moved, |place| both(place).map_or(false, |(_, other)| other == 0))
        }),
        misjudged("the overlap with the last leg left out", |r| {
            r.listed = |plan, moved| {
                let last = plan.legs.len() - 1;
                without(plan, moved, |place| place.leg == last && is_later_overlap(moved, place))
            }
        }),
        misjudged("its window left out", |r| {
            r.listed = |plan, moved| without(plan, moved, |place| is_at(place, WINDOW))
        }),
        misjudged("its hop left out", |r| {
            r.listed = |plan, moved| without(plan, moved, |place| is_own(moved, place) && is_at(place, HOP))
        }),
        wrong("its hop left out for a first leg", |r| {
            r.listed = |plan, moved| {
                let is_first = moved == first_of_its_stream(plan, moved);
                without(plan, moved, |place| is_first && is_own(moved, place) && is_at(place, HOP))
            }
        }),
        wrong("its deadline left out but for a last leg", |r| {
            r.listed = |plan, moved| {
                let is_last = moved == last_of_its_stream(plan, moved);
                without(plan, moved, |place| !is_last && is_own(moved, place) && is_at(place, DEADLINE))
            }
        }),
        misjudged("its own places only", |r| {
            r.listed = |plan, moved| without(plan, moved, |place| !is_own(moved, place))
        }),
    ]
}

/// Wrong ones that count each place, and do not look at some.
fn passed_over() -> Vec<Wrong> {
    vec![
        misjudged("the next hop counted, and not looked at", |r| {
            r.holds = |r, plan, moved, place| is_next_hop(plan, moved, &place) || holds(r, plan, moved, place)
        }),
        misjudged("the deadline counted, and not looked at", |r| {
            r.holds =
                |r, plan, moved, place| is_deadline_of_its_stream(plan, moved, &place) || holds(r, plan, moved, place)
        }),
        misjudged("the deadline counted, and looked at for a last leg only", |r| {
            r.holds = |r, plan, moved, place| is_later_deadline(plan, moved, &place) || holds(r, plan, moved, place)
        }),
        misjudged("the deadline counted, and looked at for a first leg only", |r| {
            r.holds = |r, plan, moved, place| {
                let is_first = moved == first_of_its_stream(plan, moved);
                !is_first && is_deadline_of_its_stream(plan, moved, &place) || holds(r, plan, moved, place)
            }
        }),
        wrong("the deadline counted, and not looked at for a middle leg", |r| {
            r.holds = |r, plan, moved, place| {
                let is_first = moved == first_of_its_stream(plan, moved);
                !is_first && is_later_deadline(plan, moved, &place) || holds(r, plan, moved, place)
            }
        }),
        misjudged("overlaps with higher legs counted, and not looked at", |r| {
            r.holds = |r, plan, moved, place| is_later_overlap(moved, &place) || holds(r, plan, moved, place)
        }),
        misjudged("overlaps with lower legs counted, and not looked at", |r| {
            r.holds = |r, plan, moved, place| is_own_overlap(moved, &place) || holds(r, plan, moved, place)
        }),
        misjudged("the overlap with the last leg of the table counted, and not looked at", |r| {
            r.holds = |r, plan, moved, place| {
                let is_last = place.leg + 1 == plan.legs.len();
                is_last && is_later_overlap(moved, &place) || holds(r, plan, moved, place)
            }
        }),
        misjudged("the overlap with leg 0 counted, and not looked at", |r| {
            r.holds = |r, plan, moved, place| {
                both(&place).map_or(false, |(_, other)| other == 0) || holds(r, plan, moved, place)
            }
        }),
        misjudged("its window counted, and not looked at", |r| {
            r.holds = |r, plan, moved, place| is_at(&place, WINDOW) || holds(r, plan, moved, place)
        }),
        misjudged("its hop counted, and not looked at", |r| {
            r.holds =
                |r, plan, moved, place| is_own(moved, &place) && is_at(&place, HOP) || holds(r, plan, moved, place)
        }),
        misjudged("its deadline counted, and not looked at", |r| {
            r.holds =
                |r, plan, moved, place| is_own(moved, &place) && is_at(&place, DEADLINE) || holds(r, plan, moved, place)
        }),
        misjudged("overlaps looked at with legs of the same period only", |r| {
            r.holds = |r, plan, moved, place| {
                let period = |leg: usize| plan.streams[plan.legs[leg].stream as usize].period;
                both(&place).map_or(false, |(one, other)| period(one) != period(other)) || holds(r, plan, moved, place)
            }
        }),
        misjudged("overlaps looked at with first legs of streams only", |r| {
            r.holds = |r, plan, moved, place| {
                let other = if is_own(moved, &place) { check::rule_at(place.place).1 } else { place.leg };
                let is_passed = is_at(&place, OVERLAP) && other != first_of_its_stream(plan, other);
                is_passed || holds(r, plan, moved, place)
            }
        }),
        misjudged("overlaps looked at with the next leg on each side of the link only", |r| {
            r.holds = |r, plan, moved, place| {
                let between = |one: usize, other: usize| plan.legs[one + 1..other].iter();
                let is_passed = both(&place).map_or(false, |(higher, lower)| {
                    between(lower, higher).any(|leg| leg.link == plan.legs[moved].link)
                });
                is_passed || holds(r, plan, moved, place)
            }
        }),
        misjudged("overlaps looked at with the nearest legs in time only", |r| {
            r.holds = |r, plan, moved, place| {
                let offset = |leg: usize| plan.legs[leg].offset;
                let is_passed = both(&place).map_or(false, |(one, other)| {
                    let far = |a: u32, b: u32| a.abs_diff(b) > 20_000;
                    far(offset(one), offset(other))
                });
                is_passed || holds(r, plan, moved, place)
            }
        }),
    ]
}

fn added() -> Vec<Wrong> {
    vec![
        wrong("the next hop taken from a leg of the next stream", |r| {
            r.listed = |plan, moved| with(plan, moved, |place| place.leg == moved + 1 && is_at(place, HOP))
        }),
        wrong("the deadline of the last leg counted twice", |r| {
            r.listed = |plan, moved| {
                let is_deadline = |place: &Place| is_deadline_of_its_stream(plan, moved, place);
                let twice = |place: Place| if is_deadline(&place) { vec![place; 2] } else { vec![place] };
                listed(plan, moved).into_iter().flat_map(twice).collect()
            }
        }),
        wrong("the deadline of a last leg that was moved counted twice", |r| {
            r.listed = |plan, moved| {
                let mut list = listed(plan, moved);
                if moved == last_of_its_stream(plan, moved) {
                    list.push(Place { leg: moved, place: DEADLINE as u32 });
                }
                list
            }
        }),
        misjudged("the deadline at the next leg", |r| {
            r.listed = |plan, moved| {
                let next = (moved + 1).min(last_of_its_stream(plan, moved));
                let list = without(plan, moved, |place| is_later_deadline(plan, moved, place));
                let deadline = |place: &Place| place.leg == next && is_at(place, DEADLINE);
                all_places(plan).filter(|place| list.binary_search(place).is_ok() || deadline(place)).collect()
            }
        }),
        wrong("the window of the next leg too", |r| {
            r.listed = |plan, moved| with(plan, moved, |place| place.leg == moved + 1 && is_at(place, WINDOW))
        }),
        wrong("the deadline of the next leg too", |r| {
            r.listed = |plan, moved| with(plan, moved, |place| place.leg == moved + 1 && is_at(place, DEADLINE))
        }),
        wrong("all places of the next leg too", |r| {
            r.listed =
                |plan, moved| with(plan, moved, |place| place.leg == moved + 1 && same_stream(plan, place.leg, moved))
        }),
        wrong("all places of its stream", |r| {
            r.listed = |plan, moved| with(plan, moved, |place| same_stream(plan, place.leg, moved))
        }),
        wrong("all hops of its stream", |r| {
            r.listed = |plan, moved| with(plan, moved, |place| same_stream(plan, place.leg, moved) && is_at(place, HOP))
        }),
        wrong("the hop of the leg before too", |r| {
            r.listed = |plan, moved| with(plan, moved, |place| place.leg + 1 == moved && is_at(place, HOP))
        }),
        wrong("overlaps of all legs on its link", |r| {
            r.listed = |plan, moved| {
                with(plan, moved, |place| {
                    both(place)
                        .map_or(false, |(one, other)| same_link(plan, one, moved) && same_link(plan, other, moved))
                })
            }
        }),
    ]
}

/// The list in another order.
fn ordered<K: Ord>(plan: &Plan, moved: usize, key: impl Fn(&Place) -> K) -> Vec<Place> {
    let mut list = listed(plan, moved);
    list.sort_by_key(key);
    list
}

fn orders() -> Vec<Wrong> {
    vec![
        misjudged("order by the second number, then by leg", |r| {
            r.listed = |plan, moved| ordered(plan, moved, |place| (place.place, place.leg))
        }),
        misjudged("order by leg of the list instead of by place: what each leg has with the moved one, in turn", |r| {
            r.listed = |plan, moved| {
                ordered(plan, moved, |place| match both(place) {
                    Some((higher, lower)) => (if higher == moved { lower } else { higher }, place.place),
                    None => (place.leg, place.place),
                })
            }
        }),
        misjudged("order by rule, then by leg", |r| {
            r.listed = |plan, moved| ordered(plan, moved, |place| (check::rule_at(place.place).0, *place))
        }),
        wrong("its own places, the next hop, the deadline, and overlaps with higher legs at last", |r| {
            r.listed = |plan, moved| ordered(plan, moved, |place| is_later_overlap(moved, place))
        }),
        misjudged("the next hop and the deadline first", |r| {
            r.listed =
                |plan, moved| ordered(plan, moved, |place| is_own(moved, place) || is_later_overlap(moved, place))
        }),
        misjudged("the next hop at last", |r| {
            r.listed = |plan, moved| ordered(plan, moved, |place| is_next_hop(plan, moved, place))
        }),
        misjudged("the deadline at last", |r| {
            r.listed = |plan, moved| ordered(plan, moved, |place| is_later_deadline(plan, moved, place))
        }),
        wrong("the deadline before the next hop", |r| {
            r.listed = |plan, moved| {
                let mut list = listed(plan, moved);
                let at = |wanted: &dyn Fn(&Place) -> bool| list.iter().position(|place| wanted(place));
                let hop = at(&|place| is_next_hop(plan, moved, place));
                let deadline = at(&|place| is_later_deadline(plan, moved, place));
                if let (Some(hop), Some(deadline)) = (hop, deadline) {
                    list.swap(hop, deadline);
                }
                list
            }
        }),
        misjudged("its overlaps before its window, hop and deadline", |r| {
            r.listed =
                |plan, moved| ordered(plan, moved, |place| (place.leg, !is_own_overlap(moved, place), place.place))
        }),
        misjudged("overlaps with higher legs before the others", |r| {
            r.listed = |plan, moved| ordered(plan, moved, |place| !is_later_overlap(moved, place))
        }),
        wrong("its deadline before its hop", |r| {
            r.listed = |plan, moved| {
                ordered(plan, moved, |place| (place.leg, [0, 2, 1, 3][check::rule_at(place.place).0], place.place))
            }
        }),
        misjudged("its hop before its window", |r| {
            r.listed = |plan, moved| {
                ordered(plan, moved, |place| (place.leg, [1, 0, 2, 3][check::rule_at(place.place).0], place.place))
            }
        }),
        misjudged("places from the last to the first", |r| {
            r.listed = |plan, moved| ordered(plan, moved, |place| std::cmp::Reverse(*place))
        }),
        misjudged("legs from the last to the first", |r| {
            r.listed = |plan, moved| ordered(plan, moved, |place| (std::cmp::Reverse(place.leg), place.place))
        }),
        misjudged("the last violated place", |r| {
            r.look = |r, plan, moved, places| match places.iter().rposition(|&place| !(r.holds)(r, plan, moved, place))
            {
                Some(at) => violated(r, places[at], at + 1),
                None => nothing_violated(places.len()),
            }
        }),
        misjudged("the overlap of the legs that meet first in time", |r| {
            r.listed = |plan, moved| {
                ordered(plan, moved, |place| match both(place) {
                    Some((higher, lower)) => {
                        let other = if higher == moved { lower } else { higher };
                        (1, plan.legs[other].offset, *place)
                    }
                    None => (0, 0, *place),
                })
            }
        }),
    ]
}

// ---- The number of places

/// The right verdict, with another number.
fn numbered(r: &Rechecker, plan: &Plan, moved: usize, places: &[Place], by: impl Fn(&Answer) -> usize) -> Answer {
    let answer = look(r, plan, moved, places);
    Answer { number: by(&answer) as u32, ..answer }
}

fn is_clean(answer: &Answer) -> bool {
    answer.result == NOTHING_VIOLATED
}

/// The right verdict. Its number is that of the right one, and where nothing is violated this one.
fn clean_number(r: &Rechecker, plan: &Plan, moved: usize, places: &[Place], number: usize) -> Answer {
    numbered(r, plan, moved, places, |answer| if is_clean(answer) { number } else { answer.number as usize })
}

fn numbers() -> Vec<Wrong> {
    vec![
        wrong("the number without the violated place", |r| {
            r.look = |r, plan, moved, places| {
                numbered(r, plan, moved, places, |answer| answer.number as usize - usize::from(!is_clean(answer)))
            }
        }),
        wrong("the number of the list although it stopped sooner", |r| {
            r.look = |r, plan, moved, places| numbered(r, plan, moved, places, |_| places.len())
        }),
        wrong("the number of the list without the next hop", |r| {
            r.look = |r, plan, moved, places| {
                let hops = places.iter().filter(|place| is_next_hop(plan, moved, place)).count();
                clean_number(r, plan, moved, places, places.len() - hops)
            }
        }),
        wrong("the number of the list without the deadline", |r| {
            r.look = |r, plan, moved, places| {
                let later = places.iter().filter(|place| is_later_deadline(plan, moved, place)).count();
                clean_number(r, plan, moved, places, places.len() - later)
            }
        }),
        wrong("the number of the list G + 4 always", |r| {
            r.look = |r, plan, moved, places| clean_number(r, plan, moved, places, plan.legs.len() + 4)
        }),
        wrong("the number of the list G + 2 always", |r| {
            r.look = |r, plan, moved, places| clean_number(r, plan, moved, places, plan.legs.len() + 2)
        }),
        wrong("the number of the list G + 3 always", |r| {
            r.look = |r, plan, moved, places| clean_number(r, plan, moved, places, plan.legs.len() + 3)
        }),
        wrong("the number of the list G + 4 for a middle leg alone", |r| {
            r.look = |r, plan, moved, places| {
                let is_middle = moved != first_of_its_stream(plan, moved) && moved != last_of_its_stream(plan, moved);
                clean_number(r, plan, moved, places, plan.legs.len() + if is_middle { 4 } else { 2 })
            }
        }),
        wrong("the number of places of a whole check", |r| {
            r.look = |r, plan, moved, places| {
                clean_number(r, plan, moved, places, r.checker.places(plan.legs.len() as u64) as usize)
            }
        }),
        wrong("no number where nothing is violated", |r| {
            r.look = |r, plan, moved, places| clean_number(r, plan, moved, places, 0)
        }),
        wrong("one place more where nothing is violated", |r| {
            r.look = |r, plan, moved, places| clean_number(r, plan, moved, places, places.len() + 1)
        }),
        wrong("the number of places before the violated one in a whole check", |r| {
            r.look = |r, plan, moved, places| {
                numbered(r, plan, moved, places, |answer| {
                    if is_clean(answer) {
                        return answer.number as usize;
                    }
                    let place = Place { leg: answer.leg as usize, place: answer.place };
                    all_places(plan).take_while(|other| *other <= place).count()
                })
            }
        }),
        wrong("places of which the rule does not concern the leg not counted", |r| {
            r.look = |r, plan, moved, places| {
                let concerns = |place: &&Place| match check::rule_at(place.place).0 {
                    HOP => place.leg != first_of_its_stream(plan, place.leg),
                    DEADLINE => place.leg == last_of_its_stream(plan, place.leg),
                    _ => true,
                };
                numbered(r, plan, moved, places, |answer| {
                    places[..answer.number as usize].iter().filter(concerns).count()
                })
            }
        }),
        misjudged("no more than G places looked at", |r| {
            r.look = |r, plan, moved, places| look(r, plan, moved, &places[..plan.legs.len().min(places.len())])
        }),
        misjudged("no more than G + 2 places looked at", |r| {
            r.look = |r, plan, moved, places| look(r, plan, moved, &places[..(plan.legs.len() + 2).min(places.len())])
        }),
        misjudged("the last place of the list counted, and not looked at", |r| {
            r.look = |r, plan, moved, places| {
                let answer = look(r, plan, moved, &places[..places.len() - 1]);
                Answer { number: answer.number + u32::from(is_clean(&answer)), ..answer }
            }
        }),
    ]
}

// ---- A check of other places

/// The first violated of these places, and the number that the list gives for it: of its places up to that one.
fn counted_as_listed(r: &Rechecker, plan: &Plan, moved: usize, from: usize, places: &[Place]) -> Answer {
    let is_violated = |place: &Place| place.leg >= from && !holds(r, plan, moved, *place);
    match all_places(plan).find(is_violated) {
        Some(place) => violated(r, place, places.partition_point(|listed| *listed <= place)),
        None => nothing_violated(places.len()),
    }
}

fn checks() -> Vec<Wrong> {
    vec![
        wrong("a whole check", |r| r.listed = |plan, _| all_places(plan).collect()),
        wrong("a check from the moved leg on", |r| {
            r.listed = |plan, moved| all_places(plan).filter(|place| place.leg >= moved).collect()
        }),
        wrong("a whole check, with the number of the list", |r| {
            r.look = |r, plan, moved, places| counted_as_listed(r, plan, moved, 0, places)
        }),
        wrong("a check from the moved leg on, with the number of the list", |r| {
            r.look = |r, plan, moved, places| counted_as_listed(r, plan, moved, moved, places)
        }),
        misjudged("nothing violated at revision 0, as if nothing had been moved", |r| {
            r.look = |r, plan, moved, places| match plan.revision {
                0 => nothing_violated(places.len()),
                _ => look(r, plan, moved, places),
            }
        }),
        misjudged("nothing violated always", |r| r.look = |_, _, _, places| nothing_violated(places.len())),
        misjudged("the places of the leg before the moved one", |r| {
            r.listed = |plan, moved| listed(plan, moved.saturating_sub(1))
        }),
        misjudged("the places of the leg after the moved one", |r| {
            r.listed = |plan, moved| listed(plan, (moved + 1).min(plan.legs.len() - 1))
        }),
    ]
}

// ---- The rules

/// Whether a rule holds at a place, by a plan in which the moved leg has other words.
fn holds_with(r: &Rechecker, plan: &Plan, moved: usize, place: Place, bend: impl Fn(&mut Plan)) -> bool {
    let mut bent = plan.clone();
    bend(&mut bent);
    holds(r, &bent, moved, place)
}

fn rules_bent() -> Vec<Wrong> {
    vec![
        misjudged("the period word of the moved leg taken as 0", |r| {
            r.holds = |r, plan, moved, place| holds_with(r, plan, moved, place, |plan| plan.legs[moved].periods = 0)
        }),
        misjudged("the next hop by bare offsets", |r| {
            r.holds = |r, plan, moved, place| {
                if !is_next_hop(plan, moved, &place) {
                    return holds(r, plan, moved, place);
                }
                let bare = |leg: usize| Sent { start: plan.legs[leg].offset.into(), ..sent(&r.checker, plan, leg) };
                rules::hop_holds(&r.checker, &bare(place.leg), &bare(moved), plan.precision.into())
            }
        }),
        misjudged("the next hop with the hold time", |r| {
            r.holds = |r, plan, moved, place| {
                if !is_next_hop(plan, moved, &place) {
                    return holds(r, plan, moved, place);
                }
                let (next, mine) = (sent(&r.checker, plan, place.leg), sent(&r.checker, plan, moved));
                let held = Sent { wire: mine.hold, ..mine };
                rules::hop_holds(&r.checker, &next, &held, plan.precision.into())
            }
        }),
        misjudged("the next hop against the leg itself", |r| {
            r.holds = |r, plan, moved, place| {
                if !is_next_hop(plan, moved, &place) {
                    return holds(r, plan, moved, place);
                }
                let (next, mine) = (sent(&r.checker, plan, place.leg), sent(&r.checker, plan, moved));
                rules::hop_holds(&r.checker, &mine, &next, plan.precision.into())
            }
        }),
        wrong("the deadline counted from the moved leg", |r| {
            r.holds = |r, plan, moved, place| {
                if !is_later_deadline(plan, moved, &place) {
                    return holds(r, plan, moved, place);
                }
                let (last, mine) = (sent(&r.checker, plan, place.leg), sent(&r.checker, plan, moved));
                rules::deadline_holds(&r.checker, &last, &mine, plan.precision.into())
            }
        }),
        misjudged("the deadline asked of the moved leg, though it is not the last", |r| {
            r.holds = |r, plan, moved, place| {
                if !is_own(moved, &place) || !is_at(&place, DEADLINE) {
                    return holds(r, plan, moved, place);
                }
                let first = first_of_its_stream(plan, moved);
                let (mine, first) = (sent(&r.checker, plan, moved), sent(&r.checker, plan, first));
                rules::deadline_holds(&r.checker, &mine, &first, plan.precision.into())
            }
        }),
        misjudged("the hop of a first leg asked against the leg before it", |r| {
            r.holds = |r, plan, moved, place| {
                if !is_own(moved, &place) || !is_at(&place, HOP) || moved == 0 {
                    return holds(r, plan, moved, place);
                }
                let (mine, before) = (sent(&r.checker, plan, moved), sent(&r.checker, plan, moved - 1));
                rules::hop_holds(&r.checker, &mine, &before, plan.precision.into())
            }
        }),
        misjudged("overlaps with higher legs with the holds exchanged", |r| {
            r.holds = |r, plan, moved, place| {
                if !is_later_overlap(moved, &place) || !same_link(plan, place.leg, moved) {
                    return holds(r, plan, moved, place);
                }
                let (theirs, mine) = (sent(&r.checker, plan, place.leg), sent(&r.checker, plan, moved));
                let (a, b) = (Sent { hold: mine.hold, ..theirs }, Sent { hold: theirs.hold, ..mine });
                rules::apart(&r.checker, &a, &b)
            }
        }),
        misjudged("overlaps on all links", |r| {
            r.holds = |r, plan, moved, place| {
                let apart = |(one, other)| {
                    rules::apart(&r.checker, &sent(&r.checker, plan, one), &sent(&r.checker, plan, other))
                };
                both(&place).map_or_else(|| holds(r, plan, moved, place), apart)
            }
        }),
        ruled("hops by bare offsets", |c| {
            c.hop_holds = |c, leg, before, precision| {
                let bare = |leg: &Sent| Sent { start: leg.offset, ..*leg };
                rules::hop_holds(c, &bare(leg), &bare(before), precision)
            }
        }),
        ruled("deadlines by bare offsets", |c| {
            c.deadline_holds = |c, last, first, precision| {
                let bare = |leg: &Sent| Sent { start: leg.offset, ..*leg };
                rules::deadline_holds(c, &bare(last), &bare(first), precision)
            }
        }),
        ruled("deadlines counted from 0", |c| {
            c.deadline_holds = |_, last, _, precision| arrival(last, precision) <= last.deadline
        }),
        ruled("hops without the clock precision", |c| {
            c.hop_holds = |c, leg, before, _| rules::hop_holds(c, leg, before, 0)
        }),
        ruled("windows without the gap", |c| c.window_holds = |_, leg| leg.offset + leg.wire <= u64::from(leg.period)),
        ruled("windows with whole periods", |c| {
            c.window_holds = |_, leg| leg.start + leg.hold <= u64::from(leg.period)
        }),
        ruled("overlaps in the first periods only", |c| {
            c.apart = |_, a, b| a.offset + a.hold <= b.offset || b.offset + b.hold <= a.offset
        }),
        ruled("overlaps without the gap", |c| {
            c.apart = |c, a, b| rules::apart(c, &Sent { hold: a.wire, ..*a }, &Sent { hold: b.wire, ..*b })
        }),
        ruled("overlaps of legs that touch", |c| {
            c.apart = |c, a, b| rules::apart(c, &Sent { hold: a.hold + 1, ..*a }, b)
        }),
        ruled("hops one ns too early", |c| {
            c.hop_holds = |_, leg, before, precision| leg.start + 1 >= arrival(before, precision)
        }),
        ruled("deadlines one ns too short", |c| {
            c.deadline_holds = |_, last, first, precision| arrival(last, precision) < last.deadline + first.start
        }),
    ]
}

// ---- What is refused

/// Refusal 10 before some refusals of the shape.
fn no_leg_before(r: &Rechecker, call: &Call, later: &[u32]) -> Outcome<(Plan, usize)> {
    let plan = r.checker.read_plan(&call.plan)?;
    match r.checker.judge(&plan) {
        Err(refusal) if later.contains(&refusal.number) => moved_leg(&plan, call.leg).and(Err(refusal)),
        _ => opened(r, call),
    }
}

fn refusals() -> Vec<Wrong> {
    vec![
        wrong("10 before 7", |r| r.opened = |r, call| no_leg_before(r, call, &[LEG_WRONG])),
        wrong("10 before 6", |r| r.opened = |r, call| no_leg_before(r, call, &[STREAM_WRONG, LEG_WRONG])),
        wrong("10 before 5", |r| r.opened = |r, call| no_leg_before(r, call, &[LINK_TWICE, STREAM_WRONG, LEG_WRONG])),
        wrong("10 before 4", |r| {
            r.opened = |r, call| no_leg_before(r, call, &[LINK_RANGE, LINK_TWICE, STREAM_WRONG, LEG_WRONG])
        }),
        wrong("10 before the file is read", |r| {
            r.opened = |r, call| {
                if legs_told(&call.plan).map_or(false, |legs| legs <= LIMITS.legs && call.leg >= legs) {
                    return refused(NO_LEG, 0);
                }
                opened(r, call)
            }
        }),
        wrong("10 at the position of the leg", |r| {
            r.refuse = |refusal, call| {
                let at = if refusal.number == NO_LEG { call.leg as usize } else { refusal.at };
                refuse(Refusal { at, ..refusal }, call)
            }
        }),
        wrong("10 at the number of legs", |r| {
            r.moved_leg = |plan, leg| moved_leg(plan, leg).or_else(|_| refused(NO_LEG, plan.legs.len()))
        }),
        wrong("leg G taken for the last", |r| {
            r.moved_leg = |plan, leg| match leg.checked_sub(1) {
                Some(before) if leg as usize == plan.legs.len() => Ok(before as usize),
                _ => moved_leg(plan, leg),
            }
        }),
        wrong("every leg that is not there taken for the last", |r| {
            r.moved_leg = |plan, leg| match plan.legs.len().checked_sub(1) {
                Some(last) => Ok((leg as usize).min(last)),
                None => moved_leg(plan, leg),
            }
        }),
        wrong("legs counted from 1", |r| {
            r.moved_leg = |plan, leg| match (leg as usize).checked_sub(1) {
                Some(before) if before < plan.legs.len() => Ok(before),
                _ => refused(NO_LEG, 0),
            }
        }),
        wrong("10 for the last leg", |r| {
            r.moved_leg = |plan, leg| moved_leg(plan, leg.saturating_add(1)).map(|after| after - 1)
        }),
        wrong("10 by the low 16 bits of the leg", |r| r.moved_leg = |plan, leg| moved_leg(plan, leg & 0xFFFF)),
        wrong("nothing violated in a table without legs", |r| {
            r.opened = |r, call| match opened(r, call) {
                Err(Refusal { number: NO_LEG, .. }) if legs_told(&call.plan) == Some(0) => refused(0, 0),
                other => other,
            };
            r.refuse = |refusal, call| match refusal.number {
                0 => nothing_violated(0),
                _ => refuse(refusal, call),
            }
        }),
        wrong("nothing violated where there is no such leg", |r| {
            r.refuse = |refusal, call| match refusal.number {
                NO_LEG => nothing_violated(0),
                _ => refuse(refusal, call),
            }
        }),
        wrong("9 in place of 10", |r| r.moved_leg = |plan, leg| moved_leg(plan, leg).or_else(|_| refused(9, 0))),
        wrong("bytes left over taken", |r| r.checker.plan_ends = |_, _, _| Ok(())),
        wrong("links not judged", |r| r.checker.links_in_range = |_, _| Ok(())),
        wrong("equal links taken", |r| r.checker.links_differ = |_, _| Ok(())),
        wrong("streams not judged", |r| r.checker.streams = |_, _| Ok(())),
        wrong("legs not judged", |r| r.checker.legs = |_, _| Ok(())),
        wrong("the moved leg alone judged", |r| {
            r.opened = |r, call| match opened(r, call) {
                Err(Refusal { number: LEG_WRONG, at }) if at != call.leg as usize => {
                    let plan = r.checker.read_plan(&call.plan)?;
                    moved_leg(&plan, call.leg).map(|leg| (plan, leg))
                }
                other => other,
            }
        }),
        wrong("a leg eight periods late taken", |r| r.checker.limits.periods += 1),
        wrong("a deadline of a period at the most taken", |r| r.checker.limits.deadline_periods = 1),
        wrong("legs judged before streams", |r| {
            r.checker.judge = |c, plan| {
                let judged = shape::judge(c, plan);
                match judged {
                    Err(Refusal { number: STREAM_WRONG, .. }) => shape::legs(c, plan).and(judged),
                    _ => judged,
                }
            }
        }),
        wrong("11 at the last revision", |r| {
            r.opened = |r, call| {
                let (plan, moved) = opened(r, call)?;
                if plan.revision == u32::MAX {
                    return refused(LAST_REVISION, 0);
                }
                Ok((plan, moved))
            }
        }),
        wrong("all refusals at 0", |r| r.refuse = |refusal, call| refuse(Refusal { at: 0, ..refusal }, call)),
    ]
}

// ---- The answer

fn answers() -> Vec<Wrong> {
    /// The right answer, and then another one.
    fn bent(r: &Rechecker, plan: &Plan, moved: usize, places: &[Place], bend: impl Fn(&mut Answer)) -> Answer {
        let mut answer = look(r, plan, moved, places);
        bend(&mut answer);
        answer
    }
    vec![
        misjudged("the moved leg told with each place", |r| {
            r.look = |r, plan, moved, places| {
                bent(r, plan, moved, places, |answer| answer.leg = if is_clean(answer) { 0 } else { moved as u32 })
            }
        }),
        wrong("the moved leg told where nothing is violated", |r| {
            r.look = |r, plan, moved, places| {
                bent(r, plan, moved, places, |answer| {
                    answer.leg = if is_clean(answer) { moved as u32 } else { answer.leg }
                })
            }
        }),
        wrong("the end told where nothing is violated", |r| {
            r.look = |r, plan, moved, places| {
                bent(r, plan, moved, places, |answer| {
                    answer.leg = if is_clean(answer) { plan.legs.len() as u32 } else { answer.leg }
                })
            }
        }),
        misjudged("the overlap with a higher leg told at the moved leg", |r| {
            r.look = |r, plan, moved, places| {
                bent(r, plan, moved, places, |answer| {
                    if answer.place >= OVERLAPS && answer.leg as usize != moved {
                        (answer.leg, answer.place) = (moved as u32, OVERLAPS + answer.leg)
                    }
                })
            }
        }),
        misjudged("the other leg told in place of the place", |r| {
            r.look = |r, plan, moved, places| {
                bent(r, plan, moved, places, |answer| answer.place = check::rule_at(answer.place).1 as u32)
            }
        }),
        misjudged("leg and place exchanged", |r| {
            r.look = |r, plan, moved, places| {
                bent(r, plan, moved, places, |answer| (answer.leg, answer.place) = (answer.place, answer.leg))
            }
        }),
        misjudged("the last place of its leg told", |r| {
            r.look = |r, plan, moved, places| {
                bent(r, plan, moved, places, |answer| {
                    if answer.result == RULES[OVERLAP].result {
                        answer.place = places_of(answer.leg) - 1
                    }
                })
            }
        }),
        misjudged("results without the rule", |r| {
            r.look = |r, plan, moved, places| {
                bent(r, plan, moved, places, |answer| answer.result = answer.result.min(RULES[WINDOW].result))
            }
        }),
        misjudged("the next hop told as a deadline", |r| {
            r.look = |r, plan, moved, places| {
                bent(r, plan, moved, places, |answer| {
                    if answer.place == HOP as u32 && answer.leg as usize == moved + 1 {
                        answer.result = RULES[DEADLINE].result
                    }
                })
            }
        }),
        misjudged("results one higher", |r| {
            r.look = |r, plan, moved, places| {
                bent(r, plan, moved, places, |answer| answer.result += u32::from(!is_clean(answer)))
            }
        }),
        wrong("the leg told with a refusal", |r| {
            r.refuse = |refusal, call| Answer { leg: call.leg, ..refuse(refusal, call) }
        }),
        wrong("refusals without the 100", |r| {
            r.refuse = |refusal, call| {
                let answer = refuse(refusal, call);
                Answer { result: answer.result - REFUSED, ..answer }
            }
        }),
        wrong("number and leg exchanged", |r| {
            r.look = |r, plan, moved, places| {
                bent(r, plan, moved, places, |answer| (answer.number, answer.leg) = (answer.leg, answer.number))
            }
        }),
    ]
}
