//! The calls over an image, a request or a session. Each answers every number it lends, refusals too.

use crate::image;
use crate::profile::{Fault, Profile, Row, Test};
use crate::request::{self, Request};
use crate::row::Subject;
use crate::sequence::{above, all_fitting, first_fitting, Counts};
use crate::session::{possible, Session, FINISHED, READY, WAITING};
use crate::shown::{shown, Shown};
use crate::twist::{twisted, Twist};
use std::ops::Range;

pub const REFUSED: u32 = 0;
pub const FORWARD: u32 = 1;
pub const ROUTE: u32 = 2;

pub fn check(image: &[u8]) -> Fault {
    image::read(image).err().unwrap_or(Fault::plain(0))
}

#[derive(Clone, Copy, PartialEq, Eq, Debug)]
pub struct Advanced {
    pub session: Session,
    pub outcome: u32,
    pub criterion: u32,
    pub priority: u32,
    pub counts: Counts,
}

/// The image and the request, in the order of refusals.
fn both(image: &[u8], text: &[u8]) -> Result<(Profile, Request), Fault> {
    if twisted(Twist::RequestJudgedBeforeImage) {
        let request = request::read(text).ok_or(Fault::plain(7))?;
        return Ok((image::read(image)?, request));
    }
    let profile = image::read(image)?;
    let request = request::read(text).ok_or(Fault::plain(7))?;
    Ok((profile, request))
}

pub fn advance(image: &[u8], text: &[u8], session: Session) -> Result<Advanced, Fault> {
    if twisted(Twist::ImageJudgedBeforeMoment) {
        image::read(image)?;
    }
    if twisted(Twist::RecordCaseRefusedWith8) && session.case > 3 {
        return Err(Fault::plain(8));
    }
    let ready = session.state == READY || twisted(Twist::AdvanceWhenWaiting) && session.state == WAITING;
    if !possible(&session) || !ready {
        return Err(Fault::plain(10));
    }
    let (profile, request) = both(image, text)?;
    if request.is_register() && !twisted(Twist::RegisterAdvanced) {
        return Err(Fault::plain(11));
    }
    let last = if twisted(Twist::ZeroLastMeansNone) {
        (session.last != 0).then_some(session.last)
    } else {
        (session.forwarded != 0).then_some(session.last)
    };
    let numbers = above(&profile, last);
    let subject = Subject { request: &request, session_case: session.case, registration_type: None };
    let (answer, counts) = first_fitting(&profile, &numbers, &subject);
    Ok(match answer {
        Some(number) => forwarded(&profile, number, session, counts),
        None => routed(session, counts),
    })
}

fn forwarded(profile: &Profile, number: usize, session: Session, counts: Counts) -> Advanced {
    let criterion = &profile.criteria[number];
    let handling = match criterion.default_handling {
        2 if twisted(Twist::AbsentHandlingStoredAs2) => 2,
        2 if twisted(Twist::AbsentHandlingTerminates) => 1,
        2 => 0,
        handling => handling,
    };
    let rank = profile.criteria.iter().filter(|other| other.priority < criterion.priority).count();
    Advanced {
        session: Session { state: WAITING, forwarded: 1, last: criterion.priority, handling, ..session },
        outcome: FORWARD,
        criterion: if twisted(Twist::NumberedByPriority) { rank } else { number } as u32,
        priority: criterion.priority,
        counts,
    }
}

/// "Route, session finished (both numbers 0)"; last priority and default handling stay.
fn routed(session: Session, counts: Counts) -> Advanced {
    let kept = match () {
        _ if twisted(Twist::RouteClearsLast) => Session { last: 0, ..session },
        _ if twisted(Twist::RouteClearsHandling) => Session { handling: 0, ..session },
        _ if twisted(Twist::RouteClearsForwarded) => {
            Session { forwarded: 0, last: 0, handling: 0, ..session }
        }
        _ => session,
    };
    let priority = if twisted(Twist::RouteAnswersLast) { session.last } else { 0 };
    let state = if twisted(Twist::RouteStaysReady) { READY } else { FINISHED };
    Advanced { session: Session { state, ..kept }, outcome: ROUTE, criterion: 0, priority, counts }
}

#[derive(Clone, Copy, PartialEq, Eq, Debug)]
pub struct Listed {
    pub count: u32,
    pub counts: Counts,
}

pub fn list(image: &[u8], text: &[u8], case: u32, kind: u32, places: &mut [u8]) -> Result<Listed, Fault> {
    let (profile, request) = both(image, text)?;
    listing_refused(&profile, &request, case, kind)?;
    let numbers = above(&profile, None);
    let subject = Subject { request: &request, session_case: case, registration_type: Some(kind) };
    let (mut listed, counts) = all_fitting(&profile, &numbers, &subject);
    if twisted(Twist::ListedInImageOrder) {
        listed.sort_unstable();
    }
    too_many(&listed, places)?;
    for (place, &number) in places.iter_mut().zip(&listed) {
        *place = number as u8;
    }
    if twisted(Twist::RestOfListCleared) {
        places[listed.len()..].fill(0);
    }
    Ok(Listed { count: listed.len() as u32, counts })
}

/// Numbers 11, 8 and 9, in this order.
fn listing_refused(profile: &Profile, request: &Request, case: u32, kind: u32) -> Result<(), Fault> {
    let sets = profile.rows.iter().any(|row| row.registration_set != 0);
    let type_judged = sets || !twisted(Twist::TypeJudgedOnlyWithSets);
    let refusals = [
        (11, !request.is_register() && !twisted(Twist::AnyMethodListed)),
        (8, case > 3),
        (9, kind > 2 && type_judged),
    ];
    let order: [usize; 3] = match () {
        _ if twisted(Twist::CaseJudgedBeforeMethod) => [1, 0, 2],
        _ if twisted(Twist::TypeJudgedBeforeCase) => [0, 2, 1],
        _ => [0, 1, 2],
    };
    for (number, holds) in order.map(|which| refusals[which]) {
        if holds {
            return Err(Fault::plain(number));
        }
    }
    Ok(())
}

/// "12: more fitting criteria than places"; the list stays untouched.
fn too_many(listed: &[usize], places: &mut [u8]) -> Result<(), Fault> {
    let refused = listed.len() > places.len()
        || twisted(Twist::EqualPlacesRefused) && listed.len() == places.len()
        || twisted(Twist::NoPlacesRefused) && places.is_empty()
        || twisted(Twist::MorePlacesThan64Refused) && places.len() > 64;
    if !refused {
        return Ok(());
    }
    if twisted(Twist::ListFilledThenRefused) {
        for (place, &number) in places.iter_mut().zip(listed) {
            *place = number as u8;
        }
    }
    Err(Fault::plain(12))
}

pub fn server(image: &[u8], number: u32) -> Result<Range<usize>, Fault> {
    Ok(criterion(image, number)?.0)
}

pub fn information(image: &[u8], number: u32) -> Result<Option<Range<usize>>, Fault> {
    let information = criterion(image, number)?.1;
    if twisted(Twist::EmptyInformationAbsent) {
        return Ok(information.filter(|part| !part.is_empty()));
    }
    if twisted(Twist::EmptyInformationAtZero) {
        return Ok(information.map(|part| if part.is_empty() { 0..0 } else { part }));
    }
    Ok(information)
}

type Parts = (Range<usize>, Option<Range<usize>>);

fn criterion(image: &[u8], number: u32) -> Result<Parts, Fault> {
    let profile = image::read(image).map_err(|fault| match twisted(Twist::LookupFaultPlaceZero) {
        true => Fault::plain(fault.number),
        false => fault,
    })?;
    let number = if twisted(Twist::NumberTakenAsByte) { number & 255 } else { number };
    let by_priority = above(&profile, None);
    let number = match twisted(Twist::LookupByPriority) {
        true => by_priority.get(number as usize).copied().unwrap_or(usize::MAX),
        false => number as usize,
    };
    let found = profile.criteria.get(number).ok_or(Fault::plain(13))?;
    Ok((found.server.clone(), found.information.clone()))
}

/// "Refusals: 13 for a row number outside the table, after the image and request checks."
pub fn show(image: &[u8], text: &[u8], number: u32) -> Result<Option<Shown>, Fault> {
    if twisted(Twist::ShownRowJudgedFirst) {
        row(&image::read(image)?, number)?;
    }
    let (profile, request) =
        both(image, text).map_err(|fault| match twisted(Twist::ShownFaultPlaceZero) {
            true => Fault::plain(fault.number),
            false => fault,
        })?;
    if twisted(Twist::ShownRegisterRefused) && request.is_register() {
        return Err(Fault::plain(11));
    }
    let Some(row) = row(&profile, number)? else { return Ok(None) };
    let text_row = matches!(row.test, Test::SipHeader { .. } | Test::SessionDescription { .. });
    if twisted(Twist::ShownOtherKindsRefused) && !text_row {
        return Err(Fault::plain(13));
    }
    Ok(shown(row, &request))
}

/// The row of this number "in the table", whether a criterion uses it or not.
fn row(profile: &Profile, number: u32) -> Result<Option<&Row>, Fault> {
    let number = match () {
        _ if twisted(Twist::ShownRowAsByte) => number & 255,
        _ if twisted(Twist::ShownRowAs16Bits) => number & 65_535,
        _ => number,
    } as usize;
    let used = profile.criteria.iter().any(|criterion| criterion.rows.contains(&number));
    match profile.rows.get(number) {
        Some(_) if twisted(Twist::ShownUnusedRefused) && !used => Err(Fault::plain(13)),
        Some(_) if twisted(Twist::ShownUnusedNone) && !used => Ok(None),
        Some(row) => Ok(Some(row)),
        None if twisted(Twist::ShownRowAtEndTaken) && number == profile.rows.len() => Ok(None),
        None if twisted(Twist::ShownOutsideNone) => Ok(None),
        None => Err(Fault::plain(13)),
    }
}
