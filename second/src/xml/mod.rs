//! Operators' XML (change request 3): a text becomes an edition 1 image. No case asks for it yet.

pub mod criteria;
pub mod element;
pub mod part;
pub mod reader;
pub mod subset;
pub mod write;

use crate::image;
use crate::twist::{twisted, Twist};
use criteria::Criterion;
use reader::Reader;
use write::{written, Written};

/// What the call answers, and the room after it.
#[derive(Clone, PartialEq, Eq, Debug)]
pub struct Answer {
    pub refusal: u32,
    pub place: u32,
    pub length: u32,
    pub room: Vec<u8>,
}

/// "14 ..; then the first of 4, 5, 6 that the image would get, place 0; then 1, then 12 for lack of room, nothing written"
pub fn answer(reader: &Reader, text: &[u8], room: &[u8]) -> Answer {
    let refused = |refusal, place| Answer { refusal, place, length: 0, room: room.to_vec() };
    let criteria = match reader.read(text) {
        Ok(leaves) => criteria::criteria(&leaves),
        Err(place) => return refused(14, place as u32),
    };
    let written = written(&criteria);
    if let Some(number) = refusal(&criteria, &written, room.len()) {
        return refused(number, 0);
    }
    let length = written.image.len();
    let mut room = room.to_vec();
    room[..length].copy_from_slice(&written.image);
    if twisted(Twist::XmlRestOfRoomCleared) {
        room[length..].fill(0);
    }
    Answer { refusal: 0, place: 0, length: length as u32, room }
}

fn refusal(criteria: &[Criterion], written: &Written, room: usize) -> Option<u32> {
    let length = written.image.len();
    let long = (length > 32_768).then_some(1);
    let lack = (length > room || twisted(Twist::XmlExactRoomRefused) && length == room).then_some(12);
    let fault = fault(criteria, written);
    match () {
        _ if twisted(Twist::XmlSizeBeforeFaults) => long.or(fault).or(lack),
        _ if twisted(Twist::XmlRoomBeforeSize) => fault.or(lack).or(long),
        _ if twisted(Twist::XmlRoomBeforeFaults) => lack.or(fault).or(long),
        _ => fault.or(long).or(lack),
    }
}

/// "the first of 4, 5, 6 that the image would get", as if an image of any length were read.
fn fault(criteria: &[Criterion], written: &Written) -> Option<u32> {
    if twisted(Twist::XmlFaultsInTextOrder) && criteria.len() > 1 {
        let earlier = &criteria[..criteria.len() - 1];
        if let Some(number) = fault(earlier, &self::written(earlier)) {
            return Some(number);
        }
    }
    match written.lacking {
        Some(_) if twisted(Twist::XmlLackingFirst) => Some(4),
        Some(_) if twisted(Twist::XmlLackingLast) => Some(of_image(&written.image).unwrap_or(4)),
        Some(place) => of_beginning(&written.image[..place]),
        None => of_image(&written.image),
    }
}

fn of_image(image: &[u8]) -> Option<u32> {
    image::judged(image).err().map(|fault| fault.number)
}

/// The field behind this beginning counts as a 4. The judge finds what comes before it, or that the field is cut (number 2).
fn of_beginning(beginning: &[u8]) -> Option<u32> {
    of_image(beginning).map(|number| if number == 2 { 4 } else { number })
}
