//! Ways over lines, of which those that offer something can be selected.
use std::prelude::v1::*;

use crate::shown::Offer;

/// The first line from this one on that can be selected.
pub fn at_or_after(offers: &[Option<Offer>], line: usize) -> Option<usize> {
    for (place, offer) in offers.iter().enumerate() {
        if place >= line && offer.is_some() {
            return Some(place);
        }
    }
    None
}

/// The last line up to this one that can be selected.
pub fn at_or_before(offers: &[Option<Offer>], line: usize) -> Option<usize> {
    let mut found = None;
    for (place, offer) in offers.iter().enumerate() {
        if place <= line && offer.is_some() {
            found = Some(place);
        }
    }
    found
}

/// The first line with this number.
pub fn with_number(offers: &[Option<Offer>], number: i64) -> Option<usize> {
    for (place, offer) in offers.iter().enumerate() {
        if let Some(offer) = offer
            && offer.number == number
        {
            return Some(place);
        }
    }
    None
}

/// The first line that is about this.
pub fn with_about(offers: &[Option<Offer>], about: i64) -> Option<usize> {
    for (place, offer) in offers.iter().enumerate() {
        if let Some(offer) = offer
            && offer.about == about
        {
            return Some(place);
        }
    }
    None
}

/// What the line that is selected offers.
pub fn selected_offer(offers: &[Option<Offer>], selected: Option<usize>) -> Option<Offer> {
    *offers.get(selected?)?
}
