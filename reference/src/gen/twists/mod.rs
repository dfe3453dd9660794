//! Twists: what goes wrong in a request, or only looks so.

mod content;
mod features;
mod header;
mod items;
mod kinds;
mod lengths;
mod presence;
mod shape;
mod single;
mod user_data;

pub use features::broken as broken_features;
pub use kinds::unknown;
pub use shape::Twist;

use super::request::RequestModel;
use crate::kinds::Dialect;
use crate::rng::Rng;

/// Every twist of a request of this interface.
pub fn twists(dialect: Dialect) -> impl Iterator<Item = &'static Twist> {
    let common = [header::TWISTS, presence::TWISTS, kinds::TWISTS, lengths::TWISTS, content::TWISTS, features::TWISTS];
    let own = match dialect {
        Dialect::Cx => [items::TWISTS, content::OF_CX],
        Dialect::Sh => [user_data::TWISTS, &[]],
    };
    common.into_iter().chain(own).flatten()
}

/// Does one twist, the heavier ones more often; gives its name.
pub fn twist_once(rng: &mut Rng, request: &mut RequestModel) -> &'static str {
    let all: Vec<&Twist> = twists(request.dialect).collect();
    one_of(rng, &all, request)
}

/// Does one twist of what a User-Data-Request alone has.
pub fn twist_user_data(rng: &mut Rng, request: &mut RequestModel) -> &'static str {
    let own: Vec<&Twist> = user_data::TWISTS.iter().collect();
    one_of(rng, &own, request)
}

/// Does one twist of what a MAR alone has.
pub fn twist_item(rng: &mut Rng, request: &mut RequestModel) -> &'static str {
    let own: Vec<&Twist> = items::TWISTS.iter().collect();
    one_of(rng, &own, request)
}

fn one_of(rng: &mut Rng, twists: &[&Twist], request: &mut RequestModel) -> &'static str {
    let total: usize = twists.iter().map(|twist| twist.weight).sum();
    loop {
        let twist = at_weight(rng.below(total), twists);
        if twist.done(rng, request).is_some() {
            return twist.name;
        }
    }
}

/// The twist at this place, if each had as many places as its weight.
fn at_weight<'a>(place: usize, twists: &[&'a Twist]) -> &'a Twist {
    let mut end = 0;
    twists
        .iter()
        .find(|twist| {
            end += twist.weight;
            place < end
        })
        .expect("a place under the sum of the weights")
}
