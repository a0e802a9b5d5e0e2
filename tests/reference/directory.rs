// The directory: which heading each topic of a page belongs to (02, K2).

use crate::order::{first_weight, judge_string};
use crate::table::accept;

/// "up to 1,000 headings and up to 1,000 topics".
const MOST_STRINGS: usize = 1_000;

/// The heading number of each topic, where the list lent has room for them. Headings and topics
/// are starts and lengths in the run: start, length, start, length, ..
pub fn directory(
    table: &[u32],
    run: &[u32],
    headings: &[u64],
    topics: &[u64],
    room: u64,
) -> Result<Vec<u32>, u32> {
    let meaning = accept(table)?;
    // "Level 1 must be plain forward."
    if meaning.rules[0].backward || meaning.rules[0].position {
        return Err(16);
    }
    let headings = strings(run, headings);
    let topics = strings(run, topics);
    if headings.len() > MOST_STRINGS || topics.len() > MOST_STRINGS {
        return Err(17);
    }
    let headings: Vec<&[u32]> = headings.into_iter().collect::<Option<_>>().ok_or(17u32)?;
    let topics: Vec<&[u32]> = topics.into_iter().collect::<Option<_>>().ok_or(17u32)?;
    for string in headings.iter().chain(&topics) {
        judge_string(string)?;
    }
    let mut rising = Vec::new();
    for heading in headings {
        let weight = first_weight(&meaning, heading).ok_or(15u32)?;
        if rising.last().is_some_and(|&before| weight <= before) {
            return Err(15);
        }
        rising.push(weight);
    }
    if room < topics.len() as u64 {
        return Err(13);
    }
    let mut numbers = Vec::new();
    for topic in topics {
        // Headings count from 1. A topic with no weight, `None`, is before all of them.
        let own = first_weight(&meaning, topic);
        let last = rising.iter().rposition(|&weight| Some(weight) <= own);
        numbers.push(last.map_or(0, |place| place as u32 + 1));
    }
    Ok(numbers)
}

/// The strings at starts and lengths, `None` for one that reaches outside the run. A last start
/// with no length is passed over.
fn strings<'a>(run: &'a [u32], places: &[u64]) -> Vec<Option<&'a [u32]>> {
    places
        .chunks_exact(2)
        .map(|place| {
            let end = u128::from(place[0]) + u128::from(place[1]);
            if end > run.len() as u128 {
                return None;
            }
            Some(&run[place[0] as usize..end as usize])
        })
        .collect()
}
