//! Plans and refusals in words for people.

use kortyghai::{KeyTable, Plan, Refusal};

/// Several things in a row: `a`, `a and b`, `a, b and c`.
fn listed(things: &[String]) -> String {
    match things {
        [] => String::new(),
        [one] => one.clone(),
        [most @ .., last] => format!("{} and {last}", most.join(", ")),
    }
}

/// The users of a coalition, cluster by cluster, for clusters of `size` users.
fn members(coalition: u16, size: u32) -> String {
    let size = size as usize;
    let indices: Vec<usize> = (0..16).filter(|index| coalition >> index & 1 == 1).collect();
    let clusters: Vec<String> = indices
        .chunk_by(|a, b| a / size == b / size)
        .map(|users| {
            let numbers: Vec<String> = users.iter().map(|index| (index % size + 1).to_string()).collect();
            let word = if numbers.len() == 1 { "user" } else { "users" };
            format!("{word} {} of cluster {}", listed(&numbers), users[0] / size + 1)
        })
        .collect();
    listed(&clusters)
}

/// Who learns more than they may.
fn leak(coalition: u16, observer: &str, size: u32) -> String {
    match coalition {
        0 => format!("{observer} alone learns more than it may"),
        _ => format!("{}, together with {observer}, learn more than they may", members(coalition, size)),
    }
}

/// A refusal; `size` is V of its plan, where that is known.
pub fn of(refusal: &Refusal, size: Option<u32>) -> String {
    match (*refusal, size) {
        (Refusal::NotZeroSum { column }, _) => format!("{}, first in column {column}", refusal.meaning()),
        (Refusal::Leaks { coalition, observer: 0 }, Some(size)) => leak(coalition, "the server", size),
        (Refusal::Leaks { coalition, observer }, Some(size)) => leak(coalition, &format!("relay {observer}"), size),
        (Refusal::Leaks { coalition, observer }, None) => format!("the table leaks: coalition {coalition}, observer {observer}"),
        _ => refusal.meaning().to_string(),
    }
}

/// An accepted plan.
pub fn accepted(plan: Option<&Plan>) -> String {
    let limit = plan.map_or(0, |plan| plan.limit);
    let joined = match limit {
        0 => "alone".to_string(),
        1 => "alone or with any one user".to_string(),
        limit => format!("alone or with any coalition of at most {limit} users"),
    };
    format!("accepted: no relay, and not the server, learns more than it may, {joined}\n")
}

/// The plan's numbers, then the key table, a line for each user.
pub fn shown(table: &KeyTable) -> String {
    let plan = table.plan();
    let form = if plan.q < 65_536 { "old" } else { "wide" };
    let mut text = format!(
        "clusters {}\nusers in each {}\ncoalition limit {}\nrate {}\nq {}\nrecord {form}, {} bytes\n",
        plan.clusters,
        plan.size,
        plan.limit,
        plan.rate,
        plan.q,
        plan.record_size()
    );
    for index in 0..plan.users() {
        let row: Vec<String> = table.row(index).iter().map(u32::to_string).collect();
        let size = plan.size as usize;
        text += &format!("cluster {} user {}: {}\n", index / size + 1, index % size + 1, row.join(" "));
    }
    text
}

#[cfg(test)]
mod tests {
    use super::*;

    #[test]
    fn who_learns_more() {
        let said = |coalition, observer| of(&Refusal::Leaks { coalition, observer }, Some(2));
        assert_eq!(said(3, 2), "users 1 and 2 of cluster 1, together with relay 2, learn more than they may");
        assert_eq!(said(4, 0), "user 1 of cluster 2, together with the server, learn more than they may");
        assert_eq!(said(0, 1), "relay 1 alone learns more than it may");
        assert_eq!(members(0b11_0110, 3), "users 2 and 3 of cluster 1 and users 2 and 3 of cluster 2");
        assert_eq!(members(0b1011, 1), "user 1 of cluster 1, user 1 of cluster 2 and user 1 of cluster 4");
    }
}
