//! How the texts are divided among the modes and families.

use super::families::{Family, Plan};
use super::{cuts, lists, literals, near, parts, streams, walks, words, written};
use crate::second::Profile;

/// About `count` texts under `turso`. Half, and runs of digits besides, are for Next, on which the other calls stand; List and the cut
/// add little code of their own, and have a fifth each, the cut triggers besides; a tenth is for single words, which the texts of the
/// others are full of too.
/// Besides, about a sixth as many under `sqlite`: a tenth by the same rules, the rest rich in what it reads otherwise.
/// And scripts of streams, about a seventh of `count`, a twentieth under `sqlite`: most of them short, since each is tried with all that may
/// follow.
/// And literals: about a twelfth of `count` to be read, under `sqlite` half as many, and a twenty-eighth to be written.
/// And lists a slice at a time: about a twenty-fifth of `count`, under `sqlite` a tenth as many.
pub fn all(plan: Plan) -> Vec<Family> {
    let sqlite = Plan { count: plan.count / 10, profile: Profile::Sqlite, ..plan };
    let mut families: Vec<_> = made(plan).collect();
    families.extend(words::families(tenths(plan, 1)));
    families.extend(made(sqlite));
    families.extend(near::families(sqlite).into_iter().map(|family| family.under(Profile::Sqlite)));
    families.extend(streams::families(plan));
    families.extend(streams::families(Plan { count: plan.count / 6, ..sqlite }));
    families.extend(literals::families(plan));
    families.extend(literals::families(Plan { count: plan.count / 2, ..sqlite }));
    families.extend(written::families(plan));
    families.extend(parts::families(Plan { count: plan.count / 20, ..plan }));
    families.extend(parts::families(Plan { count: sqlite.count / 20, ..sqlite }));
    // A text depends on its family's place in this list. Real SQL is last, so that the others are the same without it.
    if plan.corpus.len() > 0 {
        families.extend(real(plan));
        families.extend(real(sqlite));
        families.extend([streams::real(plan), streams::real(sqlite), literals::real(plan), literals::real(sqlite)]);
        families.extend([plan, sqlite].map(|plan| parts::real(Plan { count: plan.count / 20, ..plan })));
    }
    families
}

fn tenths(plan: Plan, n: u64) -> Plan {
    Plan { count: plan.count / 10 * n, ..plan }
}

fn made(plan: Plan) -> impl Iterator<Item = Family> {
    let mut families = walks::families(tenths(plan, 5));
    families.extend(lists::families(tenths(plan, 2)));
    families.extend(cuts::families(tenths(plan, 2)));
    families.into_iter().map(move |family| family.under(plan.profile))
}

fn real(plan: Plan) -> impl Iterator<Item = Family> {
    let mut families = Vec::from(walks::real(tenths(plan, 5)));
    families.extend(lists::real(tenths(plan, 2)));
    families.push(cuts::real(tenths(plan, 2)));
    families.into_iter().map(move |family| family.under(plan.profile))
}
