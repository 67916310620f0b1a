//! Whether rows still have what was taken of them.
use super::fault::MemberFault;
use rows::cell::Cell;

/// Whether the rows of the others, which have so many cells, have all that this member's own cells say was taken of them. Each of the cells is
/// asked: a process that was made anew takes the others' rows from their beginning, so a later cell may tell of less.
///
/// # Errors
/// Where one has lost its end.
pub fn check_ends(cells: &[Cell], there: &[u64]) -> Result<(), MemberFault> {
    for (member, &there) in (1..).zip(there) {
        let others = cells.iter().filter(|cell| cell.member != member);
        let taken = others.filter_map(|cell| cell.taken.get(member as usize - 1));
        let taken = taken.copied().max().unwrap_or(0);
        if taken > there {
            return Err(MemberFault::LostEnd {
                member,
                there,
                taken,
            });
        }
    }
    Ok(())
}
