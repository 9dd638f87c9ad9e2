//! The number of families on a sheet (paper 02, #104). All solutions are drawn.

use crate::closed::earliest;
use crate::lent::{question_lent, search_in};
use crate::{Ending, Problem, Refusal};

/// The room of both runs.
const PLANS: usize = 4096;

/// The questions of a run, then the number of families; `None` is the dash: the run, or that of the sheet without exchanges, isn't
/// finished.
pub fn families(sheet: &[u8], pairs: &[u8], block: &[u8], node_limit: u32) -> Result<Option<usize>, Refusal> {
    let (problem, order) = question_lent(sheet, pairs, block)?;
    let bare = Problem { symmetries: Vec::new(), ..problem.clone() };
    let mut room = vec![0; PLANS * problem.variables];
    let mut is_finished =
        |problem| search_in(problem, &order, node_limit, &mut room).outcome.ending == Ending::Finished;
    Ok((is_finished(&problem) && is_finished(&bare)).then(|| earliest(&problem, &order).len()))
}
