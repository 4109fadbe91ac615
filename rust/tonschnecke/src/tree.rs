//! A plan as an indented tree.

use crate::plan::Plan;
use std::fmt;

/// A plan as a tree: a line for each value, behind its key.
#[derive(Clone, Copy, Debug)]
pub struct Tree<'a> {
    plan: &'a Plan,
    places: bool,
}

impl<'a> Tree<'a> {
    pub(crate) const fn new(plan: &'a Plan) -> Tree<'a> {
        Tree {
            plan,
            places: false,
        }
    }

    /// The same with the place of each pair, as `[2]`, before its key.
    ///
    /// ```
    /// let plan = tonschnecke::Plan::read("a:2:{s:3:\"may\";N;i:7;b:1;}")?;
    /// assert_eq!(plan.tree().to_string(), "/: array of 2\n  may: null\n  7: true\n");
    /// let numbered = plan.tree().with_places().to_string();
    /// assert_eq!(numbered, "/: array of 2\n  [0] may: null\n  [1] 7: true\n");
    /// # Ok::<(), tonschnecke::Refusal>(())
    /// ```
    pub const fn with_places(self) -> Tree<'a> {
        Tree {
            places: true,
            ..self
        }
    }
}

impl fmt::Display for Tree<'_> {
    fn fmt(&self, out: &mut fmt::Formatter<'_>) -> fmt::Result {
        writeln!(out, "/: {}", self.plan.root())?;
        // For each depth the place of the next pair there.
        let mut places: Vec<usize> = Vec::new();
        for value in self.plan.values() {
            let Some(key) = value.key() else { continue };
            // Below the root, which has depth 1.
            let depth = value.depth() - 1;
            places.resize(depth, 0);
            let place = &mut places[depth - 1];
            write!(out, "{:1$}", "", 2 * depth)?;
            if self.places {
                write!(out, "[{place}] ")?;
            }
            *place += 1;
            writeln!(out, "{key}: {value}")?;
        }
        Ok(())
    }
}
