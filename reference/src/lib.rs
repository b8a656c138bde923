//! An independent reference of the small hardware-description flattener of
//! `docs/01-scope.md`, read as `docs/DECISIONS.md` says. Standard library only.
//!
//! One module per part of document 01:
//!
//! * `answer`  - the numbers of the answers
//! * `words`   - the words of a Pebble text (3)
//! * `grammar` - the order of the words (4, 5), giving a tree
//! * `names`   - names, sorts, counts and shapes (6 to 9)
//! * `unfold`  - unfolding the tree into gates (10 to 18)
//! * `netlist` - the netlist's words and when they are well formed (19)
//! * `run`     - the job "run"
//! * `flat`    - the jobs "write" and "read"
//! * `flatten` - the job "flatten"; `pebble` is the "program"
//! * `drive`   - the command stream used to compare two flatteners
//! * `generate`- the random command streams

pub mod answer;
pub mod drive;
pub mod flat;
pub mod flatten;
pub mod generate;
pub mod grammar;
pub mod names;
pub mod netlist;
pub mod run;
pub mod unfold;
pub mod words;
