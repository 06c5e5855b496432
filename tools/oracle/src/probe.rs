//! What the oracle asks of the old lattice. setup declares this module inside the old numbers.rs, so that it may call the private passes.

use super::Lattice;
use crate::dicts::Rule;
use crate::edge::Edge;

impl Lattice {
    /// All edges of the lattice, in no order.
    pub(crate) fn edges(&self) -> impl Iterator<Item = &Edge> {
        self.edge_lattice.values().flatten()
    }

    /// The lists after D1, G1, G2, G3 and G4: the first five calls of `add_numbers`.
    pub(crate) fn pass_lists(&mut self) -> [Vec<Edge>; 5] {
        let characters = self.initialize_num_edges();
        let d1 = self.apply_d1_digits(characters);
        let g1 = self.apply_g1_multiplication(d1.clone());
        let g2 = self.apply_g2_addition(g1.clone());
        let g3 = self.apply_g3_large_power_multiplication(g2.clone());
        let g4 = self.apply_g4_large_block_addition(g3.clone());
        [d1, g1, g2, g3, g4]
    }

    /// The list after G4 once `deactivate_exceptional_singles` has marked it.
    pub(crate) fn singles_marked(&mut self) -> Vec<Edge> {
        let [.., mut g4] = self.pass_lists();
        self.deactivate_exceptional_singles(&mut g4);
        g4
    }

    pub(crate) fn best_edge(&self, start: usize, end: usize, skip: bool) -> Option<Edge> {
        self.best_edge_in_span(start, end, skip)
    }

    pub(crate) fn right_neighbor(&self, place: usize, skip: bool) -> Option<Edge> {
        self.best_right_neighbor_edge(place, skip)
    }

    pub(crate) fn left_neighbor(&self, place: usize, skip: bool) -> Option<Edge> {
        self.best_left_neighbor_edge(place, skip)
    }

    /// Stand-in for a method of the missing module `rules`; no rule is ever found.
    pub(crate) fn cand_is_valid(&self, rule: &Rule, _: usize, _: usize) -> bool {
        match *rule {}
    }
}
