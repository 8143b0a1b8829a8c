//! `module_indices` a second time.

use super::{ACCEPTED, Image, check};
use crate::image::{NONE, role};
use crate::port::refusal::TOO_SHORT;
use crate::tables;

/// The answer's number, with the table left as the call leaves it.
pub fn module_indices(image: &[u8], table: &mut [u8]) -> u32 {
    let refusal = check(image);
    if refusal != ACCEPTED {
        return refusal;
    }
    let answer = Image::accepted(image).index();
    if table.len() < answer.len() {
        table.fill(0);
        return TOO_SHORT;
    }
    table[..answer.len()].copy_from_slice(&answer);
    ACCEPTED
}

impl Image<'_> {
    /// For each name the expression of the last item that gives it one.
    fn index(&self) -> Vec<u8> {
        let mut bound = vec![NONE as u16; self.names.len()];
        let exprs = 0..self.exprs.len() as u32;
        for item in exprs.flat_map(|e| self.items(e)) {
            if matches!(item.role, role::STATIC | role::INHERIT_FROM) {
                bound[item.name as usize] = item.expr as u16;
            }
        }
        tables::table(bound.into_iter())
    }
}

#[cfg(test)]
mod tests {
    use super::*;
    use crate::notation::{Bindings, int, let_in, list, set, survey_case, tree, var};
    use crate::tables::entries;

    fn index(image: &[u8]) -> Vec<u16> {
        let mut table = vec![1; 100];
        assert_eq!(module_indices(image, &mut table), ACCEPTED);
        let names = Image::accepted(image).names.len();
        assert!(table[2 * names..].iter().all(|&byte| byte == 1));
        entries(&table[..2 * names]).collect()
    }

    #[test]
    fn static_bindings_and_selections_enter_and_inherits_do_not() {
        assert_eq!(index(&survey_case().encode()), [16383, 3]);
        let bindings = Bindings::new()
            .bind("a", &int())
            .inherit("b")
            .inherit_from(var("base"), &["c"]);
        // Expressions: a 0, b 1, base 2, its key 3, the selection 4.
        assert_eq!(index(&tree(&set(bindings)).encode()), [0, 16383, 4]);
    }

    #[test]
    fn a_later_entry_replaces() {
        let bound = |name: &str| let_in(Bindings::new().bind(name, &int()), var(name));
        let mut twice = tree(&list(&[bound("a"), bound("b")]));
        twice.exprs[5].items[0].name = 0;
        assert_eq!(index(&twice.encode()), [3, 16383]);
    }

    #[test]
    fn a_refusal_leaves_what_it_should() {
        let image = survey_case().encode();
        let mut table = [1; 3];
        assert_eq!(module_indices(&image, &mut table), TOO_SHORT);
        assert_eq!(table, [0; 3]);
        let mut table = [1; 4];
        assert_eq!(module_indices(&image[..145], &mut table), 1);
        assert_eq!(table, [1; 4]);
    }
}
