//! The analysis of one condition many times below one check (crates/narrow_timing), so that its time can be measured.

use crate::port::Question;

unsafe extern "C" {
    fn lang_ast_timing_analyze(
        image: *const u8,
        image_length: usize,
        resolutions: *const u8,
        resolutions_length: usize,
        bindings: *const u8,
        bindings_length: usize,
        condition: u32,
        budget: u32,
        times: u32,
        then_list: *mut u8,
        then_length: usize,
        else_list: *mut u8,
        else_length: usize,
    ) -> u32;
}

/// The answer of `analyze_condition` after its call and, where it answers, `times` more runs of its analysis.
pub fn analyze(question: Question, times: u32, lists: &mut [Vec<u8>; 2]) -> u32 {
    let Question {
        image,
        resolutions,
        bindings,
        condition,
        budget,
    } = question;
    let [then_list, else_list] = lists;
    // The call writes to the lent lists alone and keeps nothing.
    unsafe {
        lang_ast_timing_analyze(
            image.as_ptr(),
            image.len(),
            resolutions.as_ptr(),
            resolutions.len(),
            bindings.as_ptr(),
            bindings.len(),
            condition,
            budget,
            times,
            then_list.as_mut_ptr(),
            then_list.len(),
            else_list.as_mut_ptr(),
            else_list.len(),
        )
    }
}

#[cfg(test)]
mod tests {
    use super::analyze;
    use crate::notation::survey_case;
    use crate::port::{Analysis, Question, analyze_condition, own_tables};

    #[test]
    fn the_lists_are_those_of_one_call() {
        let image = survey_case().encode();
        let given = own_tables(&image);
        for condition in 0..survey_case().exprs.len() as u32 {
            let question = || Question::new(&image, &given, condition, u32::MAX);
            let [mut one, mut many] = [(); 2].map(|()| [(); 2].map(|()| vec![7; 64]));
            let [then_list, else_list] = &mut one;
            let mut analysis = Analysis::default();
            let answer = analyze_condition(question(), then_list, else_list, &mut analysis);
            assert_eq!(analyze(question(), 3, &mut many), answer);
            assert_eq!(many, one);
        }
    }
}
