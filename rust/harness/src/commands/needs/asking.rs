//! A call that answers numbers alone: asked, held against what is expected, and asked of the second reading too.

use crate::commands::comparison::hex;
use crate::commands::findings::Findings;
use crate::port::refusal::OVER_BUDGET;
use crate::tables::Given;

/// The form of all of them: image, tables, budget, numbers. A call leaves out what it does not take.
pub type Ask<N> = fn(&[u8], &Given, u32, &mut N) -> u32;

/// An image and its tables, and copies that they must still equal after each call.
pub struct Question<'a> {
    pub image: &'a [u8],
    pub given: &'a Given,
    kept_image: Vec<u8>,
    kept: Given,
}

impl<'a> Question<'a> {
    pub fn new(image: &'a [u8], given: &'a Given) -> Self {
        Question {
            image,
            given,
            kept_image: image.to_vec(),
            kept: given.clone(),
        }
    }

    pub fn describe(&self, budget: u32, lent: &str) -> String {
        let Given {
            resolutions,
            bindings,
        } = &self.kept;
        let (resolutions, bindings) = (hex(resolutions), hex(bindings));
        format!("budget {budget}{lent}, resolutions {resolutions}, bindings {bindings}")
    }
}

/// What a run comes to whatever the budget: its steps, and the numbers of its need.
#[derive(Clone, Copy)]
pub struct Run<N> {
    pub steps: u64,
    pub numbers: N,
}

impl<N: Copy + Default> Run<N> {
    fn expected(&self, budget: u32) -> (u32, N) {
        match self.steps > budget.into() {
            true => (OVER_BUDGET, N::default()),
            false => (0, self.numbers),
        }
    }
}

pub struct Asking<N> {
    port: Ask<N>,
    second: Ask<N>,
    /// What the numbers hold before a call.
    fresh: N,
    pub findings: Findings,
}

impl<N: Copy + Default + PartialEq> Asking<N> {
    pub fn new(port: Ask<N>, second: Ask<N>, fresh: N, never: &'static [usize]) -> Self {
        Asking {
            port,
            second,
            fresh,
            findings: Findings::new(never),
        }
    }

    /// A run with each of these budgets.
    pub fn ask_run(&mut self, question: &Question, run: Run<N>, budgets: &[u32]) {
        for &budget in budgets {
            self.ask(question, budget, run.expected(budget));
        }
    }

    /// What is refused before it runs: nothing is written.
    pub fn ask_refused(&mut self, question: &Question, budget: u32, refusal: u32) {
        self.ask(question, budget, (refusal, self.fresh));
    }

    /// Whatever the second reading answers.
    pub fn ask_beside_second(&mut self, question: &Question, budget: u32) {
        let expected = self.second_reading(question, budget);
        self.ask(question, budget, expected);
    }

    fn second_reading(&self, question: &Question, budget: u32) -> (u32, N) {
        let mut numbers = self.fresh;
        let answer = (self.second)(question.image, question.given, budget, &mut numbers);
        (answer, numbers)
    }

    fn ask(&mut self, question: &Question, budget: u32, expected: (u32, N)) {
        let fresh = self.fresh;
        let mut lent = [fresh; 3];
        let answer = (self.port)(question.image, question.given, budget, &mut lent[1]);
        let second = self.second_reading(question, budget);
        let parts = [
            ("numbers", lent == [fresh, expected.1, fresh]),
            ("second reading", second == expected),
            ("image", question.image == question.kept_image),
            ("tables", *question.given == question.kept),
        ];
        let answers = [expected.0, answer];
        let describe = || question.describe(budget, "");
        let image = &question.kept_image;
        self.findings.add(image, answers, &parts, describe);
    }
}
