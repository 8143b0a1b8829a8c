//! The plain calls on bytes, as `include/lang_ast.h` declares them: no image is kept, no buffer is made, nothing is moved
//! to another stack. [`Image`](crate::Image) makes them with all of that.
//!
//! ```
//! use lang_ast::raw;
//!
//! assert_eq!(raw::version(), raw::VERSION);
//! let refused = raw::check(b"no image at all").map_err(lang_ast::Refusal::number);
//! assert_eq!(refused, Err(1));
//! ```

use crate::Refusal;

unsafe extern "C" {
    safe fn lang_ast_version() -> u32;
    fn lang_ast_check(image: *const u8, length: usize) -> u32;
    fn lang_ast_levels(image: *const u8, length: usize, levels: *mut u32) -> u32;
    fn lang_ast_module_indices(
        image: *const u8,
        image_length: usize,
        table: *mut u8,
        table_length: usize,
    ) -> u32;
    fn lang_ast_name_resolution(
        image: *const u8,
        image_length: usize,
        budget: u32,
        table: *mut u8,
        table_length: usize,
        working: *mut u8,
        working_length: usize,
        steps: *mut u32,
    ) -> u32;
    fn lang_ast_resolution_need(
        image: *const u8,
        image_length: usize,
        budget: u32,
        steps: *mut u32,
        scopes: *mut usize,
    ) -> u32;
    fn lang_ast_analyze_condition(
        image: *const u8,
        image_length: usize,
        resolutions: *const u8,
        resolutions_length: usize,
        bindings: *const u8,
        bindings_length: usize,
        condition: u32,
        budget: u32,
        then_list: *mut u8,
        then_length: usize,
        else_list: *mut u8,
        else_length: usize,
        steps: *mut u32,
        then_count: *mut u32,
        else_count: *mut u32,
    ) -> u32;
    fn lang_ast_name_dependencies(
        image: *const u8,
        image_length: usize,
        resolutions: *const u8,
        resolutions_length: usize,
        bindings: *const u8,
        bindings_length: usize,
        budget: u32,
        edges: *mut u8,
        edges_length: usize,
        narrowings: *mut u8,
        narrowings_length: usize,
        exprs: *mut u8,
        exprs_length: usize,
        working: *mut u8,
        working_length: usize,
        steps: *mut u32,
        edge_count: *mut u32,
        narrowing_count: *mut u32,
    ) -> u32;
    fn lang_ast_dependencies_need(
        image: *const u8,
        image_length: usize,
        resolutions: *const u8,
        resolutions_length: usize,
        bindings: *const u8,
        bindings_length: usize,
        budget: u32,
        steps: *mut u32,
        edges: *mut usize,
        narrowings: *mut usize,
        most: *mut usize,
    ) -> u32;
    fn lang_ast_same_text(
        a: *const u8,
        a_length: usize,
        b: *const u8,
        b_length: usize,
        looked: *mut usize,
    ) -> u32;
}

/// The version of the answers that this crate reads: `LANG_AST_VERSION` of `include/lang_ast.h`.
pub const VERSION: u32 = 3;

/// The version of the answers that the linked archive gives. It changes with the format of answers, so one that is not
/// [`VERSION`] says that crate and archive do not belong together.
#[must_use]
pub fn version() -> u32 {
    lang_ast_version()
}

fn answered(number: u32) -> Result<(), Refusal> {
    Refusal::from_number(number).map_or(Ok(()), Err)
}

/// Whether an image is accepted.
///
/// # Errors
///
/// Refusals 1 to 6, 10 and 11.
pub fn check(image: &[u8]) -> Result<(), Refusal> {
    // The call reads the lent bytes and keeps nothing.
    answered(unsafe { lang_ast_check(image.as_ptr(), image.len()) })
}

/// How deep an image is: the expressions on the longest way down from its entry, 1 where there is none below.
///
/// # Errors
///
/// Refusals 1 to 6, 10 and 11.
pub fn levels(image: &[u8], levels: &mut u32) -> Result<(), Refusal> {
    // The call writes to the lent number alone and keeps nothing.
    answered(unsafe { lang_ast_levels(image.as_ptr(), image.len(), levels) })
}

/// The binding table of an image, 2 bytes a name.
///
/// # Errors
///
/// Refusals 1 to 6, 10 and 11, and 9 where the table is too short.
pub fn module_indices(image: &[u8], table: &mut [u8]) -> Result<(), Refusal> {
    // The call writes to the lent table alone and keeps nothing.
    answered(unsafe {
        lang_ast_module_indices(image.as_ptr(), image.len(), table.as_mut_ptr(), table.len())
    })
}

/// The resolution table of an image, 2 bytes an expression, and the run's steps. The working buffer needs 4 bytes an
/// expression and 8 for each scope made, the root included. It runs on the caller's stack; see [`crate::stack`].
///
/// # Errors
///
/// Refusals 1 to 6, 10 and 11, 8 where the steps exceed the budget, and 9 where a buffer is too short.
pub fn name_resolution(
    image: &[u8],
    budget: u32,
    table: &mut [u8],
    working: &mut [u8],
    steps: &mut u32,
) -> Result<(), Refusal> {
    // The call writes to the lent table, working buffer and steps alone and keeps nothing.
    answered(unsafe {
        lang_ast_name_resolution(
            image.as_ptr(),
            image.len(),
            budget,
            table.as_mut_ptr(),
            table.len(),
            working.as_mut_ptr(),
            working.len(),
            steps,
        )
    })
}

/// What a resolution comes to, before it is run.
#[derive(Clone, Copy, Debug, Default, PartialEq, Eq)]
pub struct ResolutionCounts {
    /// How many expressions it visits.
    pub steps: u32,
    /// How many scopes it makes, the root included.
    pub scopes: usize,
}

/// The steps and the scopes of a resolution with this budget, by one pass over the image. Its room is up to 64 KiB of the
/// caller's stack.
///
/// # Errors
///
/// Refusals 1 to 6, 10 and 11, and 8 where the steps exceed the budget.
pub fn resolution_need(
    image: &[u8],
    budget: u32,
    need: &mut ResolutionCounts,
) -> Result<(), Refusal> {
    // The call writes to the lent numbers alone and keeps nothing.
    answered(unsafe {
        lang_ast_resolution_need(
            image.as_ptr(),
            image.len(),
            budget,
            &raw mut need.steps,
            &raw mut need.scopes,
        )
    })
}

/// The tables that conditions and the walk are given, as `name_resolution` and `module_indices` write them or any that
/// keep their rules.
#[derive(Clone, Copy, Debug)]
pub struct Tables<'a> {
    /// 2 bytes an expression.
    pub resolutions: &'a [u8],
    /// 2 bytes a name.
    pub bindings: &'a [u8],
}

/// What an analysis comes to besides its records: its steps, and how many records each list has.
#[derive(Clone, Copy, Debug, Default, PartialEq, Eq)]
pub struct Analysis {
    /// How many nodes were analysed.
    pub steps: u32,
    /// The records of the list for where the condition is true.
    pub then_count: u32,
    /// The records of the list for where it is false.
    pub else_count: u32,
}

/// What a condition tells of names where it is true, and where it is false: records of 4 bytes. It runs on the caller's
/// stack; see [`crate::stack`].
///
/// # Errors
///
/// Refusals 1 to 6, 10 and 11, 7 where a table or the condition breaks its rule, 8 and 9.
pub fn analyze_condition(
    image: &[u8],
    tables: Tables<'_>,
    condition: u32,
    budget: u32,
    then_list: &mut [u8],
    else_list: &mut [u8],
    analysis: &mut Analysis,
) -> Result<(), Refusal> {
    // The call writes to the lent lists and numbers alone and keeps nothing.
    answered(unsafe {
        lang_ast_analyze_condition(
            image.as_ptr(),
            image.len(),
            tables.resolutions.as_ptr(),
            tables.resolutions.len(),
            tables.bindings.as_ptr(),
            tables.bindings.len(),
            condition,
            budget,
            then_list.as_mut_ptr(),
            then_list.len(),
            else_list.as_mut_ptr(),
            else_list.len(),
            &raw mut analysis.steps,
            &raw mut analysis.then_count,
            &raw mut analysis.else_count,
        )
    })
}

/// What is lent to the walk.
#[derive(Debug)]
pub struct WalkBuffers<'a> {
    /// 4 bytes an edge.
    pub edges: &'a mut [u8],
    /// 8 bytes a recorded narrowing.
    pub narrowings: &'a mut [u8],
    /// 2 bytes a name.
    pub exprs: &'a mut [u8],
    /// 4 bytes for each narrowing in force at the point that has most.
    pub working: &'a mut [u8],
}

/// What a walk comes to besides what it writes: its steps, and how many edges and narrowings it records.
#[derive(Clone, Copy, Debug, Default, PartialEq, Eq)]
pub struct Walk {
    /// How many expressions were visited and nodes analysed.
    pub steps: u32,
    /// The edges that are recorded.
    pub edge_count: u32,
    /// The narrowings that are recorded.
    pub narrowing_count: u32,
}

/// The walk into lent buffers: edges between names, the narrowings in force at bindings, the expression of each name. It
/// runs on the caller's stack; see [`crate::stack`].
///
/// # Errors
///
/// Refusals 1 to 6, 10 and 11, 7 where a table breaks its rule, 8 and 9.
pub fn name_dependencies(
    image: &[u8],
    tables: Tables<'_>,
    budget: u32,
    buffers: WalkBuffers<'_>,
    walk: &mut Walk,
) -> Result<(), Refusal> {
    let WalkBuffers {
        edges,
        narrowings,
        exprs,
        working,
    } = buffers;
    // The call writes to the lent buffers and numbers alone and keeps nothing.
    answered(unsafe {
        lang_ast_name_dependencies(
            image.as_ptr(),
            image.len(),
            tables.resolutions.as_ptr(),
            tables.resolutions.len(),
            tables.bindings.as_ptr(),
            tables.bindings.len(),
            budget,
            edges.as_mut_ptr(),
            edges.len(),
            narrowings.as_mut_ptr(),
            narrowings.len(),
            exprs.as_mut_ptr(),
            exprs.len(),
            working.as_mut_ptr(),
            working.len(),
            &raw mut walk.steps,
            &raw mut walk.edge_count,
            &raw mut walk.narrowing_count,
        )
    })
}

/// What a walk comes to, before it is run into buffers.
#[derive(Clone, Copy, Debug, Default, PartialEq, Eq)]
pub struct WalkCounts {
    /// How many expressions it visits and nodes it analyses.
    pub steps: u32,
    /// The edges that it records.
    pub edges: usize,
    /// The narrowings that it records.
    pub narrowings: usize,
    /// The narrowings in force at the point that has most.
    pub most: usize,
}

/// What a walk with this budget writes and has in force. It takes the walk's time, and runs on the caller's stack as the
/// walk does; see [`crate::stack`].
///
/// # Errors
///
/// Refusals 1 to 6, 10 and 11, 7 where a table breaks its rule, and 8 where the steps exceed the budget.
pub fn dependencies_need(
    image: &[u8],
    tables: Tables<'_>,
    budget: u32,
    need: &mut WalkCounts,
) -> Result<(), Refusal> {
    // The call writes to the lent numbers alone and keeps nothing.
    answered(unsafe {
        lang_ast_dependencies_need(
            image.as_ptr(),
            image.len(),
            tables.resolutions.as_ptr(),
            tables.resolutions.len(),
            tables.bindings.as_ptr(),
            tables.bindings.len(),
            budget,
            &raw mut need.steps,
            &raw mut need.edges,
            &raw mut need.narrowings,
            &raw mut need.most,
        )
    })
}

/// Whether two texts have the same bytes: 1 where they do, 0 where they do not. It writes how many pairs of bytes were
/// looked at, from the last to the first; nothing is refused. [`same_text`](crate::same_text) gives both as one answer.
#[must_use]
pub fn same_text(a: &[u8], b: &[u8], looked: &mut usize) -> u32 {
    // The call writes to the lent number alone and keeps nothing.
    unsafe { lang_ast_same_text(a.as_ptr(), a.len(), b.as_ptr(), b.len(), looked) }
}

#[cfg(test)]
mod tests {
    use super::{
        Analysis, ResolutionCounts, Tables, VERSION, Walk, WalkBuffers, WalkCounts,
        analyze_condition, check, dependencies_need, levels, module_indices, name_dependencies,
        name_resolution, resolution_need, same_text, version,
    };
    use crate::Refusal;

    const PRINTED: &[u8] = include_bytes!("../../../examples/printed.image");

    #[test]
    fn the_archive_is_linked_and_answers() {
        assert_eq!(check(PRINTED), Ok(()));
        assert_eq!(check(&PRINTED[..11]).map_err(Refusal::number), Err(1));
        assert_eq!(check(&[]).map_err(Refusal::number), Err(1));
    }

    #[test]
    fn the_printed_case_has_four_levels() {
        let mut down = 7;
        let cut = levels(&PRINTED[..145], &mut down);
        assert_eq!((cut.map_err(Refusal::number), down), (Err(1), 7));
        assert_eq!((levels(PRINTED, &mut down), down), (Ok(()), 4));
    }

    /// The number behind `#define LANG_AST_VERSION`.
    fn header_version() -> Option<u32> {
        let header = include_str!("../../../include/lang_ast.h");
        let line = header
            .lines()
            .find_map(|line| line.strip_prefix("#define LANG_AST_VERSION "));
        line?.trim_end_matches('u').parse().ok()
    }

    #[test]
    fn archive_header_and_crate_have_one_version() {
        assert_eq!((version(), header_version()), (VERSION, Some(VERSION)));
    }

    #[test]
    fn a_table_that_is_too_short_is_zero() {
        let mut table = [7];
        let answer = module_indices(PRINTED, &mut table);
        assert_eq!(answer.map_err(Refusal::number), Err(9));
        assert_eq!(table, [0]);
    }

    /// The number of the answer on the printed case, and the steps.
    fn resolve(budget: u32, table: &mut [u8], working: &mut [u8]) -> (u32, u32) {
        let mut steps = 7;
        let answer = name_resolution(PRINTED, budget, table, working, &mut steps);
        (answer.map_or_else(Refusal::number, |()| 0), steps)
    }

    #[test]
    fn the_printed_case_is_resolved() {
        let (mut table, mut working) = ([7; 20], [7; 61]);
        assert_eq!(resolve(9, &mut table, &mut working), (0, 9));
        let (entries, _) = table.as_chunks();
        let entries = entries.iter().map(|&entry| u16::from_be_bytes(entry));
        let lines = entries.enumerate().take(9).filter(|&(_, entry)| entry != 0);
        let tag = |entry| ["none", "def", "builtin", "with"][usize::from(entry >> 14)];
        let line = |(e, entry)| format!("{e} {} {}", tag(entry), entry & 0x3fff);
        let lines: Vec<String> = lines.map(line).collect();
        let printed = ["0 def 0", "1 builtin 15", "3 def 0", "4 def 1", "6 def 0"];
        assert_eq!(lines, printed);
        assert_eq!((&table[18..], working), (&[7, 7][..], [0; 61]));
    }

    #[test]
    fn a_resolution_short_of_budget_or_room_leaves_zeros() {
        // 2 bytes and 4 bytes an expression, and 8 for each of three scopes.
        for (budget, needs, refusal) in [(8, (18, 60), 8), (9, (17, 60), 9), (9, (18, 59), 9)] {
            let (mut table, mut working) = (vec![7; needs.0], vec![7; needs.1]);
            assert_eq!(resolve(budget, &mut table, &mut working), (refusal, 0));
            assert_eq!((table, working), (vec![0; needs.0], vec![0; needs.1]));
        }
    }

    /// The number of the answer on an image, and the counts.
    fn resolving(image: &[u8], budget: u32) -> (u32, ResolutionCounts) {
        let mut counts = FRESH_COUNTS;
        let answer = resolution_need(image, budget, &mut counts);
        (answer.map_or_else(Refusal::number, |()| 0), counts)
    }

    /// The counts before a call.
    const FRESH_COUNTS: ResolutionCounts = ResolutionCounts {
        steps: 7,
        scopes: 8,
    };

    #[test]
    fn the_need_of_the_printed_resolution_is_counted() {
        // The root, the function and the let.
        let counts = ResolutionCounts {
            steps: 9,
            scopes: 3,
        };
        assert_eq!(resolving(PRINTED, 9), (0, counts));
        assert_eq!(resolving(PRINTED, 8), (8, ResolutionCounts::default()));
        assert_eq!(resolving(&PRINTED[..145], 9), (1, FRESH_COUNTS));
    }

    /// The numbers before a call.
    const FRESH: Analysis = Analysis {
        steps: 7,
        then_count: 8,
        else_count: 9,
    };

    /// The printed case's own tables.
    fn own_tables() -> ([u8; 18], [u8; 4]) {
        let (mut resolutions, mut bindings) = ([0; 18], [0; 4]);
        assert_eq!(resolve(9, &mut resolutions, &mut [0; 60]), (0, 9));
        assert_eq!(module_indices(PRINTED, &mut bindings), Ok(()));
        (resolutions, bindings)
    }

    /// The number of the answer on the printed case's own tables, and the numbers.
    fn analyze(condition: u32, budget: u32, lists: [&mut [u8]; 2]) -> (u32, Analysis) {
        let (resolutions, bindings) = own_tables();
        let tables = Tables {
            resolutions: &resolutions,
            bindings: &bindings,
        };
        let ([then, other], mut numbers) = (lists, FRESH);
        let answer = analyze_condition(
            PRINTED,
            tables,
            condition,
            budget,
            then,
            other,
            &mut numbers,
        );
        (answer.map_or_else(Refusal::number, |()| 0), numbers)
    }

    #[test]
    fn the_printed_condition_tells_of_x() {
        let (mut then_list, mut else_list) = ([7; 5], [7; 6]);
        let one_each = Analysis {
            steps: 1,
            then_count: 1,
            else_count: 1,
        };
        let answered = analyze(2, 1, [&mut then_list, &mut else_list]);
        assert_eq!(answered, (0, one_each));
        // Name 0 is null; name 0 is not null, sort 1.
        assert_eq!(then_list, [0, 0, 0, 0, 7]);
        assert_eq!(else_list, [0, 0, 0x40, 0, 7, 7]);
    }

    #[test]
    fn a_condition_short_of_budget_or_room_leaves_zeros() {
        for (budget, rooms, refusal) in [(0, [4, 4], 8), (1, [3, 4], 9), (1, [4, 3], 9)] {
            let [mut then_list, mut else_list] = rooms.map(|room| vec![7; room]);
            let answered = analyze(2, budget, [&mut then_list, &mut else_list]);
            assert_eq!(answered, (refusal, Analysis::default()));
            assert_eq!([then_list, else_list], rooms.map(|room| vec![0; room]));
        }
    }

    #[test]
    fn a_condition_that_is_none_leaves_all_as_it_was() {
        let (mut then_list, mut else_list) = ([7; 4], [7; 4]);
        let answered = analyze(9, 1, [&mut then_list, &mut else_list]);
        assert_eq!(answered, (7, FRESH));
        assert_eq!((then_list, else_list), ([7; 4], [7; 4]));
    }

    #[test]
    fn a_refused_image_leaves_all_as_it_was() {
        let (mut table, mut working, mut steps) = ([7; 18], [7; 60], 7);
        let answer = name_resolution(&PRINTED[..145], 9, &mut table, &mut working, &mut steps);
        assert_eq!(answer.map_err(Refusal::number), Err(1));
        assert_eq!((table, working, steps), ([7; 18], [7; 60], 7));
    }

    /// The numbers before a walk.
    const FRESH_WALK: Walk = Walk {
        steps: 7,
        edge_count: 8,
        narrowing_count: 9,
    };

    /// All that a walk over the printed case's own tables leaves: the answer's number, the numbers, and edges,
    /// narrowings, name expressions and working buffer of these lengths.
    fn walk(image: &[u8], budget: u32, rooms: [usize; 4]) -> (u32, Walk, [Vec<u8>; 4]) {
        let (resolutions, bindings) = own_tables();
        let tables = Tables {
            resolutions: &resolutions,
            bindings: &bindings,
        };
        let (mut lent, mut numbers) = (rooms.map(|room| vec![7; room]), FRESH_WALK);
        let [edges, narrowings, exprs, working] = lent.each_mut().map(Vec::as_mut_slice);
        let buffers = WalkBuffers {
            edges,
            narrowings,
            exprs,
            working,
        };
        let answer = name_dependencies(image, tables, budget, buffers, &mut numbers);
        (answer.map_or_else(Refusal::number, |()| 0), numbers, lent)
    }

    #[test]
    fn the_walk_of_the_printed_case_is_written_in_front() {
        let (answer, numbers, lent) = walk(PRINTED, 10, [5, 9, 5, 6]);
        let one_each = Walk {
            steps: 10,
            edge_count: 1,
            narrowing_count: 1,
        };
        assert_eq!((answer, numbers), (0, one_each));
        // From name 1 to name 0; at name 1 name 0 is null; name 0 has no expression, name 1 has 3.
        assert_eq!(lent[0], [0, 4, 0, 0, 7]);
        assert_eq!(lent[1], [0, 4, 0, 0, 0, 0, 0, 0, 7]);
        assert_eq!(lent[2], [0x3f, 0xff, 0, 3, 7]);
        assert_eq!(lent[3], [0; 6]);
    }

    #[test]
    fn a_walk_short_of_budget_or_room_leaves_zeros() {
        let short = |place: usize| {
            let mut rooms = [4, 8, 4, 4];
            rooms[place] -= 1;
            (10, rooms, 9)
        };
        let cases = [0, 1, 2, 3].map(short);
        for (budget, rooms, refusal) in cases.into_iter().chain([(9, [0; 4], 8), (9, [9; 4], 8)]) {
            let zeros = rooms.map(|room| vec![0; room]);
            let left = walk(PRINTED, budget, rooms);
            assert_eq!(left, (refusal, Walk::default(), zeros));
        }
    }

    #[test]
    fn a_walk_of_a_refused_image_or_over_other_tables_leaves_all_as_it_was() {
        let rooms = [4, 8, 4, 4];
        let untouched = rooms.map(|room| vec![7; room]);
        let left = walk(&PRINTED[..145], 10, rooms);
        assert_eq!(left, (1, FRESH_WALK, untouched.clone()));
        assert_eq!(walk(&missing(), 10, rooms), (7, FRESH_WALK, untouched));
    }

    /// A Missing alone, which has one expression and no name: both tables of the printed case are too long for it.
    fn missing() -> [u8; 20] {
        let mut missing = [0; 20];
        missing[1] = 4;
        missing[13..15].copy_from_slice(&[0x3f, 0xff]);
        assert_eq!(check(&missing), Ok(()));
        missing
    }

    /// The counts before a call.
    const FRESH_WALK_COUNTS: WalkCounts = WalkCounts {
        steps: 7,
        edges: 8,
        narrowings: 9,
        most: 10,
    };

    /// The number of the answer with the printed case's own tables, and the counts.
    fn walking(image: &[u8], budget: u32) -> (u32, WalkCounts) {
        let (resolutions, bindings) = own_tables();
        let tables = Tables {
            resolutions: &resolutions,
            bindings: &bindings,
        };
        let mut counts = FRESH_WALK_COUNTS;
        let answer = dependencies_need(image, tables, budget, &mut counts);
        (answer.map_or_else(Refusal::number, |()| 0), counts)
    }

    #[test]
    fn the_need_of_the_printed_walk_is_counted() {
        let one_each = WalkCounts {
            steps: 10,
            edges: 1,
            narrowings: 1,
            most: 1,
        };
        assert_eq!(walking(PRINTED, 10), (0, one_each));
        assert_eq!(walking(PRINTED, 9), (8, WalkCounts::default()));
        assert_eq!(walking(&PRINTED[..145], 10), (1, FRESH_WALK_COUNTS));
        assert_eq!(walking(&missing(), 10), (7, FRESH_WALK_COUNTS));
    }

    #[test]
    fn the_pairs_are_written_whatever_the_answer() {
        let told = |a: &[u8], b: &[u8]| {
            let mut looked = usize::MAX;
            (same_text(a, b, &mut looked), looked)
        };
        assert_eq!(told(b"null", b"null"), (1, 4));
        assert_eq!(told(b"null", b"nuls"), (0, 1));
        assert_eq!(told(b"null", b"full"), (0, 4));
        assert_eq!(told(b"null", b"nul"), (0, 0));
        assert_eq!(told(b"", b""), (1, 0));
    }
}
